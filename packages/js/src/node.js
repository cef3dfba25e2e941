// The package in node: the module is the file beside the package, a WebSocket that of node or of the package `ws`, and a client is kept in a file.
import { readFile } from 'node:fs/promises';
import { closeSync, existsSync, fsyncSync, mkdirSync, openSync, readFileSync, renameSync, unlinkSync, writeSync } from 'node:fs';
import { createRequire } from 'node:module';
import { dirname } from 'node:path';
import { Client } from './client.js';
import { Link } from './link.js';

export * from './index.js';

const MODULE = new URL('../canvas.wasm', import.meta.url);
let compiled = null;
Client.defaultModule = () => {
  compiled ??= readFile(MODULE).then((bytes) => WebAssembly.compile(bytes), () => {
    throw new Error(`the module canvas.wasm is not in the package (${MODULE.pathname}): packages/wasm/build makes it, and packages/js/build puts it there`);
  }).catch((fault) => {
    compiled = null;                                   // the next call tries again
    throw fault;
  });
  return compiled;
};

Link.findWebSocket = async () => {
  if (globalThis.WebSocket) return globalThis.WebSocket;
  try { return await findWs(); } catch {
    throw new Error('node has no WebSocket here: install the package `ws`, or pass `{ WebSocket }` to Link, or start node with --experimental-websocket');
  }
};

// The class of the package `ws`. `import` finds what is installed beside the program; only `require` also looks into the folders of NODE_PATH and
// those that are built into node, for packages of the system.
async function findWs() {
  try { return (await import('ws')).WebSocket; } catch { return createRequire(import.meta.url)('ws'); }
}

// A shelf in a file. Beside it stands the file `.lock` with the number of the process that has it; one of a process that has ended is no lock.
export function shelfOfFile(path) {
  mkdirSync(dirname(path), { recursive: true });
  const lock = `${path}.lock`;
  for (let tries = 0; ; tries += 1) {
    try { const at = openSync(lock, 'wx'); writeSync(at, String(process.pid)); closeSync(at); break; } catch (fault) {
      if (fault.code !== 'EEXIST') throw fault;
      const owner = Number(readFileSync(lock, 'utf8'));
      if (tries > 3 || owner === process.pid || isRunning(owner)) throw new Error(`${path} is kept by the process ${owner} already: two programs can't go on as one client`);
      unlinkSync(lock);
    }
  }
  let file = null;
  const write = (parts) => {
    const bytes = Buffer.concat(parts.flatMap((part) => { const head = Buffer.alloc(4); head.writeUInt32LE(part.length); return [head, part]; }));
    let at = 0;
    while (at < bytes.length) at += writeSync(file, bytes, at);
    fsyncSync(file);
  };
  const release = () => { if (file !== null) closeSync(file); file = null; try { unlinkSync(lock); } catch { /* it is gone */ } };
  return {
    async read() {
      if (!existsSync(path)) return { all: null, journal: [] };
      const bytes = readFileSync(path), parts = [];
      for (let at = 0; at + 4 <= bytes.length;) {
        const length = bytes.readUInt32LE(at);
        if (at + 4 + length > bytes.length) break;                 // cut by a crash: it was never sent
        parts.push(bytes.subarray(at + 4, at + 4 + length));
        at += 4 + length;
      }
      const [all = bytes.length ? bytes : null, ...journal] = parts;          // no crash cuts the whole client: it is no client then
      return { all, journal };
    },
    async put(bytes) {
      if (file !== null) closeSync(file);
      file = openSync(`${path}.new`, 'w', 0o600);
      write([bytes]);
      renameSync(`${path}.new`, path);
      const folder = openSync(dirname(path), 'r');
      fsyncSync(folder);
      closeSync(folder);
    },
    async add(parts) { write(parts); },
    async end() { release(); try { unlinkSync(path); } catch { /* it is gone */ } },
    async close() { release(); },
  };
}

function isRunning(pid) {
  if (!pid) return false;
  try { process.kill(pid, 0); return true; } catch (fault) { return fault.code === 'EPERM'; }
}
