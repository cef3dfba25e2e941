// What the programs of this folder share: clients of both kinds, a server behind the proxy, and figures of a process.
import { execFileSync, spawn } from 'node:child_process';
import { readFileSync } from 'node:fs';
import { createRequire } from 'node:module';
import { fileURLToPath } from 'node:url';
import { Client, Link, ROOT } from '../../packages/js/src/node.js';

export { ROOT };

// Debian's packages aren't found from here by their names.
const debian = createRequire('/usr/share/nodejs/x.js');
const WebSocket = debian('/usr/share/nodejs/ws');

const TICKS_A_SECOND = 100;

export const path = (name) => fileURLToPath(new URL(name, import.meta.url));
export const sleep = (milliseconds) => new Promise((resolve) => setTimeout(resolve, milliseconds));

// The time in tenths of a millisecond, the same in all processes.
export const stamp = () => Math.round((performance.timeOrigin + performance.now()) * 10);

// Waits until the condition holds, and returns its value, or false after so many milliseconds.
export async function until(condition, milliseconds = 60000, step = 5) {
  for (const begun = performance.now(); performance.now() - begun < milliseconds; await sleep(step)) {
    const value = condition();
    if (value) return value;
  }
  return false;
}

// ---- clients ----

export const linkOf = (client, url, options = {}) => new Link(client, url, { WebSocket, ...options });

// A client of Lugcurrant and its link. `seen` is called after each change.
export async function lugClient(url, options = {}) {
  const made = { client: await Client.load(), seen: () => {} };
  made.link = linkOf(made.client, url, { changed: () => made.seen(), ...options });
  return made;
}

// A document of Yjs and its provider.
export function yjsClient(url, room) {
  const Y = debian('/usr/share/nodejs/yjs'), { WebsocketProvider } = debian('/usr/share/nodejs/y-websocket'), doc = new Y.Doc();
  return { Y, doc, provider: new WebsocketProvider(url, room, doc, { WebSocketPolyfill: WebSocket, disableBc: true }) };
}

// ---- programs ----

const started = new Set();
process.on('exit', () => { for (const child of started) child.kill(); });

export function start(command, words, environment = {}) {
  const child = spawn(command, words, { env: { ...process.env, ...environment }, stdio: ['ignore', 'ignore', 'ignore'] });
  child.once('error', (fault) => { console.log(`FAILED: cannot start ${command}: ${fault.code}`); process.exit(1); });
  started.add(child);
  return child;
}

export const lugcurrant = process.env.LUGCURRANT ?? 'lugcurrant';

// Ends the program with status 1 after so many seconds.
export function endAfter(seconds) {
  setTimeout(() => { console.log(`FAILED: it has not ended after ${seconds} seconds`); process.exit(1); }, seconds * 1000).unref();
}

export const get = async (port, place) => (await (await fetch(`http://127.0.0.1:${port}${place}`)).text()).trim();

// A server at the port PORT (29100), and the proxy before it, which uses the two ports after that. `run` starts a server of this port.
export async function behindProxy(run, rtt) {
  const port = Number(process.env.PORT ?? 29100), control = port + 2;
  const server = run(port);
  start('node', [path('proxy.mjs'), String(port + 1), String(port), String(rtt), String(control)]);
  for (let tries = 0; ; tries += 1) {
    try {
      await get(port, '/');
      await get(control, '/');
      break;
    } catch (fault) {
      if (tries >= 300) throw fault;
      await sleep(100);
    }
  }
  return {
    server,
    port,
    direct: `ws://127.0.0.1:${port}/`,
    url: `ws://127.0.0.1:${port + 1}/`,
    stats: async () => JSON.parse(await get(control, '/')),
    reset: () => get(control, '/reset'),
    setRtt: (milliseconds) => get(control, `/rtt?${milliseconds}`),
  };
}

// ---- figures ----

// The processor's seconds that a process has used.
export function cpuSeconds(pid) {
  const fields = readFileSync(`/proc/${pid}/stat`, 'utf8').split(') ')[1].split(' ');
  return (Number(fields[11]) + Number(fields[12])) / TICKS_A_SECOND;
}

// The value below which this part of the list lies.
export function percentile(list, part) {
  const sorted = [...list].sort((a, b) => a - b);
  return sorted.length ? sorted[Math.min(sorted.length - 1, Math.floor(sorted.length * part))] : NaN;
}

// Puts a result into the file that LUGCURRANT_RESULTS names, for the figures of pages; nothing without that variable.
export function record(name, figures) {
  execFileSync(path('../../tools/figures'), ['--record', name, ...Object.entries(figures).map(([key, value]) => `${key}=${value}`)]);
}

// A number of the text of /metrics.
export const metric = (text, name) => Number(new RegExp(`^${name} (\\d+)`, 'm').exec(text)?.[1]);
