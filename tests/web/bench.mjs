#!/usr/bin/env node
// How fast the client of the WebAssembly module is, in node and, where a server's program is given, in Chromium:
//     node --experimental-websocket bench.mjs [OBJECTS [LUGCURRANT]]
// Seconds are the processor's in node, so that other programs beside it count little, and the clock's in Chromium.
import { execFileSync } from 'node:child_process';
import { readFileSync } from 'node:fs';
import { fileURLToPath } from 'node:url';
import * as library from '../../packages/js/src/node.js';
import { Browser, until } from './devtools.mjs';
import { Server, endAfter } from './server.mjs';

// Stands alone, as it is sent to the browser as text. Answers lines.
async function bench({ Client, compile }, source, n) {
  const used = () => { const { user, system } = process.cpuUsage(); return (user + system) / 1000; };
  const said = [], now = typeof process === 'undefined' ? () => performance.now() : used, bytes = (text) => new TextEncoder().encode(text);
  let begun = now();
  const module = await compile(source), compiled = now() - begun;
  begun = now();
  const client = await Client.load(module);
  said.push(`compiled in ${compiled.toFixed(1)} ms, a client made in ${(now() - begun).toFixed(1)} ms`);
  const messages = (count, entry) => Array.from({ length: count }, (_, k) => bytes(JSON.stringify(['entry', version += 1, entry(k)])));
  let version = 0, number = 1;
  const part = (name, list, act) => {
    const start = now();
    list.forEach(act);
    const seconds = (now() - start) / 1000;
    said.push(`${name}: ${Math.round(list.length / seconds)} a second (${list.length})`);
  };
  const position = (k) => [2, 1, 0].map((power) => String.fromCharCode(33 + Math.floor((k + 1) / 93 ** power) % 93)).join('') + '!';
  const take = (message) => { if (client.receive(message).what !== 'took') throw new Error('not taken'); };
  client.receive('["welcome",1]');
  messages(2, (k) => [0, 0, 'join', ['joined', k + 1]]).forEach(take);
  messages(1, () => [2, 1, ['create', [2, 1], 'page', [[0, 0], 'O']], ['created', [[0, 0], 'O']]]).forEach(take);
  part('receive a creation', messages(n, (k) => [2, number += 1, ['create', [2, k + 2], 'shape', [[2, 1], position(k)]], ['created', [[2, 1], position(k)]]]), take);
  const names = ['x', 'y', 'w', 'h', 'fill', 'name'];
  part('receive a first set', messages(6 * n, (k) => [2, number += 1, ['set', [2, k % n + 2], names[Math.floor(k / n)], k], ['wasset']]), take);
  part('receive a set again', messages(n, (k) => [2, number += 1, ['set', [2, k % n + 2], 'x', k], ['wasset']]), take);
  begun = now();
  const text = client.text();
  said.push(`the tree's text: ${text.length} characters in ${(now() - begun).toFixed(0)} ms`);
  begun = now();
  const { put } = client.changed();
  said.push(`read into objects: ${put.length} in ${(now() - begun).toFixed(0)} ms`);
  const ks = Array.from({ length: n }, (_, k) => k);
  part('edit (a set)', ks, (k) => client.set(`2:${k + 2}`, 'x', k));
  part('message of an edit', ks, (k) => client.editMessage(k + 1));
  part('receive an entry of its own', messages(n, (k) => [1, k + 1, ['set', [2, k + 2], 'x', k], ['wasset']]), take);
  if (client.waiting || client.version !== version) throw new Error('something was lost');
  said.push(`memory of the module: ${(client.memory / 1e6).toFixed(1)} MB, in use ${(client.memoryInUse / 1e6).toFixed(1)} MB`);
  return said;
}

const [objects = '10000', program] = process.argv.slice(2);
endAfter(300);
const page = fileURLToPath(new URL('../../examples/whiteboard/', import.meta.url));
console.log(`node ${process.version}`);
for (const line of await bench(library, readFileSync(new URL('../../packages/js/canvas.wasm', import.meta.url)), Number(objects))) console.log(`  ${line}`);
if (program) {
  execFileSync(`${page}build`, { stdio: 'ignore' });
  const server = await Server.start(program, { page }), browser = await Browser.start();
  try {
    const window = await browser.open(`http://127.0.0.1:${server.port}/`);
    await until(() => window.js("window.lugcurrant?.state().state === 'online'"));
    console.log(await window.js('navigator.userAgent.match(/Chrom\\w*\\/\\d+/)[0]'));
    for (const line of await window.js(`(async () => (${bench})(await import('/lugcurrant.js'), await (await fetch('/canvas.wasm')).arrayBuffer(), ${Number(objects)}))()`)) console.log(`  ${line}`);
  } finally {
    await browser.end();
    await server.end();
  }
}
process.exit(0);
