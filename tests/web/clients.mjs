#!/usr/bin/env node
// Six clients of the WebAssembly module in one process: random edits, times away, the server killed three times. At the end each must show
// what the folder holds:
//     node --experimental-websocket clients.mjs LUGCURRANT [EDITS [SEED]] [--break]
// With --break one client hears other values than the server told, so that the comparison has to fail.
import { readFileSync } from 'node:fs';
import { Client, ClientError, Link, ROOT, compile } from '../../packages/js/src/node.js';
import { Server, endAfter } from './server.mjs';

const CLIENTS = 6, KILLS = 3;
const isBroken = process.argv.includes('--break');
const [program, edits = '2400', seed = '1'] = process.argv.slice(2).filter((word) => !word.startsWith('--'));
endAfter(300);

let state = Number(seed);
const below = (n) => { state = (Math.imul(state, 1103515245) + 12345) & 0x7fffffff; return (state >> 8) % n; };
const any = (list) => list[below(list.length)];
const sleep = (milliseconds) => new Promise((resolve) => setTimeout(resolve, milliseconds));
const count = (counts, name) => { counts[name] = (counts[name] ?? 0) + 1; };

// Hears values that nobody set, in what others did and in copies.
function breakClient(client) {
  const receive = client.receive.bind(client);
  client.receive = (message) => {
    const text = new TextDecoder().decode(message);
    return receive(text.match(/^\["entry",\d+,\[(\d+),/)?.[1] === String(client.id) ? text : text.replace(/"x",\d+(?=\])/g, '"x",-1'));
  };
}

const server = await Server.start(program);
const module = await compile(readFileSync(new URL('../../packages/js/canvas.wasm', import.meta.url)));
const refusals = { here: {}, there: {} };
const clients = [];
for (let k = 0; k < CLIENTS; k++) {
  const client = await Client.load(module);
  if (isBroken && k === 0) breakClient(client);
  clients.push({ client, link: new Link(client, server.url, { refused: ({ name }) => count(refusals.there, name), mostRetry: 500 }) });
}
while (clients.some(({ client }) => !client.id)) await sleep(20);

// One edit of some client, which may be one that no rule allows.
function edit({ client }) {
  const objects = [...client.objects().values()], id = any(objects).id, holder = any(objects), after = holder.children.length && below(2) ? any(holder.children) : null;
  try {
    [() => client.create(any(['page', 'frame', 'shape', 'text']), holder.id, after), () => client.create(holder.kind === 'document' ? 'page' : 'frame', holder.id, after),
      () => client.set(id, 'x', below(500)), () => client.set(id, 'name', `n${below(99)}`), () => client.move(id, holder.id, after), () => client.move(id, holder.id, after),
      () => client.clear(id, 'x'), () => below(3) ? client.delete(id) : client.set(id, 'y', BigInt(below(1 << 20)) << 40n)][below(8)]();
    count(made, 'edits');
  } catch (fault) {
    if (!(fault instanceof ClientError)) throw fault;
    count(refusals.here, fault.code);
  }
}

const made = { edits: 0, away: 0, kills: 0 };
for (let k = 1; k <= Number(edits); k++) {
  const one = any(clients);
  edit(one);
  if (below(25) === 0) { one.link.offline = !one.link.offline; count(made, 'away'); }
  if (below(10) === 0) await sleep(below(20));
  if (k % Math.ceil(Number(edits) / (KILLS + 1)) === 0 && made.kills < KILLS) { await server.restart(); count(made, 'kills'); }
}
for (const { link } of clients) link.offline = false;

// An edit that the server has to refuse: what it is to stand in is deleted while its client is away.
async function conflict(one, other) {
  const page = one.client.create('page', ROOT);
  while (!other.client.objects().has(page)) await sleep(20);
  one.link.offline = true;
  one.client.create('frame', page);
  other.client.delete(page);
  while (other.client.waiting) await sleep(20);
  one.link.offline = false;
}
await conflict(clients[1], clients[2]);

// Each sets a value on a page of its own, so that whoever hears other values shows them in the end.
for (const [k, { client }] of clients.entries()) client.set(client.create('page', ROOT), 'x', 1000 + k);

let shown = server.show();
const isSettled = () => clients.every(({ client }) => client.version === shown.version && client.waiting === 0);
for (let k = 0; k < 2400 && !isSettled(); k++) { await sleep(50); if (k % 10 === 0 || isSettled()) shown = server.show(); }
const equal = clients.filter(({ client }) => client.version === shown.version && client.waiting === 0 && client.text() === shown.tree).length;
for (const { link } of clients) link.close();
await server.end();
console.log(`${made.edits} edits, ${made.away} times away or back, ${made.kills} kills; refused here ${JSON.stringify(refusals.here)}, there ${JSON.stringify(refusals.there)}`);
console.log(`version ${shown.version}, ${clients[0].client.objects().size} objects: ${equal} of ${CLIENTS} clients show what the folder holds`);
process.exit(equal === CLIENTS && made.kills === KILLS && Object.keys(refusals.there).length ? 0 : 1);
