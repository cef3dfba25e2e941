// A link of the package for JavaScript that makes random edits:  node --experimental-websocket player.mjs URL SEED BURSTS
// It prints a line of JSON for each edit, ["made",[NUMBER,CHANGE]], and then ["played",EDITS]. Given the line `settle` it prints ["settled",true] once
// nothing waits; given a version it prints ["reached",{..}], with what the client shows, once the client has that version.
import { createInterface } from 'node:readline';
import { ClientError, Link } from '../../packages/js/src/node.js';
import { newClient } from '../../packages/js/test/standin.mjs';

const [url, seed, bursts] = process.argv.slice(2);
const BURSTS = [1, 1, 1, 2, 5, 12], PAUSE = 40, KINDS = ['page', 'frame', 'shape', 'text'], VALUES = [1, -7, true, 'a\n"é😀', [2, ['b']]];
let state = Number(seed);
const below = (n) => { state = (Math.imul(state, 1103515245) + 12345) & 0x7fffffff; return (state >> 8) % n; };
const any = (list) => list[below(list.length)];
const sleep = (milliseconds) => new Promise((resolve) => { setTimeout(resolve, milliseconds); });
const say = (...words) => process.stdout.write(`${JSON.stringify(words)}\n`);
const text = (bytes) => typeof bytes === 'string' ? bytes : new TextDecoder().decode(bytes);

const client = await newClient(), entries = [];
client.watch((what, message) => {
  if (what === 'took' && text(message).startsWith('["entry",')) entries.push(text(message));
  if (what === 'anew') say('fault', 'begins again as another client');
});
const link = new Link(client, url, { retry: 50, mostRetry: 400, patience: 300000, state: ({ state: now, words }) => { if (['fault', 'another document'].includes(now)) say('fault', `${now}: ${words}`); } });

function edit() {
  const objects = [...client.objects().values()], it = any(objects), holder = any(objects), after = any([null, ...holder.children]), act = below(20), before = client.lastEdit;
  try {
    if (act < 7) client.create(any(KINDS), holder.id, after);
    else if (act < 12) client.set(it.id, any(['x', 'y', 'z']), any(VALUES));
    else if (act < 13) client.clear(it.id, any(['x', 'y', 'z']));
    else if (act < 19) client.move(it.id, holder.id, after);
    else if (it.id !== '0:0' && objects.length > 8) client.delete(it.id);
  } catch (fault) {
    if (!(fault instanceof ClientError)) throw fault;
  }
  if (client.lastEdit !== before) say('made', [client.lastEdit, JSON.parse(text([...client.messages()].at(-1)))[3]]);
}

await link.ready;
for (let k = 0; k < Number(bursts); k += 1) {
  for (let n = any(BURSTS); n > 0; n -= 1) edit();
  await sleep(-PAUSE * Math.log(1 - below(1000) / 1000));
}
say('played', client.lastEdit);
for await (const line of createInterface({ input: process.stdin })) {
  await link.settled();
  if (line === 'settle') { say('settled', true); continue; }
  while (client.version < Number(line)) await sleep(5);
  say('reached', { id: client.id, version: client.version, lastEdit: client.lastEdit, text: client.text(), entries });
}
