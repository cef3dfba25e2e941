#!/usr/bin/env node
// Why no edit gets another number:  renumbered.mjs
//
// Edits 2, 3 and 4 are under way on a connection that is lost, and the server reads its rest late. 2 is too large. A client that takes 2 out and moves
// the later ones down sends the old 3 as 2 and the old 4 as 3: then the server reads the lost connection's 3, and judges it in place of the new one.
// The client's last edit is answered as a repeat, and stands nowhere. If 2 gives its number to an edit that changes nothing, all others are judged.
import assert from 'node:assert';
import { Flow } from '../src/flow.js';
import { FakeServer, Plain } from './fake.mjs';
import { newClient, overWhat } from './standin.mjs';

const LARGE = 'x'.repeat(400), NOTHING = ['clear', [0, 0], '_'];
const EDITS = [['create', [1, 1], 'page', [[0, 0], 'O']], ['set', [1, 1], 'a', LARGE], ['set', [1, 1], 'b', 3], ['set', [1, 1], 'c', 4]];

// A server to which client 1 has joined, and which has its first edit; the texts of edits by their numbers; and what they come to in the end.
function begun() {
  const server = new FakeServer({ largest: 220, isLive: true });
  server.answer('["join",2]');
  server.answer(edit(1, EDITS[0]));
  return server;
}
const edit = (number, change) => JSON.stringify(['edit', 1, number, change]);
const shown = (server) => Object.fromEntries(server.doc.get('1:1').props);

// What a plain client comes to that answers the No to edit 2 so, while the server reads 3 of the lost connection behind its new 2.
function played(waiting) {
  const server = begun(), client = new Plain(), late = edit(3, EDITS[2]);
  for (const message of server.answer('["ask",1,0]')) { if (!client.id) client.receive(['welcome', 1]); client.receive(JSON.parse(message)); if (client.version === 1) client.edit(EDITS[0]); }
  assert.deepEqual(server.answer(edit(2, EDITS[1])), ['["no",8]']);
  waiting.forEach((change) => client.edit(change));
  const [first, ...others] = client.waiting.map((change, k) => edit(2 + k, change)), answers = [server.answer(first)];
  server.answer(late);
  for (const message of others) answers.push(server.answer(message));
  assert(answers.flat().every((answer) => answer === '["idle"]'), 'each edit is answered as judged');
  for (const message of server.answer(`["ask",1,${client.version}]`)) client.receive(JSON.parse(message));
  return { server, client };
}

const renumbered = played([EDITS[2], EDITS[3]]);
assert.deepEqual(shown(renumbered.server), { b: 3 }, 'edit 4 is lost, though it was answered');
assert.equal(renumbered.client.waiting.length, 1, 'its client waits for ever');
const replaced = played([NOTHING, EDITS[2], EDITS[3]]);
assert.deepEqual(shown(replaced.server), { b: 3, c: 4 });
assert.deepEqual([replaced.client.waiting.length, replaced.client.text()], [0, replaced.server.text()]);

// The flow of this package does the same.
async function flow() {
  const server = new FakeServer({ largest: 220, isLive: true }), client = await newClient(), it = new Flow(client), told = [];
  let now = 0, line = {};
  const turn = (late = () => {}) => {
    for (let k = 0; k < 40; k += 1) {
      const sent = it.outgoing(now).map((bytes) => Buffer.from(bytes).toString());
      for (const message of sent) {
        const answers = server.answer(message, line);
        late(message);
        for (const answer of [...answers, ...server.told(line)]) it.hear(Buffer.from(answer), now);
      }
      told.push(...it.events.splice(0));
      now += 10;
    }
  };
  it.open(now);
  turn();
  const page = client.createLast('page', '0:0');
  turn();
  for (const [name, value] of [['a', LARGE], ['b', 3], ['c', 4]]) client.set(page, name, value);
  const lost = it.outgoing(now).map((bytes) => Buffer.from(bytes).toString());
  it.lost();
  line = {};
  it.open(now);
  let rest = lost;
  turn((message) => { if (message.startsWith('["edit",1,2,["clear"')) for (const old of rest.splice(0)) server.answer(old); });
  assert.deepEqual([shown(server), client.text(), it.isSettled, client.id], [{ b: 3, c: 4 }, server.text(), true, 1]);
  const [{ number, name, change }] = told.filter(({ type }) => type === 'refused');
  assert.deepEqual([number, name, JSON.parse(change)], [2, 'too large', EDITS[1]]);
  assert(!told.some(({ type }) => type === 'anew'));
}
await flow();
console.log(`an edit is lost by other numbers, and none without, ${overWhat()}`);
