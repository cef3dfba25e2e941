#!/usr/bin/env node
// A flow on a live connection, one thing at a time:  live.mjs
import assert from 'node:assert';
import { Flow } from '../src/flow.js';
import { FakeServer } from './fake.mjs';
import { newClient, overWhat } from './standin.mjs';

const text = (bytes) => Buffer.from(bytes).toString();

// A server and a flow over one connection, without delays. What the flow has sent stands in `sent`, and what came of it in `told`.
class Line {
  constructor(server, client, options = {}) { Object.assign(this, { server, client, flow: new Flow(client, options), now: 0, sent: [], told: [], place: null, isMute: false }); }

  static async open(server, saved = null) {
    const line = new Line(server, await newClient(saved));
    line.open();
    return line;
  }

  open() { Object.assign(this, { place: null, heard: 0, showsAs: null }); this.flow.open(this.now); this.turn(); }
  hear(messages) { for (const message of messages) this.flow.hear(Buffer.from(message), this.now); }

  // Sends what there is, and hears all answers, and then what is told unasked; until nothing more is to be sent now.
  turn() {
    for (let k = 0; k < 50; k += 1) {
      const out = this.flow.outgoing(this.now).map(text);
      this.sent.push(...out);
      for (const message of out) this.hear(this.server.answer(message, this));
      this.told.push(...this.flow.events.splice(0));
      if (!this.isMute) for (let more; (more = this.server.told(this)).length;) this.hear(more);
      if (!out.length) return this;
    }
    throw new Error('it does not end');
  }

  // Lets so many milliseconds go by, in the steps that the flow wants.
  pass(milliseconds) {
    for (const until = this.now + milliseconds; this.now < until;) {
      const due = this.flow.due(this.now);
      this.now = Math.min(until, due === null ? until : this.now + Math.max(due, 0.1));
      this.turn();
    }
    return this;
  }

  asks() { return this.sent.splice(0).filter((message) => message.startsWith('["ask"')).length; }
  states() { return this.told.filter(({ type }) => type === 'state').map(({ state }) => state); }
}

const live = () => new FakeServer({ isLive: true, dice: () => 1 });
const edit = (id, number, change) => JSON.stringify(['edit', id, number, change]);
const set = (value) => ['set', [0, 0], 'a', value];

// It asks until it has heard all, then it is told; nothing is asked any more, until nothing has come for 20 seconds.
async function goesLive() {
  const server = live(), one = await Line.open(server), two = await Line.open(server);
  one.pass(500);
  assert(one.flow.isLive && one.flow.isSettled);
  one.asks();
  for (let k = 0; k < 30; k += 1) {
    two.client.set('0:0', 'a', k);
    two.turn();
    one.turn();
    assert.equal(one.client.object('0:0').properties.a, k);
    one.pass(100);
  }
  assert.equal(one.asks(), 0);
  one.pass(18000);
  assert.equal(one.asks(), 0);
  one.pass(4000);
  assert.equal(one.asks(), 1, 'a connection on which nothing comes is tried');
}

// The end of the last edit settles it, and is told once.
async function settles() {
  const one = await Line.open(live());
  one.pass(500);
  one.told.length = 0;
  one.client.set('0:0', 'a', 1);
  const [message] = one.flow.outgoing(one.now).map(text);
  const [idle] = one.server.answer(message, one), [entry] = one.server.told(one);
  assert(!one.flow.isSettled);
  one.hear([idle]);
  assert(!one.flow.isSettled && one.flow.unsent === 0, 'its entry is awaited');
  one.hear([entry]);
  assert(one.flow.isSettled);
  assert.deepEqual(one.flow.events.splice(0).map(({ type }) => type), ['took', 'caught up']);
}

// An older server has no such word: asks go on.
async function olderServer() {
  const server = new FakeServer({ dice: () => 1 }), one = await Line.open(server), two = await Line.open(server);
  one.pass(500);
  assert.equal(one.sent.filter((message) => message.startsWith('["live"')).length, 1);
  one.asks();
  two.client.set('0:0', 'a', 1);
  two.turn();
  one.pass(450);
  assert.equal(one.client.object('0:0').properties.a, 1);
  one.pass(3000);
  assert(one.asks() >= 6 && one.flow.isSettled);
}

// What comes unasked leaves something out: it is asked for, and then the rest is told again.
async function gap() {
  const server = live(), one = await Line.open(server);
  one.pass(500);
  server.answer('["join",2]');
  for (let k = 1; k < 4; k += 1) server.answer(edit(2, k, set(k)));
  one.hear(server.told(one).slice(1));
  assert(!one.flow.isLive && !one.flow.isSettled);
  one.turn();
  assert.deepEqual([one.flow.isLive, one.flow.isSettled, one.client.version], [true, true, server.version]);
}

// A server below the client's version has another history: what waits is made again, in another client.
async function anotherHistory() {
  const server = live(), one = await Line.open(server);
  one.client.set('0:0', 'a', 1);
  one.pass(500);
  for (let k = 2; k < 9; k += 1) { one.client.set('0:0', 'a', k); one.turn(); }
  one.flow.lost();
  server.back(3);
  one.client.set('0:0', 'b', 1);
  const edits = server.edits;
  server.done.set(1, 8);                             // that edit would be judged as number 9, as it were in the other history
  one.open();
  one.pass(1000);
  assert(one.states().includes('stranger'));
  assert.deepEqual([one.client.id, server.edits - edits <= 2, one.client.text(), one.flow.isLive], [2, true, server.text(), true]);
  assert.equal(one.client.object('0:0').properties.b, 1);
}

// An edit's number is answered, and its entry stands in another history: nothing brings it, and three asks say so.
async function missing() {
  const server = live(), one = await Line.open(server);
  one.pass(500);
  server.answer('["join",2]');
  one.turn();
  server.done.set(1, 1);                             // of a history in which client 1 has an edit at a version that is passed
  one.client.set('0:0', 'a', 1);
  one.turn();
  one.asks();
  one.pass(690);
  assert.equal(one.asks(), 0);
  one.pass(1400);
  assert.deepEqual([one.asks(), one.states().includes('stranger')], [2, false]);
  one.pass(2000);
  assert(one.states().includes('stranger'));
  assert.deepEqual([one.client.id, one.flow.isSettled, one.client.text()], [3, true, server.text()]);
}

// Two programs with one id. The one hears of the other one's edit by its entry, or by a copy that has more edits than it has sent.
async function twins(hides) {
  const server = live(), one = await Line.open(server);
  one.pass(500);
  const other = await Line.open(server, one.client.save());
  other.pass(500);
  one.isMute = true;
  other.client.set('0:0', 'b', 2);
  other.turn();
  if (hides) server.checkpoint(); else one.client.set('0:0', 'a', 1);
  one.turn();
  one.isMute = false;
  one.turn().pass(3000);
  assert.deepEqual([one.states().includes('replaced'), one.client.id, other.client.id, one.flow.isLive], [true, 2, 1, true]);
  other.turn();
  const { a, b } = one.client.object('0:0').properties;
  assert.deepEqual([a, b, one.client.text(), other.client.text()], [hides ? undefined : 1, 2, server.text(), server.text()]);
}

// A copy that comes unasked counts the edits of the id that was given up, until the new one is told.
async function copyOfTheOldId() {
  const server = live(), one = await Line.open(server);
  one.pass(500);
  for (let k = 1; k < 4; k += 1) { one.client.set('0:0', 'a', k); one.turn(); }
  server.answer(edit(1, 4, set('a twin')));
  one.hear(server.told(one));
  const old = { place: { id: 1, version: server.version } };
  for (let k = 0; k < 50 && !one.told.some(({ type }) => type === 'anew'); k += 1) {
    for (const message of one.flow.outgoing(one.now).map(text)) one.hear(server.answer(message, one));
    one.told.push(...one.flow.events.splice(0));
  }
  one.client.set('0:0', 'b', 1);
  server.answer('["join",2]');
  server.checkpoint();
  const version = one.client.version;
  one.hear(server.told(old));                        // it was under way when the new id was not told yet
  assert.deepEqual([one.client.version, one.flow.anew], [version, null]);
  one.pass(500);
  assert.deepEqual([one.client.id, one.flow.isLive, one.flow.isSettled, one.client.text()], [2, true, true, server.text()]);
}

// An edit that is too large is replaced under its number, and the document is heard again: as entries, or as a copy that counts the client's edits.
async function replaced(hides) {
  const server = Object.assign(live(), { largest: 220 }), one = await Line.open(server);
  one.pass(500);
  one.client.set('0:0', 'a', 1);
  one.turn();
  if (hides) server.checkpoint();
  for (const [name, value] of [['a', 'x'.repeat(220)], ['b', 2], ['c', 3]]) one.client.set('0:0', name, value);
  one.turn().pass(1000);
  assert.deepEqual(one.told.filter(({ type }) => type === 'refused').map(({ number, name }) => [number, name]), [[2, 'too large']]);
  assert.deepEqual([one.client.id, one.client.acknowledged, one.flow.isLive, one.flow.isSettled, one.client.text()], [1, 4, true, true, server.text()]);
  assert.deepEqual({ ...one.client.object('0:0').properties }, { a: 1, b: 2, c: 3 });
}

// A thousand values in a second, and edits between them: at most 30 a second are sent, the last one too, and each answer is counted. Those of the
// other one are heard, and nothing of the own.
async function shows() {
  const server = live(), one = new Line(server, await newClient());
  one.flow.show('"early"');
  one.open();
  const two = await Line.open(server);
  assert(one.sent.findIndex((message) => message.startsWith('["here"')) > one.sent.findIndex((message) => message.startsWith('["live"')), 'once the connection is live');
  for (const it of [one, two]) it.pass(500);
  assert.deepEqual(server.shown.splice(0), [['here', 1, 'early']]);
  one.told.length = two.told.length = 0;
  two.heard = one.heard = 0;
  one.asks();
  for (let k = 0; k < 1000; k += 1) {
    one.flow.show(String(k));
    if (k % 100 === 0) one.client.set('0:0', 'a', k);
    one.pass(1);
    two.turn();
  }
  assert(one.flow.due(one.now) <= 34, 'the last one is due');
  one.pass(100);
  two.turn().turn();
  const values = server.shown.map(([, , value]) => value), heard = two.told.filter(({ type }) => type === 'here');
  assert(values.length >= 25 && values.length <= 31 && values.at(-1) === 999, `${values.length} are sent, the last one ${values.at(-1)}`);
  assert.deepEqual(heard.map(({ client, value }) => [client, value]), values.map((value) => [1, value]));
  assert.deepEqual([one.told.filter(({ type }) => type === 'here'), one.flow.fifo, one.flow.showing, one.flow.isSettled, one.asks()], [[], [], 0, true, 0]);
  one.flow.lost();
  one.open();
  one.pass(500);
  assert.deepEqual(server.shown.slice(values.length), [['here', 1, 999]], 'it is shown again on the next connection');
}

// A server that goes live and can't show: it is asked once a connection, and nothing else changes. One that lies ends the flow.
async function showsNothing() {
  const server = new FakeServer({ isLive: true, hasHere: false, dice: () => 1 }), one = await Line.open(server);
  one.pass(500);
  for (let k = 0; k < 50; k += 1) { one.flow.show(String(k)); one.pass(40); }
  assert.deepEqual([one.sent.filter((message) => message.startsWith('["here"')).length, one.flow.isLive, one.flow.isSettled, one.flow.state], [1, true, true, 'online']);
  const old = await Line.open(new FakeServer({ dice: () => 1 }));
  old.pass(500);
  for (let k = 0; k < 50; k += 1) { old.flow.show(String(k)); old.pass(40); }
  assert(!old.sent.some((message) => message.startsWith('["here"')) && old.flow.isSettled, 'a connection that is not live has no presence');
  for (const lie of ['["here"]', '["here",1]', '["here","1",1]', '["here",1,2,3]', '["hear",1,2]', '["here",1,']) {
    const two = await Line.open(live());
    two.pass(500);
    two.hear([lie]);
    assert.equal(two.flow.state, 'fault', lie);
  }
}

// What can't be shown now is shown later. A value that the server can't take hinders no later one.
async function showsLater() {
  const server = live(), one = await Line.open(server), answer = server.answer.bind(server), noes = ['["no",7]', null, '["no",9]', '["no",8]', '["no",1]'];
  server.answer = (message, line) => { const no = message.startsWith('["here"') ? noes.shift() : null; return no ? [no] : answer(message, line); };
  one.pass(500);
  one.flow.show('1');
  one.pass(900);
  assert.deepEqual(server.shown, []);
  one.pass(200);
  assert.deepEqual(server.shown.splice(0), [['here', 1, 1]]);
  for (let k = 2; k < 6; k += 1) { one.flow.show(String(k)); one.pass(50); }
  assert.deepEqual([server.shown, one.flow.state, one.flow.isLive], [[['here', 1, 5]], 'online', true]);
}

// Answers that don't come hold up the values, and each is counted when it comes, also once the client has become another one.
async function showsSlowly() {
  const server = live(), one = await Line.open(server), under = () => one.flow.fifo.filter(({ what }) => what === 'here').length;
  one.pass(500);
  for (let k = 0; k < 40; k += 1) { one.now += 40; one.flow.show(String(k)); one.flow.outgoing(one.now); }
  assert.deepEqual([under(), one.flow.due(one.now) > 100], [16, true]);
  one.flow.beginAnew('stranger', { scan: true });
  for (let k = 0; k < 16; k += 1) one.hear(['["idle"]']);
  assert.equal(one.flow.showing, 0);
  one.pass(1000);
  assert.deepEqual([one.flow.isLive, one.client.id, server.shown.at(-1)], [true, 2, ['here', 2, 39]]);
  one.told.length = 0;
  one.hear(['["here",2,1]', '["here",3,null]', '["here",3,{"a":[]}]']);
  assert.deepEqual(one.flow.events.splice(0).map(({ client, value }) => [client, value]), [[3, null], [3, { a: [] }]]);
}

// An older connection of a client ends later, and the server takes it for gone: it is shown again. Who shows nothing stays gone.
async function showsAgain() {
  const server = live(), one = await Line.open(server), old = { place: { id: 1, version: 0 } };
  one.pass(500);
  server.answer('["here",1,"old"]', old);
  one.flow.show('"new"');
  one.pass(50);
  server.ended(old);
  one.turn().pass(50);
  assert.deepEqual(server.shown.splice(0), [['here', 1, 'old'], ['here', 1, 'new'], ['here', 1, null], ['here', 1, 'new']]);
  one.heard = 0;
  server.answer('["here",1,"old"]', old);
  one.flow.show('null');
  one.pass(50);
  server.ended(old);
  one.turn().pass(500);
  assert.deepEqual(server.shown, [['here', 1, 'old'], ['here', 1, null], ['here', 1, null]]);
}

await goesLive();
await settles();
await olderServer();
await gap();
await anotherHistory();
await missing();
await twins(false);
await twins(true);
await copyOfTheOldId();
await replaced(false);
await replaced(true);
await shows();
await showsNothing();
await showsLater();
await showsSlowly();
await showsAgain();
console.log(`16 things on a live connection, ${overWhat()}`);
