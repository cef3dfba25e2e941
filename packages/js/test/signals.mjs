#!/usr/bin/env node
// Signals of a client: which events come, when, and what stays the same object:  node --test signals.mjs
import assert from 'node:assert';
import { test } from 'node:test';
import { Client, ROOT } from '../src/node.js';
import { FakeServer } from './fake.mjs';
import { newClient, overWhat, standIn } from './standin.mjs';

console.log(overWhat());
const text = (bytes) => Buffer.from(bytes).toString();
const turn = () => new Promise((resolve) => { setTimeout(resolve); });

// Sends what a client has to send, and lets it hear everything.
function sync(server, client) {
  const send = (message) => { for (const answer of server.answer(text(message))) client.receive(answer); };
  if (!client.id) send(client.joinMessage());
  for (const message of [...client.messages()]) send(message);
  for (let version = -1; version !== client.version;) { version = client.version; send(client.askMessage()); }
}

// A server with two clients that have heard of a page with two shapes.
async function furnished() {
  const server = new FakeServer(), a = await newClient(), b = await newClient();
  sync(server, a);
  const page = a.createLast('page', ROOT), x = a.createLast('shape', page), y = a.createLast('shape', page);
  a.set(x, 'name', 'X');
  for (const client of [a, b]) sync(server, client);
  return { server, a, b, page, x, y };
}

// Notes the details of a signal's events.
function noted(signal) {
  const seen = [];
  return { seen, end: signal.subscribe((detail) => seen.push(detail)) };
}

test('a value is the same one until it changes', async () => {
  const { server, a, b, page, x, y } = await furnished(), { signals } = b;
  const values = () => [signals.document, signals.object(x), signals.object(y), signals.object(page), signals.children(page)].map(({ value }) => value);
  const same = (before) => values().map((value, k) => value === before[k]);
  let before = values();
  sync(server, b);
  assert.deepEqual(same(before), [true, true, true, true, true], 'nothing was heard');
  b.set(x, 'name', 'Other');
  assert.deepEqual(same(before), [false, false, true, true, true], 'a property');
  before = values();
  sync(server, b);
  assert.deepEqual(same(before), [true, true, true, true, true], 'the entry of an own edit');
  a.set(page, 'name', 'Plan');
  sync(server, a);
  server.checkpoint();
  sync(server, b);
  assert.deepEqual(same(before), [false, true, true, false, true], 'a copy in which one object is another');
  before = values();
  a.createLast('shape', page);
  for (const client of [a, b]) sync(server, client);
  assert.deepEqual(same(before), [false, true, true, false, false], 'a new child');
  assert.equal(signals.object('9:9').value, null);
  assert.equal(signals.children('9:9').value, signals.children(x).value);
});

test('a document that was read stays as it is', async () => {
  const { b, page, x } = await furnished(), before = b.signals.document.value, size = before.size;
  b.delete(x);
  b.createLast('frame', page);
  assert(before.has(x) && before.size === size && !b.signals.document.value.has(x));
});

test('a listener hears of its part alone', async () => {
  const { server, a, b, page, x, y } = await furnished(), { signals } = b;
  const all = noted(signals.document), one = noted(signals.object(x)), other = noted(signals.object(y)), list = noted(signals.children(page));
  a.set(x, 'name', 'from a');
  for (const client of [a, b]) sync(server, client);
  assert.equal(one.seen.length, 0, 'news come once the turn is over');
  await turn();
  assert.deepEqual([all.seen.length, one.seen.length, other.seen.length, list.seen.length], [1, 1, 0, 0]);
  assert.equal(one.seen[0].properties.name, 'from a');
  assert.deepEqual(all.seen[0].put.map(({ id }) => id), [x]);
  const frame = b.createLast('frame', page);
  b.move(x, frame);
  b.delete(y);
  await turn();
  assert.deepEqual([all.seen.length, one.seen.length, other.seen.length, list.seen.length], [2, 2, 1, 1], 'one event for all edits of a turn');
  assert.deepEqual([other.seen[0], list.seen[0], one.seen[1].parent], [null, [frame], frame]);
  assert.deepEqual([all.seen[1].put.map(({ id }) => id), all.seen[1].gone], [[page, frame, x], [y]], 'each before its children');
});

test('a set of an object that is listened to comes at once', async () => {
  const { b, x, y } = await furnished(), one = noted(b.signals.object(x)), all = noted(b.signals.document);
  b.set(x, 'text', 'a');
  assert.equal(one.seen[0].properties.text, 'a');
  b.clear(x, 'text');
  assert.equal(one.seen[1].properties.text, undefined);
  b.set(y, 'text', 'b');
  assert.equal(all.seen.length, 2);
  await turn();
  assert.deepEqual([one.seen.length, all.seen.length], [2, 3]);
});

test('a set to the value that it has is no change', async () => {
  const { b, x } = await furnished(), one = noted(b.signals.object(x)), all = noted(b.signals.document);
  b.set(x, 'name', 'X');
  await turn();
  assert.deepEqual([one.seen, all.seen], [[], []]);
});

test('signals without a listener are held by none', async () => {
  const { b, page, x } = await furnished(), { signals } = b, act = () => {};
  const ends = [signals.object(x).subscribe(act), signals.object(x).subscribe(act), signals.children(page).subscribe(act)];
  assert.equal(signals.size, 2, 'one for the object, one for the children');
  assert.equal(signals.object(x), signals.object(x));
  for (const end of ends) end();
  for (const end of ends) end();
  assert.equal(signals.size, 0);
  const signal = signals.object(x);
  signal.addEventListener('changed', act);
  signal.addEventListener('changed', act, true);
  signal.addEventListener('changed', act, { capture: false });
  signal.removeEventListener('changed', act);
  assert.equal(signals.size, 1, 'the one that captures is left');
  signal.removeEventListener('changed', act, { capture: true });
  assert.equal(signals.size, 0);
  const again = noted(signal), other = noted(signals.object(x));
  b.set(x, 'name', 'again');
  assert.deepEqual([again.seen.length, other.seen.length], [1, 1]);
});

test('an event is a standard one', async () => {
  const { b, x } = await furnished(), signal = b.signals.object(x), seen = [], listener = { handleEvent: (event) => seen.push(event) };
  signal.addEventListener('changed', listener, { once: true });
  b.set(x, 'name', '1');
  b.set(x, 'name', '2');
  assert.equal(seen.length, 1);
  assert(seen[0] instanceof Event && seen[0].target === signal && signal instanceof EventTarget);
  assert.deepEqual([seen[0].type, seen[0].detail.properties.name, signal.value.properties.name], ['changed', '1', '2']);
});

test('what a listener changes is told after what it was called for', async () => {
  const { b, x, y } = await furnished(), order = [], edits = [];
  b.watch((what) => { if (what === 'edit') edits.push(text(b.editMessage(b.waiting))); });
  b.signals.object(x).subscribe(({ properties }) => { order.push(`first ${properties.name}`); if (properties.name === '1') { b.set(y, 'name', 'y'); b.set(x, 'name', '2'); } });
  b.signals.object(x).subscribe(({ properties }) => order.push(`second ${properties.name}`));
  b.signals.object(y).subscribe(() => order.push('y'));
  b.set(x, 'name', '1');
  await turn();
  assert.deepEqual(order, ['first 1', 'second 1', 'y', 'first 2', 'second 2']);
  assert.deepEqual(edits.map((it) => JSON.parse(it)[2]), [1, 2, 3], 'each watcher hears of each edit, in order');
});

test('a client that becomes another one tells what differs', async () => {
  const { server, b, x, page } = await furnished(), fresh = b.sibling(), one = noted(b.signals.object(x)), list = noted(b.signals.children(page));
  b.set(x, 'name', 'waits');
  sync(server, fresh);
  b.become(fresh);
  await turn();
  assert.deepEqual([one.seen.map(({ properties }) => properties.name), list.seen], [['waits', 'X'], []]);
});

test('a loop that creates objects has the children read once', async () => {
  let reads = 0;
  const exports = standIn(), client = new Client({ ...exports, lugcurrant_children: (...words) => { reads += 1; return exports.lugcurrant_children(...words); } });
  client.receive('["welcome",1]');
  const page = client.createLast('page', ROOT), list = noted(client.signals.children(page)), all = noted(client.signals.document);
  await turn();
  reads = 0;
  for (let k = 0; k < 50; k += 1) client.set(client.createLast('shape', page), 'name', String(k));
  await turn();
  assert.equal(reads, 51, 'those of the page, and those of each new object');
  assert.deepEqual([list.seen.length, all.seen.length, list.seen[0].length], [1, 1, 50]);
});

test('without memory, or without a client, an edit does what it says', async () => {
  const exports = standIn();
  let isOut = false;
  const client = new Client({ ...exports, lugcurrant_object: (...words) => (isOut ? 10 : exports.lugcurrant_object(...words)) });
  client.receive('["welcome",1]');
  const page = client.createLast('page', ROOT), one = noted(client.signals.object(page));
  isOut = true;
  client.set(page, 'name', 'a');
  client.set(page, 'name', 'b');
  assert.equal(one.seen.length, 0);
  isOut = false;
  client.set(page, 'other', 1);
  assert.deepEqual(one.seen.map(({ properties }) => ({ ...properties })), [{ name: 'b', other: 1 }]);
  client.free();
  await turn();
  one.end();
  assert.equal(client.signals.size, 0);
});

// What two programs know that read the document once and then only listen: the one to the document, the other to each object and its children.
test('random edits: events bring one to what the client shows', async () => {
  let seed = 7;
  const dice = (n) => { seed = (seed * 1103515245 + 12345) % 2147483648; return Math.floor(seed / 65536) % n; };
  const server = new FakeServer(), clients = [await newClient(), await newClient()], known = [], parts = new Map(), { signals } = clients[1];
  const listen = (id) => {
    if (parts.has(id)) return;
    const object = signals.object(id), children = signals.children(id), part = { object: object.value, children: children.value };
    parts.set(id, part);
    object.subscribe((value) => { part.object = value; });
    children.subscribe((value) => { part.children = value; });
  };
  for (const client of clients) {
    const objects = new Map(client.signals.document.value);
    known.push(objects);
    client.signals.document.subscribe(({ put, gone }) => { for (const it of put) objects.set(it.id, it); for (const id of gone) objects.delete(id); });
    sync(server, client);
  }
  for (let step = 0; step < 400; step += 1) {
    const client = clients[dice(2)], all = [...client.objects().values()], one = all[dice(all.length)], holders = all.filter(({ kind }) => kind !== 'shape'), holder = holders[dice(holders.length)];
    try {
      const what = dice(10);
      if (what < 4) client.createLast(holder.kind === 'document' ? 'page' : ['frame', 'shape'][dice(2)], holder.id);
      else if (what < 6) client.set(one.id, 'a', dice(3));
      else if (what < 8) client.move(one.id, holder.id, [null, ...holder.children][dice(holder.children.length + 1)]);
      else if (what < 9) client.delete(one.id);
      else client.clear(one.id, 'a');
    } catch (fault) { if (fault.name !== 'ClientError') throw fault; }
    for (const id of signals.document.value.keys()) listen(id);
    if (dice(5) === 0) sync(server, client);
    if (dice(60) === 0) server.checkpoint();
    if (dice(3)) continue;
    await turn();
    for (const [k, it] of clients.entries()) assert.deepEqual(known[k], it.signals.document.value, `step ${step}`);
    for (const [id, part] of parts) assert.deepEqual(part, { object: signals.object(id).value, children: signals.children(id).value });
  }
  assert(parts.size > 40 && clients[1].objects().size > 5);
});
