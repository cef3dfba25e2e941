#!/usr/bin/env node
// The events of a link, each with what it has in `detail`, over a made-up server:  node --test events.mjs
import assert from 'node:assert';
import { test } from 'node:test';
import { Link, ROOT } from '../src/node.js';
import { FakeServer, socketsTo } from './fake.mjs';
import { newClient, overWhat } from './standin.mjs';

console.log(overWhat());
const NAMES = ['state', 'change', 'refused', 'anew', 'settled', 'unsent'];

async function until(what) {
  for (let k = 0; k < 400; k += 1) { if (what()) return; await new Promise((resolve) => { setTimeout(resolve, 5); }); }
  assert(what(), String(what));
}

// A link to this server, with all its events as `name detail` or what `told` makes of them.
async function linked(server, options = {}) {
  const link = new Link(await newClient(), 'ws://127.0.0.1:1/', { document: false, WebSocket: socketsTo(server), retry: 5, mostRetry: 10, mostPause: 10, ...options }), events = [];
  for (const name of NAMES) link.addEventListener(name, (event) => events.push(event));
  const told = (name) => events.filter(({ type }) => type === name).map(({ detail }) => detail);
  return { link, client: link.client, events, told };
}

// Two links to one server, the first with a page.
async function furnished(options) {
  const server = new FakeServer(), one = await linked(server, options), other = await linked(server);
  for (const { link } of [one, other]) await link.ready;
  const page = one.client.createLast('page', ROOT);
  for (const { link } of [one, other]) await link.settled();
  await until(() => other.client.version === one.client.version);
  return { server, one, other, page, end: () => { for (const { link } of [one, other]) link.close(); } };
}

test('an event is a standard one, and `on` gives its detail', async () => {
  const { one: { link, client, events }, page, end } = await furnished(), seen = [], details = [], handler = { handleEvent: (event) => seen.push(event) };
  assert(link instanceof EventTarget && events.every((event) => event instanceof Event && event.target === link));
  link.addEventListener('change', handler, { once: true });
  const stop = link.on('change', (own) => details.push(own));
  client.set(page, 'a', 1);
  await until(() => details.includes(false));
  assert.deepEqual([seen.length, seen[0].type, seen[0].detail, details[0]], [1, 'change', true, true]);
  const { length } = details;
  stop();
  client.set(page, 'a', 2);
  await link.settled();
  assert.equal(details.length, length, '`on` was ended');
  end();
});

test('`state` comes if the state or its words are others, and has the link', async () => {
  const states = [], { one: { link, told }, end } = await furnished({ state: (it) => states.push(it.state) });
  assert.deepEqual([told('state'), states], [[link], ['online']]);
  link.offline = true;
  assert.deepEqual(states, ['online', 'offline'], 'at once');
  link.offline = false;
  await until(() => link.state === 'online');
  end();
  await link.done;
  assert.deepEqual([link.state, states.at(-1), told('state').length], ['closed', 'closed', states.length]);
});

test('`change` is true once for the own edits of a turn, and false after a message', async () => {
  const called = [], { one: { link, client, told }, other, page, end } = await furnished({ changed: (own) => called.push(own) });
  assert.deepEqual(called, told('change'));
  called.length = 0;
  for (const value of [1, 2, 3]) client.set(page, 'a', value);
  assert.deepEqual(called, [], 'not within the turn');
  await Promise.resolve();
  assert.deepEqual(called, [true]);
  await link.settled();
  const before = called.length;
  other.client.set(page, 'b', 1);
  await until(() => client.object(page).properties.b === 1);
  assert.deepEqual(called.slice(before), [false]);
  end();
});

test('`unsent` has the number of edits without an answer, and `settled` comes once they are heard', async () => {
  const { one: { link, client, told }, page, end } = await furnished(), before = [told('unsent').length, told('settled').length];
  link.offline = true;
  client.set(page, 'a', 1);
  client.set(page, 'a', 2);
  await until(() => link.unsent === 2 && told('unsent').at(-1) === 2);
  assert.deepEqual([told('unsent').slice(before[0]), told('settled').length], [[2], before[1]]);
  link.offline = false;
  await link.settled();
  await until(() => told('unsent').at(-1) === 0);
  await new Promise((resolve) => { setTimeout(resolve, 50); });
  assert.deepEqual(told('settled').slice(before[1]), [link], 'asks that bring nothing tell nothing');
  end();
});

test('`refused` names the edit that the server refused, and why', async () => {
  const called = [], { one: { link, client, told }, other, page, end } = await furnished({ refused: (it) => called.push(it) });
  link.offline = true;
  client.set(page, 'a', 1);
  other.client.delete(page);
  await other.link.settled();
  link.offline = false;
  await link.settled();
  await until(() => told('refused').length);
  const [{ number, edit, id, name, words }] = told('refused');
  assert.deepEqual([number, edit, id, name, words], [2, 'set', page, 'Gone', 'the object was deleted meanwhile']);
  assert.deepEqual([called, client.children(ROOT)], [told('refused'), []]);
  end();
});

test('`anew` has what was made again, what was lost, and the new ids', async () => {
  const called = [], { server, one: { link, client, told }, page, end } = await furnished({ anew: (it) => called.push(it) }), was = client.id;
  link.offline = true;
  const shape = client.createLast('shape', page);
  client.set(shape, 'a', 1);
  server.strike(was);
  link.offline = false;
  await until(() => told('anew').length && link.unsent === 0);
  const [{ made, lost, unsure, ids }] = told('anew');
  assert.deepEqual([made, lost, unsure, [...ids.keys()], called], [2, [], [], [shape], told('anew')]);
  assert.notEqual(client.id, was);
  assert.deepEqual([client.children(page), client.object(ids.get(shape)).properties.a], [[ids.get(shape)], 1]);
  assert.equal(client.text(), server.text());
  end();
});

test('a server that never ends the connection keeps no link', async () => {
  const server = new FakeServer(), WebSocket = socketsTo(server);
  WebSocket.prototype.close = function close() { this.readyState = 2; };
  const { link, client, told } = await linked(server, { WebSocket });
  await link.ready;
  link.offline = true;
  client.set(ROOT, 'a', 1);
  link.offline = false;
  for (let k = 0; k < 50 && link.unsent; k += 1) await new Promise((resolve) => { setTimeout(resolve, 100); });
  assert.deepEqual([link.state, link.unsent, client.text()], ['online', 0, server.text()]);
  link.close();
  await link.done;
  assert.deepEqual(told('state').length, 4);
});

test('after the end no event comes', async () => {
  const { one: { link, client, events }, page, end } = await furnished();
  end();
  await link.done;
  events.length = 0;
  client.set(page, 'a', 1);
  await new Promise((resolve) => { setTimeout(resolve, 30); });
  assert.deepEqual(events.map(({ type }) => type), []);
});
