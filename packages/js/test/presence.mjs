#!/usr/bin/env node
// What links show of themselves, over a real server:  node --experimental-websocket presence.mjs LUGCURRANT [OLDER]..
//
// Links show and go in random order, one goes offline, the server is killed and started again, a thousand values come in a second, values that can't be
// shown, two programs with one id, an older connection that ends late. Then the same links over made-up servers that lack the word, and over each OLDER, a program like LUGCURRANT.
import assert from 'node:assert';
import { Client, Link, ROOT } from '../src/node.js';
import { Server, endAfter } from '../../../tests/web/server.mjs';
import { sleep, until } from '../../../tests/web/devtools.mjs';
import { FakeServer, socketsTo } from './fake.mjs';

endAfter(120);
const [program, ...older] = process.argv.slice(2), server = await Server.start(program);
const links = new Set();
let seed = 1;
const dice = (n) => { seed = (seed * 48271) % 2147483647; return seed % n; };

// A link with what it shows in `shows`, and all changes that it told in `told`.
async function open(options = {}, saved = null, url = server.url) {
  const told = [], link = new Link(await Client.load(null, saved), url, { retry: 50, mostRetry: 200, presence: (change) => told.push(change), ...options });
  Object.assign(link, { told, shows: null });
  await link.ready;
  links.add(link);
  return link;
}

function show(link, value) { link.shows = value; link.presence.set(value); }
async function close(link) { links.delete(link); link.close(); await link.done; }

const othersOf = (link) => Object.fromEntries([...links].filter((it) => it !== link && !it.offline && it.shows !== null).map((it) => [it.client.id, it.shows]));
// What the changes that a link told come to.
const toldBy = (link) => {
  const others = new Map();
  for (const { client, value } of link.told) if (value === null) assert(others.delete(client), 'null is told once'); else others.set(client, value);
  return Object.fromEntries(others);
};
const isSame = (a, b) => { try { assert.deepStrictEqual(a, b); return true; } catch { return false; } };

// Each link has what the others show, and told it.
async function agrees(what) {
  const seen = (link) => Object.fromEntries(link.presence.others), wanted = (link) => (link.offline ? {} : othersOf(link));
  const isSo = () => [...links].every((link) => isSame(seen(link), wanted(link)) && isSame(toldBy(link), wanted(link)));
  assert(await until(isSo), `${what}: ${JSON.stringify([...links].map((link) => [link.client.id, link.state, seen(link), wanted(link), toldBy(link)]))}`);
}

const VALUES = [0, -1.5, true, '', 'é\n"\\u', [], [1, [2]], {}, { name: 'Ann', at: [1, 2] }, '😀'.repeat(255), 'x'.repeat(1022)];

async function randomOrder() {
  for (let k = 0; k < 4; k += 1) await open();
  for (let round = 0; round < 12; round += 1) {
    for (let k = 0; k < 20; k += 1) {
      const all = [...links], link = all[dice(all.length)], what = dice(12);
      if (what < 6) show(link, VALUES[dice(VALUES.length)]);
      else if (what === 6) show(link, null);
      else if (what === 7) link.client.set(ROOT, 'a', k);
      else if (what === 8) link.offline = !link.offline;
      else if (what === 9 && all.length > 2) await close(link);
      else if (what === 10 && all.length < 8) show(await open(), { number: k });
      else await sleep(dice(40));
    }
    await agrees(`round ${round}`);
  }
  for (const link of links) link.offline = false;
  await agrees('all are online');
}

// Without a connection nobody is known, at once; then all that are there, and this one is shown again.
async function reconnects() {
  const [one, two] = links, id = two.client.id, held = one.presence.others;
  show(two, 'two');
  await agrees('before');
  const before = one.presence.others;
  assert(one.presence.others === before && before !== held && before.get(id) === 'two', 'the Map stays the same until something changes');
  one.offline = true;
  assert.deepEqual([one.presence.others.size, before.get(id), toldBy(one)], [0, 'two', {}]);
  show(one, 'offline');
  await agrees('offline');
  one.offline = false;
  await agrees('online again');
  await server.kill();
  assert(await until(() => [...links].every(({ presence }) => presence.others.size === 0)), 'the server is away, and so are all');
  show(one, 'later');
  show(two, null);
  await server.run(server.port);
  await agrees('the server is back');
}

async function thousand() {
  const [one, two] = links;
  await agrees('before');
  two.told.length = 0;
  const begun = performance.now();
  for (let k = 0; k < 1000; k += 1) {
    show(one, k);
    if (k % 50 === 0) one.client.set(ROOT, 'a', k);
    if (k % 10 === 9) await sleep(10);
  }
  const seconds = (performance.now() - begun) / 1000;
  assert(await until(() => two.presence.others.get(one.client.id) === 999), 'the last one is shown');
  const values = two.told.filter(({ client }) => client === one.client.id).map(({ value }) => value);
  assert(values.length > 10 && values.length <= 31 * (seconds + 0.1) + 1 && isSame(values, [...values].sort((a, b) => a - b)), `${values.length} in ${seconds} s`);
  for (let k = 0; k < 1000; k += 1) show(one, -k);
  assert(await until(() => two.presence.others.get(one.client.id) === -999), 'the last one of a turn is shown');
  await one.settled();
  assert.equal(one.state, 'online');
  two.told.splice(0, two.told.length, ...[...two.presence.others].map(([client, value]) => ({ client, value })));
  await agrees('after');
  return `1,000 values in ${seconds.toFixed(1)} s were heard as ${values.length}`;
}

async function refused() {
  const [one] = links, round = {};
  round.round = round;
  let deep = 1;
  for (let k = 0; k < 101; k += 1) deep = k % 2 ? [deep] : { a: deep };
  const wrong = [[undefined, TypeError], [() => {}, TypeError], [10n, TypeError], [NaN, TypeError], [{ at: [1, Infinity] }, TypeError], [round, TypeError],
    ['\ud800', TypeError], [{ '\udc00': 1 }, TypeError], ['x'.repeat(1023), RangeError], ['é'.repeat(512), RangeError], ['\n'.repeat(512), RangeError], [deep, RangeError], ['x'.repeat(1 << 20), RangeError]];
  show(one, 'good');
  for (const [value, type] of wrong) assert.throws(() => one.presence.set(value), type);
  await agrees('a value that can not be shown changes nothing');
  for (const value of ['\\ud800', '[['.repeat(200), 'é'.repeat(511), '\n'.repeat(511), { toJSON: () => 'json' }]) {
    one.presence.set(value);
    one.shows = JSON.parse(JSON.stringify(value));
    await agrees(`${JSON.stringify(value).slice(0, 20)} can be shown`);
  }
  let deepest = 1;
  for (let k = 0; k < 100; k += 1) deepest = k % 2 ? [deepest] : { a: deepest };
  show(one, deepest);
  await agrees('100 deep');
}

// Two programs with one id: one becomes another client, and each is shown under its own id.
async function twins() {
  const [one] = links, { id } = one.client;
  show(one, 'first');
  const twin = await open({}, one.client.save());
  show(twin, 'twin');
  one.client.set(ROOT, 'a', 1);
  twin.client.set(ROOT, 'b', 2);
  for (const it of [one, twin]) await it.settled();
  twin.client.set(ROOT, 'b', 3);
  assert(await until(() => one.client.id !== twin.client.id));
  show(one, 'first of its own');
  show(twin, 'twin of its own');
  for (const it of [one, twin]) await it.settled();
  await close([one, twin].find((it) => it.client.id !== id));
  await agrees('twins');
}

// An older connection of a link's client, on which it showed something else, ends now. The client is still there.
async function endsLate() {
  const [one, two] = links, old = new WebSocket(server.url), send = (message) => old.send(Buffer.from(JSON.stringify(message)));
  await new Promise((resolve) => { old.onopen = resolve; });
  send(['live', one.client.id, Number(one.client.version)]);
  send(['here', one.client.id, 'older']);
  assert(await until(() => two.presence.others.get(one.client.id) === 'older'));
  show(one, 'newer');
  await agrees('it shows something else');
  old.close();
  await sleep(300);
  await agrees('an older connection has ended');
}

// A server without the word: nobody is shown, and nothing else is other than before.
async function withoutTheWord(url, options, show) {
  const made = [];
  for (let k = 0; k < 2; k += 1) made.push(await open({ ...options() }, null, url));
  const [one, two] = made;
  for (let k = 0; k < 30; k += 1) { one.presence.set(k); one.client.set(ROOT, 'a', k); await sleep(5); }
  await one.settled();
  assert(await until(() => two.client.version === one.client.version));
  assert.deepEqual([two.presence.others.size, two.told, one.state, two.state, two.client.text()], [0, [], 'online', 'online', one.client.text()]);
  if (show) assert.equal(show(), one.client.text());
  for (const link of made) await close(link);
}

await randomOrder();
await reconnects();
const heard = await thousand();
await refused();
await twins();
await endsLate();
for (const link of [...links]) { await link.settled(); assert.equal(link.client.text(), server.show().tree); await close(link); }
await server.end();
for (const isLive of [false, true]) {
  const fake = new FakeServer({ isLive, hasHere: false }), WebSocket = socketsTo(fake);
  const telling = setInterval(() => WebSocket.tell(), 5);
  await withoutTheWord('ws://127.0.0.1:1/', () => ({ document: false, WebSocket }), () => fake.text());
  clearInterval(telling);
}
for (const it of older) {
  const old = await Server.start(it);
  await withoutTheWord(old.url, () => ({}), () => old.show().tree);
  await old.end();
}
console.log(`presence, each as it should be; ${heard}; ${2 + older.length} servers without it`);
process.exit(0);
