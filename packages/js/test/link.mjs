#!/usr/bin/env node
// Links against a real server:  node --experimental-websocket link.mjs LUGCURRANT
//
// The states of a link, events, twins of one saved client, keeping in a file, a server below a path of a proxy, an edit that is taken out over
// another connection, a page of another origin (if Chromium is installed), an older backup and another document in the folder's place.
import assert from 'node:assert';
import { cpSync, existsSync, mkdtempSync, readFileSync, rmSync } from 'node:fs';
import { createServer, request } from 'node:http';
import { connect } from 'node:net';
import { tmpdir } from 'node:os';
import { join } from 'node:path';
import { fileURLToPath } from 'node:url';
import { Client, Kept, Link, ROOT, shelfOfFile } from '../src/node.js';
import { Server, endAfter } from '../../../tests/web/server.mjs';
import { Browser, sleep, until } from '../../../tests/web/devtools.mjs';
import { FakeServer, socketsTo } from './fake.mjs';

endAfter(200);
const server = await Server.start(process.argv[2], { words: ['--clients', '3'] });
const folder = join(server.folder, 'canvas'), backup = join(server.folder, 'backup');
let tried = 0;

async function open(options = {}, saved = null, url = server.url) {
  return new Link(await Client.load(null, saved), url, { retry: 50, mostRetry: 400, ...options });
}

async function becomes(link, state) {
  tried += 1;
  assert(await until(() => link.state === state), `${link.state} (${link.words}) in place of ${state}`);
}

async function isAsServer(link) {
  await link.settled();
  assert.equal(server.show().tree, link.client.text());
}

async function closed(...links) {
  for (const link of links) {
    link.close();
    await becomes(link, 'closed');
    await link.done;
  }
}

// A server that is away, and a link that is offline: edits wait, and are sent later.
async function awayAndOffline(first, page) {
  await server.kill();
  cpSync(folder, backup, { recursive: true });
  await becomes(first, 'no server');
  first.client.set(page, 'name', 'meanwhile');
  await sleep(0);
  assert.equal(first.unsent, 1);
  assert(first.isLosing);
  await server.run(server.port);
  await becomes(first, 'online');
  await isAsServer(first);

  await server.kill();
  await becomes(first, 'no server');
  const settled = first.settled();          // nothing waits, and what others did isn't known
  await server.run(server.port);
  await settled;

  first.offline = true;
  await becomes(first, 'offline');
  first.client.set(page, 'name', 'offline');
  assert(!server.show().tree.includes('offline'));
  first.offline = false;
  await becomes(first, 'online');
  await isAsServer(first);
}

// Others' edits come as events and by the iterator; own edits come as events too.
async function hearsOthers(first, second, page) {
  const heard = [], own = [];
  second.on('change', (isOwn) => own.push(isOwn));
  const listening = (async () => {
    for await (const { put } of second.changes()) {
      heard.push(...put.map((object) => object.properties.name));
      if (heard.includes('heard')) return;
    }
  })();
  first.client.set(page, 'name', 'heard');
  await listening;
  second.client.set(page, 'own', 1);
  assert(await until(() => own.includes(true) && own.includes(false)));
  await second.settled();
}

// All three seats are taken until one link is closed.
async function noSeat() {
  const third = await open();
  await third.ready;
  const fourth = await open();
  await becomes(fourth, 'no seat');
  await closed(third);
  await becomes(fourth, 'online');
  await fourth.settled();
  assert(fourth.client.id > third.client.id);
  await closed(fourth);
}

// Two links with clients of one save, and both edit: one takes another id, and no edit is lost.
async function twins(first, second, page) {
  const states = [], twin = await open({ state: ({ state }) => states.push(state) }, first.client.save());
  first.on('state', ({ state }) => states.push(state));
  first.client.set(page, 'a', 1);
  twin.client.set(page, 'b', 2);
  await twin.settled();
  twin.client.set(page, 'c', 3);
  twin.client.set(twin.client.createLast('frame', page), 'name', 'Frame');
  await Promise.all([twin.settled(), first.settled(), second.settled()]);
  assert(await until(() => second.client.text() === twin.client.text() && first.client.text() === twin.client.text()));
  const { a, b, c } = second.client.object(page).properties;
  assert.deepEqual([a, b, c], [1, 2, 3]);
  assert(states.includes('replaced') && first.state === 'online' && twin.state === 'online', states.join());
  assert.notEqual(first.client.id, twin.client.id);
  tried += 1;
  await closed(twin);
}

// A client that is kept in a file is the same one when it is loaded again. No two programs can have it.
async function keptInFile(page) {
  const path = join(mkdtempSync(join(tmpdir(), 'lugcurrant-')), 'client'), keeper = new Kept(shelfOfFile(path)), mine = await keeper.load();
  assert.throws(() => shelfOfFile(path), /kept by the process/);
  const keeping = new Link(mine, server.url, { kept: keeper });
  await keeping.ready;
  mine.set(page, 'kept', 1);
  await keeping.settled();
  keeping.offline = true;
  for (let k = 0; k < 50; k += 1) mine.set(page, 'kept', 2 + k);
  await until(() => !keeping.isLosing);
  await closed(keeping);
  await keeper.close();

  const again = new Kept(shelfOfFile(path)), same = await again.load();
  assert.deepEqual([same.id, Number(same.waiting), again.fault], [mine.id, 50, null]);
  assert.equal(same.text(), mine.text());
  const last = new Link(same, server.url, { kept: again });
  await isAsServer(last);
  await closed(last);
  await again.close();
}

// A proxy as in deploy/nginx.conf: it passes /drawing/ on without that prefix, and answers 404 to every other path.
async function startProxy() {
  const below = (path) => path.startsWith('/drawing/') ? path.slice('/drawing'.length) : null;
  const proxy = createServer((asked, answer) => {
    const path = below(asked.url);
    if (!path) { answer.writeHead(404).end(); return; }
    request({ port: server.port, path, headers: asked.headers }, (given) => given.pipe(answer.writeHead(given.statusCode, given.headers))).end();
  });
  proxy.on('upgrade', (asked, socket) => {
    const path = below(asked.url);
    if (!path) { socket.destroy(); return; }
    const head = asked.rawHeaders.reduce((text, word, at) => text + word + (at % 2 ? '\r\n' : ': '), '');
    const beyond = connect(server.port, '127.0.0.1', () => {
      beyond.write(`GET ${path} HTTP/1.1\r\n${head}\r\n`);
      beyond.pipe(socket).pipe(beyond);
    });
    for (const end of [beyond, socket]) end.on('error', () => { beyond.destroy(); socket.destroy(); });
  });
  await new Promise((resolve) => { proxy.listen(0, '127.0.0.1', resolve); });
  return proxy;
}

async function belowPath(first) {
  const proxy = await startProxy();
  for (const path of ['drawing/', 'drawing']) {
    const link = await open({}, null, `ws://127.0.0.1:${proxy.address().port}/${path}`);
    await becomes(link, 'online');
    await link.settled();
    assert.equal(link.document, first.document);
    await closed(link);
  }
  proxy.close();
}

// The page opens a link with the options that it is given, and answers `STATE|WORDS` once that is ready, or after five seconds.
const PAGE = `<script type="module">
import { Client, Link } from '/src/browser.js';
window.openLink = async ({ url, ...options }) => {
  const link = new Link(await Client.load(), url, options);
  await Promise.race([link.ready.catch(() => {}), new Promise((resolve) => setTimeout(resolve, 5000))]);
  const seen = link.state + '|' + link.words;
  link.close();
  return seen;
};
</script>`;

async function startSite() {
  const files = fileURLToPath(new URL('..', import.meta.url)), types = { js: 'text/javascript', wasm: 'application/wasm' };
  const site = createServer((asked, answer) => {
    const path = join(files, asked.url), isFile = asked.url !== '/' && existsSync(path);
    answer.writeHead(200, { 'content-type': types[asked.url.split('.').at(-1)] ?? 'text/html' });
    answer.end(isFile ? readFileSync(path) : PAGE);
  });
  await new Promise((resolve) => { site.listen(0, '127.0.0.1', resolve); });
  return site;
}

// A page of another origin may connect, and can't read /document.
async function otherOrigin(first) {
  const site = await startSite(), origin = `http://127.0.0.1:${site.address().port}`;
  await server.kill();
  server.words = ['--clients', '8', '--origin', origin];
  await server.run(server.port);
  await becomes(first, 'online');
  const browser = await Browser.start(), window = await browser.open(`${origin}/`);
  assert(await until(() => window.js('Boolean(window.openLink)')));
  const state = (options) => window.js(`openLink(${JSON.stringify({ url: server.url, ...options })})`);
  assert.match(await state({}), /^unguarded\|.*CORS/);
  assert.match(await state({ document: first.document }), /^online/);
  assert.match(await state({ document: false }), /^online/);
  assert.match(await state({ document: '0'.repeat(32) }), /^no seat\|.*another document/);
  tried += 4;
  await browser.end();
  site.close();
}

// The connection ends right after the No to an edit. The edit is lost for the reason of that No, whatever the state is on the next connection, and the
// client goes on under its id.
async function takenOutLater() {
  const largest = 200, edits = { 'too large': ['a', 'x'.repeat(largest)], unreadable: ['unread', 1] };
  for (const [reason, edit] of Object.entries(edits)) for (const isLive of [false, true]) {
    const refused = [], states = [], options = { document: false, WebSocket: socketsTo(new FakeServer({ largest, isLive })), refused: (event) => refused.push(event) };
    const link = await open({ ...options, state: ({ state }) => states.push(state) });
    await link.ready;
    const id = link.client.createLast('page', ROOT);
    await link.settled();
    link.client.set(id, ...edit);
    link.client.set(id, 'b', 2);
    await link.settled();
    assert.deepEqual(refused.map(({ number, name, change }) => [number, name, JSON.parse(change)[2]]), [[2, reason, edit[0]]]);
    assert.deepEqual(states, ['online', reason, 'online']);
    assert.deepEqual([link.client.id, link.client.acknowledged, { ...link.client.object(id).properties }], [1, 3, { b: 2 }]);
    tried += 1;
    await closed(link);
  }
}

// The client whose edit was replaced is kept before that edit is sent.
async function takenOutAndKept() {
  const fake = new FakeServer({ largest: 200, isLive: true }), WebSocket = socketsTo(fake), answer = fake.answer.bind(fake), all = [];
  const shelf = { read: async () => ({ all: null, journal: [] }), put: async (bytes) => { await sleep(20); all.push(Buffer.from(bytes).toString()); }, add: async () => sleep(20), end: async () => {}, close: async () => {} };
  const kept = new Kept(shelf), client = await kept.load(), link = new Link(client, server.url, { document: false, WebSocket, kept });
  fake.answer = (message, line) => {
    if (message.includes('["clear",[0,0],"_"]')) assert(all.at(-1).includes('[["clear",[0,0],"_"]'), 'the client is kept first');
    return answer(message, line);
  };
  await link.ready;
  client.set(ROOT, 'a', 'x'.repeat(200));
  client.set(ROOT, 'b', 2);
  await link.settled();
  assert.deepEqual([client.id, client.acknowledged, { ...client.object(ROOT).properties }], [1, 2, { b: 2 }]);
  tried += 1;
  await closed(link);
}

// On a live connection a link asks no more, and hears of its own edits and of others' without that.
async function live() {
  const fake = new FakeServer({ isLive: true }), WebSocket = socketsTo(fake), link = await open({ document: false, WebSocket });
  await link.settled();
  await until(() => WebSocket.lines.some(({ place }) => place));
  await sleep(50);
  const { asks } = fake;
  const page = link.client.createLast('page', ROOT);
  for (let k = 0; k < 20; k += 1) { link.client.set(page, 'a', k); await link.settled(); }
  fake.answer('["join",2]');
  fake.answer('["edit",2,1,["set",[0,0],"name","theirs"]]');
  WebSocket.tell();
  assert(await until(() => link.client.object(ROOT).properties.name === 'theirs'));
  assert.deepEqual([fake.asks, link.unsent, link.client.text()], [asks, 0, fake.text()]);
  tried += 1;
  await closed(link);
}

// A program that goes offline when it is told of an edit that is too large is offline, whatever else came of the same message.
async function offlineAtOnce() {
  const largest = 200, states = [], options = { document: false, WebSocket: socketsTo(new FakeServer({ largest })), state: ({ state }) => states.push(state) };
  const link = await open({ ...options, refused: () => { link.offline = true; } });
  await link.ready;
  link.client.set(ROOT, 'a', 'x'.repeat(largest));
  await becomes(link, 'offline');
  link.offline = true;
  await sleep(100);
  assert.deepEqual(states, ['online', 'too large', 'offline']);
  link.offline = false;
  await becomes(link, 'online');
  await link.settled();
  await closed(link);
  link.offline = true;
  assert.equal(link.state, 'closed');
}

async function replaceFolder(act) {
  await server.kill();
  rmSync(folder, { recursive: true });
  act();
  await server.run(server.port);
}

// An older backup that keeps its identity, against the manual. It knows no client but the first: another one takes an id again, and makes again
// what waited.
async function olderBackup(page) {
  const states = [], anew = [], link = await open({ state: ({ state }) => states.push(state), anew: (event) => anew.push(event) });
  await link.settled();
  link.offline = true;
  await becomes(link, 'offline');
  link.client.set(page, 'waited', 7);
  await replaceFolder(() => cpSync(backup, folder, { recursive: true }));
  link.offline = false;
  await becomes(link, 'online');
  await isAsServer(link);
  assert(states.includes('stranger'), states.join());
  assert.deepEqual([anew.length, anew[0].made, anew[0].lost], [1, 1, []]);
  assert.equal(link.client.object(page).properties.waited, 7);
  tried += 1;
  await closed(link);
}

// Another document at the same port: a link ends, and one that follows begins anew.
async function anotherDocument(first) {
  const follower = await open({ follow: true });
  await follower.settled();
  const { document } = follower;
  await replaceFolder(() => {});
  await becomes(first, 'another document');
  await first.done;
  assert.match(first.words, /another document/);
  await assert.rejects(first.settled(), /another document/);
  await becomes(follower, 'online');
  assert(await until(() => follower.document !== document && follower.client.id));
  await isAsServer(follower);
  await closed(follower);
}

const first = await open();
await becomes(first, 'online');
await first.ready;
assert.match(first.document, /^[0-9a-f]{32}$/);
const page = first.client.createLast('page', ROOT);
await first.settled();
await awayAndOffline(first, page);
const second = await open();
await second.ready;
await hearsOthers(first, second, page);
await noSeat();
await twins(first, second, page);
await closed(second);
await keptInFile(page);
await belowPath(first);
await takenOutLater();
await takenOutAndKept();
await live();
await offlineAtOnce();
if (existsSync('/usr/bin/chromium')) await otherOrigin(first);
await olderBackup(page);
await anotherDocument(first);
console.log(`${tried} states, each as it should be`);
await server.end();
process.exit(0);
