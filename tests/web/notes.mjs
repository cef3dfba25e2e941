#!/usr/bin/env node
// The page of examples/notes in jsdom, and another person's client, both linked to a made-up server:  node --test notes.mjs
// It needs Debian's node-jsdom, and is skipped without it. The clients are over canvas.wasm, or over a stand-in if there is none.
import assert from 'node:assert';
import { cpSync, mkdtempSync, readFileSync, rmSync, writeFileSync } from 'node:fs';
import { Module, createRequire } from 'node:module';
import { tmpdir } from 'node:os';
import { join } from 'node:path';
import { test } from 'node:test';
import { fileURLToPath, pathToFileURL } from 'node:url';
import { Colour, Link, ROOT } from '../../packages/js/src/node.js';
import { FakeServer, socketsTo } from '../../packages/js/test/fake.mjs';
import { newClient, overWhat } from '../../packages/js/test/standin.mjs';

process.env.NODE_PATH = [process.env.NODE_PATH, '/usr/share/nodejs'].filter(Boolean).join(':');
Module._initPaths();
let JSDOM;
try { ({ JSDOM } = createRequire(import.meta.url)('jsdom')); } catch { console.log("skipped: there is no jsdom (Debian's node-jsdom has it)"); process.exit(0); }

// The page with a library that takes these clients and this server.
const source = fileURLToPath(new URL('../../examples/notes/', import.meta.url)), room = mkdtempSync(join(tmpdir(), 'notes-')), server = new FakeServer();
process.on('exit', () => rmSync(room, { recursive: true, force: true }));
cpSync(join(source, 'page.js'), join(room, 'page.js'));
writeFileSync(join(room, 'package.json'), '{"type":"module"}');
const { window } = await JSDOM.fromFile(join(source, 'index.html'), { pretendToBeVisual: true }), { document } = window;
const options = { document: false, WebSocket: socketsTo(server), mostPause: 10 };
globalThis.made = { client: await newClient(), options };
writeFileSync(join(room, 'lugcurrant.js'), `import { Link as Real } from '${new URL('../../packages/js/src/link.js', import.meta.url)}';
export * from '${new URL('../../packages/js/src/index.js', import.meta.url)}';
export const Client = { load: async () => made.client };
export class Link extends Real { constructor(client) { super(client, 'ws://127.0.0.1:1/', made.options); made.link = this; } }`);
Object.assign(globalThis, { document, location: { href: 'http://127.0.0.1:7411/' }, requestAnimationFrame: (act) => window.requestAnimationFrame(act), addEventListener() {} });

const other = new Link(await newClient(), 'ws://127.0.0.1:1/', options), at = (id) => document.getElementById(id);
const notes = () => [...document.querySelectorAll('article')];
const fire = (element, type, words = {}) => element.dispatchEvent(Object.assign(new window.Event(type, { bubbles: true }), words));
async function until(what) { for (let k = 0; k < 400; k += 1) { if (what()) return; await new Promise((resolve) => { setTimeout(resolve, 5); }); } assert(what(), String(what)); }
const isSame = () => made.link.unsent === 0 && other.unsent === 0 && made.client.text() === server.text() && other.client.text() === server.text();

await import(pathToFileURL(join(room, 'page.js')));
await Promise.all([made.link.ready, other.ready]);

test('the module has 80 lines', () => {
  assert.equal(readFileSync(join(source, 'page.js'), 'utf8').trimEnd().split('\n').length, 80);
});

test('a note is made, written, coloured and deleted, and the other one sees it', async () => {
  fire(at('add'), 'click');
  await until(() => notes().length === 1);
  const [note] = notes(), area = note.querySelector('textarea'), [ink] = note.querySelectorAll('button'), before = note.style.background;
  area.value = 'Milk';
  fire(area, 'input');
  fire(ink, 'click');
  assert.notEqual(note.style.background, before);
  await until(isSame);
  const [page] = other.client.children(ROOT), [id] = other.client.children(page), { properties } = other.client.object(id);
  assert.deepEqual([properties.text, properties.at, properties.fill instanceof Colour], ['Milk', [30, 70], true]);
  fire(at('add'), 'click');
  await until(() => notes().length === 2);
  fire(notes()[1].querySelectorAll('button')[1], 'click');
  await until(() => notes().length === 1);
  await until(isSame);
});

test('a note of the other one is shown, dragged and brought to the front', async () => {
  const { client } = other, [page] = client.children(ROOT), note = client.createFirst('text', page);
  client.set(note, 'text', 'theirs');
  client.set(note, 'at', [10, 20]);
  await until(() => notes().length === 2 && isSame());
  const mine = notes().find((it) => it.querySelector('textarea').value === 'theirs');
  assert.deepEqual([mine.style.left, mine.style.top, mine.style.zIndex], ['10px', '20px', '0']);
  fire(mine, 'pointerdown', { clientX: 5, clientY: 5 });
  for (let k = 0; k < 20; k += 1) fire(document, 'pointermove', { clientX: 5 + k, clientY: 25 });
  fire(document, 'pointerup');
  await until(isSame);
  assert.deepEqual([client.object(note).properties.at, client.children(page).at(-1), mine.style.zIndex, mine.style.left], [[29, 40], note, '1', '29px']);
});

test('offline, a refused edit, and values that no page writes', async () => {
  const { client } = other, [page] = client.children(ROOT), [first, last] = client.children(page);
  const offline = (is) => { at('offline').checked = is; fire(at('offline'), 'change'); };
  offline(true);
  assert.equal(at('line').textContent, 'offline');
  const area = notes().find((it) => it.style.zIndex === '1').querySelector('textarea');
  area.value = 'in vain';
  fire(area, 'input');
  await until(() => at('line').textContent === 'offline, edits to be sent: 1');
  client.delete(last);
  client.set(first, 'at', 'nowhere');
  client.set(first, 'text', 7);
  await other.settled();
  offline(false);
  await until(() => at('line').textContent === 'Taken back: the object was deleted meanwhile');
  await until(() => notes().length === 1 && isSame());
  assert.deepEqual([notes()[0].style.left, notes()[0].querySelector('textarea').value], ['20px', '7']);
  client.delete(page);
  await until(() => notes().length === 0);
  assert.equal(made.client.signals.size, 1, 'the children of the root');
  for (const it of [made.link, other]) it.close();
});
