#!/usr/bin/env node
// The hooks in React and its DOM renderer:  node --test hooks.mjs
// It needs Debian's node-react, node-react-dom and node-jsdom, or the same packages in NODE_PATH, and is skipped without them; for README's page also
// node-typescript. The clients are over canvas.wasm, or over a stand-in if there is none; the server is a made-up one.
import assert from 'node:assert';
import { cpSync, existsSync, mkdirSync, mkdtempSync, readFileSync, rmSync, symlinkSync, writeFileSync } from 'node:fs';
import { Module, createRequire } from 'node:module';
import { tmpdir } from 'node:os';
import { delimiter, join } from 'node:path';
import { test } from 'node:test';
import { fileURLToPath, pathToFileURL } from 'node:url';
import { Link, ROOT } from '../../js/src/node.js';
import { FakeServer, socketsTo } from '../../js/test/fake.mjs';
import { newClient, overWhat } from '../../js/test/standin.mjs';

const places = [...(process.env.NODE_PATH ?? '').split(delimiter), '/usr/share/nodejs'].filter(Boolean);
process.env.NODE_PATH = places.join(delimiter);
Module._initPaths();
const folderOf = (name) => places.map((place) => join(place, name)).find((path) => existsSync(path));
const missing = ['react', 'react-dom', 'jsdom'].filter((name) => !folderOf(name));
if (missing.length) { console.log(`skipped: there is no ${missing.join(', no ')} (Debian's node-react, node-react-dom and node-jsdom have them)`); process.exit(0); }

// The package in a node_modules of its own, with React beside it.
const room = mkdtempSync(join(tmpdir(), 'react-')), installed = join(room, 'node_modules/lugcurrant-react'), package_ = fileURLToPath(new URL('..', import.meta.url));
process.on('exit', () => rmSync(room, { recursive: true, force: true }));
mkdirSync(installed, { recursive: true });
for (const it of ['package.json', 'src']) cpSync(join(package_, it), join(installed, it), { recursive: true });
for (const it of ['react', 'react-dom']) symlinkSync(folderOf(it), join(room, 'node_modules', it));

const require = createRequire(import.meta.url), { JSDOM } = require('jsdom');
const { window } = new JSDOM('<!doctype html>');
for (const [name, value] of Object.entries({ window, document: window.document, navigator: window.navigator, IS_REACT_ACT_ENVIRONMENT: true })) {
  Object.defineProperty(globalThis, name, { value, configurable: true, writable: true });
}
const React = require('react'), { createRoot } = require('react-dom/client'), { act } = require('react-dom/test-utils'), { renderToString } = require('react-dom/server');
const hooks = await import(pathToFileURL(join(installed, 'src/index.js')));
const { DocumentProvider, useChildren, useClient, useConnection, useDocument, useLink, useObject, usePresence } = hooks;
const { createElement: h, StrictMode, memo, useLayoutEffect, useState } = React;
console.log(`React ${React.version}, ${overWhat()}`);

const turn = (milliseconds = 5) => new Promise((resolve) => { setTimeout(resolve, milliseconds); });

// A server, a link to it with a page of two notes, and another client's link.
async function furnished() {
  const server = new FakeServer(), links = [];
  for (let k = 0; k < 2; k += 1) links.push(new Link(await newClient(), 'ws://127.0.0.1:1/', { document: false, WebSocket: socketsTo(server), retry: 5, mostRetry: 10, mostPause: 10 }));
  const [link, other] = links, { client } = link;
  for (const it of links) await it.ready;
  const page = client.createLast('page', ROOT), x = client.createLast('text', page), y = client.createLast('text', page);
  client.set(x, 'text', 'X');
  client.set(y, 'text', 'Y');
  for (const it of links) await it.settled();
  await heard(other, link.client.version);
  return { server, link, other, client, page, x, y, end: () => { for (const it of links) it.close(); } };
}

// Waits until a link has heard of this version.
async function heard(link, version) { for (let k = 0; k < 400 && link.client.version < version; k += 1) { link.wake(); await turn(); } }

// Counts how often each component was rendered.
class Counts extends Map { add(name) { this.set(name, (this.get(name) ?? 0) + 1); } take() { const all = Object.fromEntries(this); this.clear(); return all; } }

function notes(counts) {
  const Note = memo(({ id }) => { counts.add(id); return h('p', null, useObject(id)?.properties.text ?? '-'); });
  const Page = ({ id }) => { counts.add('page'); return useChildren(id).map((it) => h(Note, { key: it, id: it })); };
  return { Note, Page };
}

async function mount(link, element, isStrict = false) {
  const place = document.body.appendChild(document.createElement('div')), root = createRoot(place), tree = (it) => h(isStrict ? StrictMode : React.Fragment, null, h(DocumentProvider, { link }, it));
  await act(async () => root.render(tree(element)));
  return { text: () => place.innerHTML, render: (it) => act(async () => root.render(tree(it))), unmount: async () => { await act(async () => root.unmount()); place.remove(); } };
}

test('on a server that renders, the hooks return what there is', async () => {
  const { link, page, end } = await furnished(), { Page } = notes(new Counts());
  assert.equal(renderToString(h(DocumentProvider, { link }, h(Page, { id: page }))), '<p>X</p><p>Y</p>');
  assert.equal(link.client.signals.size, 0);
  end();
});

test('a component renders again only if what it shows has changed', async () => {
  const { server, link, other, client, page, x, y, end } = await furnished(), counts = new Counts(), { Page } = notes(counts), view = await mount(link, h(Page, { id: page }));
  assert.equal(view.text(), '<p>X</p><p>Y</p>');
  assert.deepEqual(counts.take(), { page: 1, [x]: 1, [y]: 1 });
  await act(async () => client.set(x, 'text', 'mine'));
  assert.equal(view.text(), '<p>mine</p><p>Y</p>');
  assert.deepEqual(counts.take(), { [x]: 1 });
  await act(async () => { await link.settled(); });
  assert.deepEqual(counts.take(), {}, 'the entry of an own edit changes nothing');
  await act(async () => { other.client.set(y, 'text', 'theirs'); await other.settled(); await heard(link, other.client.version); });
  assert.equal(view.text(), '<p>mine</p><p>theirs</p>');
  assert.deepEqual(counts.take(), { [y]: 1 });
  await act(async () => client.set(page, 'name', 'Plan'));
  assert.deepEqual(counts.take(), {}, 'no component shows the name of the page');
  let z;
  await act(async () => { z = client.createLast('text', page); client.set(z, 'text', 'Z'); client.delete(x); });
  assert.equal(view.text(), '<p>theirs</p><p>Z</p>');
  assert.deepEqual(counts.take(), { page: 1, [z]: 1 });
  await act(async () => { await link.settled(); other.client.createLast('frame', page); await other.settled(); server.checkpoint(); await heard(link, other.client.version); });
  assert.deepEqual(Object.keys(counts.take()), ['page', client.children(page).at(-1)], 'no note that was there renders again');
  await view.unmount();
  assert.equal(client.signals.size, 0);
  end();
});

test('offline and back, each edit is shown at once', async () => {
  const { server, link, client, page, x, end } = await furnished(), { Page } = notes(new Counts()), states = [];
  const State = () => { const { state, unsent, offline } = useConnection(); states.push(`${state} ${unsent}`); return h('b', null, offline ? 'away' : 'here'); };
  const view = await mount(link, [h(Page, { key: 1, id: page }), h(State, { key: 2 })]);
  assert.equal(view.text(), '<p>X</p><p>Y</p><b>here</b>');
  await act(async () => { link.offline = true; });
  await act(async () => client.set(x, 'text', 'away'));
  assert.equal(view.text(), '<p>away</p><p>Y</p><b>away</b>');
  assert.equal(states.at(-1), 'offline 1');
  assert(!server.text().includes('away'));
  await act(async () => { link.offline = false; await link.settled(); await turn(); });
  assert.equal(view.text(), '<p>away</p><p>Y</p><b>here</b>');
  assert.equal(states.at(-1), 'online 0');
  assert(server.text().includes('away'));
  const rendered = states.length;
  await act(async () => { await turn(40); });
  assert.equal(states.length, rendered, 'asks that bring nothing render nothing');
  await view.unmount();
  end();
});

test('what the server refuses is shown as the server has it', async () => {
  const { link, other, client, page, x, end } = await furnished(), { Page } = notes(new Counts()), view = await mount(link, h(Page, { id: page }));
  await act(async () => { link.offline = true; });
  await act(async () => client.set(x, 'text', 'in vain'));
  assert.equal(view.text(), '<p>in vain</p><p>Y</p>');
  other.client.delete(x);
  await other.settled();
  await act(async () => { link.offline = false; await link.settled(); await turn(); });
  assert.equal(view.text(), '<p>Y</p>');
  await view.unmount();
  end();
});

test('in StrictMode, which mounts twice, and after that nothing is subscribed', async () => {
  const { link, client, page, x, end } = await furnished(), { Page } = notes(new Counts()), Whole = () => useDocument().size, State = () => useConnection().state;
  const before = link.on, open = new Set();
  link.on = (name, listener) => { const stop = before.call(link, name, listener), it = {}; open.add(it); return () => { open.delete(it); stop(); }; };
  const view = await mount(link, [h(Page, { key: 1, id: page }), h(Whole, { key: 2 }), h(State, { key: 3 })], true);
  assert.equal(client.signals.size, 4, 'the children, two notes, the document');
  assert.equal(open.size, 2);
  await act(async () => client.set(x, 'text', 'strict'));
  assert.equal(view.text(), '<p>strict</p><p>Y</p>4online');
  await view.unmount();
  assert.deepEqual([client.signals.size, open.size], [0, 0]);
  end();
});

test('another id is subscribed to in place of the former one', async () => {
  const { link, client, x, y, end } = await furnished(), counts = new Counts(), { Note } = notes(counts), view = await mount(link, h(Note, { id: x }));
  await view.render(h(Note, { id: y }));
  assert.equal(view.text(), '<p>Y</p>');
  counts.take();
  await act(async () => client.set(x, 'text', 'not shown'));
  assert.deepEqual(counts.take(), {});
  await act(async () => client.set(y, 'text', 'shown'));
  assert.equal(view.text(), '<p>shown</p>');
  await view.render(h(Note, { id: null }));
  assert.equal(view.text(), '<p>-</p>');
  assert.equal(client.signals.size, 1);
  await view.unmount();
  end();
});

test('a change between the render and the subscription is seen', async () => {
  const { link, client, page, x, end } = await furnished(), { Page } = notes(new Counts());
  const Editor = () => { useLayoutEffect(() => { client.set(x, 'text', 'early'); client.createLast('text', page); }, []); return null; };
  const view = await mount(link, [h(Page, { key: 1, id: page }), h(Editor, { key: 2 })]);
  assert.equal(view.text(), '<p>early</p><p>Y</p><p>-</p>');
  await view.unmount();
  end();
});

test('a text field keeps what is typed', async () => {
  const { link, client, x, end } = await furnished(), seen = [];
  const Field = () => { const it = useClient(); return h('input', { value: useObject(x).properties.text, onChange: ({ target }) => it.set(x, 'text', target.value) }); };
  const view = await mount(link, h(Field)), input = document.querySelector('input'), { set } = Object.getOwnPropertyDescriptor(window.HTMLInputElement.prototype, 'value');
  globalThis.IS_REACT_ACT_ENVIRONMENT = false;              // the events come as in a browser
  for (const value of ['Xa', 'Xab']) {
    set.call(input, value);
    input.dispatchEvent(new window.Event('input', { bubbles: true }));
    seen.push(input.value);                                 // React has put the value of the last render back, if there was no other
  }
  globalThis.IS_REACT_ACT_ENVIRONMENT = true;
  assert.deepEqual([seen, client.object(x).properties.text], [['Xa', 'Xab'], 'Xab']);
  await view.unmount();
  end();
});

test('the whole document is a Map that stays as it is', async () => {
  const { link, client, page, x, end } = await furnished(), maps = [];
  const Whole = () => { maps.push(useDocument()); const [, again] = useState(0); return h('button', { onClick: () => again((n) => n + 1) }); };
  const view = await mount(link, h(Whole));
  await act(async () => document.querySelector('button').dispatchEvent(new window.MouseEvent('click', { bubbles: true })));
  assert(maps.length > 1 && new Set(maps).size === 1, 'a render for another reason has the same one');
  await act(async () => { for (let k = 0; k < 20; k += 1) client.createLast('text', page); });
  assert.deepEqual([maps[0].size, maps.at(-1).size, new Set(maps).size], [4, 24, 2], 'the edits of a turn are one change');
  await act(async () => client.delete(x));
  assert(!maps.at(-1).has(x) && maps[0].has(x));
  await view.unmount();
  end();
});

test('who is there is a Map that stays as it is until somebody shows something else', async () => {
  const server = new FakeServer({ isLive: true }), WebSocket = socketsTo(server), links = [];
  for (let k = 0; k < 3; k += 1) links.push(new Link(await newClient(), 'ws://127.0.0.1:1/', { document: false, WebSocket, retry: 5 }));
  const [link, ...others] = links, maps = [], told = () => act(async () => { await turn(60); WebSocket.tell(); await turn(); });
  for (const it of links) await it.ready;
  const Here = () => { maps.push(usePresence()); return h('p', null, [...maps.at(-1)].map(([id, value]) => `${id} ${value.name}`).join()); };
  const before = link.on, open = new Set();
  link.on = (name, listener) => { const stop = before.call(link, name, listener), it = {}; open.add(it); return () => { open.delete(it); stop(); }; };
  const view = await mount(link, h(Here), true), { length } = maps;
  assert.deepEqual([view.text(), open.size], ['<p></p>', 1]);
  others[0].presence.set({ name: 'Ann' });
  link.presence.set({ name: 'me' });
  await told();
  assert.equal(view.text(), '<p>2 Ann</p>');
  assert.deepEqual([new Set(maps).size, maps[length - 1].size], [2, 0]);
  others[1].presence.set({ name: 'Bob' });
  await told();
  assert.equal(view.text(), '<p>2 Ann,3 Bob</p>');
  others[0].presence.set(null);
  await told();
  assert.equal(view.text(), '<p>3 Bob</p>');
  const rendered = maps.length;
  others[0].client.set(ROOT, 'a', 1);
  await told();
  assert.equal(maps.length, rendered, 'an edit renders nothing');
  await act(async () => { link.offline = true; });
  assert.equal(view.text(), '<p></p>');
  await view.unmount();
  assert.equal(open.size, 0);
  for (const it of links) it.close();
});

test('editing needs no render; without a provider the sentence says what to do', async () => {
  const { link, client, x, end } = await furnished();
  let renders = 0, given = null;
  const Editor = () => { renders += 1; given = [useLink(), useClient()]; return null; };
  const view = await mount(link, h(Editor));
  await act(async () => client.set(x, 'text', 'other'));
  assert.deepEqual([renders, given[0] === link, given[1] === client], [1, true, true]);
  await view.unmount();
  assert.throws(() => renderToString(h(Editor)), /no DocumentProvider is above this component/);
  end();
});

test("README's page", { skip: folderOf('typescript') ? false : 'there is no typescript' }, async () => {
  const { server, other, end } = await furnished(), library = join(room, 'node_modules/lugcurrant'), place = document.body.appendChild(document.createElement('div'));
  place.id = 'root';
  globalThis.made = { client: await newClient(), WebSocket: socketsTo(server) };
  mkdirSync(library);
  writeFileSync(join(library, 'package.json'), JSON.stringify({ type: 'module', main: 'index.js' }));
  writeFileSync(join(library, 'index.js'), `import { Link as Real } from '${new URL('../../js/src/link.js', import.meta.url)}';
export const ROOT = '0:0', Client = { load: async () => made.client };
export class Link extends Real { constructor(client, url) { super(client, url, { document: false, WebSocket: made.WebSocket }); made.link = this; } }`);
  const [, code] = /\n\n((?:    .*\n|\n)*    import \{ createRoot \}(?:.*\n)*?)\n## /.exec(readFileSync(join(package_, 'README.md'), 'utf8'));
  const options = { compilerOptions: { jsx: 'react-jsx', module: 'esnext', target: 'es2022' } };
  writeFileSync(join(room, 'page.mjs'), require('typescript').transpileModule(code.replace(/^    /gm, ''), options).outputText);
  await act(async () => { await import(pathToFileURL(join(room, 'page.mjs'))); });
  assert.deepEqual([...place.querySelectorAll('input')].map(({ value }) => value), ['X', 'Y']);
  await act(async () => place.querySelector('button').dispatchEvent(new window.MouseEvent('click', { bubbles: true })));
  assert.equal(place.querySelectorAll('input').length, 3);
  await act(async () => { const set = Object.getOwnPropertyDescriptor(window.HTMLInputElement.prototype, 'value').set, [input] = place.querySelectorAll('input'); set.call(input, 'typed'); input.dispatchEvent(new window.Event('input', { bubbles: true })); });
  await act(async () => { await made.link.settled(); await heard(other, made.link.client.version); });
  assert.match(server.text(), /"typed"/);
  assert.equal(other.client.text(), made.client.text());
  made.link.close();
  end();
});
