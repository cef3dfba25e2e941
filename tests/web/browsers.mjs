#!/usr/bin/env node
// The whiteboard of examples/whiteboard in Chromium or in Firefox:
//     node --experimental-websocket browsers.mjs LUGCURRANT [--browser chromium|firefox]
// Two windows join, draw, drag and walk through the list by keys. One is loaded again with an edit that the server doesn't have, and once more after
// what it kept was changed. In the end another program edits under its id.
import assert from 'node:assert';
import { fileURLToPath } from 'node:url';
import { parseArgs } from 'node:util';
import { until } from './devtools.mjs';
import { startBrowser } from './firefox.mjs';
import { Server, endAfter } from './server.mjs';

endAfter(900);
const { values: words, positionals: [program] } = parseArgs({ options: { browser: { type: 'string' } }, allowPositionals: true });
const page = fileURLToPath(new URL('../../examples/whiteboard', import.meta.url));
const server = await Server.start(program, { page }), browser = await startBrowser(words.browser);
let steps = 0;
const passed = (what) => { steps += 1; console.log(`ok   ${what}`); };
const becomes = async (what, isSo, seconds = 20) => { assert(await until(isSo, seconds), what); passed(what); };

const state = (window) => window.js('window.lugcurrant?.state()');
const isOnline = async (window) => { const told = await state(window); return told?.state === 'online' && told.id > 0; };
const objects = (window) => window.js('[...window.lugcurrant.objects.values()]');
const named = async (window, name) => (await objects(window)).find(({ properties }) => properties.name === name);
const object = async (window, id) => (await objects(window)).find((it) => it.id === id);
const chosenOf = (window) => window.js("document.querySelector('#list li[aria-selected=true]')?.dataset.id ?? null");
const focusedRow = (window) => window.js("document.activeElement.closest?.('#list li')?.dataset.id ?? null");
const drawnAgain = (window) => window.js('new Promise((done) => requestAnimationFrame(() => requestAnimationFrame(() => setTimeout(() => done(1)))))');
const same = (a, b) => JSON.stringify(a) === JSON.stringify(b);
const isSettled = async (...windows) => {
  const states = await Promise.all(windows.map(state)), texts = await Promise.all(windows.map((window) => window.js('window.lugcurrant.text()')));
  return states.every(({ waiting, version }) => waiting === 0 && version === states[0].version) && texts.every((text) => text === texts[0]);
};

async function join() {
  const window = await browser.open(`http://127.0.0.1:${server.port}/`);
  await becomes('the module is loaded, and the link joins', () => isOnline(window), 60);
  return window;
}

// Draws with a tool, and returns the object when it is chosen.
async function draw(window, tool, [x, y], [width, height]) {
  const [left, top] = await window.js("(() => { const box = document.getElementById('stage').getBoundingClientRect(); return [box.x, box.y]; })()"), before = await chosenOf(window);
  await window.click(`[data-tool=${tool}]`);
  await window.drag([left + x, top + y], [left + x + width, top + y + height]);
  assert(await until(async () => ![null, before].includes(await chosenOf(window))), `the tool ${tool} draws`);
  const id = await chosenOf(window);
  assert(await until(async () => (await object(window, id))?.properties.size !== undefined));
  return object(window, id);
}

async function goOffline(window) {
  await window.click('.switch');
  await becomes('the window is offline', async () => (await state(window)).state === 'offline');
}

// Runs in a page: cuts the kept edits that have this word. Returns their number.
async function cutInPage(word) {
  const answered = (request) => new Promise((resolve, reject) => { request.onsuccess = () => resolve(request.result); request.onerror = () => reject(request.error); });
  const base = await answered(indexedDB.open('lugcurrant-2')), transaction = base.transaction('parts', 'readwrite'), store = transaction.objectStore('parts');
  const done = new Promise((resolve) => { transaction.oncomplete = resolve; });
  const [keys, values] = await Promise.all([answered(store.getAllKeys()), answered(store.getAll())]), hasWord = (part) => new TextDecoder().decode(part).includes(word);
  let found = 0;
  values.forEach((parts, k) => {
    if (!Array.isArray(parts) || !parts.some(hasWord)) return;
    found += parts.filter(hasWord).length;
    store.put(parts.map((part) => (hasWord(part) ? part.slice(0, -4) : part)), keys[k]);
  });
  await done;
  base.close();
  return found;
}

// Sends so many sets of a name under the id of a window, as another program with the same saved client. The window must be offline.
async function editAsTwin(window, object, count) {
  const { id, acknowledged } = await state(window), socket = new WebSocket(server.url), at = `[${object.replace(':', ',')}]`;
  let judged = 0;
  socket.onmessage = async ({ data }) => { assert.equal(await data.text(), '["idle"]'); judged += 1; };
  await new Promise((resolve, reject) => { Object.assign(socket, { onopen: resolve, onerror: reject }); });
  for (let k = 1; k <= count; k += 1) socket.send(Buffer.from(`["edit",${id},${Number(acknowledged) + k},["set",${at},"name","twin ${k}"]]`));
  assert(await until(() => judged === count));
  socket.close();
}

const left = await join();
const right = await join();
assert.notEqual((await state(left)).id, (await state(right)).id);

// Each window sees what the other one does.
await left.front();
const box = await draw(left, 'rect', [120, 90], [140, 80]);
assert.deepEqual([box.kind, box.properties.at, box.properties.size], ['shape', [120, 90], [140, 80]]);
await becomes('the second window sees what the first one draws', async () => same((await object(right, box.id))?.properties, (await object(left, box.id)).properties));
await right.front();
const round = await draw(right, 'ellipse', [320, 200], [90, 60]);
assert.deepEqual([round.properties.form, round.properties.size], ['ellipse', [90, 60]]);
await becomes('the first window sees what the second one draws', async () => same((await object(left, round.id))?.properties, (await object(right, round.id)).properties));

// A drag.
await left.front();
const from = await left.middle(`#objects [data-id="${box.id}"] .body`);
await left.drag(from, [from[0] + 75, from[1] + 45]);
const isMoved = async (window) => same((await object(window, box.id))?.properties.at, [195, 135]);
await becomes('a drag moves a rectangle', () => isMoved(left));
await becomes('the other window sees it where it was dropped', () => isMoved(right));

// Fields.
await left.write('#name', 'Café');
await becomes('a name is written in the panel', async () => (await named(right, 'Café'))?.id === box.id);

// The list by keys: the front object is first, so the arrow down goes from the ellipse to the rectangle.
await left.js("document.getElementById('newpage').focus()");
for (let k = 0; k < 6 && await focusedRow(left) === null; k += 1) { await left.key('Tab'); await drawnAgain(left); }
assert.equal(await focusedRow(left), box.id);
passed('Tab reaches the chosen row');
await left.key('ArrowUp');
await drawnAgain(left);
assert.deepEqual([await focusedRow(left), await chosenOf(left)], [round.id, round.id]);
await left.key('ArrowDown');
await drawnAgain(left);
assert.deepEqual([await focusedRow(left), await chosenOf(left)], [box.id, box.id]);
passed('the arrows go from row to row and choose');
await left.key(']');
await becomes('] brings the chosen object to the front', () => left.js(`document.querySelector('#list li').dataset.id === '${box.id}'`));
await drawnAgain(left);
assert.equal(await focusedRow(left), box.id);
passed('its row keeps the focus');
await left.key('Enter');
assert.equal(await left.js('document.activeElement.id'), 'name');
passed('Enter goes to the name');

// What the server doesn't have is kept: the window is loaded again and is the same client, with its edit.
const locks = await left.js('navigator.locks.query().then(({ held }) => held.map(({ name }) => name))');
assert.equal(locks.filter((name) => /^lugcurrant\/[0-9a-f]{32}\/[01]$/.test(name)).length, 2, `each window has its lock: ${locks}`);
passed('each window has a lock of its own');
const { id } = await state(left);
await goOffline(left);
await left.js(`window.lugcurrant.send(['set', '${box.id}', 'name', 'kept'])`);
await becomes('its edit waits', async () => (await state(left)).unsent === 1);
assert.equal((await object(right, box.id)).properties.name, 'Café');
await left.reload();
await becomes('it is loaded again, and joins', () => isOnline(left), 60);
assert.equal((await state(left)).id, id);
await becomes('the other window hears the edit that was kept', async () => (await named(right, 'kept'))?.id === box.id);
await becomes('both windows show the same', () => isSettled(left, right));
const { tree } = server.show();
assert.equal(tree, await left.js('window.lugcurrant.text()'));
passed('so does the folder');

// What was kept was changed: the window is the same client with what came before that, and says so.
await goOffline(left);
for (const name of ['before', 'changed']) await left.js(`window.lugcurrant.send(['set', '${box.id}', 'name', '${name}'])`);
await becomes('both edits wait', async () => (await state(left)).unsent === 2);
await becomes('the second one is kept, and is cut there', () => left.js(`(${cutInPage})('changed')`));
await left.reload();
await becomes('the window is loaded again, and joins', () => isOnline(left), 60);
assert.equal((await state(left)).id, id);
await becomes('it says that what it kept was changed', () => left.js("document.getElementById('toast').textContent.includes('had kept was damaged')"));
await becomes('the other window hears the first one', async () => (await named(right, 'before'))?.id === box.id);
await becomes('both windows show that', () => isSettled(left, right));
assert.equal((await object(left, box.id)).properties.name, 'before');

// Another program has edited under the window's id, and a checkpoint hides it: no client can know whether the window's own edit was judged.
await goOffline(left);
await left.js(`window.lugcurrant.send(['set', '${box.id}', 'name', 'mine'])`);
await editAsTwin(left, box.id, 700);                  // the server keeps the last 256 entries before a checkpoint
await left.click('.switch');
await becomes('the window says what may be lost', () => left.js("document.getElementById('toast').textContent === 'Started over: 0 changes were made again, 1 may be lost.'"));
await becomes('it has another id', async () => ![null, id].includes((await state(left)).id));
await becomes('both windows show what the other program did', async () => await isSettled(left, right) && Boolean(await named(left, 'twin 700')));
assert.equal(server.show().tree, await left.js('window.lugcurrant.text()'));

assert.deepEqual([left.faults, right.faults], [[], []]);
await right.close();
await browser.end();
await server.end();
console.log(`${steps} steps, each as it should be`);
process.exit(0);
