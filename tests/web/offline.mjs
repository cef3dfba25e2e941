#!/usr/bin/env node
// The whiteboard without its server, in Chromium: its service worker opens the page, with its document and what waits; and a new version of the page is
// what is opened next:
//     node --experimental-websocket offline.mjs LUGCURRANT [PICTURES]
import assert from 'node:assert';
import { appendFileSync, cpSync, mkdtempSync, readFileSync, rmSync, writeFileSync } from 'node:fs';
import { createServer } from 'node:http';
import { tmpdir } from 'node:os';
import { extname, join } from 'node:path';
import { sleep, until } from './devtools.mjs';
import { becomes, colour, passed, run } from './whiteboard.mjs';

const TYPES = { '.html': 'text/html', '.js': 'text/javascript', '.css': 'text/css', '.svg': 'image/svg+xml', '.wasm': 'application/wasm' };
const FILES = ['index.html', 'page.js', 'page.css', 'worker.js', 'lugcurrant.js', 'canvas.wasm', 'favicon.svg'];

// The page's folder with another version of it, which says so.
function versionOf(folder, name) {
  const made = mkdtempSync(join(tmpdir(), 'lugcurrant-page-')), file = join(made, 'index.html');
  for (const it of FILES) cpSync(join(folder, it), join(made, it));
  writeFileSync(file, readFileSync(file, 'utf8').replace(/\?[0-9a-f]{12}"/g, `?${name}"`));
  appendFileSync(join(made, 'page.js'), `\nwindow.madeAs = '${name}';\n`);
  return made;
}

// Serves a folder at a port as a slow or a broken server would: `delays` in milliseconds by names, and names that it lacks.
async function serve(folder, port, { delays = {}, lacks = [] } = {}) {
  const server = createServer(async ({ url }, answer) => {
    const [path] = url.split('?'), name = path === '/' ? 'index.html' : path.slice(1);
    await sleep(delays[name] ?? 0);
    if (!FILES.includes(name) || lacks.includes(name)) return answer.writeHead(404).end();
    return answer.writeHead(200, { 'content-type': TYPES[extname(name)], 'cache-control': 'no-store' }).end(readFileSync(join(folder, name)));
  });
  await new Promise((resolve) => server.listen(port, '127.0.0.1', resolve));
  return async () => { server.closeAllConnections(); await new Promise((resolve) => server.close(resolve)); };
}

await run(async ({ open, server, pictures }) => {
  const board = await open(), { window } = board;
  const version = () => board.js("window.madeAs ?? 'first'");
  // Loads the page again, and returns the milliseconds until it shows so many objects.
  const load = async (objects) => {
    await window.reload();
    const begun = Date.now();
    assert(await until(() => board.js(`window.lugcurrant?.objects.size >= ${objects}`), 90), `${await board.js('document.body.innerText')} ${window.faults}`);
    return Date.now() - begun;
  };
  // Each file that a load fetched with a version, and those versions.
  const versions = () => board.js("[...new Set(performance.getEntriesByType('resource').map(({ name }) => /\\/(?:page|worker|favicon)\\.\\w+\\?(\\w+)$/.exec(name)?.[1]).filter(Boolean))]");
  // The versions that are kept whole: that of index.html, and how many files of it.
  const kept = () => board.js(`(async () => {
    const names = await caches.keys(), page = await (await caches.open(names.find((it) => !it.includes('?')))).match('./'), [, version] = /page\\.js\\?(\\w+)/.exec(await page.text());
    return [version, (await (await caches.open(names.find((it) => it.endsWith('?' + version)))).keys()).length];
  })()`);

  const page = await board.page('Offline'), note = await board.make('shape', page, [60, 60, 160, 90], { form: 'rect', fill: colour('7fb09a') });
  await becomes('the page is kept', async () => await board.js('Boolean(navigator.serviceWorker.controller)') && (await kept())[1] === 6);
  await becomes('the server has all', async () => (await board.state()).unsent === 0);
  const other = await open();
  await other.send(['set', note, 'name', 'Here']);
  await becomes('another window names it', async () => (await board.object(note)).properties.name === 'Here');
  await other.window.close();
  await sleep(3000);
  const { id } = await board.state();

  // Without the server.
  await server.kill();
  await load(3);
  await becomes('without the server the page opens, with its document', async () => (await board.object(note))?.properties.name === 'Here' && board.js("document.querySelector('#state b').textContent === 'No connection'"));
  assert.equal((await board.state()).id, id);
  await window.front();
  const far = await board.make('shape', page, [260, 60, 160, 90], { name: 'Made away', form: 'ellipse', fill: colour('e08e6d') });
  await becomes('one draws there, and that waits', async () => (await board.state()).unsent === 6, async () => JSON.stringify(await board.state()));
  if (pictures) await window.picture(join(pictures, 'no-server.png'));
  await sleep(500);
  await load(4);
  assert.deepEqual([(await board.object(far)).properties.name, (await board.state()).id, (await board.state()).unsent], ['Made away', id, 6]);
  passed('it is there when the page is opened again, still without the server');
  await server.run(server.port);
  await becomes('when the server is back it gets all', async () => { const { state, unsent } = await board.state(); return state === 'online' && unsent === 0; });
  assert.equal(server.show().tree, await board.text());
  passed('and has what the page shows');

  // A new version comes.
  const { port, page: first } = server, second = versionOf(first, 'second0000002'), third = versionOf(first, 'third00000003'), fourth = versionOf(first, 'fourth0000004');
  await server.kill();
  server.page = second;
  await server.run(port);
  await load(4);
  assert.equal(await version(), 'second0000002');
  passed('a new version is what the next load has');
  assert.deepEqual(await versions(), ['second0000002']);
  passed('with all its files');
  await becomes('it is kept', async () => (await kept()).join() === 'second0000002,6', kept);
  await server.kill();
  await load(4);
  assert.equal(await version(), 'second0000002');
  passed('and is what opens without the server');

  // One that comes late.
  let end = await serve(third, port, { delays: { 'index.html': 6000 } });
  const took = await load(4);
  assert.equal(await version(), 'second0000002');
  passed(`a server that answers too late is not waited for: opened after ${(took / 1000).toFixed(1)} seconds`);
  await becomes('what comes late is kept', async () => (await kept()).join() === 'third00000003,6', kept);
  await load(4);
  assert.equal(await version(), 'third00000003');
  assert.deepEqual(await versions(), ['third00000003']);
  passed('and is what the next load has: no page is old for longer than one');
  await end();

  // One of which a file is missing isn't kept; nor is a server's error shown.
  end = await serve(fourth, port, { lacks: ['canvas.wasm'] });
  await window.reload();
  await becomes('of a version that lacks a file the page says that it does not work', () => board.js("window.madeAs === 'fourth0000004' && document.querySelector('#state b').textContent === 'Stopped'"), () => board.js('document.body.innerText'));
  await sleep(1000);
  await end();
  await load(4);
  assert.deepEqual([await version(), await versions()], ['third00000003', ['third00000003']]);
  passed('without a server the last whole version opens');
  const failing = createServer((request, answer) => answer.writeHead(503).end('busy'));
  await new Promise((resolve) => failing.listen(port, '127.0.0.1', resolve));
  await load(4);
  assert.equal(await version(), 'third00000003');
  passed('nor is it lost while the server answers 503');
  failing.closeAllConnections();
  await new Promise((resolve) => failing.close(resolve));

  // Back as it was.
  server.page = first;
  await server.run(port);
  await load(4);
  assert.equal(await version(), 'first');
  await becomes('an older version comes back as well, and joins', async () => (await board.state()).state === 'online');
  assert((await board.js('caches.keys()')).length <= 3);
  passed('no more than two versions are kept');
  assert.equal((await board.state()).id, id);
  const expected = /module can not be had|failed: Error during WebSocket handshake|Blocked attempt to show/;             // by the servers made here, and by reloads
  assert.deepEqual(window.faults.filter((it) => !expected.test(it)), []);
  for (const folder of [second, third, fourth]) rmSync(folder, { recursive: true, force: true });
});
