#!/usr/bin/env node
// The package in a bundle of esbuild's, in Chromium:  node --experimental-websocket bundled.mjs LUGCURRANT
// It is installed from the packed archive. A page bundled as the README says is served by `lugcurrant serve --page`, one with the module under a
// hashed name by another origin, and one finds the module by itself where it is copied beside the folder of the bundle.
import assert from 'node:assert';
import { execFileSync, spawnSync } from 'node:child_process';
import { copyFileSync, existsSync, mkdirSync, mkdtempSync, readFileSync, readdirSync, rmSync, writeFileSync } from 'node:fs';
import { createServer } from 'node:http';
import { tmpdir } from 'node:os';
import { extname, join } from 'node:path';
import { fileURLToPath } from 'node:url';
import { gzipSync } from 'node:zlib';
import { Browser, until } from '../../../tests/web/devtools.mjs';
import { Server, endAfter } from '../../../tests/web/server.mjs';

const TYPES = { '.html': 'text/html', '.js': 'text/javascript', '.wasm': 'application/wasm' };
const LOAD_BY_IMPORT = `import wasm from 'lugcurrant/canvas.wasm';
const load = () => Client.load(fetch(new URL(wasm, import.meta.url)));`;
const LOAD_BY_DEFAULT = 'const load = () => Client.load();';

for (const program of ['esbuild', 'chromium']) {
  if (spawnSync(program, ['--version']).error) { console.log(`skipped: there is no ${program} (Debian's package ${program} has it)`); process.exit(0); }
}
endAfter(200);
const room = mkdtempSync(join(tmpdir(), 'bundled-')), packed = join(room, 'lugcurrant.tgz'), installed = join(room, 'node_modules/lugcurrant');
process.on('exit', () => rmSync(room, { recursive: true, force: true }));
const package_ = fileURLToPath(new URL('..', import.meta.url));
execFileSync(join(package_, 'build'), [join(package_, 'canvas.wasm'), packed]);
mkdirSync(installed, { recursive: true });
execFileSync('tar', ['-xzf', packed, '-C', installed, '--strip-components', '1']);

// Bundles a script that loads the client in this way, and returns the folder of its page.
function bundle(name, loading, words) {
  const entry = join(room, `${name}.js`), site = join(room, name);
  writeFileSync(entry, `import { Client, Link, ROOT } from 'lugcurrant';
${loading}
window.edit = async (url, name, options) => {
  const client = await load(), link = new Link(client, url, options);
  await link.ready;
  client.set(client.createLast('page', ROOT), 'name', name);
  await link.settled();
  return { state: link.state, text: client.text() };
};
`);
  execFileSync('esbuild', [entry, '--bundle', '--format=esm', '--log-level=error', ...words(site)], { cwd: room });
  return site;
}

function index(site, script) { writeFileSync(join(site, 'index.html'), `<!doctype html><meta charset="utf-8"><script type="module" src="${script}"></script>`); }

// Serves the files of a folder on a free port.
async function serve(folder) {
  const server = createServer((asked, answer) => {
    const file = join(folder, asked.url === '/' ? 'index.html' : asked.url), isThere = existsSync(file);
    answer.writeHead(isThere ? 200 : 404, { 'content-type': TYPES[extname(file)] ?? 'text/plain' });
    answer.end(isThere ? readFileSync(file) : 'there is no such file');
  });
  await new Promise((resolve) => { server.listen(0, '127.0.0.1', resolve); });
  return { origin: `http://127.0.0.1:${server.address().port}`, close: () => server.close() };
}

async function open(browser, url) {
  const window = await browser.open(url);
  assert(await until(() => window.js("typeof window.edit === 'function'")), `the bundle runs: ${window.faults}`);
  return window;
}

const edit = (window, ...words) => window.js(`window.edit(${words.map((word) => JSON.stringify(word)).join(', ')})`);

const own = bundle('own', LOAD_BY_IMPORT, (site) => ['--loader:.wasm=file', '--asset-names=[name]', `--outfile=${join(site, 'page.js')}`]);
index(own, 'page.js');
const hashed = bundle('hashed', LOAD_BY_IMPORT, (site) => ['--loader:.wasm=file', '--minify', `--outdir=${site}`]);
index(hashed, 'hashed.js');
assert(readdirSync(hashed).some((name) => /^canvas-\w+\.wasm$/.test(name)));
const beside = bundle('beside', LOAD_BY_DEFAULT, (site) => [`--outfile=${join(site, 'js/app.js')}`]);
index(beside, 'js/app.js');

const sites = { hashed: await serve(hashed), beside: await serve(beside) };
const server = await Server.start(process.argv[2], { page: own, words: Object.values(sites).flatMap(({ origin }) => ['--origin', origin]) });
const browser = await Browser.start(), document = (await (await fetch(`http://127.0.0.1:${server.port}/document`)).text()).trim();

// The page that the server itself serves.
const first = await open(browser, `http://127.0.0.1:${server.port}/`), sent = await edit(first, server.url, 'Own');
assert.equal(sent.state, 'online');
assert.match(sent.text, /"Own"/);
assert.equal(server.show().tree, sent.text);

// A page of another origin, which sees what the first one made.
const second = await open(browser, sites.hashed.origin), heard = await edit(second, server.url, 'Hashed', { document });
assert.match(heard.text, /"Own"[^]*"Hashed"/);
assert.equal(server.show().tree, heard.text);

// esbuild leaves `new URL('../canvas.wasm', import.meta.url)` as it is: an error says which file is missing there. Once it is copied, the same page
// loads it.
const third = await open(browser, sites.beside.origin);
await assert.rejects(edit(third, server.url, 'Beside', { document }), new RegExp(`the module can not be had: ${sites.beside.origin}/canvas.wasm is answered 404`));
copyFileSync(join(installed, 'canvas.wasm'), join(beside, 'canvas.wasm'));
assert.match((await edit(third, server.url, 'Beside', { document })).text, /"Beside"/);
assert.match(server.show().tree, /"Own"[^]*"Hashed"[^]*"Beside"/);
assert.deepEqual(first.faults, []);
assert.deepEqual(second.faults.filter((fault) => !fault.includes('CORS')), [], 'another origin can not read /document, and that is all');

const sizes = [['bundle', join(own, 'page.js')], ['minified', join(hashed, 'hashed.js')], ['module', join(own, 'canvas.wasm')]];
for (const [what, file] of sizes) { const bytes = readFileSync(file); console.log(`${what}: ${bytes.length} bytes, ${gzipSync(bytes).length} by gzip`); }
await browser.end();
await server.end();
for (const site of Object.values(sites)) site.close();
console.log('three bundles, each as it should be');
process.exit(0);
