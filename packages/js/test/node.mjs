#!/usr/bin/env node
// Where the package finds a WebSocket in node:  node node.mjs LUGCURRANT [NODE]     NODE is another node to be tried, this one if left out
// A program with the package in its node_modules joins a server by the package `ws` of node_modules or NODE_PATH, by node's own WebSocket, with or
// without the option for it, and by the class that it passes; if there is none of these, it ends with the sentence that names the ways. A program
// whose module is missing or cut loads it once it is whole.
import assert from 'node:assert';
import { execFileSync, spawnSync } from 'node:child_process';
import { cpSync, existsSync, mkdirSync, mkdtempSync, rmSync, writeFileSync } from 'node:fs';
import { tmpdir } from 'node:os';
import { dirname, join } from 'node:path';
import { fileURLToPath } from 'node:url';
import { Server, endAfter } from '../../../tests/web/server.mjs';

const WS = '/usr/share/nodejs/ws';                     // Debian's package node-ws
const OPTION = '--experimental-websocket';
const WAYS = /node has no WebSocket here: install the package `ws`, or pass `\{ WebSocket \}` to Link, or start node with --experimental-websocket/;
const PROGRAM = `
const options = process.argv[3] === 'pass' ? { WebSocket: (await import('./passed/wrapper.mjs')).WebSocket } : {};
const link = new Link(await Client.load(), process.argv[2], options);
await link.ready;
link.client.set(link.client.createLast('page', ROOT), 'name', process.argv[4]);
await link.settled();
link.close();
await link.done;
console.log('settled by', (options.WebSocket ?? await Link.findWebSocket()) === globalThis.WebSocket ? 'own' : 'ws');
`;

const LOADS_LATER = `
import { readFileSync, rmSync, writeFileSync } from 'node:fs';
import { Client } from 'lugcurrant';
const file = new URL('./node_modules/lugcurrant/canvas.wasm', import.meta.url), whole = readFileSync(file);
for (const spoil of [() => rmSync(file), () => writeFileSync(file, whole.subarray(0, 1000))]) {
  spoil();
  const fault = await Client.load().then(() => null, (given) => given);
  console.log(fault?.message ?? 'loaded');
}
writeFileSync(file, whole);
console.log((await Client.load()).text());
`;

endAfter(120);
const [program, node = process.execPath] = process.argv.slice(2), room = mkdtempSync(join(tmpdir(), 'node-')), package_ = fileURLToPath(new URL('..', import.meta.url));
process.on('exit', () => rmSync(room, { recursive: true, force: true }));
const server = await Server.start(program);
let tried = 0;

// Returns the folder of a program that has the package installed, and these other packages.
function install(name, ...others) {
  const folder = join(room, name), installed = join(folder, 'node_modules/lugcurrant');
  mkdirSync(installed, { recursive: true });
  for (const it of ['src', 'package.json', 'canvas.wasm']) cpSync(join(package_, it), join(installed, it), { recursive: true });
  for (const [from, to] of others) cpSync(from, join(folder, to), { recursive: true, dereference: true });
  writeFileSync(join(folder, 'program.mjs'), `import { Client, Link, ROOT } from 'lugcurrant';\n${PROGRAM}`);
  writeFileSync(join(folder, 'later.mjs'), LOADS_LATER);
  return folder;
}

function run(folder, { options = [], words = 'find', name = 'page', env = {} } = {}) {
  return spawnSync(node, [...options, 'program.mjs', server.url, words, name], { cwd: folder, env: { ...process.env, ...env }, encoding: 'utf8', timeout: 30000 });
}

// Checks that the program ends well, by this kind of WebSocket, and that its edit is in the server's folder.
function joins(by, folder, given = {}) {
  const name = `Page ${tried}`, { status, stdout, stderr } = run(folder, { ...given, name });
  assert.equal(status, 0, stderr);
  assert.match(stdout, new RegExp(`settled by ${by}`));
  assert(server.show().tree.includes(`"${name}"`));
  tried += 1;
}

const version = execFileSync(node, ['--version'], { encoding: 'utf8' }).trim();
const hasOwn = execFileSync(node, ['-p', 'typeof WebSocket'], { encoding: 'utf8' }).trim() === 'function';
const hasOption = hasOwn || spawnSync(node, [OPTION, '-p', '1']).status === 0;
const plain = install('plain'), hasWs = spawnSync(node, ['-e', "require('ws')"], { cwd: plain }).status === 0;

if (hasOwn || hasWs) joins(hasOwn ? 'own' : 'ws', plain);
else {
  const { status, stderr } = run(plain);
  assert.notEqual(status, 0);
  assert.match(stderr, WAYS);
  tried += 1;
}
if (hasOption) joins('own', plain, { options: [OPTION] });
else console.log(`skipped: ${version} has no ${OPTION}`);
if (existsSync(WS)) {
  joins(hasOwn ? 'own' : 'ws', install('ws', [WS, 'node_modules/ws']));
  joins(hasOwn ? 'own' : 'ws', plain, { env: { NODE_PATH: dirname(WS) } });
  joins('ws', install('passed', [WS, 'passed']), { words: 'pass' });
} else console.log('skipped: there is no package ws (Debian\'s node-ws has it)');

const later = spawnSync(node, ['later.mjs'], { cwd: plain, encoding: 'utf8', timeout: 30000 });
assert.match(later.stdout, /^the module canvas\.wasm is not in the package.*\nWebAssembly\.compile.*\n0:0 document\n/, later.stderr);
await server.end();
console.log(`${tried} ways in node ${version}, each as it should be`);
process.exit(0);
