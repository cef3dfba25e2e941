#!/usr/bin/env node
// Plays the worlds on the proved client and a server, and writes a vector for each client:
//     node --experimental-websocket record.mjs LUGCURRANT [--check]
// With --check nothing is written: the vectors that stand must be the same, byte for byte.
import { mkdirSync, readFileSync, readdirSync, writeFileSync } from 'node:fs';
import { anything, worlds } from './worlds.mjs';
import { World } from './world.mjs';
import { endAfter } from '../tests/web/server.mjs';

const [program, check] = process.argv.slice(2);
if (!program) { console.error('usage: record.mjs LUGCURRANT [--check]'); process.exit(2); }
endAfter(900);
const folder = new URL('vectors/', import.meta.url);
const scripts = { ...worlds, 'anything-1': anything(11, 150), 'anything-2': anything(23, 150), 'anything-3': anything(37, 150) };
mkdirSync(folder, { recursive: true });
const written = new Map();
for (const [name, script] of Object.entries(scripts)) {
  for (const [vector, lines] of await World.play(name, program, script)) written.set(`${vector}.jsonl`, lines.join('\n') + '\n');
  console.log(`${name} played`);
}
if (check) {
  const standing = readdirSync(folder).filter((name) => name.endsWith('.jsonl'));
  const other = [...new Set([...standing, ...written.keys()])].filter((name) => !standing.includes(name) || readFileSync(new URL(name, folder), 'utf8') !== written.get(name));
  console.log(other.length ? `other than what stands: ${other.join(' ')}` : `${written.size} vectors, the same as those that stand`);
  process.exit(other.length ? 1 : 0);
}
for (const [name, text] of written) writeFileSync(new URL(name, folder), text);
console.log(`${written.size} vectors, ${[...written.values()].reduce((sum, text) => sum + text.length, 0)} bytes`);
process.exit(0);
