#!/usr/bin/env node
// Plays vectors on the JavaScript client:  run.mjs FILE..
// An edit is made by what a person asked for, and has to come to the very change that stands in the vector.
import { readFileSync } from 'node:fs';
import { Client, ClientError, compile } from '../packages/js/src/node.js';

const word = (id) => id.join(':');
const text = (bytes) => bytes && new TextDecoder().decode(bytes);

// The request's text is kept beside what was read of it, as numbers of 64 bits don't fit numbers.
function make(client, [what, ...rest], json) {
  if (what === 'create') return client.create(rest[0], word(rest[1]), rest[2] && word(rest[2]));
  if (what === 'set') return client.setJson(word(rest[0]), rest[1], json);
  if (what === 'clear') return client.clear(word(rest[0]), rest[1]);
  if (what === 'move') return client.move(word(rest[0]), word(rest[1]), rest[2] && word(rest[2]));
  return client.delete(word(rest[0]));
}

// The members of a list's text, each as its text.
function members(list) {
  const found = [];
  let depth = 0, isInText = false, begin = 1;
  for (let at = 0; at < list.length; at++) {
    const c = list[at];
    if (isInText) { if (c === '\\') at += 1; else if (c === '"') isInText = false; continue; }
    if (c === '"') isInText = true;
    else if (c === '[') depth += 1;
    else if (c === ']') { depth -= 1; if (depth === 0) found.push(list.slice(begin, at)); }
    else if (c === ',' && depth === 1) { found.push(list.slice(begin, at)); begin = at + 1; }
  }
  return found;
}

function refusal(act) { try { act(); return null; } catch (fault) { if (fault instanceof ClientError) return fault.code; throw fault; } }

// What is wrong after this line, or null.
function step(client, line) {
  const [kind, first, second] = members(line), what = JSON.parse(kind);
  if (what === 'edit' || what === 'refused') {
    const request = what === 'edit' ? second : first, json = members(request)[3];
    const code = refusal(() => make(client, JSON.parse(request), json));
    if (what === 'refused') return code === JSON.parse(second) ? null : `refuses by ${code} in place of ${second}`;
    const change = code ? code : members(text(client.editMessage(client.waiting)))[3];
    return change === first ? null : `makes ${change} in place of ${first}`;
  }
  if (what === 'receive') { const heard = client.receive(first).what; return heard === JSON.parse(second) ? null : `says ${heard} in place of ${second}`; }
  if (what === 'send') {
    const [head, , number] = JSON.parse(first);
    const sent = text(head === 'join' ? client.joinMessage() : head === 'ask' ? client.askMessage() : client.editMessage(number - client.acknowledged));
    return sent === first ? null : `would send ${sent}`;
  }
  return null;
}

async function play(module, lines) {
  const client = await Client.load(module);
  let wanted = null;
  for (const [at, line] of lines.entries()) {
    if (line.startsWith('["view",')) continue;
    const fault = step(client, line);
    if (fault) return `line ${at + 1}: the client ${fault}`;
    if (lines[at + 1]?.startsWith('["view",')) wanted = lines[at + 1];
    const shown = `["view",${client.version},${client.acknowledged},${client.waiting},${JSON.stringify(client.text())}]`;
    if (shown !== wanted) return `line ${at + 1}: after it the client shows ${shown} in place of ${wanted}`;
  }
  return null;
}

const module = await compile(readFileSync(new URL('../packages/js/canvas.wasm', import.meta.url)));
let faults = 0;
const names = process.argv.slice(2);
for (const name of names) {
  const fault = await play(module, readFileSync(name, 'utf8').split('\n').slice(0, -1));
  if (fault) { faults += 1; console.log(`${name}: ${fault}`); }
}
console.log(`${names.length} vectors, ${faults} with a fault`);
process.exit(faults ? 1 : 0);
