#!/usr/bin/env node
// Plants mistakes into copies of flow.js, remake.js and presence.js, each of which live.mjs or the random worlds have to find:  wrong.mjs [WORLDS [NAME]]
// With a part of a name those mistakes alone are planted.
import { cpSync, mkdtempSync, readFileSync, rmSync, writeFileSync } from 'node:fs';
import { spawn } from 'node:child_process';
import { availableParallelism, tmpdir } from 'node:os';
import { join } from 'node:path';
import { fileURLToPath } from 'node:url';

const FLOW = [
  ['edits of a lost connection count as sent', 'this.sent = 0n;\n    this.isCaughtUp', 'this.isCaughtUp'],
  ['what is behind a No stays as sent', "    this.sent = 0n;\n    if (reason === 3)", '    if (reason === 3)'],
  ['the window is one larger', 'this.edits < this.window', 'this.edits <= this.window'],
  ['an own entry of another is passed by', "? this.beginAnew('replaced', { scan: true }) :", '? undefined :'],
  ['what was judged is made again', "return entry === change ? 'judged' : 'open'", "return 'open'"],
  // The server has other edits of the client than it believes.
  ['a first gap is waited out', "head.isFirst ? this.beginAnew('stranger', { scan: false }) : undefined", 'head.isFirst ? this.#hold(now) : undefined'],
  ['a first gap is passed by', "head.isFirst ? this.beginAnew('stranger', { scan: false }) : undefined", 'undefined'],
  ['a copy with fewer edits is passed by', "if (letter === COPY) return this.beginAnew('stranger')", 'if (letter === COPY) return undefined'],
  ['a new id that is unknown is asked for on', 'this.anew.client = this.client.sibling();\n    return undefined', 'return undefined'],
  // Edits that are made again.
  ['after one that is lost, all are', 'if (code) lost.push', 'if (code || lost.length) lost.push'],
  ['what is lost is not told', 'if (code) lost.push({ change, code }); else made += 1;', 'made += 1;'],
  ['what is judged counts on for the new id', 'this.judged = 0n;\n    this.tried', 'this.tried'],
  // Twins, and copies that hide the log.
  ['a copy is taken whatever it counts', '(done > this.#mostTried || ', '('],
  ['the objects of a copy are not looked at', ' || this.#hasOthers(textOfBytes(bytes), done)', ''],
  ['an edit under way over a lost connection counts as never sent', "if (it.what === 'edit') this.#mayBeJudged(it.number);", ''],
  ['an edit that the disk failed counts as never sent', 'if (!UNJUDGED.includes(reason)) this.#mayBeJudged(head.number);', ''],
  ['what a copy has hidden is made again', "if (number > done ||", 'if (true ||'],
  ['what a copy has hidden counts as judged', "? 'judged' : 'unsure'", "? 'judged' : 'judged'"],
  ['what is unsure is not told', 'unsure.push({ change }); return;', 'return;'],
  ['what was never sent is unsure', 'number > done || (number > this.#mostTried && number > saved && number > kept)', 'number > done'],
  ['what stands in a save counts as never sent', ' && number > saved', ''],
  ['the look ends after one answer', 'const isMore = letter === IDLE && head.entries >= MOST_ENTRIES', 'const isMore = false'],
  ['the new id joins ahead of the answers', 'if (this.fifo.length || now < this.holdUntil) return;', 'if (now < this.holdUntil) return;'],
  ['what was tried counts on for the new id', 'this.tried = 0n;', ''],
  ['the look ends where the server has no memory', 'reasonOf(bytes) === 7;', 'false;'],
  ['nothing is looked for', 'if (this.anew?.looks) {', 'if (false) {'],
  // Live connections.
  ['live: it is never asked for', 'if (!this.#mayLive() || now < this.liveAt) return;', 'return;'],
  ['live: asks go on', "  #rest(now, isNearer = true) {\n", '  #rest(now, isNearer = true) {\n    return;\n'],
  ['live: edits are followed by asks', 'if (pushed && !this.#isTold)', 'if (pushed)'],
  ['live: what comes unasked is a fault', 'if (isPart && this.told !== null &&', 'if (false &&'],
  ['live: what comes unasked is passed by', 'return this.anew ? undefined : this.#part(null, letter, bytes, now);', 'return undefined;'],
  ['live: what is left out is not missed', 'else if (isAhead) this.#gap(now);', ''],
  ['live: an entry that is late is not asked for', '(this.#isMissing ? MISSED_AFTER : this.beat)', 'this.beat'],
  ['live: the connection is never tried', 'now + (this.#isMissing ? MISSED_AFTER : this.beat)', 'this.#isMissing ? now + MISSED_AFTER : Infinity'],
  ['live: an older server is waited for', 'else this.isOlder = true;\n', 'else this.isOlder = false;\n'],
  ['live: a server that is behind is no stranger', "if (reason === 1) { this.beginAnew('stranger', { scan: true, from: 0n }); return; }", ''],
  ['live: without memory it is given up', 'if (reason === 7) this.liveAt = now + 1000; else', ''],
  ['live: a new id is not told', 'if (!this.isOlder) this.liveAt = 0;', ''],
  ['live: a copy of the old id is taken', '#isToldOther() { return this.told', '#isToldOther() { return false && this.told'],
  ['live: nobody is told that nothing waits', "if (this.isLive && !wasSettled && this.isSettled) this.events.push({ type: 'caught up' });", ''],
  // An edit that the server can't take.
  ['replaced: nothing is done', 'if (this.dropping && BigInt(this.client.acknowledged) >= this.dropped - 1n) this.#beginReplacing(now);', ''],
  ['replaced: a copy has edits of the observer', 'isCopy && anew?.replaces ? seenByNoOne(bytes) : bytes', 'bytes'],
  ['replaced: own edits are not counted', 'if (isTaken) this.#countOwn(letter, bytes);', ''],
  ['replaced: the observer asks under its own id', 'this.anew?.replaces ? this.client.id : client.id', 'client.id'],
  ['replaced: it is not told', "this.events.push({ type: 'refused', version: Number(this.client.version)", "0 && this.events.push({ type: 'refused', version: Number(this.client.version)"],
  ['replaced: no edit may be sent any more', 'this.dropping = 0;\n    this.emptied', 'this.emptied'],
  // What clients show of themselves.
  ['shown: on the next connection nothing is', '    this.#showAgain();\n    this.#rest(now);', '    this.#rest(now);'],
  ['shown: who is taken for gone stays so', 'if (value === null) this.#showAgain();', ''],
  ['shown: values go as fast as they are set', 'this.showAt = now + SHOWN_EVERY;', ''],
  ['shown: nothing is due', 'if (this.#mayShow) waits.push(this.showAt - now);', ''],
  ['shown: any number may be under way', ' && this.showing < MOST_SHOWN', ''],
  ['shown: an answer is not counted', '{ this.showing -= 1; this.hasHere = true; }', '{ this.hasHere = true; }'],
  ['shown: a No is not counted', "else if (head.what === 'here') this.showing -= 1;", ''],
  ['shown: without memory it is given up', 'if (reason !== 7) return;', 'return;'],
  ['shown: a server without the word is tried again', 'if (reason === 9) this.hasHere ??= false;', ''],
  ['shown: before the connection is live', 'this.isShowing && this.isLive &&', 'this.isShowing &&'],
  ["shown: the own value is another's", 'else if (client !== this.told) this.events.push(', 'this.events.push('],
];
const PRESENCE = [
  ['who has gone stays', 'value === null ? !this.#known.delete(client)', 'value === null ? false'],
  ['one who was never there goes', 'value === null ? !this.#known.delete(client)', 'value === null ? void this.#known.delete(client)'],
  ['those of a lost connection stay', '    this.#known.clear();\n', ''],
  ['nobody is told that a connection is lost', 'for (const client of gone) this.#tell({ client, value: null });', ''],
  ['the Map stays as it was', '    this.#others = null;\n    this.#tell({ client, value });', '    this.#tell({ client, value });'],
];
const REMAKE = [
  ['an object whose position is taken is lost', "if (!(fault instanceof ClientError) || fault.code !== 'Taken') throw fault;\n        made", 'throw fault;\n        made'],
  ['a move to a position that is taken is lost', "if (!(fault instanceof ClientError) || fault.code !== 'Taken') throw fault;\n        client.moveLast", 'throw fault;\n        client.moveLast'],
  ['the ids of objects that were made again are forgotten', 'ids.set(at, made);', ''],
  ['an object is made again under its old parent', "under = now(nameOf(parent)), wanted = JSON.parse(position);\n      let", "under = nameOf(parent), wanted = JSON.parse(position);\n      let"],
  ['an object is moved under the old parent', "under = now(nameOf(parent)), wanted = JSON.parse(position);\n      try { client.moveAt", "under = nameOf(parent), wanted = JSON.parse(position);\n      try { client.moveAt"],
  ['the old object is moved', 'client.moveAt(now(at)', 'client.moveAt(at'],
  ['the old object is set', 'client.setJson(now(at)', 'client.setJson(at'],
  ['the old object is cleared', 'client.clear(now(at)', 'client.clear(at'],
  ['the old object is deleted', 'client.delete(now(at)', 'client.delete(at'],
  ['a copy shows any object that has the id', "if (what === 'create') return object.kind ===", "if (what === 'create') return true || object.kind ==="],
];

const here = fileURLToPath(new URL('..', import.meta.url)), top = mkdtempSync(join(tmpdir(), 'wrong-')), [worlds = '150', wanted = ''] = process.argv.slice(2);
const mistakes = [...FLOW.map((it) => ['src/flow.js', ...it]), ...REMAKE.map((it) => ['src/remake.js', ...it]), ...PRESENCE.map((it) => ['src/presence.js', ...it])].filter(([, name]) => name.includes(wanted));

// What a test says of the package with the mistake: null if it doesn't find it, or doesn't end in time.
function said(room, ...words) {
  return new Promise((resolve) => {
    const run = spawn('node', [join(room, 'test', words[0]), ...words.slice(1)], { stdio: ['ignore', 'ignore', 'pipe'], timeout: 300000 });
    let text = '';
    run.stderr.on('data', (bytes) => { text += bytes; });
    run.on('close', (status) => resolve(status ? text : null));
  });
}

async function found(room) {
  const live = await said(room, 'live.mjs');
  if (live) return `live.mjs: ${/^\w*Error.*$/m.exec(live)?.[0] ?? 'it ends'}`.slice(0, 110);
  return (await said(room, 'worlds.mjs', '1', worlds, '--first'))?.split('\n')[0].replace(/^world (\d+).*?: /, 'world $1: ').slice(0, 110);
}

async function plant([file, name, from, to], k) {
  const right = readFileSync(join(here, file), 'utf8'), room = join(top, String(k));
  if (right.split(from).length !== 2) { console.log(`${name}: the place isn't there, or not once`); return false; }
  for (const it of ['src', 'test', 'canvas.wasm', 'package.json']) cpSync(join(here, it), join(room, it), { recursive: true });
  writeFileSync(join(room, file), right.replace(from, () => to));
  const what = await found(room);
  console.log(`${name}: ${what ? `found (${what})` : 'NOT FOUND'}`);
  return Boolean(what);
}

let next = 0, missed = 0;
const worker = async () => { while (next < mistakes.length) { const k = next; next += 1; if (!await plant(mistakes[k], k)) missed += 1; } };
await Promise.all(Array.from({ length: Math.min(4, availableParallelism()) }, worker));
rmSync(top, { recursive: true });
console.log(`${mistakes.length} mistakes, ${missed} not found`);
process.exit(missed ? 1 : 0);
