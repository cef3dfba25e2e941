#!/usr/bin/env node
// Clients that are kept as a log, over random worlds:  saves.mjs [FIRST [COUNT]] [--trace]
// In a world two to four clients edit, and talk with a made-up server that refuses edits and hides entries behind copies; what they say and hear is
// lost, repeated and late. Each is kept by `Kept`, on a shelf that notes what the client was after each part. Now and then one comes back of what is
// kept, also of a file that was cut within its last parts: it must save as the very text that the client was then. Of a log that lacks an edit before
// another one, or has another client's lines, it must not come back. With --trace each log is a line of JSON, for python/tests/saves.py.
import assert from 'node:assert';
import { mkdtempSync, rmSync, writeFileSync } from 'node:fs';
import { tmpdir } from 'node:os';
import { join } from 'node:path';
import { ClientError } from '../src/client.js';
import { Kept, ReplayError, shelfOfFile } from '../src/node.js';
import { FakeServer } from './fake.mjs';

const [first = 1, count = 300] = process.argv.slice(2).filter((word) => !word.startsWith('--')).map(Number);
const isTracing = process.argv.includes('--trace');
const folder = mkdtempSync(join(tmpdir(), 'saves-')), path = join(folder, 'client');
const text = (bytes) => Buffer.from(bytes).toString();
const stat = { worlds: 0, edits: 0, refused: 0, taken: 0, copies: 0, lost: 0, wholes: 0, parts: 0, back: 0, cut: 0, gaps: 0, others: 0 };

function diceOf(seed) {
  let s = (seed * 2654435761) >>> 0 || 1;
  return () => { s ^= s << 13; s >>>= 0; s ^= s >>> 17; s ^= s << 5; s >>>= 0; return s / 4294967296; };
}

// A shelf in memory. `states[k]` is the client's save when it had done what the first k parts of the journal have.
class Shelf {
  all = null; journal = []; states = []; trail = []; isLocked = true;

  async read() { return { all: this.all, journal: [...this.journal] }; }
  async put(all) { stat.wholes += 1; Object.assign(this, { all, journal: [], states: [text(all)], trail: [] }); }
  async add(parts) {
    assert.equal(parts.length, this.trail.length, 'a part for each edit and each message that was taken');
    stat.parts += parts.length;
    this.journal.push(...parts);
    this.states.push(...this.trail.splice(0));
  }
  async end() { throw new Error('nothing is to be forgotten'); }
  async close() { this.isLocked = false; }
}

const fileOf = (parts) => Buffer.concat(parts.flatMap((part) => { const head = Buffer.alloc(4); head.writeUInt32LE(part.length); return [head, Buffer.from(part)]; }));

// The client of a file of these bytes, as the text that it saves; or the error.
async function loaded(bytes) {
  writeFileSync(path, bytes);
  const shelf = shelfOfFile(path), kept = new Kept(shelf);
  try {
    const client = await kept.load(), saved = text(client.save());
    client.discard();
    return saved;
  } catch (fault) {
    if (!(fault instanceof ReplayError)) throw fault;
    return fault;
  } finally { await shelf.close(); }
}

class World {
  constructor(seed) {
    this.seed = seed;
    this.dice = diceOf(seed);
    this.server = new FakeServer({ dice: this.dice });
    this.hides = this.dice() < 0.5 ? 0.05 : 0;
    this.values = 0;
    this.players = [];
  }

  pick(list) { return list[Math.floor(this.dice() * list.length)]; }

  async player(shelf = new Shelf()) {
    const kept = new Kept(shelf), client = await kept.load(), player = { shelf, kept, client, keptTo: 0 };
    client.watch(() => { shelf.trail.push(text(client.save())); });
    await this.flush(player);
    return player;
  }

  async flush(player) {
    await player.kept.flush();
    assert.equal(player.kept.fault, null);
    player.keptTo = Number(player.client.lastEdit);
    assert.equal(player.shelf.states.at(-1), text(player.client.save()), 'all is kept');
  }

  // What the server answers, of which the client hears a part: from a place on, or up to one, or twice.
  say(player, message) {
    const answers = this.server.answer(text(message)), roll = this.dice();
    if (roll < 0.1) { stat.lost += 1; return; }
    const heard = roll < 0.2 ? answers.slice(0, Math.floor(this.dice() * answers.length)) : roll < 0.25 ? answers.slice(1) : roll < 0.3 ? [...answers, ...answers] : answers;
    for (const it of heard) if (player.client.receive(it).what === 'took') this.#count(player, it);
    if (this.dice() < this.hides) this.server.checkpoint();
  }
  #count({ client }, message) {
    stat.taken += 1;
    if (message.startsWith('["copy"')) stat.copies += 1;
    if (message.includes(`,[${client.id},`) && message.includes('["refused",')) stat.refused += 1;
  }

  edit({ client }) {
    const all = [...client.objects().values()], one = this.pick(all), holder = this.pick(all.filter(({ kind }) => !['shape', 'text'].includes(kind))), roll = this.dice();
    const kind = holder.kind === 'document' ? 'page' : this.pick(['frame', 'shape', 'text']);
    try {
      if (roll < 0.2 || all.length < 4) client.createLast(kind, holder.id);
      else if (roll < 0.3) client.create(kind, holder.id, this.pick([null, ...holder.children]));
      else if (roll < 0.35) client.createAt(kind, holder.id, this.pick(['A', 'B', 'a~', 'z']));
      else if (roll < 0.6) client.set(one.id, this.pick(['a', 'b', 'c']), this.pick([`é"\\${this.values += 1}`, 9007199254740991, -3, true, ['x', [1, 'y']]]));
      else if (roll < 0.65) client.clear(one.id, this.pick(['a', 'b', 'c']));
      else if (roll < 0.8) client.move(one.id, holder.id, this.pick([null, ...holder.children]));
      else if (roll < 0.85) client.moveAt(one.id, holder.id, this.pick(['A', 'B', 'a~', 'z']));
      else if (roll < 0.9) client.moveFirst(one.id, holder.id);
      else client.delete(one.id);
      stat.edits += 1;
    } catch (fault) { if (!(fault instanceof ClientError)) throw fault; }
  }

  // Sends what waits and is kept, the first again at times.
  send(player) {
    const { client } = player, known = Number(client.acknowledged), most = Math.min(player.keptTo - known, 1 + Math.floor(this.dice() * 8));
    const messages = [...client.messages()].slice(0, Math.max(0, most));
    for (const it of messages) this.say(player, it);
    if (messages.length && this.dice() < 0.2) this.say(player, messages[0]);
  }

  // It comes back of what is kept; and goes on so at times, without the edits that aren't kept.
  async comeBack(k) {
    const { shelf } = this.players[k], { all, journal, states } = shelf, parts = [all, ...journal];
    stat.back += 1;
    assert.equal(await loaded(fileOf(parts)), states.at(-1), 'the client that was');
    if (isTracing) console.log(JSON.stringify({ parts: parts.map(text), saved: states.at(-1) }));
    await this.cut(parts, states);
    await this.gap(parts);
    await this.another(k, parts);
    if (this.dice() < 0.5) this.players[k] = await this.player(Object.assign(new Shelf(), { all, journal }));
  }

  // The file was cut behind the whole client, within some part or between two.
  async cut(parts, states) {
    const bytes = fileOf(parts), whole = 4 + parts[0].length;
    for (let tries = 0; tries < 3; tries += 1) {
      const length = this.dice() < 0.5 ? bytes.length - Math.floor(this.dice() * Math.min(60, bytes.length - whole)) : whole + Math.floor(this.dice() * (bytes.length - whole));
      let there = 0;
      for (let at = whole; there < parts.length - 1 && at + 4 + parts[there + 1].length <= length; at += 4 + parts[there + 1].length, there += 1);
      const saved = await loaded(bytes.subarray(0, length));
      assert.equal(saved, states[there], 'the client of all parts before the one that was cut');
      if (isTracing) console.log(JSON.stringify({ parts: parts.map(text), length, saved }));
      stat.cut += 1;
    }
  }

  // An edit is missing before another one.
  async gap(parts) {
    const edits = parts.map((part, k) => k && part[0] === 1 ? k : 0).filter(Boolean);
    if (edits.length < 2) return;
    const missing = this.pick(edits.slice(0, -1)), left = parts.filter((_, k) => k !== missing), fault = await loaded(fileOf(left));
    assert(fault instanceof ReplayError && fault.index >= missing, `an edit is missing, and it came back: ${fault}`);
    if (parts[missing + 1][0] === 1) assert.deepEqual([fault.index, fault.code], [missing, 'Gap']);
    if (isTracing) console.log(JSON.stringify({ parts: left.map(text), index: fault.index, code: fault.code }));
    stat.gaps += 1;
  }

  // The log is another client's, with an edit of that one's.
  async another(k, parts) {
    const other = this.players[(k + 1) % this.players.length].shelf.journal, at = other.findIndex((part) => part[0] === 1);
    if (at < 0) return;
    const fault = await loaded(fileOf([parts[0], ...other.slice(at)]));
    assert(fault instanceof ReplayError && fault.index === 1, `the log is another client's: ${fault}`);
    assert.equal(fault.code, 'NotOwn');
    if (isTracing) console.log(JSON.stringify({ parts: [parts[0], ...other.slice(at)].map(text), index: 1, code: fault.code }));
    stat.others += 1;
  }

  async play() {
    for (let k = 2 + Math.floor(this.dice() * 3); k; k -= 1) this.players.push(await this.player());
    for (let steps = 30 + Math.floor(this.dice() * 120); steps; steps -= 1) {
      const k = Math.floor(this.dice() * this.players.length), player = this.players[k], roll = this.dice();
      if (!player.client.id) this.say(player, player.client.joinMessage());
      else if (roll < 0.4) for (let burst = this.dice() < 0.1 ? 12 : 1; burst; burst -= 1) this.edit(player);
      else if (roll < 0.5) await this.flush(player);
      else if (roll < 0.7) { await this.flush(player); this.send(player); }
      else if (roll < 0.95) this.say(player, player.client.askMessage());
      else await this.comeBack(k);
    }
    await this.end();
  }

  // In the end all show what the server has, whoever came back in between.
  async end() {
    for (let rounds = 0; rounds < 400; rounds += 1) {
      for (const player of this.players) {
        if (!player.client.id) { this.say(player, player.client.joinMessage()); continue; }
        await this.flush(player);
        this.send(player);
        this.say(player, player.client.askMessage());
      }
      if (this.players.every(({ client }) => Number(client.waiting) === 0 && Number(client.version) === this.server.version)) break;
    }
    for (const { client } of this.players) {
      assert.equal(client.text(), this.server.text(), 'all show the server\'s document');
      assert.equal(client.acknowledged, this.server.done.get(client.id), 'each edit was judged under its own number');
    }
    for (let k = 0; k < this.players.length; k += 1) { await this.flush(this.players[k]); await this.comeBack(k); }
  }
}

// ---- what isn't random ----

// A shelf that refuses to keep more after so many calls.
class Refusing extends Shelf {
  constructor(calls) { super(); Object.assign(this, { calls, isForgotten: false }); }
  #count() { this.calls -= 1; if (this.calls < 0) throw new Error('no room on the device'); }
  async put(all) { this.#count(); await super.put(all); }
  async add(parts) { this.#count(); this.journal.push(...parts); }
  async end() { this.isForgotten = true; }
}

async function refused(calls) {
  const shelf = new Refusing(calls), kept = new Kept(shelf), client = await kept.load();
  await kept.flush();
  client.receive('["welcome",1]');
  for (let k = 0; k < 3; k += 1) { client.createLast('page', '0:0'); await kept.flush(); }
  assert.deepEqual([kept.fault?.message ?? null, kept.isKeeping, shelf.isForgotten], calls < 4 ? ['no room on the device', false, true] : [null, true, false]);
  if (calls === 4) assert.equal(shelf.journal.length, 4);
  client.createLast('page', '0:0');
  await kept.flush();
  assert.equal(kept.isKeeping, calls > 4);
}

// A log is of no use without the whole client; what was kept of it is told.
async function withoutWhole() {
  const page = '["edit",1,1,["create",[1,1],"page",[[0,0],"O"]]]', part = Buffer.from(`\u0001${page}`);
  const shelf = { read: async () => ({ all: null, journal: [part] }), close: async () => {} };
  await assert.rejects(new Kept(shelf).load(), (fault) => fault instanceof ReplayError && fault.index === 0 && fault.left.at(-1).message === page);
  const fault = await loaded(fileOf([part]));
  assert.deepEqual([fault.index, fault.code], [0, 'NotJson']);
  const kept = new Kept(shelf), client = await kept.load(null, { takePrefix: true });
  assert.deepEqual([client.id, kept.fault.index], [null, 0]);
}

// All is kept anew once the log is longer than that, and after a copy; not before.
async function wholes() {
  const shelf = new Shelf(), before = stat.wholes, kept = new Kept(shelf), client = await kept.load();
  client.watch(() => shelf.trail.push(text(client.save())));
  await kept.flush();
  client.receive('["welcome",1]');
  const page = client.createLast('page', '0:0');
  for (let k = 0; k < 100; k += 1) { client.set(page, 'a', 'x'.repeat(600)); await kept.flush(); }
  assert.equal(stat.wholes, before + 1, 'a log of less than 64 KiB');
  for (let k = 0; k < 10; k += 1) { client.set(page, 'a', 'x'.repeat(600)); await kept.flush(); }
  assert.deepEqual([stat.wholes, shelf.journal.length > 0], [before + 2, true], 'a longer one');
  client.receive('["copy",9,111,[[[0,0],"document",null,[]]]]');
  await kept.flush();
  assert.deepEqual([stat.wholes, shelf.journal.length], [before + 3, 0], 'a copy');
}

const begun = performance.now();
for (let seed = first; seed < first + count; seed += 1) {
  try { await new World(seed).play(); } catch (fault) { fault.message = `world ${seed}: ${fault.message}`; throw fault; }
  stat.worlds += 1;
}
for (let calls = 0; calls < 6; calls += 1) await refused(calls);
await withoutWhole();
await wholes();
rmSync(folder, { recursive: true });
for (const [name, number] of Object.entries(stat)) if (name !== 'worlds') assert(number > 0, `there were no ${name}`);
(isTracing ? console.error : console.log)(`${((performance.now() - begun) / 1000).toFixed(1)} s: ${JSON.stringify(stat)}`);
