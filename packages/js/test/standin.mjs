// A stand-in for canvas.wasm, for tests of what is above the client when no module was built: the calls of lugcurrant.h in plain JavaScript, over the
// simple merge (fake.mjs). It proves and tests nothing of the module. Numbers beyond 2^53 are rounded, and positions have no step of an end's own.
import { existsSync, readFileSync } from 'node:fs';
import { KINDS, NUMBERS as N } from '../src/api.js';
import { Client, compile } from '../src/client.js';
import { BEARS, Plain, below, depth, docOf, height, middle, parentOf, rowsOf, treeText, word } from './fake.mjs';

const MODULE = new URL('../canvas.wasm', import.meta.url);
const DEEPEST = 100, PROPERTY = /^[a-z0-9_]+$/;
const kindOf = (number) => Object.keys(KINDS).find((name) => KINDS[name] === number);
const text = (bytes) => new TextDecoder().decode(bytes);
const bytesOf = (words) => new TextEncoder().encode(words);
const isSame = (a, b) => JSON.stringify(a) === JSON.stringify(b);

export const hasModule = existsSync(MODULE);
let compiled = null;

// A client over the module, or over the stand-in if there is none.
export async function newClient(saved = null) {
  if (!hasModule) return new Client(standIn(), saved);
  compiled ??= await compile(readFileSync(MODULE));
  return Client.load(compiled, saved);
}

// What a run says it was over.
export const overWhat = () => hasModule ? 'over canvas.wasm' : 'over a stand-in, as there is no canvas.wasm';

class Model {
  constructor() { this.plain = new Plain(); this.counter = 0; this.cache = null; }

  get view() { return this.cache ??= this.plain.view(); }
  changed() { this.cache = null; }

  inTree(id) {
    for (let at = id, steps = 0; steps < this.view.size; steps += 1) {
      const object = this.view.get(at);
      if (at === '0:0' || !object?.place) return at === '0:0';
      at = parentOf(object);
    }
    return false;
  }

  children(id) {
    const order = (a, b) => (a[1] < b[1] ? -1 : a[1] > b[1] ? 1 : a[2][0] - b[2][0] || a[2][1] - b[2][1]);
    return [...this.view].filter(([, o]) => o.place && parentOf(o) === id).map(([at, o]) => [at, o.place[1], at.split(':').map(Number)]).sort(order).map(([at]) => at);
  }

  // The position after this child, at an end, or the named one; a number if there is none.
  position(parent, where, moved) {
    const others = this.children(parent).filter((id) => id !== moved), taken = others.map((id) => this.view.get(id).place[1]);
    if (where.at !== undefined) return taken.includes(where.at) ? N.TAKEN : where.at;
    if (where.end) return middle(where.end === 'last' ? taken.at(-1) ?? null : null, where.end === 'first' ? taken[0] ?? null : null) ?? N.CROWDED;
    if (where.after !== '0:0' && !others.includes(where.after)) return N.NOT_SHOWN;
    const low = where.after === '0:0' ? null : this.view.get(where.after).place[1], high = taken.find((it) => low === null || it > low) ?? null;
    return middle(low, high) ?? N.CROWDED;
  }

  // Checks a place of an object of this kind: a number, or the place.
  place(kind, parent, where, moved = null) {
    if (!this.inTree(parent)) return N.PARENT_NOT_SHOWN;
    if (!BEARS[this.view.get(parent).kind].includes(kind)) return N.BAD_PARENT;
    if (moved && below(this.view, moved).includes(parent)) return N.OWN_DESCENDANT;
    if (depth(this.view, parent) + 1 + (moved ? height(this.view, moved) : 0) > DEEPEST) return N.TOO_DEEP;
    const position = this.position(parent, where, moved);
    return typeof position === 'number' ? position : [parent.split(':').map(Number), position];
  }

  create(kind, parent, where) {
    if (!kind) return { answer: N.NO_KIND };
    if (!this.plain.id) return { answer: N.NOT_OPEN };
    const place = this.place(kind, parent, where);
    if (typeof place === 'number') return { answer: place };
    this.counter += 1;
    const id = [this.plain.id, this.counter];
    return { answer: this.edit(['create', id, kind, place]), id };
  }

  // A change of an object that must be in the tree.
  change(change, where = null) {
    const id = word(change[1]);
    if (!this.plain.id) return N.NOT_OPEN;
    if (id === '0:0' && ['move', 'delete'].includes(change[0])) return N.IS_ROOT;
    if (!this.inTree(id)) return N.NOT_SHOWN;
    if (!where) return this.edit(change);
    const place = this.place(this.view.get(id).kind, where.parent, where, id);
    return typeof place === 'number' ? place : this.edit([...change, place]);
  }

  edit(change) { this.plain.edit(change); this.changed(); return N.DONE; }

  // What a message is to the client, and the ids that it may have changed, or null.
  receive(message) {
    const { plain } = this, [what, ...rest] = message, mine = plain.acknowledged;
    if (what === 'idle') return { answer: N.IDLE, ids: [] };
    if (what === 'no') return { answer: N.NO + rest[0], ids: [] };
    if (what === 'welcome') return plain.id === null ? this.take(message, []) : { answer: N.OLD, ids: [] };
    if (!['entry', 'copy'].includes(what) || plain.id === null) return { answer: N.NOT_FOR_ME, ids: [] };
    if (rest[0] <= plain.version) return { answer: N.OLD, ids: [] };
    if (what === 'copy') return rest[1] < mine || rest[1] > mine + plain.waiting.length ? { answer: N.NOT_FOR_ME, ids: [] } : this.take(message, null);
    if (rest[0] > plain.version + 1) return { answer: N.AHEAD, ids: [] };
    const [author, number, change, outcome] = rest[1];
    if (author === plain.id && (number !== mine + 1 || !isSame(change, plain.waiting[0]))) return { answer: N.NOT_FOR_ME, ids: [] };
    return this.take(message, change === 'join' ? [] : outcome[0] === 'removed' ? outcome[1] : [change[1]]);
  }
  take(message, ids) { this.plain.receive(message); this.changed(); return { answer: N.TOOK, ids }; }

  // An edit is made again by its message.
  resume([what, id, number, change]) {
    const { plain } = this, last = plain.acknowledged + plain.waiting.length;
    if (what !== 'edit') return N.NOT_AN_EDIT;
    if (id !== plain.id) return N.NOT_OWN;
    if (number !== last + 1) return number > last ? N.GAP : N.OLD;
    if (change[0] === 'create' && !isSame(change[1], [id, this.counter + 1])) return N.INCONSISTENT;
    if (change[0] === 'create') this.counter += 1;
    return this.edit(change);
  }

  // In the form of docs/embedding.md; but the rows are those of the server's document, without what waits.
  save() { const { id, version, acknowledged, waiting, base } = this.plain; return JSON.stringify(['client', [id, this.counter, version, acknowledged], waiting, rowsOf(base)]); }
  static load(words) {
    const model = new Model(), [word, [id, counter, version, acknowledged], waiting, rows] = JSON.parse(words);
    if (word !== 'client') throw new Error('no saved client');
    model.counter = counter;
    Object.assign(model.plain, { id, version, acknowledged, waiting, base: docOf(rows) });
    return model;
  }
}

function nameFault(name) {
  if (!name) return N.NAME_EMPTY;
  if (name.length > 32) return N.NAME_TOO_LONG;
  return PROPERTY.test(name) ? 0 : N.NAME_BAD_BYTE;
}

function valueFault(json) {
  let value;
  try { value = JSON.parse(json); } catch { return N.NOT_JSON; }
  const isValue = (it) => ['string', 'boolean'].includes(typeof it) || Number.isInteger(it) || (Array.isArray(it) && (it[0] === 'rgba' || (it[0] === 'list' && it.slice(1).every(isValue))));
  return isValue(value) ? 0 : N.NOT_A_VALUE;
}

// The exports of the module, for `new Client(..)`. A handle has the number of its model in its first bytes.
export function standIn() {
  const memory = new WebAssembly.Memory({ initial: 64 }), models = new Map(), left = new Map();
  let top = 1024n, last = 0;
  const bytes = (at, length) => new Uint8Array(memory.buffer, Number(at), Number(length));
  const numberAt = (handle) => new DataView(memory.buffer, Number(handle), 8).getUint32(0, true);
  const modelAt = (handle) => models.get(numberAt(handle));
  const read = (at, length) => text(bytes(at, length));
  const leave = (handle, words) => { if (words === null) return N.NONE; left.set(numberAt(handle), bytesOf(words)); return N.DONE; };
  const hold = (handle, model) => { last += 1; models.set(last, model); new DataView(memory.buffer, Number(handle), 8).setUint32(0, last, true); return N.DONE; };
  const made = (at, { answer, id }) => {
    if (answer === N.DONE) id.forEach((it, k) => new DataView(memory.buffer, Number(at), 8).setUint32(4 * k, it, true));
    return answer;
  };
  const onMessage = (act) => (handle, at, length) => {
    let message;
    try { message = JSON.parse(read(at, length)); } catch { return N.NOT_JSON; }
    return Array.isArray(message) ? act(handle, message) : N.NOT_A_MESSAGE;
  };
  const receive = onMessage((handle, message) => {
    const { answer, ids } = modelAt(handle).receive(message);
    leave(handle, JSON.stringify(ids));
    return answer;
  });
  const set = (handle, change, fault) => fault || modelAt(handle).change(change);
  const id = (client, counter) => [client >>> 0, counter >>> 0], name = (...numbers) => word(id(...numbers));
  const calls = {
    new: (handle) => hold(handle, new Model()),
    load: (handle, at, length) => { try { return hold(handle, Model.load(read(at, length))); } catch { return N.NOT_A_CLIENT; } },
    free: (handle) => { models.delete(numberAt(handle)); bytes(handle, 16).fill(0); return N.DONE; },
    id: (handle) => modelAt(handle).plain.id ?? 0,
    version: (handle) => BigInt(modelAt(handle).plain.version),
    acknowledged: (handle) => BigInt(modelAt(handle).plain.acknowledged),
    waiting: (handle) => BigInt(modelAt(handle).plain.waiting.length),
    receive, receive_and_tell: receive,
    resume: onMessage((handle, message) => modelAt(handle).resume(message)),
    create: (handle, kind, c, n, ac, an, out) => made(out, modelAt(handle).create(kindOf(kind), name(c, n), { after: name(ac, an) })),
    create_at: (handle, kind, c, n, at, length, out) => made(out, modelAt(handle).create(kindOf(kind), name(c, n), { at: read(at, length) })),
    create_last: (handle, kind, c, n, out) => made(out, modelAt(handle).create(kindOf(kind), name(c, n), { end: 'last' })),
    create_first: (handle, kind, c, n, out) => made(out, modelAt(handle).create(kindOf(kind), name(c, n), { end: 'first' })),
    set: (handle, c, n, at, length, json, size) => {
      const property = read(at, length), value = read(json, size);
      return set(handle, ['set', id(c, n), property, valueFault(value) ? null : JSON.parse(value)], nameFault(property) || valueFault(value));
    },
    clear: (handle, c, n, at, length) => set(handle, ['clear', id(c, n), read(at, length)], nameFault(read(at, length))),
    move: (handle, c, n, pc, pn, ac, an) => modelAt(handle).change(['move', id(c, n)], { parent: name(pc, pn), after: name(ac, an) }),
    move_at: (handle, c, n, pc, pn, at, length) => modelAt(handle).change(['move', id(c, n)], { parent: name(pc, pn), at: read(at, length) }),
    move_last: (handle, c, n, pc, pn) => modelAt(handle).change(['move', id(c, n)], { parent: name(pc, pn), end: 'last' }),
    move_first: (handle, c, n, pc, pn) => modelAt(handle).change(['move', id(c, n)], { parent: name(pc, pn), end: 'first' }),
    delete: (handle, c, n) => modelAt(handle).change(['delete', id(c, n)]),
    join: (handle) => leave(handle, '["join",2]'),
    ask: (handle) => { const { plain } = modelAt(handle); return leave(handle, plain.id && JSON.stringify(['ask', plain.id, plain.version])); },
    edit: (handle, i) => {
      const { plain } = modelAt(handle), change = plain.waiting[Number(i) - 1];
      return leave(handle, change ? JSON.stringify(['edit', plain.id, plain.acknowledged + Number(i), change]) : null);
    },
    tree: (handle) => leave(handle, treeText(modelAt(handle).view)),
    object: (handle, c, n) => {
      const object = modelAt(handle).view.get(name(c, n));
      return leave(handle, object ? JSON.stringify([id(c, n), object.kind, object.place, [...object.props].sort(([a], [b]) => (a < b ? -1 : 1))]) : null);
    },
    children: (handle, c, n) => leave(handle, JSON.stringify(modelAt(handle).children(name(c, n)).map((it) => it.split(':').map(Number)))),
    in_tree: (handle, c, n) => modelAt(handle).inTree(name(c, n)) ? N.DONE : N.NOT_SHOWN,
    save: (handle) => leave(handle, modelAt(handle).save()),
    length: (handle) => BigInt(left.get(numberAt(handle))?.length ?? 0),
    read: (handle, at) => { const words = left.get(numberAt(handle)); bytes(at, words.length).set(words); return N.DONE; },
  };
  const held = (act, isCount) => (handle, ...rest) => (modelAt(handle) ? act(handle, ...rest) : isCount ? 0n : N.NO_CLIENT);
  const exports = { memory, memory_take: (size) => { const at = top; top += (size + 15n) & ~15n; while (top > BigInt(memory.buffer.byteLength)) memory.grow(64); return at; }, memory_give() {}, memory_in_use: () => top };
  for (const [call, act] of Object.entries(calls)) exports[`lugcurrant_${call}`] = ['new', 'load'].includes(call) ? act : held(act, ['id', 'version', 'acknowledged', 'waiting', 'length'].includes(call));
  return exports;
}
