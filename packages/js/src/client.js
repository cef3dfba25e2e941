// The client: passes numbers and bytes to the WebAssembly module of the proved client, and keeps the tree's objects as it read them.
// All merging is done by the module.
import { FAULTS, HEARD, KINDS, NUMBERS, VERSION } from './api.js';
import { NO_CHILDREN, Signals } from './signals.js';

export const ROOT = '0:0';
const { DONE, NOT_SHOWN, MEMORY, NONE, OLD, NO } = NUMBERS;
const HANDLE_BYTES = 16, ID_BYTES = 8, FIRST_ROOM = 1024;

// Why a call did nothing: `code` is the name, and the message says it in words.
export class ClientError extends Error {
  constructor(number) {
    const [code, words] = FAULTS[number] ?? ['Unknown', `the module answered ${number}`];
    super(words);
    this.name = 'ClientError';
    this.code = code;
    this.number = number;
  }
}

// A colour, 8 bits each for red, green, blue and how opaque it is.
export class Colour {
  constructor(rgba) {
    if (!Number.isInteger(rgba) || rgba < 0 || rgba > 0xffffffff) throw new RangeError('a colour is a number of 32 bits');
    this.rgba = rgba;
    Object.freeze(this);
  }
  static of(hex) {
    const digits = /^#([0-9a-f]{6})([0-9a-f]{2})?$/i.exec(hex);
    if (!digits) throw new RangeError('a colour is written #rrggbb or #rrggbbaa');
    return new Colour(parseInt(digits[1] + (digits[2] ?? 'ff'), 16));
  }
  toString() { return `#${this.rgba.toString(16).padStart(8, '0')}`; }
}

// A number of 64 bits as a number where it fits, and else as a BigInt.
function fitted(big) {
  const number = Number(big);
  return Number.isSafeInteger(number) ? number : big;
}

// The JSON of a value: whole numbers, BigInts, truth values, texts, colours, and lists of values.
export function valueText(value) {
  switch (typeof value) {
    case 'number':
      if (!Number.isSafeInteger(value)) throw new TypeError('a number of a property is whole; a large one is a BigInt');
      return String(value === 0 ? 0 : value);
    case 'bigint': return String(value);
    case 'boolean': return String(value);
    case 'string': return JSON.stringify(value);
    default:
      if (value instanceof Colour) return `["rgba",${value.rgba}]`;
      if (Array.isArray(value)) return `[${['"list"', ...value.map(valueText)].join(',')}]`;
      throw new TypeError('a value is a whole number, a truth value, a text, a colour or a list of values');
  }
}

// The value of which this is the JSON. Numbers that don't fit are set in marked lists first, as JSON.parse would round them.
export const readValue = (text) => valueOf(readJson(text));

function readJson(text) {
  return JSON.parse(/\d{16}/.test(text)
    ? text.replace(/"(?:[^"\\]|\\.)*"|-?\d+/g, (part) => part[0] === '"' || Number.isSafeInteger(Number(part)) ? part : `["big","${part}"]`)
    : text);
}

function valueOf(json) {
  if (!Array.isArray(json)) return json;
  if (json[0] === 'rgba') return new Colour(json[1]);
  if (json[0] === 'big') return BigInt(json[1]);
  return json.slice(1).map(valueOf);
}

// The id of two numbers, and an id's two numbers.
const idOf = ([client, counter]) => `${client}:${counter}`;
function numbersOf(id) {
  const parts = /^(\d{1,10}):(\d{1,10})$/.exec(id);
  if (!parts || Number(parts[1]) > 0xffffffff || Number(parts[2]) > 0xffffffff) throw new TypeError(`an id is written client:counter, and ${id} is none`);
  return [Number(parts[1]), Number(parts[2])];
}

const utf8 = new TextEncoder(), fromUtf8 = new TextDecoder();
export const textOfBytes = (bytes) => fromUtf8.decode(bytes);
const bytesOf = (text) => typeof text === 'string' ? utf8.encode(text) : text;

// The compiled module, out of its bytes or the answer to a request for it.
export async function compile(source) {
  const given = await source;
  if (given instanceof WebAssembly.Module) return given;
  if (!(given instanceof Response)) return WebAssembly.compile(given);
  if (!given.ok) throw new Error(`the module can not be had: ${given.url} is answered ${given.status}`);
  return WebAssembly.compileStreaming(given);
}

// Checks that the module has this package's major and minor version, which packages/wasm/build writes into a section of it.
function checkVersion(module) {
  const [section] = WebAssembly.Module.customSections(module, 'lugcurrant.version'), found = section ? `version ${fromUtf8.decode(section)}` : 'no version';
  const minor = (version) => version.split('.').slice(0, 2).join('.');
  if (minor(found) !== minor(`version ${VERSION}`)) throw new Error(`cannot use canvas.wasm: it has ${found}, and this package version ${VERSION}; take both from one build (packages/wasm/build)`);
}

export class Client {
  #calls; #handle; #made; #buffer; #room; #shown; #watchers = new Set(); #savedTo = 0; #signals = null;

  // Where the module is found if `load` is given none: the package's entry for node or browsers says so.
  static defaultModule = null;

  // A client of the module's bytes, of the answer to a request for it, or of the compiled module: one without an id, or the one that was
  // saved as these bytes.
  static async load(source = null, saved = null) {
    const module = source ?? Client.defaultModule?.();
    if (!module) throw new TypeError('Client.load needs the module canvas.wasm: its bytes, the answer to a request for it, or the compiled module');
    const compiled = await compile(module);
    checkVersion(compiled);
    return new Client((await WebAssembly.instantiate(compiled, {})).exports, saved);
  }

  constructor(exports, saved = null) {
    this.#calls = exports;
    this.#handle = this.#take(HANDLE_BYTES);
    this.#made = this.#take(ID_BYTES);
    this.#buffer = this.#take(FIRST_ROOM);
    this.#room = FIRST_ROOM;
    this.#bytes(this.#handle, HANDLE_BYTES).fill(0);
    this.#shown = new Shown({ object: (id) => this.#object(id), children: (id) => this.#children(id), isInTree: (id) => this.isInTree(id) });
    this.#need(saved ? exports.lugcurrant_load(this.#handle, ...this.#write(bytesOf(saved))) : exports.lugcurrant_new(this.#handle));
    if (saved) this.#savedTo = this.lastEdit;
  }

  // The client as bytes, of which `load` makes it again: to be kept before an edit is sent, and loaded for the same document alone.
  save() {
    const saved = this.#left(this.#calls.lugcurrant_save(this.#handle));
    this.#savedTo = this.lastEdit;
    return saved;
  }

  // A client in the same module's memory: one without an id, or the one that was saved so.
  sibling(saved = null) { return new Client(this.#calls, saved); }

  // This client with its first edit that waits replaced by one that changes nothing: it clears a property that no object has. `heard` shows the document
  // by which all edits before that one are judged, and none since; it has no edits. The core has no call for it: it loads such a client without a
  // document, and that one receives the document as a copy.
  emptied(heard) {
    const [, id, counter] = /^\["client",\[(\d+),(\d+),/.exec(this.#savedText()), { acknowledged } = this, version = BigInt(heard.version);
    const rows = heard.#savedText().replace(/^\["client",\[[\d,]+\],\[\],/, '').slice(0, -1), changes = [...this.messages()].map((it) => /^\["edit",\d+,\d+,(.*)\]$/s.exec(fromUtf8.decode(it))[1]);
    let name = '_';
    while (rows.includes(`["${name}",`)) name += '_';
    changes[0] = `["clear",[0,0],"${name}"]`;
    const made = this.sibling(`["client",[${id},${counter},${version - 1n},${acknowledged}],[${changes}],[[[0,0],"document",null,[]]]]`);
    made.receive(`["copy",${version},${acknowledged},${rows}]`);
    made.#savedTo = this.#savedTo;
    return made;
  }
  #savedText() { return fromUtf8.decode(this.#left(this.#calls.lugcurrant_save(this.#handle))); }

  // Becomes another client of the same module, which is no client any more then: whoever holds this one goes on with it.
  become(other) {
    this.#need(this.#calls.lugcurrant_free(this.#handle));
    const bytes = this.#bytes(other.#handle, HANDLE_BYTES);
    this.#bytes(this.#handle, HANDLE_BYTES).set(bytes);
    bytes.fill(0);
    other.#giveBack();
    this.#savedTo = other.#savedTo;
    this.#shown.touchAll();
    this.#tell('anew', null);
  }

  // Calls `told` with 'edit' after each edit, with 'took' and its bytes after each message that was taken, and with 'anew' after `become`.
  // Answers a function that ends it.
  watch(told) { this.#watchers.add(told); return () => this.#watchers.delete(told); }
  #tell(what, bytes) {
    for (const told of this.#watchers) told(what, bytes);
    this.#signals?.soon();
  }

  // What a program listens to: the document, one object, the children of one (signals.js).
  get signals() {
    this.#signals ??= new Signals(this.#shown);
    return this.#signals;
  }

  // Ends a client that nobody will call again.
  discard() { this.free(); this.#giveBack(); }
  #giveBack() { for (const at of [this.#made, this.#buffer, this.#handle]) this.#calls.memory_give(at); }

  // Ends the client, with all that waits.
  free() { this.#need(this.#calls.lugcurrant_free(this.#handle)); this.#shown.touchAll(); }

  // Its id, or null while it has none; the version that it has reached; its last edit of which it has the entry; how many wait.
  get id() { return this.#calls.lugcurrant_id(this.#handle) >>> 0 || null; }
  get version() { return fitted(BigInt.asUintN(64, this.#calls.lugcurrant_version(this.#handle))); }
  get acknowledged() { return fitted(BigInt.asUintN(64, this.#calls.lugcurrant_acknowledged(this.#handle))); }
  // The number of its last edit.
  get lastEdit() { return fitted(BigInt(this.acknowledged) + BigInt(this.waiting)); }
  // The number of the last edit that stands in a save: another program that loads it sends the same edits up to this one.
  get savedTo() { return this.#savedTo; }
  get waiting() { return fitted(BigInt.asUintN(64, this.#calls.lugcurrant_waiting(this.#handle))); }
  // The bytes of memory that the module has, and those that are in use.
  get memory() { return this.#calls.memory.buffer.byteLength; }
  get memoryInUse() { return Number(this.#calls.memory_in_use()); }

  // Receives a message, and tells what came of it: { what: 'took' | 'old' | 'ahead' | 'not for me' | 'idle' }, or { what: 'no', reason }.
  receive(message) {
    const [at, length] = this.#write(bytesOf(message));
    const answer = this.#calls.lugcurrant_receive_and_tell(this.#handle, at, length) >>> 0;
    if (answer > NO && answer < NO + 10) return { what: 'no', reason: answer - NO };
    const what = HEARD[answer];
    if (!what) throw new ClientError(answer);
    if (what === 'took') { this.#touchTold(); this.#tell('took', message); }
    return { what };
  }

  // Makes an edit of this client's again by its message, as `editMessage` gave it: whether it is the last edit now. False where the client had made one
  // of this number already. Throws a ClientError if it can't be the next edit, and nothing has changed.
  resume(message) {
    const bytes = bytesOf(message), [at, length] = this.#write(bytes), answer = this.#calls.lugcurrant_resume(this.#handle, at, length) >>> 0;
    if (answer === OLD) return false;
    this.#need(answer);
    this.#savedTo = this.lastEdit;
    const [, client, counter] = /^\["edit",\d+,\d+,\["[a-z]+",\[(\d+),(\d+)\]/.exec(fromUtf8.decode(bytes.subarray(0, 120))) ?? [];
    if (client) this.#shown.touch(idOf([client, counter])); else this.#shown.touchAll();
    this.#tell('edit', null);
    return true;
  }

  // Notes the objects that the module has told to be changed, or any, where it says so or there is no memory to be told.
  #touchTold() {
    let ids = null;
    try { ids = JSON.parse(fromUtf8.decode(this.#left(DONE))); } catch (fault) { if (!(fault instanceof ClientError)) throw fault; }
    if (ids) for (const id of ids) this.#shown.touch(idOf(id)); else this.#shown.touchAll();
  }

  // Creates an object in the parent, behind its child `after` or as the first, and answers its id.
  create(kind, parent, after = null) {
    return this.#created(this.#calls.lugcurrant_create(this.#handle, KINDS[kind] ?? 0, ...numbersOf(parent), ...numbersOf(after ?? ROOT), this.#made));
  }

  // The same behind all children of the parent, before them, or at a position that no other child has.
  createLast(kind, parent) { return this.#created(this.#calls.lugcurrant_create_last(this.#handle, KINDS[kind] ?? 0, ...numbersOf(parent), this.#made)); }
  createFirst(kind, parent) { return this.#created(this.#calls.lugcurrant_create_first(this.#handle, KINDS[kind] ?? 0, ...numbersOf(parent), this.#made)); }
  createAt(kind, parent, position) {
    const numbers = numbersOf(parent), [at, length] = this.#write(bytesOf(position));
    return this.#created(this.#calls.lugcurrant_create_at(this.#handle, KINDS[kind] ?? 0, ...numbers, at, length, this.#made));
  }

  // The id of what was created.
  #created(answer) {
    this.#need(answer);
    const made = new DataView(this.#calls.memory.buffer, Number(this.#made), ID_BYTES), id = idOf([made.getUint32(0, true), made.getUint32(4, true)]);
    this.#shown.touch(id);
    this.#tell('edit', null);
    return id;
  }

  set(id, name, value) { this.setJson(id, name, valueText(value)); }

  // The same with the JSON of the value.
  setJson(id, name, json) {
    const [client, counter] = numbersOf(id), first = bytesOf(name), second = bytesOf(json);
    const both = new Uint8Array(first.length + second.length);
    both.set(first);
    both.set(second, first.length);
    const [at] = this.#write(both), begin = BigInt(first.length);
    this.#edited(id, this.#calls.lugcurrant_set(this.#handle, client, counter, at, begin, at + begin, BigInt(second.length)));
    this.#signals?.wasSet(id);
  }

  clear(id, name) {
    const [client, counter] = numbersOf(id), [at, length] = this.#write(bytesOf(name));
    this.#edited(id, this.#calls.lugcurrant_clear(this.#handle, client, counter, at, length));
    this.#signals?.wasSet(id);
  }

  // Moves the object into the parent, behind its child `after` or as the first.
  move(id, parent, after = null) {
    this.#edited(id, this.#calls.lugcurrant_move(this.#handle, ...numbersOf(id), ...numbersOf(parent), ...numbersOf(after ?? ROOT)));
  }

  // The same behind all other children of the parent, before them, or to a position that no other child has.
  moveLast(id, parent) { this.#edited(id, this.#calls.lugcurrant_move_last(this.#handle, ...numbersOf(id), ...numbersOf(parent))); }
  moveFirst(id, parent) { this.#edited(id, this.#calls.lugcurrant_move_first(this.#handle, ...numbersOf(id), ...numbersOf(parent))); }
  moveAt(id, parent, position) {
    const numbers = [...numbersOf(id), ...numbersOf(parent)], [at, length] = this.#write(bytesOf(position));
    this.#edited(id, this.#calls.lugcurrant_move_at(this.#handle, ...numbers, at, length));
  }

  delete(id) { this.#edited(id, this.#calls.lugcurrant_delete(this.#handle, ...numbersOf(id))); }

  // What is sent: to get an id; to hear what is new, null while there is no id; the i-th edit that waits, null where so many don't.
  joinMessage() { return this.#left(this.#calls.lugcurrant_join(this.#handle)); }
  askMessage() { return this.#left(this.#calls.lugcurrant_ask(this.#handle)); }
  editMessage(i) { return this.#left(this.#calls.lugcurrant_edit(this.#handle, BigInt(i))); }

  // All edits that wait, in order.
  *messages() {
    for (let i = 1n, message; (message = this.editMessage(i)); i += 1n) yield message;
  }

  // The tree that the client shows as text, as `lugcurrant show` prints it.
  text() { return fromUtf8.decode(this.#left(this.#calls.lugcurrant_tree(this.#handle))); }

  // Whether parents lead from the object to the document's root.
  isInTree(id) {
    const answer = this.#calls.lugcurrant_in_tree(this.#handle, ...numbersOf(id));
    if (answer !== NOT_SHOWN) this.#need(answer);
    return answer === DONE;
  }

  // Whether the object is in the view, in the tree or not.
  isInView(id) { return this.#left(this.#calls.lugcurrant_object(this.#handle, ...numbersOf(id))) !== null; }

  // The objects of the tree by their ids. What has changed is read when this is called, and no other object.
  objects() { return this.#shown.update(); }
  object(id) { return this.objects().get(id) ?? null; }
  children(id) { return this.object(id)?.children ?? []; }
  tree() { return this.object(ROOT); }

  // What has become other in the tree since the last call: objects that are new or changed, each before its children, and ids that are gone.
  changed() { return this.#shown.take(); }

  // An object of the view, and the ids of the objects whose place names it, as the module tells them.
  #object(id) {
    const [, kind, place, properties] = readJson(fromUtf8.decode(this.#left(this.#calls.lugcurrant_object(this.#handle, ...numbersOf(id)))));
    const object = { id, kind, parent: place ? idOf(place[0]) : null, position: place?.[1] ?? null, properties: Object.create(null), children: [] };
    for (const [name, value] of properties) object.properties[name] = valueOf(value);
    return object;
  }
  #children(id) { return JSON.parse(fromUtf8.decode(this.#left(this.#calls.lugcurrant_children(this.#handle, ...numbersOf(id))))).map(idOf); }

  #need(answer) { if (answer !== DONE) throw new ClientError(answer >>> 0); }
  #edited(id, answer) { this.#need(answer); this.#shown.touch(id); this.#tell('edit', null); }

  // Room in the module's memory: addresses are BigInts, as the module's are of 64 bits.
  #take(bytes) {
    const at = this.#calls.memory_take(BigInt(bytes));
    if (at === 0n) throw new ClientError(MEMORY);
    return at;
  }

  // A view of the module's memory, good until its next call: memory that grows has a new buffer.
  #bytes(at, length) { return new Uint8Array(this.#calls.memory.buffer, Number(at), length); }

  // Makes the buffer hold so many bytes. One that is too small is given back only when there is a larger one.
  #reserve(bytes) {
    if (bytes <= this.#room) return;
    const at = this.#take(2 * bytes);
    this.#calls.memory_give(this.#buffer);
    this.#buffer = at;
    this.#room = 2 * bytes;
  }

  // Puts bytes where the module can read them: the address and the length for a call.
  #write(bytes) {
    this.#reserve(bytes.length);
    this.#bytes(this.#buffer, bytes.length).set(bytes);
    return [this.#buffer, BigInt(bytes.length)];
  }

  // The bytes that a call has left, or null where it had none to leave.
  #left(answer) {
    if (answer === NONE) return null;
    this.#need(answer);
    const length = Number(this.#calls.lugcurrant_length(this.#handle));
    this.#reserve(length);
    this.#need(this.#calls.lugcurrant_read(this.#handle, this.#buffer, BigInt(length)));
    return this.#bytes(this.#buffer, length).slice();
  }
}

// The objects of the tree of a client, as they were when they were read last. An object is never altered: what changes is another one, and what is
// read again and hasn't changed stays the same one, as do its children's ids.
class Shown {
  #read; #objects = new Map(); #isAll = true;
  #touched = new Set();             // what may have changed since
  #stale = new Set();               // the objects of which the children are to be read
  #before = new Map();              // what has changed since the last `take`, as it was then, or null
  #reread = new Map();              // what this update has read, as it was before, or null
  #news = null;                     // what has changed since the last `takeNews`, and whether its children have; while there are listeners
  #copy = null;                     // the objects as a Map that stays as it is

  constructor(read) { this.#read = read; }

  touch(id) { if (!this.#isAll) this.#touched.add(id); }
  touchAll() { this.#isAll = true; this.#touched.clear(); }

  update() {
    if (this.#isAll) this.#readAll();
    for (const id of this.#touched) { this.#refresh(id); this.#touched.delete(id); }
    for (const id of this.#stale) { this.#list(id); this.#stale.delete(id); }
    this.#settle();
    return this.#objects;
  }

  // Keeps the former object if the new one is the same, and the former list of its children if that is the same.
  #settle() {
    for (const [id, was] of this.#reread) {
      const now = this.#objects.get(id) ?? null;
      if (was === now) continue;
      if (was && now && isSameList(was.children, now.children)) now.children = was.children;
      if (was && now && isSame(was, now)) { this.#objects.set(id, was); continue; }
      this.#copy = null;
      if (this.#news) this.#news.set(id, this.#news.get(id) || (was?.children ?? NO_CHILDREN) !== (now?.children ?? NO_CHILDREN));
    }
    this.#reread.clear();
  }

  // The objects as a Map of their own, the same one until something changes.
  snapshot() {
    const objects = this.update();
    this.#copy ??= new Map(objects);
    return this.#copy;
  }

  // From now on what changes is noted for `takeNews`; or no longer.
  listen(isListening) {
    this.#news = null;
    if (!isListening) return;
    this.#tryUpdate();
    this.#news = new Map();
  }

  // What has changed since the last call: each id with its object as it is, or null, and whether its children have changed. What is as before again is
  // among them: somebody may have seen it between. What can't be read now, as memory has run out or the client was freed, is in a later call.
  takeNews() {
    if (!this.#tryUpdate()) return [];
    const news = [...this.#news].map(([id, hasOthers]) => ({ id, now: this.#objects.get(id) ?? null, hasOthers }));
    this.#news.clear();
    return news;
  }

  // Reads what has changed; whether it could.
  #tryUpdate() {
    try { this.update(); return true; } catch (fault) {
      if (!(fault instanceof ClientError)) throw fault;
      return false;
    }
  }

  // These news as `take` gives them.
  changesOf(news) {
    return { put: this.#inOrder(news.filter(({ now }) => now).map(({ now }) => now)), gone: news.filter(({ now }) => !now).map(({ id }) => id) };
  }

  take() {
    this.update();
    const put = [], gone = [];
    for (const [id, before] of this.#before) {
      const now = this.#objects.get(id);
      if (now && !(before && isSame(before, now))) put.push(now);
      if (!now && before) gone.push(id);
    }
    this.#before.clear();
    return { put: this.#inOrder(put), gone };
  }

  #readAll() {
    for (const id of this.#objects.keys()) this.#keep(id);
    this.#objects = new Map();
    this.#load(ROOT);
    this.#isAll = false;
  }

  // Notes how the object was, before it changes.
  #keep(id) {
    const was = this.#objects.get(id) ?? null;
    if (!this.#before.has(id)) this.#before.set(id, was);
    if (!this.#reread.has(id)) this.#reread.set(id, was);
  }

  // An object that may have come into the tree, changed in it, or gone from it with what is below it.
  #refresh(id) {
    if (this.#read.isInTree(id)) this.#load(id);
    else if (this.#objects.has(id)) this.#remove(id);
  }

  // Reads an object of the tree. Where its place is another, so are the children of its parents, before and now.
  #load(id) {
    const was = this.#objects.get(id), now = this.#read.object(id);
    this.#keep(id);
    this.#objects.set(id, { ...now, children: was?.children ?? NO_CHILDREN });
    if (!was) this.#stale.add(id);
    if (was && was.parent === now.parent && was.position === now.position) return;
    for (const parent of [was?.parent, now.parent]) if (parent) this.#stale.add(parent);
  }

  // Reads the children of an object, and of these the ones that weren't known to be its children.
  #list(id) {
    if (!this.#objects.has(id)) return;
    const read = this.#read.children(id), children = read.length ? read : NO_CHILDREN;
    for (const child of children) if (this.#objects.get(child)?.parent !== id) this.#load(child);
    this.#keep(id);
    this.#objects.set(id, { ...this.#objects.get(id), children });
  }

  // Forgets an object, and what stood below it and isn't known to stand elsewhere by now.
  #remove(id) {
    this.#stale.add(this.#objects.get(id).parent);
    const pending = [id];
    for (let next; (next = pending.pop());) {
      this.#keep(next);
      for (const child of this.#objects.get(next).children) if (this.#objects.get(child)?.parent === next) pending.push(child);
      this.#objects.delete(next);
    }
  }

  // These objects, each before its children.
  #inOrder(objects) {
    const depths = new Map([[null, 0]]);
    for (const { id } of objects) {
      const above = [];
      for (let at = id; !depths.has(at); at = this.#objects.get(at).parent) above.push(at);
      while (above.length) { const at = above.pop(); depths.set(at, depths.get(this.#objects.get(at).parent) + 1); }
    }
    return objects.sort((a, b) => depths.get(a.id) - depths.get(b.id));
  }
}

// Whether two objects of one id, or two values, are the same. Of values of other types 1 and true, or 1 and 1n, never are.
function isSame(a, b) {
  return a.kind === b.kind && a.parent === b.parent && a.position === b.position && isSameList(a.children, b.children) && isSameProperties(a.properties, b.properties);
}

function isSameProperties(a, b) {
  const names = Object.keys(a);
  return names.length === Object.keys(b).length && names.every((name) => name in b && isSameValue(a[name], b[name]));
}

function isSameValue(a, b) {
  if (a instanceof Colour) return b instanceof Colour && a.rgba === b.rgba;
  if (Array.isArray(a)) return Array.isArray(b) && a.length === b.length && a.every((it, k) => isSameValue(it, b[k]));
  return a === b;
}

const isSameList = (a, b) => a === b || (a.length === b.length && a.every((id, k) => id === b[k]));
