// A made-up server with the rules of docs/rules.md, and a client by the simple merge of docs/clients.md, both in plain JavaScript. They share no
// code with the programs. Ids are texts here, and a document is a Map of objects by them.
export const BEARS = { document: ['page'], page: ['frame', 'shape', 'text'], frame: ['frame', 'shape', 'text'], shape: [], text: [] };
export const word = (id) => id.join(':');
const ids = (text) => text.split(':').map(Number);
const LONGEST = 128, DEEPEST = 100;

const newDoc = () => new Map([['0:0', { kind: 'document', place: null, props: new Map() }]]);
const copyDoc = (doc) => new Map([...doc].map(([id, o]) => [id, { kind: o.kind, place: o.place, props: new Map(o.props) }]));
export const parentOf = (o) => o.place && word(o.place[0]);

function numberOf(position, digits) {
  let n = 0n;
  for (let k = 0; k < digits; k += 1) n = n * 95n + BigInt((k < position.length ? position.charCodeAt(k) : 32) - 32);
  return n;
}
export function middle(low, high) {
  for (let digits = 1; digits <= LONGEST; digits += 1) {
    const least = (low === null ? 0n : numberOf(low, digits)) + 1n;
    const greatest = high === null ? 95n ** BigInt(digits) - 1n : numberOf(high, digits) - (high.length <= digits ? 1n : 0n);
    if (least > greatest) continue;
    let half = (least + greatest) / 2n, text = '';
    for (let k = 0; k < digits; k += 1) { text = String.fromCharCode(32 + Number(half % 95n)) + text; half /= 95n; }
    return text;
  }
  return null;
}

export function below(doc, id) {
  const kids = new Map();
  for (const [name, o] of doc) if (o.place) { const p = parentOf(o); if (!kids.has(p)) kids.set(p, []); kids.get(p).push(name); }
  const found = [id];
  for (let k = 0; k < found.length; k += 1) found.push(...(kids.get(found[k]) ?? []));
  return found;
}
export function depth(doc, id) { let n = 0; for (let at = id; at !== '0:0'; at = parentOf(doc.get(at))) n += 1; return n; }
export function height(doc, id) { const all = below(doc, id), base = depth(doc, id); return Math.max(...all.map((x) => depth(doc, x) - base)); }
function free(doc, parent, position, except) {
  const taken = [...doc].filter(([id, o]) => o.place && parentOf(o) === parent && id !== except).map(([, o]) => o.place[1]);
  if (!taken.includes(position)) return position;
  const above = taken.filter((p) => p > position).sort()[0] ?? null;
  return middle(position, above);
}

// What the server answers a change, and the document after it.
export function judge(doc, counters, author, change) {
  const [what, id, ...rest] = change, at = word(id);
  if (what !== 'set' && what !== 'clear' && at === '0:0') return ['refused', 1, null];
  if (what === 'create' && (id[0] !== author || id[1] <= (counters.get(author) ?? 0))) return ['refused', 2, null];
  const object = doc.get(at), stands = object?.place ?? null, no = (n) => ['refused', n, what === 'move' ? stands : null];
  if (what !== 'create' && !object) return ['refused', 3, null];
  if (what === 'set') { object.props.set(rest[0], rest[1]); return ['wasset']; }
  if (what === 'clear') { object.props.delete(rest[0]); return ['wasset']; }
  if (what === 'delete') { const gone = below(doc, at).map(ids).sort((a, b) => a[0] - b[0] || a[1] - b[1]); for (const x of gone) doc.delete(word(x)); return ['removed', gone]; }
  const [kind, place] = what === 'create' ? rest : [object.kind, rest[0]], parent = word(place[0]), holder = doc.get(parent);
  if (!holder) return no(4);
  if (!BEARS[holder.kind].includes(kind)) return no(5);
  if (what === 'move' && below(doc, at).includes(parent)) return no(6);
  if (!(what === 'move' && parentOf(object) === parent) && depth(doc, parent) + 1 + (what === 'move' ? height(doc, at) : 0) > DEEPEST) return no(8);
  const position = free(doc, parent, place[1], what === 'move' ? at : null);
  if (position === null) return no(7);
  const given = [place[0], position];
  if (what === 'create') { counters.set(author, id[1]); doc.set(at, { kind, place: given, props: new Map() }); return ['created', given]; }
  object.place = given;
  return ['moved', given];
}

export function treeText(doc) {
  const kids = new Map(), lines = [];
  for (const [id, o] of doc) if (o.place) { const p = parentOf(o); if (!kids.has(p)) kids.set(p, []); kids.get(p).push(id); }
  const less = (a, b) => { const x = doc.get(a).place[1], y = doc.get(b).place[1]; if (x !== y) return x < y ? -1 : 1; const [i, j] = [ids(a), ids(b)]; return i[0] - j[0] || i[1] - j[1]; };
  const walk = (id, level) => {
    const o = doc.get(id);
    lines.push(`${'  '.repeat(level)}${id} ${o.kind}${o.place ? ` ${o.place[1]}` : ''}`);
    for (const [name, value] of [...o.props].sort(([a], [b]) => (a < b ? -1 : 1))) lines.push(`${'  '.repeat(level + 1)}.${name} ${JSON.stringify(value)}`);
    for (const kid of (kids.get(id) ?? []).sort(less)) walk(kid, level + 1);
  };
  walk('0:0', 0);
  return `${lines.join('\n')}\n`;
}

export const docOf = (rows) => new Map(rows.map(([id, kind, place, props]) => [word(id), { kind, place, props: new Map(props) }]));
export const rowsOf = (doc) => [...doc].map(([id, o]) => [ids(id), o.kind, o.place, [...o.props].sort(([a], [b]) => (a < b ? -1 : 1))]).sort(([a], [b]) => a[0] - b[0] || a[1] - b[1]);

export class FakeServer {
  constructor({ largest = 1 << 20, dice = Math.random, isLive = false, hasHere = isLive } = {}) {
    Object.assign(this, { largest, dice, isLive, hasHere, shown: [], doc: newDoc(), counters: new Map(), done: new Map(), clients: 0, log: [], floor: 0, trouble: 0, asks: 0, edits: 0, repeats: 0 });
  }

  get version() { return this.log.length; }

  // The texts that answer a message. `line` is the connection's, and gets the place after which it is told what is published.
  answer(text, line = {}) {
    let message;
    try { message = JSON.parse(text); } catch { return ['["no",9]']; }
    const [what, id] = message;
    if (what === 'join') {
      if (this.trouble && this.dice() < 0.5) return ['["no",7]'];
      this.clients += 1;
      this.log.push([0, 0, 'join', ['joined', this.clients]]);
      this.done.set(this.clients, 0);
      return [`["welcome",${this.clients}]`];
    }
    if (what === 'live' && !this.isLive) return ['["no",9]'];
    if (!this.done.has(id)) return ['["no",1]'];
    if (what === 'live') {
      if (this.trouble && this.dice() < 0.3) return ['["no",7]'];
      if (message[2] > this.version) return ['["no",1]'];
      if (line.place && line.place.id !== id) this.ended(line);
      line.place = { id, version: message[2] };
      return ['["idle"]'];
    }
    if (what === 'here') {
      if (!this.hasHere) return ['["no",9]'];
      if (line.place?.id !== id) return ['["no",1]'];
      if (this.trouble && this.dice() < 0.3) return ['["no",7]'];
      this.shown.push(message);
      line.showsAs = id;
      return ['["idle"]'];
    }
    if (what === 'ask') {
      this.asks += 1;
      if (this.trouble && this.dice() < 0.3) return ['["no",7]'];
      const version = message[2];
      return [...this.#after(id, version), '["idle"]'];
    }
    const [, , number, change] = message, done = this.done.get(id);
    if (number <= done) { this.repeats += 1; return ['["idle"]']; }
    if (number > done + 1) return ['["no",3]'];
    if (this.isFull) return ['["no",4]'];
    if (text.length > this.largest) return ['["no",8]'];
    if (change[0] === 'set' && change[2] === 'unread') return ['["no",9]'];
    if (this.trouble > 0 && this.dice() < 0.3) { this.trouble -= 1; return [`["no",${[5, 6, 7][Math.floor(this.dice() * 3)]}]`]; }
    this.edits += 1;
    this.done.set(id, number);
    this.log.push([id, number, change, judge(this.doc, this.counters, id, change)]);
    return ['["idle"]'];
  }

  // What a client is told after this version: up to 64 entries, or a copy.
  #after(id, version) {
    if (version < this.floor) return [JSON.stringify(['copy', this.version, this.done.get(id), rowsOf(this.doc)])];
    return this.log.slice(version, version + 64).map((entry, k) => JSON.stringify(['entry', version + k + 1, entry]));
  }

  // What is told next unasked on a connection: news after its place, or what clients show of themselves.
  told(line) {
    const { place } = line;
    if (!place || !this.done.has(place.id)) return [];
    if (place.version >= this.version) return this.#heres(line);
    const messages = this.#after(place.id, place.version);
    place.version = JSON.parse(messages.at(-1))[1];
    return messages;
  }

  // What clients have shown since a connection was told the last time: of each client the last.
  #heres(line) {
    const last = new Map();
    for (const it of this.shown.slice(line.heard ?? 0)) { last.delete(it[1]); last.set(it[1], it); }
    line.heard = this.shown.length;
    return [...last.values()].map((it) => JSON.stringify(it));
  }

  // Whether something is to be told on a connection.
  hasNews({ place, heard = 0 }) { return place && (place.version < this.version || heard < this.shown.length); }

  // A connection has ended, or is another client's now: who showed something on it is gone, though it may show more on another one.
  ended(line) {
    if (line.showsAs) this.shown.push(['here', line.showsAs, null]);
    line.showsAs = null;
  }

  checkpoint() { this.floor = this.version; }

  // The document at a version, and the greatest counters of the clients' creations by then.
  stateAt(version) {
    const doc = newDoc(), counters = new Map();
    for (const [author, , change] of this.log.slice(0, version)) if (change !== 'join') judge(doc, counters, author, change);
    return { doc, counters };
  }

  // Forgets that the last edit of this client was judged; the log stays as it is.
  forget(id) { this.done.set(id, this.done.get(id) - 1); }
  // Forgets that this client has joined.
  strike(id) { this.done.delete(id); }

  // The server of an older log.
  back(version) {
    const log = this.log.slice(0, version);
    Object.assign(this, { doc: newDoc(), counters: new Map(), done: new Map(), clients: 0, log: [], shown: [], floor: Math.min(this.floor, version) });
    for (const entry of log) {
      this.log.push(entry);
      if (entry[2] === 'join') { this.clients += 1; this.done.set(this.clients, 0); } else { this.done.set(entry[0], entry[1]); judge(this.doc, this.counters, entry[0], entry[2]); }
    }
  }
  text() { return treeText(this.doc); }
}

// The simple merge: the server's document at a version, over which what waits is laid.
export class Plain {
  constructor() { Object.assign(this, { id: null, version: 0, acknowledged: 0, waiting: [], base: newDoc() }); }

  edit(change) { this.waiting.push(change); }

  receive(message) {
    const [what, ...rest] = message;
    if (what === 'welcome') { if (this.id === null) this.id = rest[0]; return; }
    if (this.id === null) return;
    if (what === 'copy') {
      const [version, done, rows] = rest;
      if (version <= this.version || done < this.acknowledged || done > this.acknowledged + this.waiting.length) return;
      this.base = docOf(rows);
      this.waiting.splice(0, done - this.acknowledged);
      Object.assign(this, { version, acknowledged: done });
    }
    if (what !== 'entry' || rest[0] !== this.version + 1) return;
    const [version, [author, number, change, outcome]] = rest;
    if (author === this.id) {
      if (number !== this.acknowledged + 1 || JSON.stringify(change) !== JSON.stringify(this.waiting[0])) return;
      this.waiting.shift();
      this.acknowledged = number;
    }
    this.version = version;
    const at = change === 'join' ? null : word(change[1]), [said, given] = outcome;
    if (said === 'created') this.base.set(at, { kind: change[2], place: given, props: new Map() });
    else if (said === 'moved') this.base.get(at).place = given;
    else if (said === 'wasset') { if (change[0] === 'set') this.base.get(at).props.set(change[2], change[3]); else this.base.get(at).props.delete(change[2]); }
    else if (said === 'removed') for (const id of given) this.base.delete(word(id));
  }

  view() {
    const view = copyDoc(this.base);
    for (const [what, id, ...rest] of this.waiting) {
      const at = word(id), object = view.get(at);
      if (what === 'create') { if (!object) view.set(at, { kind: rest[0], place: rest[1], props: new Map() }); }
      else if (!object) continue;
      else if (what === 'set') object.props.set(rest[0], rest[1]);
      else if (what === 'clear') object.props.delete(rest[0]);
      else if (at === '0:0') continue;
      else if (what === 'move') object.place = rest[0];
      else view.delete(at);
    }
    return view;
  }

  // The tree of the view: what no chain of parents leads to from the root isn't in it.
  text() { return treeText(this.view()); }
}

// A WebSocket class whose connections lead to a made-up server, and end after a No to an edit.
export const socketsTo = (fake) => class {
  readyState = 0;
  static #open = new Set();
  static get lines() { return [...this.#open].map(({ line }) => line); }
  // Tells each live connection what was published.
  static tell() { for (const socket of this.#open) socket.hear(fake.told(socket.line)); }

  line = {};
  constructor() { setTimeout(() => { this.readyState = 1; this.constructor.#open.add(this); this.onopen(); }); }
  send(bytes) {
    if (this.readyState !== 1) return;
    const message = Buffer.from(bytes).toString(), answers = fake.answer(message, this.line);
    this.hear([...answers, ...fake.told(this.line)]);
    if (answers[0].startsWith('["no",') && message.startsWith('["edit"')) this.close();
  }
  hear(messages) { for (const message of messages) setTimeout(() => this.onmessage({ data: Buffer.from(message) })); }
  close() { this.readyState = 3; if (this.constructor.#open.delete(this)) fake.ended(this.line); setTimeout(() => this.onclose()); }
};
