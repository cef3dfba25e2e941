// Keeping a client, so that a program which ends goes on as the same one, with what waits. What was kept of a client is all of it once, and then
// what it did since: each edit, and each message that it took. So an edit is kept by its own bytes, however large the document is. The lock that
// no other program goes on with the same client is taken here.
import { Client, ClientError, textOfBytes } from './client.js';

const EDIT = 1, TOOK = 2, COPY = 0x63;                          // the third byte of ["copy"; of ["welcome" and ["entry" it is another
const LEAST_JOURNAL = 65536;                                   // bytes of a journal that may be longer than all of the client

// What was kept doesn't come to the client that kept it. Of what was kept, counted from 0 for the whole client, number `index` is `kept`, and here it
// was `made` another edit, or none for the reason `code`. `left` is this and what follows: { what: 'all' | 'edit' | 'took', message }.
export class ReplayError extends Error {
  constructor(index, code, made, left) {
    super(`what was kept can't be replayed: number ${index} is ${left[0].message.slice(0, 200)}, and here ${made ?? code}`);
    this.name = 'ReplayError';
    Object.assign(this, { index, kept: left[0].message, code, made, left });
  }
}

// A shelf keeps one client: `read()` answers { all, journal: [bytes, ..] }, `put(all)` keeps all and no journal, `add(parts)` keeps more parts, each
// of them when it answers; `end()` forgets all and lets go, `close()` lets go.
export class Kept {
  #shelf; #parts = []; #size = 0; #allSize = 0; #isWhole = false; #client = null; #unwatch = null; #work = Promise.resolve();

  constructor(shelf) { this.#shelf = shelf; this.fault = null; }

  // The client that was kept, or a new one: of this module, as for Client.load. Throws a ReplayError if what was kept doesn't come to that client;
  // then nothing of it is touched. With `takePrefix` it goes on with what came before that, and `fault` has the error.
  async load(module = null, { takePrefix = false } = {}) {
    const { all, journal } = await this.#shelf.read();
    this.fault = null;
    let client;
    try { client = await replayed(module, all, journal); } catch (fault) {
      if (!(fault instanceof ReplayError) || !takePrefix) throw fault;
      this.fault = fault;
      client = await replayed(module, fault.index ? all : null, journal.slice(0, Math.max(0, fault.index - 1)));
    }
    this.watch(client);
    return client;
  }

  watch(client) {
    this.#unwatch?.();
    this.#client = client;
    this.#isWhole = false;
    this.#unwatch = client.watch((what, message) => {
      if (!this.#shelf || !this.#isWhole) return;
      if (what === 'anew') this.#keepAll();
      else if (what === 'edit') this.#note(EDIT, client.editMessage(client.waiting));
      else this.#note(TOOK, typeof message === 'string' ? new TextEncoder().encode(message) : message);
    });
  }

  // Notes a part of the journal, which is kept with the next flush. After a copy, and once the journal is longer than all of the client, all is kept.
  #note(kind, message) {
    this.#size += message.length + 1;
    if ((kind === TOOK && message[2] === COPY) || this.#size > Math.max(LEAST_JOURNAL, this.#allSize)) { this.#keepAll(); return; }
    const part = new Uint8Array(message.length + 1);
    part[0] = kind;
    part.set(message, 1);
    this.#parts.push(part);
  }
  #keepAll() { this.#isWhole = false; this.#parts = []; }

  get isKeeping() { return Boolean(this.#shelf); }

  // Keeps what the client is by now. Where that fails, nothing is kept any more, and `fault` says why: what was kept before gives the numbers of
  // later edits to none yet.
  flush() {
    this.#work = this.#work.then(() => this.#flush()).catch(async (fault) => { this.fault = fault; await this.end(); });
    return this.#work;
  }

  async #flush() {
    if (!this.#shelf || !this.#client) return;
    const parts = this.#parts;
    this.#parts = [];
    if (this.#isWhole) { if (parts.length) await this.#shelf.add(parts); return; }
    const all = this.#client.save();
    this.#isWhole = true;
    this.#size = 0;
    this.#allSize = all.length;
    await this.#shelf.put(all);
  }

  // Forgets the client; ends keeping.
  async end() { const shelf = this.#shelf; this.#shelf = null; this.#unwatch?.(); await shelf?.end().catch(() => {}); }
  async close() { await this.flush(); const shelf = this.#shelf; this.#shelf = null; this.#unwatch?.(); await shelf?.close(); }
}

const WORDS = { [EDIT]: 'edit', [TOOK]: 'took' };

// What was kept from this number on: 0 is the whole client, and the journal is counted from 1.
function leftOf(all, journal, index) {
  const left = journal.slice(Math.max(0, index - 1)).map((bytes) => ({ what: WORDS[bytes[0]] ?? 'unknown', message: textOfBytes(bytes.subarray(1)) }));
  return index ? left : [{ what: 'all', message: textOfBytes(all) }, ...left];
}

// The client of which all was kept, with what it did since, or a new one if nothing was kept. A journal is of no use without the whole client.
async function replayed(module, all, journal) {
  if (!all && !journal.length) return Client.load(module);
  if (!all) throw new ReplayError(0, 'NotAClient', null, leftOf(new Uint8Array(), journal, 0));
  let client;
  try { client = await Client.load(module, all); } catch (fault) {
    if (!(fault instanceof ClientError)) throw fault;
    throw new ReplayError(0, fault.code, null, leftOf(all, journal, 0));
  }
  journal.forEach((bytes, k) => {
    const message = textOfBytes(bytes.subarray(1)), { code, made } = doAgain(client, bytes[0], message);
    if (code || made !== message) throw new ReplayError(k + 1, code, made, leftOf(all, journal, k + 1));
  });
  return client;
}

// Does again what the client did: the edit that it made then, or the message that it took; or the code for which it can't.
function doAgain(client, kind, message) {
  try {
    if (kind === TOOK) { const { what } = client.receive(message); return what === 'took' ? { code: null, made: message } : { code: what, made: null }; }
    if (kind !== EDIT) return { code: 'unknown', made: null };
    if (!client.resume(message)) return { code: 'old', made: null };
    return { code: null, made: textOfBytes(client.editMessage(client.waiting)) };
  } catch (fault) {
    if (!(fault instanceof ClientError)) throw fault;
    return { code: fault.code, made: null };
  }
}

// ---- in browsers: IndexedDB, and the lock of this name ----

const answered = (request) => new Promise((resolve, reject) => { request.onsuccess = () => resolve(request.result); request.onerror = () => reject(request.error); });

// Takes the lock of a name until the window is closed or the function that it answers is called; null where another has it for so long.
export function lockOfBrowser(name, milliseconds = 0) {
  return new Promise((resolve) => {
    const options = milliseconds ? { signal: AbortSignal.timeout(milliseconds) } : { ifAvailable: true };
    navigator.locks.request(name, options, (held) => {
      if (!held) { resolve(null); return null; }
      return new Promise((release) => { resolve(release); });
    }).catch(() => resolve(null));
  });
}

// A shelf of the browser for the document of this identity: of the window of this number, or else of the first that is closed, so that what a
// closed window left, the next one goes on with. `window` is its number then. Null where the browser has no locks or no IndexedDB: on a page that
// comes neither from the own machine nor over https.
export async function shelfOfBrowser(document, { window = null, wait = 3000, database = 'lugcurrant-2' } = {}) {
  if (!document || !globalThis.navigator?.locks || !globalThis.indexedDB) return null;
  let at = window, release = at === null ? null : await lockOfBrowser(`lugcurrant/${document}/${at}`, wait);
  if (!release) for (at = 0; !release; at += release ? 0 : 1) { release = await lockOfBrowser(`lugcurrant/${document}/${at}`); if (release) break; }
  const opening = indexedDB.open(database, 1);
  opening.onupgradeneeded = () => opening.result.createObjectStore('parts');
  const base = await answered(opening), of = [document, Number(at)], all = IDBKeyRange.bound([...of, 0], [...of, Infinity]);
  const done = (act) => new Promise((resolve, reject) => {
    const transaction = base.transaction('parts', 'readwrite', { durability: 'strict' });
    act(transaction.objectStore('parts'));
    transaction.oncomplete = () => resolve();
    transaction.onabort = () => reject(transaction.error);
  });
  let next = 1;
  return {
    window: Number(at),
    async read() {
      const found = await answered(base.transaction('parts').objectStore('parts').getAll(all));
      const [first = null, ...journal] = found.flat();
      return { all: first, journal };
    },
    put(bytes) { next = 1; return done((store) => { store.delete(all); store.put(bytes, [...of, 0]); }); },
    add(parts) { const key = [...of, next]; next += 1; return done((store) => store.put(parts, key)); },
    async end() { await done((store) => store.delete(all)); base.close(); release(); },
    async close() { base.close(); release(); },
  };
}
