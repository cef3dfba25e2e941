// Signals: what a program listens to, each an EventTarget. Which objects have changed is noted by the client's `Shown` (client.js), which gives the
// same object for an id until that object changes.
class ChangedEvent extends Event { constructor(detail) { super('changed'); this.detail = detail; } }

// The children of an object that has none, or isn't in the tree: one list, so that it is the same one each time.
export const NO_CHILDREN = Object.freeze([]);

const DOCUMENT = 'document', ofObject = (id) => `object ${id}`, ofChildren = (id) => `children ${id}`;
const isCapture = (options) => Number(Boolean(typeof options === 'object' ? options?.capture : options));

// A part of the document. `value` is what the client shows of it now, and the same as before if it hasn't changed. The event `changed` has in `detail`
// the new value, or what `client.changed()` returns if the part is the whole document.
export class Signal extends EventTarget {
  #read; #started; #ended; #acts = [new Set(), new Set()];          // the listeners, by `capture`

  constructor(read, started, ended) {
    super();
    this.#read = read;
    this.#started = started;
    this.#ended = ended;
  }

  get value() { return this.#read(); }

  // Calls `act` with the detail of each event. Returns a function that ends it. It is bound, as useSyncExternalStore of React takes it.
  subscribe = (act) => {
    const listener = ({ detail }) => act(detail);
    this.addEventListener('changed', listener);
    return () => this.removeEventListener('changed', listener);
  };

  addEventListener(type, act, options) {
    super.addEventListener(type, act, options);
    if (type !== 'changed' || !act) return;
    this.#acts[isCapture(options)].add(act);
    this.#started(this);
  }

  removeEventListener(type, act, options) {
    super.removeEventListener(type, act, options);
    if (type !== 'changed' || !this.#acts[isCapture(options)].delete(act)) return;
    if (!this.#acts[0].size && !this.#acts[1].size) this.#ended(this);
  }
}

// The signals of one client. It holds those that have a listener, and no others.
export class Signals {
  #shown; #active = new Map(); #size = 0; #isDue = false; #isFiring = false; #isAgain = false;

  constructor(shown) { this.#shown = shown; }

  // How many signals have a listener.
  get size() { return this.#size; }

  // The whole document: a Map of the objects of the tree by their ids, which stays as it is.
  get document() { return this.#signal(DOCUMENT, () => this.#shown.snapshot()); }

  // An object of the tree, or null while it has none of this id.
  object(id) { return this.#signal(ofObject(id), () => this.#shown.update().get(id) ?? null); }

  // The ids of an object's children, in their order.
  children(id) { return this.#signal(ofChildren(id), () => this.#shown.update().get(id)?.children ?? NO_CHILDREN); }

  #signal(key, read) {
    const [known = null] = this.#active.get(key) ?? [];
    return known ?? new Signal(read, (signal) => this.#start(key, signal), (signal) => this.#end(key, signal));
  }

  #start(key, signal) {
    if (!this.#size) this.#shown.listen(true);
    if (!this.#active.has(key)) this.#active.set(key, new Set());
    const same = this.#active.get(key);
    if (!same.has(signal)) { same.add(signal); this.#size += 1; }
  }

  #end(key, signal) {
    const same = this.#active.get(key);
    if (!same?.delete(signal)) return;
    if (!same.size) this.#active.delete(key);
    this.#size -= 1;
    if (!this.#size) this.#shown.listen(false);
  }

  // Something may have changed: the events come once the program has made all its edits of this turn.
  soon() {
    if (this.#isDue || !this.#size) return;
    this.#isDue = true;
    queueMicrotask(() => { this.#isDue = false; this.#fire(); });
  }

  // A property of this object was set or cleared: if there is a listener for the object the events come at once, as a text field that shows the value
  // needs. Everything else waits, so that a loop which creates objects has them read once.
  wasSet(id) { if (this.#active.has(ofObject(id))) this.#fire(); }

  // What a listener changes is told after what it was called for.
  #fire() {
    if (this.#isFiring) { this.#isAgain = true; return; }
    this.#isFiring = true;
    try {
      do {
        this.#isAgain = false;
        if (this.#size) this.#fireOnce(this.#shown.takeNews());
      } while (this.#isAgain);
    } finally { this.#isFiring = false; }
  }

  #fireOnce(news) {
    const changes = news.length && this.#active.has(DOCUMENT) ? this.#shown.changesOf(news) : null;
    for (const { id, now, hasOthers } of news) {
      this.#dispatch(ofObject(id), now);
      if (hasOthers) this.#dispatch(ofChildren(id), now?.children ?? NO_CHILDREN);
    }
    if (changes) this.#dispatch(DOCUMENT, changes);
  }

  #dispatch(key, detail) {
    for (const signal of [...this.#active.get(key) ?? []]) signal.dispatchEvent(new ChangedEvent(detail));
  }
}
