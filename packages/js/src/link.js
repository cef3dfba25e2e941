// A client's way to a server: it joins, sends what waits, asks for what is new, and connects again where the connection is lost. What it says and
// hears stands in flow.js; here are the sockets, the clock, the guard of the document's identity, and what is told.
import { FINAL_STATES, STATES } from './api.js';
import { Flow } from './flow.js';
import { Presence } from './presence.js';

const PATIENCE = 120000;                                        // milliseconds without a message while an answer is awaited
// The milliseconds within which a WebSocket must open.
const OPENING = 10000;
// Those after which one that the link has closed counts as ended, if the server doesn't end it.
const CLOSING = 2000;
const now = () => performance.now();

// The URL with a slash at its path's end, so that what is below it is the server's: a proxy may have it below a path.
const folderOf = (url) => {
  const at = new URL(url);
  if (!at.pathname.endsWith('/')) at.pathname += '/';
  return at;
};

class LinkEvent extends Event { constructor(type, detail) { super(type); this.detail = detail; } }

// Events: 'state'; 'change' after the client took something or made an edit; 'refused' { version, number, edit, id, name, words } for an edit that
// the server refused; 'anew' { made, lost, unsure } where it went on as another client; 'settled' where nothing waits and nothing new is to be had; 'unsent'
// when their count is another; 'presence' { client, value } for what another client shows of itself. `on(name, act)` is addEventListener that gives the
// detail, and answers a function that ends it.
export class Link extends EventTarget {
  // How a WebSocket is found where none is given: the package's entry for node or browsers says so.
  static findWebSocket = async () => globalThis.WebSocket;

  #flow; #Socket; #kept; #socket = null; #timer = null; #ended = false; #isOffline = false; #guards; #follows; #isTold = false; #pauses; #patience; #unwatch;
  #sleep = null; #keptTo = 0n; #keptTurn = 0; #keeping = false; #isPumping = false; #isSoon = false; #unsent = 0; #ready; #settling = []; #silent = null; #isSettled = false; #fault = null;

  // `options`: `document` the identity where it is known, or false to go without the guard; `follow` to begin anew where the server has another one; `kept` what keeps the client; `WebSocket`; `state`,
  // `changed`, `refused`, `anew`, `presence` as functions, in place of events; and numbers (index.d.ts).
  constructor(client, url, options = {}) {
    super();
    this.client = client;
    this.url = folderOf(url);
    this.state = 'connecting';
    this.words = '';
    this.document = options.document || null;
    this.#guards = options.document !== false;
    this.#follows = Boolean(options.follow);
    this.#Socket = options.WebSocket ?? null;
    this.#kept = options.kept ?? null;
    this.#patience = options.patience ?? PATIENCE;
    this.#pauses = { retry: options.retry ?? 300, most: options.mostRetry ?? 10000 };
    this.#flow = new Flow(client, options);
    this.presence = new Presence((json) => { this.#flow.show(json); this.#soon(); }, (change) => this.#fire('presence', change));
    if (this.#kept) this.#flow.limit = this.#keptTo;
    this.#ready = deferred();
    this.ready = this.#ready.promise;
    this.ready.catch(() => {});
    if (options.state) this.on('state', () => options.state(this));
    if (options.changed) this.on('change', (own) => options.changed(own));
    if (options.refused) this.on('refused', options.refused);
    if (options.anew) this.on('anew', options.anew);
    if (options.presence) this.on('presence', options.presence);
    this.#unwatch = client.watch((what) => { if (what === 'edit') this.#edited(); });
    this.done = this.#run();
  }

  on(name, act) {
    const listener = (event) => act(event.detail);
    this.addEventListener(name, listener);
    return () => this.removeEventListener(name, listener);
  }

  // The changes of the tree, as `changed()` of the client tells them, until the link is closed.
  async *changes() {
    let wake = deferred(), isOver = false;
    const off = [this.on('change', () => wake.resolve()), this.on('state', () => wake.resolve())];
    this.done.then(() => { isOver = true; wake.resolve(); });
    try {
      while (!isOver) {
        const changes = this.client.changed();
        if (changes.put.length || changes.gone.length) yield changes;
        else { await wake.promise; wake = deferred(); }
      }
    } finally { for (const end of off) end(); }
  }

  // How many edits the server hasn't said to have; how many are kept by this program until then, in the end.
  get unsent() { return this.#flow.unsent; }

  // Whether edits would be lost if the program ended now.
  get isLosing() { return this.unsent > 0 && !(this.#kept?.isKeeping && BigInt(this.client.lastEdit) <= this.#keptTo); }

  // When nothing waits, and what there is was heard.
  settled() {
    if (this.#fault) return Promise.reject(this.#fault);
    if (this.#flow.isSettled) return Promise.resolve();
    const waiter = deferred();
    this.#settling.push(waiter);
    this.wake();
    return waiter.promise;
  }

  get offline() { return this.#isOffline; }
  set offline(value) {
    this.#isOffline = Boolean(value);
    if (this.#isOffline && !this.#ended && !this.#isOver) { this.#drop(); this.#tell('offline'); }
    this.#sleep?.wake();
  }

  // Asks at once, whatever the pause is. After edits it needn't be called.
  wake() { this.#sleep?.wake(); this.#flow.wake(now()); this.#soon(); }

  // Ends the link. What waits in the client stays there.
  close() { this.#ended = true; this.#drop(); this.#sleep?.wake(); }

  // Closes it when the server has all edits, or after so many milliseconds; whether it has them.
  async finish(milliseconds = 5000) {
    await Promise.race([this.settled().catch(() => {}), new Promise((resolve) => { setTimeout(resolve, milliseconds).unref?.(); })]);
    const isAll = this.unsent === 0;
    await this.#kept?.flush();
    this.close();
    return isAll;
  }

  #tell(state, words = STATES[state]) {
    if (this.#isOffline && !FINAL_STATES.includes(state)) state = 'offline';          // what was under way isn't reported
    if (['online', 'connecting', 'offline'].includes(state)) words = '';
    if (this.state === state && this.words === words) return;
    this.state = state;
    this.words = words;
    this.#fire('state', this);
  }
  #fire(name, detail) { this.dispatchEvent(new LinkEvent(name, detail)); }

  // ---- the connection ----

  async #run() {
    let retry = this.#pauses.retry;
    try { this.#Socket ??= await Link.findWebSocket(); } catch (fault) { this.#end('fault', fault.message); return; }
    if (!this.#Socket) { this.#end('fault', 'there is no WebSocket here: pass `{ WebSocket }` to Link'); return; }
    while (!this.#ended && !this.#isOver) {
      if (this.#isOffline) { await this.#pause(3600000); continue; }
      const socket = await this.#connect();
      if (socket && await this.#talk(socket)) retry = this.#pauses.retry;
      if (this.#ended || this.#isOffline || this.#isOver) continue;
      if (!socket) await this.#tellWhy();
      else if (this.state === 'online') this.#tell('no server', 'the connection has ended; it is tried again');
      await this.#pause(retry * (0.75 + Math.random() / 2));
      retry = Math.min(2 * retry, this.#pauses.most);
    }
    this.#unwatch();
    if (this.#ended) this.#end('closed');
    else this.#end(this.state, this.words);
  }

  get #isOver() { return FINAL_STATES.includes(this.state); }

  #end(state, words) {
    this.#tell(state, words);
    const fault = this.#fault = new Error(`the link has ended: ${this.words || state}`);
    this.#ready.reject(fault);
    for (const waiter of this.#settling.splice(0)) waiter.reject(fault);
  }

  async #pause(milliseconds) {
    let wake;
    const slept = new Promise((resolve) => { wake = resolve; }), timer = setTimeout(wake, milliseconds);
    this.#sleep = { wake: () => { clearTimeout(timer); wake(); } };
    await slept;
    this.#sleep = null;
  }

  // The server's answer to a GET of this path below its own: { text }, { text: null } where it has none, or { isAway } or { isHidden }, where a
  // server answers and the browser lets no page of this origin read it.
  async #get(path) {
    const at = new URL(path, this.url);
    at.protocol = at.protocol === 'wss:' || at.protocol === 'https:' ? 'https:' : 'http:';
    // Node ends while only an AbortSignal.timeout is left to wait for, as where its fetch doesn't notice that the connection is lost.
    const late = new AbortController(), timer = setTimeout(() => late.abort(), Math.max(3000, this.#pauses.retry));
    const options = { cache: 'no-store', signal: late.signal };
    try {
      const answer = await fetch(at, options);
      return { text: answer.ok ? (await answer.text()).trim() : null };
    } catch {
      if (!globalThis.location || at.origin === globalThis.location.origin) return { isAway: true };
      try { await fetch(at, { ...options, mode: 'no-cors' }); return { isHidden: true }; } catch { return { isAway: true }; }
    } finally {
      clearTimeout(timer);
    }
  }

  // Whether it may connect: the server has the very document of which the client has heard, or the guard isn't wanted.
  async #guard() {
    if (!this.#guards) return true;
    const { text, isAway, isHidden } = await this.#get('document');
    if (isHidden) { if (this.document) return true; this.#tell('unguarded'); return false; }     // /document/ID guards then
    if (isAway) return false;
    const identity = text && /^[0-9a-f]{32}$/.test(text) ? text : null;
    if (!identity) return !this.#isTold;                             // a server without identities; or one that is away behind a proxy
    if (this.document && this.document !== identity) {
      if (!this.#follows) { this.#tell('another document'); return false; }
      this.#flow.anew = null;
      this.#flow.beginAnew('stranger', { scan: true });
      this.#events();
    }
    this.document = identity;
    this.#isTold = true;
    return true;
  }

  async #connect() {
    if (!await this.#guard() || this.#isOffline || this.#ended) return null;
    const at = this.document ? new URL(`document/${this.document}`, this.url) : new URL(this.url);
    return new Promise((resolve) => {
      const socket = new this.#Socket(at.href.replace(/^http/, 'ws'));
      this.#socket = socket;
      socket.binaryType = 'arraybuffer';
      // A peer may accept the connection and never answer.
      const timer = setTimeout(() => { socket.close(); open(null); }, OPENING);
      const open = (it) => { clearTimeout(timer); resolve(it); };
      socket.onopen = () => open(this.#isOffline || this.#ended ? null : socket);
      socket.onclose = () => open(null);
      socket.onerror = () => open(null);
    });
  }

  // Why there is no connection. A browser isn't told, so the server is asked how it is.
  async #tellWhy() {
    if (this.#isOver) return;
    const { text, isAway, isHidden } = this.#guards ? await this.#get('health') : { isAway: true };
    if (this.#isOffline || this.#ended) return;
    if (text) this.#tell('no seat');
    else if (isHidden) this.#tell('no seat', 'the server answers, and takes no connection: every seat is taken, it has another document, or it does not know this origin; it is tried again');
    else this.#tell('no server', isAway ? STATES['no server'] : 'what answers there is no Lugcurrant server; it is tried again');
  }

  // Talks on this connection until it ends. Whether that went well, so that another one may be tried soon.
  #talk(socket) {
    return new Promise((resolve) => {
      let isWell = false, isOver = false;
      this.#flow.state = 'connecting';
      socket.onmessage = ({ data }) => {
        if (this.#socket !== socket) return;
        this.#flow.hear(new Uint8Array(data), now());
        isWell ||= this.#flow.state === 'online';
        this.#events();
        this.#pump();
      };
      socket.onerror = () => {};
      socket.onclose = () => {
        if (isOver) return;
        isOver = true;
        if (this.#socket === socket) this.#socket = null;
        clearTimeout(this.#timer);
        clearTimeout(this.#silent);
        this.#flow.lost();
        this.presence.lost();
        resolve(isWell);
      };
      if (socket.readyState > 1) { this.#socket = null; resolve(false); return; }
      this.#flow.open(now());
      this.#pump();
    });
  }

  #drop() {
    const socket = this.#socket;
    this.#socket = null;
    clearTimeout(this.#timer);
    if (socket) closeSoon(socket);
    this.presence.lost();
  }

  // ---- sending ----

  #edited() { this.#isSettled = false; this.#soon(true); }

  // Sends what there is once the program has made all its edits of this turn.
  #soon(isOwn = false) {
    if (isOwn) this.#isSoon = 'own'; else this.#isSoon ||= 'yes';
    if (this.#isPumping) return;
    this.#isPumping = true;
    queueMicrotask(() => {
      const isOwnEdit = this.#isSoon === 'own';
      this.#isPumping = false;
      this.#isSoon = false;
      this.#pump();
      if (isOwnEdit) this.#fire('change', true);
    });
  }

  #pump() {
    this.#keep();
    const socket = this.#socket;
    if (socket?.readyState === 1 && this.#flow.isOpen) {
      for (const bytes of this.#flow.outgoing(now())) socket.send(bytes);
      clearTimeout(this.#timer);
      const wait = this.#flow.due(now());
      if (wait !== null) this.#timer = setTimeout(() => this.#pump(), wait);
      clearTimeout(this.#silent);
      if (this.#flow.fifo.length) this.#silent = setTimeout(() => closeSoon(socket), this.#patience);
    }
    this.#count();
  }

  // An edit is sent once it is kept.
  #keep() {
    if (!this.#kept) return;
    if (!this.#kept.isKeeping) { this.#flow.limit = 1n << 62n; return; }
    const last = BigInt(this.client.lastEdit);
    if (this.#keeping || last <= this.#keptTo) return;
    const turn = this.#keptTurn;
    this.#keeping = true;
    this.#kept.flush().then(() => {
      this.#keeping = false;
      if (turn === this.#keptTurn) this.#flow.limit = this.#keptTo = last;
      this.#pump();
    });
  }

  // The client has become another one: of its edits those up to this number are kept.
  #forgetKept(number) {
    this.#keptTurn += 1;
    this.#keptTo = number;
    if (this.#kept?.isKeeping) this.#flow.limit = number;
  }

  #count() {
    const count = this.unsent;
    if (count !== this.#unsent) { this.#unsent = count; this.#fire('unsent', count); }
  }

  #events() {
    const events = this.#flow.events.splice(0);
    let isChanged = false;
    for (const event of events) {
      if (event.type === 'took') isChanged = true;
      else if (event.type === 'refused') { if (event.change) { this.#forgetKept(BigInt(this.client.acknowledged)); isChanged = true; } this.#fire('refused', event); }
      else if (event.type === 'state') { this.#tell(event.state, event.words); if (event.state === 'fault') this.#drop(); }
      else if (event.type === 'anew') { this.#forgetKept(0n); isChanged = true; this.#fire('anew', event); }
      else if (event.type === 'caught up') this.#caughtUp();
      else if (event.type === 'here') this.presence.heard(event.client, event.value);
    }
    if (isChanged) this.#fire('change', false);
  }

  #caughtUp() {
    this.#ready.resolve(this);
    if (!this.#flow.isSettled) return;
    for (const waiter of this.#settling.splice(0)) waiter.resolve();
    if (this.#isSettled) return;            // the event comes once for each time that something waited
    this.#isSettled = true;
    this.#fire('settled', this);
  }
}

function closeSoon(socket) {
  socket.close();
  setTimeout(() => socket.onclose(), CLOSING).unref?.();
}

function deferred() {
  const made = {};
  made.promise = new Promise((resolve, reject) => { made.resolve = resolve; made.reject = reject; });
  return made;
}

// Lets the browser ask before the page is closed while `count()` edits would be lost. Answers a function that ends it.
export function warnBeforeClosing(count, target = globalThis) {
  const ask = (event) => { if (count() > 0) { event.preventDefault(); event.returnValue = ''; } };
  target.addEventListener('beforeunload', ask);
  return () => target.removeEventListener('beforeunload', ask);
}
