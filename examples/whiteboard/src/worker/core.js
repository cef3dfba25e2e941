// The core of the page in a thread of its own: the proved client and its link to the server. It gets what a person does, and reports what the tree has
// become. The client is kept in the browser, so a page that is loaded again continues as the same one, with what waits.
import { doEdits } from './edits.js';

const LEAST_PAUSE = 8, MOST_PAUSE = 1000, HERE_EVERY = 3000, KEPT_WITHIN = 1000;        // milliseconds
const tell = (message) => postMessage(message);

export function startCore() {
  const core = open();
  core.catch((fault) => tell({ told: 'broken', message: fault.message }));
  self.onmessage = async ({ data }) => (await core)[data.do](data);
}

// The identity of the server's document, null if it has none, or the one that was open last if the server can't be asked.
async function identityOf(last) {
  try {
    const answer = await fetch('document', { cache: 'no-store' }), text = answer.ok ? (await answer.text()).trim() : null;
    return text === null ? last : /^[0-9a-f]{32}$/.test(text) ? text : null;
  } catch { return last; }
}

async function open() {
  const version = self.location.search, last = JSON.parse(self.name || '{}');
  const library = await import(`./lugcurrant.js${version}`), { Client, Kept, compile, shelfOfBrowser } = library;
  const [module, identity] = await Promise.all([compile(fetch(`canvas.wasm${version}`)), identityOf(last.document ?? null)]);
  const shelf = await shelfOfBrowser(identity, { window: last.window ? Number(last.window) : null });
  const kept = shelf && new Kept(shelf), client = kept ? await kept.load(module, { takePrefix: true }) : await Client.load(module);
  if (kept?.fault) { console.warn(kept.fault.message); tell({ told: 'changed' }); }
  tell({ told: 'kept', window: shelf?.window ?? null, document: identity });
  const core = new Core(library, client, identity, kept);
  core.report();
  return core;
}

// Its public calls are what the page's messages ask for, by their `do`.
class Core {
  #library; #client; #link; #kept; #turn = 0; #reported = 0; #isDue = false; #cost = 0; #here = null; #keeping = null; #shown = null;

  constructor(library, client, identity, kept) {
    this.#library = library;
    this.#client = client;
    this.#kept = kept;
    this.#link = new library.Link(client, new URL('./', self.location.href.replace(/^http/, 'ws')), {
      document: identity ?? undefined, kept, state: () => this.#tellState(), changed: () => { this.#soon(); this.#keepSoon(); },
      refused: ({ edit, id, name, words }) => tell({ told: 'refused', by: 'the server', edit, id, code: name, words }),
      anew: ({ made, lost, unsure }) => tell({ told: 'anew', made, lost: lost.length, unsure: unsure.length }),
      presence: ({ client, value }) => this.#tellShown(client, value),
    });
    this.#link.on('unsent', () => this.#tellState());
    setInterval(() => this.#count(), HERE_EVERY);
    this.#count();
  }

  // Makes edits. Who hears of a new object's id has been told of the object.
  edit({ edits, token, turn = 0 }) {
    const { ids, refused } = doEdits(this.#client, this.#library, edits);
    this.#turn = Math.max(this.#turn, turn);
    if (refused) tell({ told: 'refused', by: 'this client', ...refused });
    if (ids.length) this.report(); else this.#soon();
    if (token !== undefined) tell({ told: 'made', token, ids });
  }

  offline({ value }) { this.#link.offline = value; }
  show({ value }) { this.#link.presence.set(value); }
  text({ token }) { tell({ told: 'text', token, text: this.#client.text() }); }

  // Reports soon, and if the tree is large no oftener than it can be read with half of the time.
  #soon() {
    if (this.#isDue) return;
    this.#isDue = true;
    setTimeout(() => this.report(), Math.min(MOST_PAUSE, Math.max(LEAST_PAUSE, 2 * this.#cost)));
  }

  // What others show of themselves comes 30 times a second from each.
  #tellShown(client, value) {
    if (!this.#shown) {
      this.#shown = new Map();
      setTimeout(() => { tell({ told: 'shown', changes: [...this.#shown] }); this.#shown = null; }, LEAST_PAUSE);
    }
    this.#shown.set(client, value);
  }

  // The link keeps each edit before it sends it. What the server and others say is kept here, so it is there when the page is opened without the server.
  #keepSoon() {
    if (!this.#kept) return;
    this.#keeping ??= setTimeout(() => { this.#keeping = null; this.#kept.flush(); }, KEPT_WITHIN);
  }

  report() {
    this.#isDue = false;
    const begun = performance.now(), { put, gone } = this.#client.changed(), turn = this.#turn;
    if (put.length || gone.length || turn > this.#reported) tell({ told: 'tree', put, gone, turn });
    this.#reported = turn;
    this.#tellState();
    this.#cost = performance.now() - begun;
  }

  #tellState() {
    const client = this.#client, { state, words, offline, unsent } = this.#link;
    tell({ told: 'state', state, words, offline, unsent, id: client.id, version: client.version, acknowledged: client.acknowledged, waiting: client.waiting, here: this.#here });
  }

  async #count() {
    try {
      const line = await (await fetch('health', { cache: 'no-store' })).text();
      this.#here = Number(/ clients (\d+)/.exec(line)?.[1] ?? NaN) || null;
    } catch { this.#here = null; }
    this.#tellState();
  }
}
