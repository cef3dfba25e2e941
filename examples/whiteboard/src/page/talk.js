// What the page and the worker say to each other. The worker runs the proved client: it gets edits, and reports what the tree has become.
import { showAhead } from './doc.js';

// The number of the window, under which its client is kept, stays when the page is loaded again. The document that was here last is opened when the
// server can't be asked which one it has.
const DOCUMENT = `document ${location.pathname}`;
const remembered = { window: sessionStorage.getItem('window'), document: localStorage.getItem(DOCUMENT) };
const version = new URL(document.querySelector('script[src*="page.js"]').src).search;
const worker = new Worker(`worker.js${version}`, { type: 'module', name: JSON.stringify(remembered) });
const waiters = new Map(), listeners = new Map();
let tokens = 0, turn = 0;

// Calls `act` with each message of this kind.
export const whenTold = (told, act) => listeners.set(told, act);
export const whenBroken = (act) => { worker.onerror = act; };

worker.onmessage = ({ data }) => {
  if (data.told === 'kept') remember(data);
  waiters.get(data.token)?.(data);
  waiters.delete(data.token);
  listeners.get(data.told)?.(data);
};

function remember({ window, document: identity }) {
  if (window !== null) sessionStorage.setItem('window', window);
  if (identity !== null) localStorage.setItem(DOCUMENT, identity);
}

export function ask(message) {
  const token = (tokens += 1);
  return new Promise((resolve) => { waiters.set(token, resolve); worker.postMessage({ ...message, token }); });
}

// Shows the others this of the window: JSON, or null.
export const show = (value) => worker.postMessage({ do: 'show', value });
export const setOffline = (value) => worker.postMessage({ do: 'offline', value });

// Makes edits, in order: [name, ...arguments] of a call of the client. In place of an id `$` is the last object that these edits created, and `$0`,
// `$1`.. are the first, the second.. Returns the ids of what was created, when the page shows it.
export async function make(edits) {
  flushSets();
  return edits.length ? (await ask({ do: 'edit', edits, turn })).ids : [];
}

// The same for a few; returns the last id, or null.
export const send = async (...edits) => (await make(edits)).at(-1) ?? null;

// Sets of a gesture: one a frame at most for each property, with the last value. They are shown at once.
const later = new Map();

export function setLater(id, name, value) {
  if (!later.size) requestAnimationFrame(flushSets);
  later.set(`${id} ${name}`, [id, name, value]);
}

export function flushSets() {
  if (!later.size) return;
  const sets = [...later.values()];
  later.clear();
  turn += 1;
  showAhead(sets, turn);
  worker.postMessage({ do: 'edit', edits: sets.map((set) => ['set', ...set]), turn });
}
