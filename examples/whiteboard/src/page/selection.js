// What is chosen: any number of objects of the open page, or the page itself.
import { isIn, objects } from './doc.js';

const chosen = new Set(), listeners = [];
let last = null;                                        // from where Shift selects on in a list
const isPage = (id) => objects.get(id)?.kind === 'page';

// Calls `act` with the ids that were chosen before.
export const whenChosen = (act) => listeners.push(act);

export const isChosen = (id) => chosen.has(id);
export const chosenIds = () => [...chosen];
export const lastChosen = () => last;
export const onlyChosen = () => chosen.size === 1 ? [...chosen][0] : null;
export const chosenObjects = () => chosenIds().filter((id) => objects.has(id) && !isPage(id));

export function choose(ids) {
  const before = [...chosen];
  chosen.clear();
  for (const id of ids) if (objects.has(id)) chosen.add(id);
  last = ids.at(-1) ?? null;
  if (before.length === chosen.size && before.every((id) => chosen.has(id))) return;
  for (const act of listeners) act(before);
}

// Adds an object to what is chosen, or takes it away.
export function toggle(id) {
  const others = chosenObjects().filter((it) => it !== id);
  choose(chosen.has(id) ? others : [...others, id]);
}
export const chooseAlso = (ids) => choose([...new Set([...chosenObjects(), ...ids])]);

// Returns the chosen objects that aren't in another chosen one, from back to front of the page: what a move, a copy and a deletion are done to.
export function outermost() {
  const found = chosenObjects().filter((id) => !isInChosen(objects.get(id).parent));
  return found.length < 2 ? found : inOrder(new Set(found));
}

function isInChosen(id) {
  for (let k = id; k; k = objects.get(k)?.parent) if (chosen.has(k)) return true;
  return false;
}

function inOrder(ids) {
  let page = [...ids][0];
  while (objects.get(page).parent !== null && objects.get(page).kind !== 'page') page = objects.get(page).parent;
  const found = [], pending = [page];
  for (let id; (id = pending.pop()) !== undefined && found.length < ids.size;) {
    const { children } = objects.get(id);
    if (ids.has(id)) found.push(id);
    else for (let k = children.length - 1; k >= 0; k -= 1) pending.push(children[k]);
  }
  return found;
}

// Forgets what is gone, or isn't on the open page any more.
export function pruneChosen(page) {
  const left = chosenIds().filter((id) => objects.has(id) && isIn(id, page));
  if (left.length < chosen.size) choose(left);
}
