// The document as the page shows it: what the worker has reported, and above it the sets of a gesture that the worker hasn't reported yet. So a drag is
// drawn in the frame in which the pointer moves.
import { isSameList, sizeOf, spotOf } from './values.js';

export const ROOT = '0:0';
export const DEEPEST = 98;                              // how deep the page draws and lists, from 0 for what is on a page: the rules allow no more
export const objects = new Map();                       // what is shown, by ids

const reported = new Map();                             // as the worker has reported them
const ahead = new Map();                                // by ids: the sets that it hasn't, name → { value, turn }
const listeners = [];

// Calls `act` with { changed, gone, reordered }: sets of ids. `reordered` has the objects that are new or have other children.
export const whenChanged = (act) => listeners.push(act);

function publish(changed, gone = new Set(), reordered = new Set()) {
  for (const id of changed) objects.set(id, shown(id));
  for (const act of listeners) act({ changed, gone, reordered });
}

function shown(id) {
  const object = reported.get(id), sets = ahead.get(id);
  if (!sets) return object;
  const properties = { ...object.properties };
  for (const [name, { value }] of sets) properties[name] = value;
  return { ...object, properties };
}

// Takes a report of the worker. It has done the page's sets up to this turn.
export function takeReport({ put, gone, turn }) {
  const changed = new Set(), reordered = new Set();
  for (const id of gone) for (const map of [reported, ahead, objects]) map.delete(id);
  for (const object of put) {
    const was = reported.get(object.id);
    reported.set(object.id, object);
    changed.add(object.id);
    if (!was || !isSameList(was.children, object.children)) reordered.add(object.id);
  }
  for (const [id, sets] of ahead) {
    for (const [name, set] of sets) if (set.turn <= turn) { sets.delete(name); changed.add(id); }
    if (!sets.size) ahead.delete(id);
  }
  publish(changed, new Set(gone), reordered);
}

// Shows sets that the worker will report after this turn.
export function showAhead(sets, turn) {
  const changed = new Set();
  for (const [id, name, value] of sets) {
    if (!reported.has(id)) continue;
    if (!ahead.has(id)) ahead.set(id, new Map());
    ahead.get(id).set(name, { value, turn });
    changed.add(id);
  }
  publish(changed);
}

// ---- where objects are ----

export const childrenOf = (id) => objects.get(id)?.children ?? [];
export const isIn = (id, above) => { for (let k = id; k; k = objects.get(k)?.parent) if (k === above) return true; return false; };

// Returns the board's point that is 0, 0 of an object.
export function originOf(id) {
  const sum = [0, 0];
  for (let object = objects.get(id); object && object.kind !== 'document'; object = objects.get(object.parent)) {
    const [x, y] = spotOf(object);
    sum[0] += x;
    sum[1] += y;
  }
  return sum;
}

// Returns where an object is on the board: [left, top, width, height].
export const boxOf = (id) => [...originOf(id), ...sizeOf(objects.get(id))];

// Returns the smallest box around these.
export function boxAround(boxes) {
  let [left, top, right, bottom] = [Infinity, Infinity, -Infinity, -Infinity];
  for (const [x, y, w, h] of boxes) [left, top, right, bottom] = [Math.min(left, x), Math.min(top, y), Math.max(right, x + w), Math.max(bottom, y + h)];
  return [left, top, right - left, bottom - top];
}

// Returns the ids of an object and of all below it, each before its children.
export function below(id) {
  const found = [id];
  for (let k = 0; k < found.length; k += 1) for (const child of childrenOf(found[k])) found.push(child);
  return found;
}

// Returns the frontmost frame of a page at a point of the board that isn't one of `except` or in one of them, or the page.
export function holderAt(page, [x, y], except = new Set()) {
  const under = (id, left, top, depth) => {
    if (depth > DEEPEST) return null;
    for (const child of [...childrenOf(id)].reverse()) {
      const object = objects.get(child);
      if (object?.kind !== 'frame' || except.has(child)) continue;
      const [dx, dy] = spotOf(object), [w, h] = sizeOf(object), a = left + dx, b = top + dy;
      if (x >= a && y >= b && x < a + w && y < b + h) return under(child, a, b, depth + 1) ?? child;
    }
    return null;
  };
  return under(page, 0, 0, 0) ?? page;
}
