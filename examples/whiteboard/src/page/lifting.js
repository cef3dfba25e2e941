// Which objects are lifted above the board: those of a gesture, and those that change again and again because somebody else drags them.
import { at } from './elements.js';
import { isIn, objects } from './doc.js';
import { isLifted, lift, liftedIds, place, putBack } from './drawing.js';

export const MANY = 50;                                 // more objects than these are carried: they are set when the drag ends, or no key follows
const AGAIN_WITHIN = 300, RESTS_AFTER = 600;            // milliseconds
const changedAt = new Map(), held = new Set();
let settling = null;

// Notes that these objects have changed.
export function noteChanges(ids, page) {
  const now = performance.now(), again = new Set();
  for (const id of ids) {
    const isAgain = now - (changedAt.get(id) ?? -Infinity) < AGAIN_WITHIN, { kind } = objects.get(id);
    changedAt.set(id, now);
    if (isAgain && kind !== 'page' && kind !== 'document' && isIn(id, page)) again.add(id);
  }
  lift([...again].filter((id) => !isInLifted(id, again)));
  for (const id of liftedIds()) place(objects.get(id));                 // what one of them is in may have moved
  settling ??= setInterval(settle, AGAIN_WITHIN);
}

function isInLifted(id, others) {
  for (let k = objects.get(id)?.parent; k; k = objects.get(k)?.parent) if (isLifted(k) || others.has(k)) return true;
  return false;
}

// Puts back what rests.
function settle() {
  const since = performance.now() - RESTS_AFTER;
  putBack(liftedIds().filter((id) => !held.has(id) && (changedAt.get(id) ?? 0) < since));
  for (const [id, when] of changedAt) if (when < since) changedAt.delete(id);
  if (changedAt.size || liftedIds().length) return;
  clearInterval(settling);
  settling = null;
}

export function putAllBack() { held.clear(); putBack(liftedIds()); }

// Holds these objects up until `release`.
export function hold(ids) {
  for (const id of ids) held.add(id);
  lift(ids);
}
export function release() {
  putBack([...held]);
  held.clear();
}

// Carries many objects at once: they move as one, and nothing is set until they are set down.
export function carry(ids) {
  putBack(ids);
  for (const id of ids) held.add(id);
  lift(ids, 'carried');
}
export function carryBy([dx, dy]) { at('carried').setAttribute('transform', `translate(${dx} ${dy})`); }
export function setDown() {
  release();
  at('carried').removeAttribute('transform');
}
