// Moves what is chosen by keys. Many objects are carried as in a drag, and set once no further key comes or something else begins: else each press of a
// key that is held would be an edit of each of them.
import { objects } from './doc.js';
import { MANY, carry, carryBy, setDown } from './lifting.js';
import { aids, drawMarks } from './marks.js';
import { outermost } from './selection.js';
import { flushSets, setLater } from './talk.js';
import { spotOf } from './values.js';

const RESTS_AFTER = 300;                                // milliseconds
let carried = null;                                     // { ids, by, timer }

export function nudge(dx, dy) {
  const ids = carried?.ids ?? outermost();
  if (ids.length <= MANY) return set(ids, [dx, dy]);
  if (!carried) { carry(ids); carried = { ids, by: [0, 0], timer: null }; }
  carried.by = [carried.by[0] + dx, carried.by[1] + dy];
  clearTimeout(carried.timer);
  carried.timer = setTimeout(settle, RESTS_AFTER);
  return show(carried.by);
}

function set(ids, [dx, dy]) {
  for (const id of ids) {
    if (!objects.has(id)) continue;
    const [x, y] = spotOf(objects.get(id));
    setLater(id, 'at', [x + dx, y + dy]);
  }
}

function show(by) {
  carryBy(by);
  aids.carried = by;
  drawMarks();
}

function settle() {
  if (!carried) return;
  const { ids, by, timer } = carried;
  carried = null;
  clearTimeout(timer);
  set(ids, by);
  flushSets();
  show([0, 0]);
  setDown();
}

// Whatever a person does next finds the objects where they are seen.
for (const begin of ['pointerdown', 'copy', 'cut', 'paste', 'blur', 'pagehide']) addEventListener(begin, settle, { capture: true });
addEventListener('keydown', ({ key }) => { if (!key.startsWith('Arrow') && key !== 'Shift') settle(); }, { capture: true });
