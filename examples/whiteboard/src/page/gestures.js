// What a pointer does on the board: it chooses, moves, resizes, draws, and spans a band around what is to be chosen. Two fingers, the wheel and the
// space bar move the board (touches.js).
import { at } from './elements.js';
import { editsInto } from './arrange.js';
import { idsInBand } from './band.js';
import { holderAt, isIn, objects, originOf } from './doc.js';
import { MANY, carry, carryBy, hold, release, setDown } from './lifting.js';
import { aids, drawMarks } from './marks.js';
import { openPage } from './pages.js';
import { choose, chosenIds, isChosen, outermost, toggle } from './selection.js';
import { onBoard, sight } from './sight.js';
import { isSeveral } from './several.js';
import { flushSets, make, setLater } from './talk.js';
import { create, pickedTool } from './tools.js';
import { sizeOf, spotOf } from './values.js';

const STARTS_AT = 3, SMALLEST = 6, LEAST_SIDE = 8;      // pixels from which on a press is a drag; sides of a drawn box and of a resized one
let gesture = null;

const boxBetween = ([a, b], [c, d]) => [Math.min(a, c), Math.min(b, d), Math.abs(a - c), Math.abs(b - d)];

// ---- it begins ----

export function begin(event) {
  at('stage').focus({ preventScroll: true, focusVisible: false });
  const from = onBoard(event), handle = event.target.dataset?.handle, before = chosenIds();
  if (handle) gesture = { ...resizing(before[0], handle), from, before };
  else if (pickedTool() !== 'select') gesture = { ...SKETCH, from, before };
  else gesture = { ...pressing(event, before), from, before };
  at('stage').setPointerCapture(event.pointerId);
}

// A press on an object chooses it, or with Shift adds it. On one of several that are chosen, it is seen at the end whether it was a drag.
function pressing(event, before) {
  const id = event.target.closest?.('[data-id]')?.dataset.id ?? null, isToo = event.shiftKey || isSeveral(), isGround = id === null || id === openPage();
  if (isGround && !isToo) choose([]);
  if (isGround) return { ...BAND, added: isToo ? before : [] };
  const wasChosen = isChosen(id);
  if (!wasChosen) { if (isToo) toggle(id); else choose([id]); }
  return { ...MOVE, pressed: id, isToo, wasChosen };
}

// ---- each kind: `start` when it becomes a drag, `move`, `end`, `tap` if it never became one, `cancel` ----

const MOVE = {
  start() {
    this.ids = outermost();
    this.starts = new Map(this.ids.map((id) => [id, { spot: spotOf(objects.get(id)), origin: originOf(id), at: objects.get(id).properties.at }]));
    this.isCarried = this.ids.length > MANY;
    if (this.isCarried) carry(this.ids); else hold(this.ids);
  },
  move(point, [dx, dy]) {
    this.by = [Math.round(dx), Math.round(dy)];
    if (this.isCarried) { carryBy(this.by); aids.carried = this.by; } else this.set(this.by);
    const holder = holderAt(openPage(), point, new Set(this.ids));
    aids.target = this.ids.some((id) => objects.has(id) && objects.get(id).parent !== holder) ? holder : null;
  },
  set([dx, dy]) {
    for (const [id, { spot: [x, y] }] of this.starts) if (objects.has(id)) setLater(id, 'at', [x + dx, y + dy]);
  },
  end() {
    const ids = this.ids.filter((id) => objects.has(id)), holder = aids.target;
    if (this.isCarried) this.set(this.by);
    flushSets();
    if (this.isCarried) setDown(); else release();
    if (!holder || !objects.has(holder) || ids.some((id) => isIn(holder, id))) return;
    const moved = ids.filter((id) => objects.get(id).parent !== holder);
    make(editsInto(moved, holder));
  },
  cancel() {
    if (this.isCarried) return setDown();
    for (const [id, { spot, at: was }] of this.starts ?? []) if (objects.has(id)) setLater(id, 'at', was ?? spot);
    return release();
  },
  tap() {
    if (this.isToo && this.wasChosen) toggle(this.pressed);
    if (!this.isToo && this.wasChosen) choose([this.pressed]);
  },
};

const resizing = (id, handle) => ({ ...RESIZE, id, handle, size: sizeOf(objects.get(id)), was: objects.get(id).properties.size });
const RESIZE = {
  start() { hold([this.id]); },
  move(point, [dx, dy]) {
    const [w, h] = this.size;
    setLater(this.id, 'size', [Math.max(LEAST_SIDE, Math.round(this.handle === 's' ? w : w + dx)), Math.max(LEAST_SIDE, Math.round(this.handle === 'e' ? h : h + dy))]);
  },
  end() { flushSets(); release(); },
  cancel() { if (objects.has(this.id)) setLater(this.id, 'size', this.was ?? this.size); release(); },
};

const SKETCH = {
  move(point) { aids.sketch = boxBetween(this.from, point); },
  end() { const box = aids.sketch; create(this.from, box[2] > SMALLEST && box[3] > SMALLEST ? box : null); },
  tap() { create(this.from); },
};

const BAND = {
  move(point) {
    aids.band = boxBetween(this.from, point);
    choose([...new Set([...this.added, ...idsInBand(openPage(), aids.band)])]);
  },
};

// ---- it goes on, and ends ----

export function move(event) {
  if (!gesture) return;
  const point = onBoard(event), by = [point[0] - gesture.from[0], point[1] - gesture.from[1]];
  if (!gesture.isDrag) {
    if (Math.hypot(...by) * sight.scale < STARTS_AT) return;
    gesture.isDrag = true;
    at('glass').hidden = false;
    gesture.start?.();
  }
  gesture.move(point, by);
  drawMarks();
}

export function end() {
  const done = gesture;
  gesture = null;
  if (done?.isDrag) done.end?.(); else done?.tap?.();
  clearAids();
}

// Leaves all as it was before. Returns whether there was a gesture.
export function cancel() {
  const done = gesture;
  gesture = null;
  if (!done) return false;
  if (done.isDrag) done.cancel?.();
  choose(done.before);
  clearAids();
  return true;
}

function clearAids() {
  at('glass').hidden = true;
  Object.assign(aids, { target: null, sketch: null, band: null, carried: [0, 0] });
  drawMarks();
}

// An object that is gone is no longer part of the gesture.
export function forgetGone() { if (gesture?.id && !objects.has(gesture.id)) { release(); gesture = null; clearAids(); } }
