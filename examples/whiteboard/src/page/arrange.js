// What is done to the chosen objects: moved, aligned, spaced, put in front or at the back, put into another one, deleted.
import { boxAround, boxOf, childrenOf, isIn, objects, originOf } from './doc.js';
import { chosenIds, outermost } from './selection.js';
import { make } from './talk.js';
import { say } from './toast.js';
import { labelOf, spotOf } from './values.js';

export const deleteChosen = () => make((outermost().length ? outermost() : chosenIds()).map((id) => ['delete', id]));

// How far an object goes, by the box to which all are aligned.
const SHIFTS = {
  left: ([x], [left]) => [left - x, 0],
  right: ([x, , w], [left, , width]) => [left + width - x - w, 0],
  centre: ([x, , w], [left, , width]) => [left + (width - w) / 2 - x, 0],
  top: ([, y], [, top]) => [0, top - y],
  bottom: ([, y, , h], [, top, , height]) => [0, top + height - y - h],
  middle: ([, y, , h], [, top, , height]) => [0, top + (height - h) / 2 - y],
};

// Aligns several objects to the box around them, or one to the frame that it is in.
export function align(side) {
  const ids = outermost(), holder = ids.length === 1 ? objects.get(objects.get(ids[0]).parent) : null;
  if (!ids.length || (holder && holder.kind !== 'frame')) return say('Choose two or more objects to align them, or one that is in a frame.');
  const to = holder ? boxOf(holder.id) : boxAround(ids.map(boxOf));
  return shift(ids.map((id) => [id, SHIFTS[side](boxOf(id), to)]), holder ? 'It is aligned already.' : 'They are aligned already.');
}

// Moves each of these objects so far: [id, [dx, dy]]. If none of them moves, that is said.
function shift(moves, otherwise) {
  const edits = [];
  for (const [id, by] of moves) {
    const [dx, dy] = by.map(Math.round), [x, y] = spotOf(objects.get(id));
    if (dx || dy) edits.push(['set', id, 'at', [x + dx, y + dy]]);
  }
  return edits.length ? make(edits) : say(otherwise);
}

// Spaces objects so the gaps between them are the same, within the box around them: side by side (0), or one below the other (1). They stay in the order
// of their middles. If they don't fit, they overlap by the same.
export function distribute(axis) {
  const spans = outermost().map((id) => { const box = boxOf(id); return { id, box, from: box[axis], length: box[axis + 2] }; });
  if (spans.length < 3) return say('Choose three or more objects to space them evenly.');
  const around = boxAround(spans.map(({ box }) => box)), used = spans.reduce((sum, { length }) => sum + length, 0), gap = (around[axis + 2] - used) / (spans.length - 1), moves = [];
  let next = around[axis];
  for (const { id, from, length } of spans.sort((a, b) => (a.from + a.length / 2) - (b.from + b.length / 2))) {
    moves.push([id, axis ? [0, next - from] : [next - from, 0]]);
    next += length + gap;
  }
  return shift(moves, 'They are spaced evenly already.');
}

// One step to the front (1) or to the back (-1) among the objects of the same holder.
export function reorder(by) {
  const ids = outermost(), moved = new Set(ids), { parent } = objects.get(ids[0]) ?? {};
  if (!ids.length) return say('Choose an object first.');
  if (ids.some((id) => objects.get(id).parent !== parent)) return say('Choose objects of the same frame or page to change their order.');
  const siblings = childrenOf(parent), rest = siblings.filter((id) => !moved.has(id));
  const passed = siblings[by > 0 ? siblings.indexOf(ids.at(-1)) + 1 : siblings.indexOf(ids[0]) - 1];
  if (!passed) return say(by > 0 ? 'It is in front already.' : 'It is at the back already.');
  return make(movesTo(ids, parent, rest, rest.indexOf(passed) + (by > 0 ? 1 : 0)));
}

// Puts these objects, in their order, after so many others of the parent.
function movesTo(ids, parent, rest, to) {
  if (to === rest.length) return ids.map((id) => ['moveLast', id, parent]);
  if (!to) return [...ids].reverse().map((id) => ['moveFirst', id, parent]);
  return ids.map((id, k) => ['move', id, parent, k ? ids[k - 1] : rest[to - 1]]);
}

// Returns the edits that put objects into another one, in front there, and leave them where they are on the board: at these points, if given.
export function editsInto(ids, holder, origins = ids.map(originOf)) {
  const [left, top] = originOf(holder);
  return ids.flatMap((id, k) => [['moveLast', id, holder], ['set', id, 'at', [Math.round(origins[k][0] - left), Math.round(origins[k][1] - top)]]]);
}

export function putInto(holder) {
  const ids = outermost();
  if (ids.some((id) => isIn(holder, id))) return say(`“${labelOf(objects.get(holder))}” can’t be put into itself.`);
  return make(editsInto(ids.filter((id) => objects.get(id).parent !== holder), holder));
}
