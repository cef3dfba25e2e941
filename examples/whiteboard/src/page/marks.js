// Marks above the board: what is chosen, its handles, and what a gesture is about to do.
import { at, setAttributes, svg } from './elements.js';
import { boxAround, boxOf, objects } from './doc.js';
import { sight, whenSeen } from './sight.js';
import { chosenIds, whenChosen } from './selection.js';

const MOST = 200;                                       // boxes; of more objects one box is drawn around all
const isCoarse = matchMedia('(pointer: coarse)');
let isDue = false;

// What a gesture shows: the frame `target` into which it would put something; `sketch` and `band` boxes of the board; how far it carries what is chosen.
export const aids = { target: null, sketch: null, band: null, carried: [0, 0] };

// Draws the marks once the page has done all that it does now, and before the browser paints.
export function drawMarks() {
  if (isDue) return;
  isDue = true;
  queueMicrotask(() => { isDue = false; fill(marks()); });
}
whenSeen(drawMarks);
whenChosen(drawMarks);

// Shows rectangles of these attributes. The elements that are there are used again: the browser lays out new ones with all others.
function fill(wanted) {
  const { children } = at('marks');
  wanted.forEach((attributes, k) => {
    if (!children[k]) at('marks').append(svg('rect'));
    setAttributes(children[k], attributes);
  });
  while (children.length > wanted.length) children[wanted.length].remove();
}

const rect = ([x, y, width, height], name) => ({ x, y, width, height, rx: 0, class: name, 'data-handle': '' });

function marks() {
  const ids = chosenIds().filter((id) => objects.has(id) && objects.get(id).kind !== 'page'), found = [];
  if (objects.get(aids.target)?.kind === 'frame') found.push(rect(boxOf(aids.target), 'target'));
  if (aids.sketch) found.push(rect(aids.sketch, 'sketch'));
  if (aids.band) found.push(rect(aids.band, 'sketch'));
  const boxes = ids.map(boxOf).map(([x, y, w, h]) => [x + aids.carried[0], y + aids.carried[1], w, h]);
  if (boxes.length > 1) found.push(rect(boxAround(boxes), 'around'));
  if (boxes.length <= MOST) found.push(...boxes.map((box) => rect(box, 'chosen')));
  if (boxes.length === 1) found.push(...handles(boxes[0]));
  return found;
}

// A handle is drawn small. A finger has a larger one around it, which isn't seen.
function handles([x, y, w, h]) {
  const side = (isCoarse.matches ? 12 : 8) / sight.scale, reach = (isCoarse.matches ? 36 : 12) / sight.scale;
  const around = (cx, cy, length) => [cx - length / 2, cy - length / 2, length, length];
  return [['e', x + w, y + h / 2], ['s', x + w / 2, y + h], ['se', x + w, y + h]].flatMap(([name, cx, cy]) => [
    { ...rect(around(cx, cy, reach), `reach ${name}`), 'data-handle': name },
    { ...rect(around(cx, cy, side), `handle ${name}`), rx: 2 / sight.scale },
  ]);
}
