// Which part of the board is in sight: `x`, `y` where its point 0, 0 is on the stage, in pixels, and how many times it is enlarged.
import { at } from './elements.js';

export const sight = { x: 0, y: 0, scale: 1 };
const LEAST = 0.1, MOST = 8, STEP = 1.25, MARGIN = 40;
const listeners = [];

// Calls `act` when another part comes into sight.
export const whenSeen = (act) => listeners.push(act);

// Where the stage is in the window. To ask the browser again for each move of the pointer would have it lay out the page.
let stageBox = null;
new ResizeObserver(() => { stageBox = null; }).observe(at('stage'));

const limited = (scale) => Math.min(MOST, Math.max(LEAST, scale));
const stageSize = () => [at('stage').clientWidth, at('stage').clientHeight];

function publish() { for (const act of listeners) act(); }

export function setSight(x, y, scale) {
  Object.assign(sight, { x, y, scale });
  publish();
}

// Returns a point of the window as a point of the stage, and of the board.
export function onStage({ clientX, clientY }) {
  stageBox ??= at('stage').getBoundingClientRect();
  return [clientX - stageBox.left, clientY - stageBox.top];
}
export const fromStage = ([x, y]) => [(x - sight.x) / sight.scale, (y - sight.y) / sight.scale];
export const onBoard = (event) => fromStage(onStage(event));

// Returns the point of the board in the middle of the stage.
export const middle = () => fromStage(stageSize().map((length) => length / 2));

export const panBy = (dx, dy) => setSight(sight.x + dx, sight.y + dy, sight.scale);

// Puts a point of the board at a point of the stage, at a scale.
export function putAt([left, top], [x, y], scale) {
  const now = limited(scale);
  setSight(x - left * now, y - top * now, now);
}

// Enlarges to a scale around a point of the stage.
export const zoomTo = (scale, point = stageSize().map((length) => length / 2)) => putAt(fromStage(point), point, scale);
export const zoomBy = (steps, point) => zoomTo(sight.scale * STEP ** steps, point);

// Whether a box of the board is in sight, all of it.
export function isInSight([x, y, w, h]) {
  const [width, height] = stageSize(), left = sight.x + x * sight.scale, top = sight.y + y * sight.scale;
  return left >= 0 && top >= 0 && left + w * sight.scale <= width && top + h * sight.scale <= height;
}

// Brings a box into sight, and nothing further than it must.
export function bring([x, y, w, h]) {
  const sizes = stageSize(), ends = [[sight.x + x * sight.scale, w * sight.scale], [sight.y + y * sight.scale, h * sight.scale]];
  const [dx, dy] = ends.map(([begin, length], k) => {
    const most = sizes[k] - MARGIN - length;
    return begin < MARGIN || most < MARGIN ? MARGIN - begin : Math.min(0, most - begin);
  });
  if (!isInSight([x, y, w, h])) panBy(dx, dy);
}

// Shows all of a box, no larger than it is.
export function fit([x, y, w, h]) {
  const [width, height] = stageSize(), scale = limited(Math.min(1, (width - 2 * MARGIN) / w, (height - 2 * MARGIN) / h));
  setSight((width - w * scale) / 2 - x * scale, (height - h * scale) / 2 - y * scale, scale);
}
