// Pointers of the board. One is a gesture (gestures.js). Two fingers move the board and enlarge it, as do the wheel, the middle button, and the space bar
// with the pointer.
import { at, keepFingers } from './elements.js';
import { begin, cancel, end, move } from './gestures.js';
import { fromStage, onStage, panBy, putAt, sight, zoomTo } from './sight.js';

const fingers = new Map();                              // the points of the stage where they are, by their pointers
let pinch = null, pan = null, isSpace = false, isSpent = false;

const stage = at('stage');
const between = ([[a, b], [c, d]]) => ({ middle: [(a + c) / 2, (b + d) / 2], length: Math.max(1, Math.hypot(a - c, b - d)) });

stage.addEventListener('pointerdown', (event) => {
  if (event.pointerType === 'touch') { fingers.set(event.pointerId, onStage(event)); stage.setPointerCapture(event.pointerId); }
  if (fingers.size > 1) startPinch();
  else if (event.button === 1 || (isSpace && event.button === 0)) startPan(event);
  else if (event.button === 0 && !isSpent) begin(event);
});

stage.addEventListener('pointermove', (event) => {
  if (fingers.has(event.pointerId)) fingers.set(event.pointerId, onStage(event));
  if (pinch) movePinch();
  else if (pan) movePan(event);
  else if (!isSpent) move(event);
});

function startPinch() {
  cancel();
  if (fingers.size > 2) return;
  isSpent = true;                                       // a finger that stays when the other one is lifted begins nothing
  const { middle, length } = between([...fingers.values()]);
  pinch = { point: fromStage(middle), length, scale: sight.scale };
}

// The point of the board that was between the fingers stays between them.
function movePinch() {
  const { middle, length } = between([...fingers.values()]);
  putAt(pinch.point, middle, pinch.scale * length / pinch.length);
}

function startPan(event) {
  event.preventDefault();
  pan = onStage(event);
  stage.setPointerCapture(event.pointerId);
}
function movePan(event) {
  const [x, y] = onStage(event);
  panBy(x - pan[0], y - pan[1]);
  pan = [x, y];
}

function lift(event, isKept) {
  fingers.delete(event.pointerId);
  if (pan) pan = null;
  else if (pinch) { if (fingers.size < 2) pinch = null; }
  else if (!isSpent) { if (isKept) end(); else cancel(); }
  if (!fingers.size) isSpent = false;
}
stage.addEventListener('pointerup', (event) => lift(event, true));
stage.addEventListener('pointercancel', (event) => lift(event, false));
keepFingers(stage);

// The wheel moves the board; with Ctrl, as a pinch on a touchpad is reported, it enlarges it to where the pointer is.
stage.addEventListener('wheel', (event) => {
  event.preventDefault();
  if (event.ctrlKey || event.metaKey) zoomTo(sight.scale * Math.exp(-event.deltaY / 400), onStage(event));
  else if (event.shiftKey && !event.deltaX) panBy(-event.deltaY, 0);
  else panBy(-event.deltaX, -event.deltaY);
}, { passive: false });

export function setSpace(value) {
  isSpace = value;
  stage.classList.toggle('panning', value);
}
