// Keys of the whole page. A list, a toolbar and a field take theirs first.
import { at } from './elements.js';
import { deleteChosen, reorder } from './arrange.js';
import { duplicate } from './copying.js';
import { below, boxAround, boxOf, childrenOf, objects } from './doc.js';
import { cancel } from './gestures.js';
import { nudge } from './nudging.js';
import { openPage } from './pages.js';
import { choose, chosenIds, outermost } from './selection.js';
import { closeSheet } from './sheet.js';
import { setSeveral } from './several.js';
import { fit, panBy, zoomBy, zoomTo } from './sight.js';
import { setSpace } from './touches.js';
import { createInMiddle, pickTool, pickedTool } from './tools.js';
import { write } from './writing.js';

const FAR = 10, PAN = 40;                               // units of a move with Shift, and pixels of a move of the board

// Moves what is chosen, or else the board.
function arrow(dx, dy, { shiftKey }) {
  if (outermost().length) nudge(dx * (shiftKey ? FAR : 1), dy * (shiftKey ? FAR : 1));
  else panBy(-dx * PAN, -dy * PAN);
}

// Ends the first of these that there is: a gesture, a tool, a choice, an open sheet.
function escape() {
  if (cancel()) return;
  if (pickedTool() !== 'select') pickTool('select');
  else if (chosenIds().length) { choose([]); setSeveral(false); }
  else closeSheet();
}

export function showAll() {
  const ids = openPage() ? below(openPage()).slice(1) : [];
  if (ids.length) fit(boxAround(ids.filter((id) => objects.has(id)).map(boxOf)));
}

function enter() {
  if (pickedTool() !== 'select') createInMiddle();
  else if (chosenIds().length === 1) write(chosenIds()[0]);
}

const KEYS = {
  v: () => pickTool('select'), f: () => pickTool('frame'), r: () => pickTool('rect'), o: () => pickTool('ellipse'), t: () => pickTool('text'),
  Delete: deleteChosen, Backspace: deleteChosen, ']': () => reorder(1), '[': () => reorder(-1), Escape: escape, Enter: enter,
  ArrowLeft: (event) => arrow(-1, 0, event), ArrowRight: (event) => arrow(1, 0, event), ArrowUp: (event) => arrow(0, -1, event), ArrowDown: (event) => arrow(0, 1, event),
  '+': () => zoomBy(1), '=': () => zoomBy(1), '-': () => zoomBy(-1), 0: () => zoomTo(1), 1: showAll, ' ': () => setSpace(true), '?': () => at('keys').showModal(),
};
const KEYS_WITH_CTRL = { a: () => choose(childrenOf(openPage())), d: duplicate };

addEventListener('keydown', (event) => {
  const { target, key } = event, isWithCtrl = event.ctrlKey || event.metaKey;
  if (target.closest?.('dialog') || target.matches?.('input, textarea, select')) return;
  if (event.altKey || (target.matches?.('button') && ['Enter', ' '].includes(key))) return;
  const act = isWithCtrl ? KEYS_WITH_CTRL[key.toLowerCase()] : KEYS[key.length === 1 ? key.toLowerCase() : key];
  if (!act) return;
  event.preventDefault();
  act(event);
});
addEventListener('keyup', ({ key }) => { if (key === ' ') setSpace(false); });
addEventListener('blur', () => setSpace(false));

at('help').onclick = () => at('keys').showModal();
at('zoomin').onclick = () => zoomBy(1);
at('zoomout').onclick = () => zoomBy(-1);
at('zoom').onclick = showAll;
