// The list of the open page's objects, frontmost first. It has rows only for what can be seen of it, some more, and the row that has the focus: it is as
// high as all rows would be.
import { at, setAttributes } from './elements.js';
import { DEEPEST, ROOT, boxOf, childrenOf, objects } from './doc.js';
import { openPage, showPage } from './pages.js';
import { dress, fillList, idOfRow, rowOf, rowOfMore } from './rows.js';
import { choose, chooseAlso, chosenIds, lastChosen, toggle } from './selection.js';
import { isSeveral } from './several.js';
import { bring } from './sight.js';

const SPARE = 10, MOST_PAGES = 500;                     // rows above and below what can be seen; rows of pages
const list = at('list'), scroller = list.parentElement;
let listed = [], places = new Map(), height = 0;        // [id, depth] of each row, null for what lies too deep; the row of each id; pixels

const rowHeight = () => { height ||= parseFloat(getComputedStyle(list).getPropertyValue('--row')); return height; };

// Lists anew, after an object came, went or has other children.
export function listPage() {
  const page = openPage(), pending = objects.has(page) ? [[page, -1]] : [];
  listed = [];
  for (let next; (next = pending.pop());) {
    const [id, depth] = next, children = childrenOf(id);
    if (depth >= 0) listed.push([id, depth]);
    if (id === null) continue;
    if (depth === DEEPEST && children.length) { pending.push([null, depth + 1]); continue; }
    for (const child of children) if (objects.has(child)) pending.push([child, depth + 1]);
  }
  places = new Map(listed.map(([id], k) => [id, k]));
  showRows();
  fillList(at('pages'), pageRows());
  at('hint').hidden = listed.length > 0;
}

function pageRows() {
  const pages = childrenOf(ROOT).filter((id) => objects.has(id)), listed = pages.filter((id, k) => k < MOST_PAGES || id === openPage());
  return [...listed.map((id) => dress(objects.get(id), 0)), ...listed.length < pages.length ? [rowOfMore(0, `..and ${pages.length - listed.length} more`)] : []];
}

export function showRows() {
  if (!scroller.clientHeight) return;                   // it isn't shown
  const above = Math.max(0, scroller.scrollTop - list.offsetTop), first = Math.max(0, Math.floor(above / rowHeight()) - SPARE);
  const last = Math.min(listed.length, first + Math.ceil(scroller.clientHeight / rowHeight()) + 2 * SPARE), wanted = [];
  for (let k = first; k < last; k += 1) wanted.push(k);
  const kept = [list.contains(document.activeElement) ? document.activeElement.dataset.id : null, lastChosen()];
  for (const k of kept.map((id) => id === null ? undefined : places.get(id))) if (k !== undefined && !wanted.includes(k)) wanted.push(k);
  list.style.height = `${listed.length * rowHeight()}px`;
  fillList(list, wanted.sort((a, b) => a - b).map(rowAt));
}

function rowAt(k) {
  const [id, depth] = listed[k], li = id === null ? rowOfMore(depth) : dress(objects.get(id), depth), top = `${k * rowHeight()}px`;
  if (li.style.top !== top) li.style.top = top;
  setAttributes(li, { 'aria-posinset': k + 1, 'aria-setsize': listed.length });
  return li;
}

// Scrolls so far that the row of an object is seen.
export function scrollToRow(id) {
  const k = places.get(id), top = list.offsetTop + k * rowHeight();
  if (k === undefined || !scroller.clientHeight) return;
  if (top < scroller.scrollTop) scroller.scrollTop = top - rowHeight();
  else if (top + rowHeight() > scroller.scrollTop + scroller.clientHeight) scroller.scrollTop = top + 2 * rowHeight() - scroller.clientHeight;
}

// ---- by pointer and by keys ----

function idsBetween(a, b) {
  const [from, to] = [places.get(a) ?? 0, places.get(b) ?? 0].sort((one, other) => one - other);
  return listed.slice(from, to + 1).map(([id]) => id).filter((id) => id !== null);
}

function pick(event, id) {
  if (event.shiftKey && lastChosen()) chooseAlso(idsBetween(lastChosen(), id));
  else if (event.ctrlKey || event.metaKey || isSeveral()) toggle(id);
  else choose([id]);
  bring(boxOf(id));
}

list.onclick = (event) => { if (idOfRow(event)) pick(event, idOfRow(event)); };
at('pages').onclick = (event) => { if (idOfRow(event)) showPage(idOfRow(event)); };

const listeners = [];

// Calls `act` with the object whose words are to be written.
export const whenWritten = (act) => listeners.push(act);
function writeRow(id) { for (const act of listeners) act(id); }

// Returns the object that is listed after another one (1), or before it (-1): { id, place, count }, or null past the end. Beside one that isn't listed
// is the first, or the last.
export function listedBeside(id, by) {
  for (let k = places.has(id) ? places.get(id) + by : by > 0 ? 0 : listed.length - 1; k >= 0 && k < listed.length; k += by) {
    if (listed[k][0] !== null) return { id: listed[k][0], place: k + 1, count: listed.length };
  }
  return null;
}

// Arrows go from row to row and choose; with Shift what they reach is chosen too. The space bar adds a row or takes it away. Enter writes its words.
function keyInList(event) {
  const isPages = event.currentTarget === at('pages'), ids = isPages ? childrenOf(ROOT) : listed.map(([id]) => id).filter((id) => id !== null);
  const li = event.target.closest('li'), from = ids.indexOf(li?.dataset.id);
  const to = { ArrowDown: from + 1, ArrowUp: from - 1, Home: 0, End: ids.length - 1 }[event.key], reached = ids[to];
  if (event.ctrlKey || event.metaKey || event.altKey || (to === undefined && ![' ', 'Enter'].includes(event.key))) return;
  event.preventDefault();
  event.stopPropagation();
  if (to === undefined) keyOnRow(event, li?.dataset.id, isPages);
  else if (reached) reach(reached, isPages, event.shiftKey);
}

function reach(id, isPages, isToo) {
  if (isPages) showPage(id); else if (isToo) chooseAlso([id]); else choose([id]);
  if (!isPages) bring(boxOf(id));
  scrollToRow(id);
  showRows();
  rowOf(id)?.focus();
}

function keyOnRow({ key }, id, isPages) {
  if (!id) return;
  if (isPages) showPage(id);
  else if (key === ' ') toggle(id);
  else if (!chosenIds().includes(id)) choose([id]);
  if (key === 'Enter') writeRow(id);
}

for (const one of [list, at('pages')]) {
  one.addEventListener('keydown', keyInList);
  one.ondblclick = (event) => { if (idOfRow(event)) writeRow(idOfRow(event)); };
}
scroller.addEventListener('scroll', showRows, { passive: true });
addEventListener('resize', () => { height = 0; showRows(); });
