// The rows of the lists. The row of an object stays the same element while the object is there: else a click would be lost if somebody edits between press
// and release, and an edit in a large document would wait for all rows.
import { objects } from './doc.js';
import { openPage } from './pages.js';
import { isChosen } from './selection.js';
import { STONE, formOf, hexOf, labelOf } from './values.js';

const rows = new Map();                                 // { li, name, icon, signature, depth, isChosen } by ids

export const rowOf = (id) => rows.get(id)?.li ?? null;
export const idOfRow = (event) => event.target.closest('li')?.dataset.id;

function rowFor(object) {
  const made = rows.get(object.id);
  if (made) return made;
  const li = document.createElement('li'), icon = document.createElement('i'), name = document.createElement('span');
  li.dataset.id = object.id;
  li.tabIndex = -1;                                     // the property is -1 without the attribute too, and then it can't have the focus
  li.setAttribute('role', 'option');
  li.append(...(object.kind === 'page' ? [name] : [icon, name]));
  const row = { li, icon, name, signature: '', depth: -1, isChosen: null };
  rows.set(object.id, row);
  return row;
}

const indent = (depth) => `${8 + 14 * Math.min(depth, 12)}px`;

// Brings the row of an object up to date, and returns its element.
export function dress(object, depth = rows.get(object.id)?.depth ?? 0) {
  const row = rowFor(object), label = labelOf(object), fill = object.kind === 'shape' ? hexOf(object.properties.fill, STONE) : '', signature = `${label}\n${formOf(object)}\n${fill}`;
  if (row.depth !== depth) { row.depth = depth; row.li.style.paddingLeft = indent(depth); }
  if (row.signature !== signature) {
    row.signature = signature;
    row.name.textContent = label;
    row.icon.className = formOf(object);
    row.icon.style.background = fill;
  }
  const isNow = isChosen(object.id) || object.id === openPage();
  if (row.isChosen !== isNow) { row.isChosen = isNow; row.li.setAttribute('aria-selected', isNow); }
  return row.li;
}

export function dressIfThere(id) { if (rows.has(id) && objects.has(id)) dress(objects.get(id)); }

export function dropRow(id) {
  rows.get(id)?.li.remove();
  rows.delete(id);
}

export function rowOfMore(depth, words = '..and what lies below') {
  const li = document.createElement('li');
  li.style.paddingLeft = indent(depth);
  li.textContent = words;
  return li;
}

// Puts rows into a list, in order. A row that stays in the list isn't taken out of it: an element that is taken out loses the focus, and then the arrow
// keys and Tab don't continue from it. Tab reaches the row that is chosen, or else the one that has the focus, or the first.
export function fillList(list, wanted) {
  const focused = list.contains(document.activeElement) ? document.activeElement : null, isWanted = new Set(wanted);
  for (const li of [...list.children]) if (!isWanted.has(li)) li.remove();
  let next = list.firstChild;
  for (const li of wanted) {
    if (li === next) next = next.nextSibling;
    else list.insertBefore(li, next);
  }
  if (focused?.isConnected && focused !== document.activeElement) focused.focus({ preventScroll: true });      // its place changed
  const isSelected = (li) => li.getAttribute('aria-selected') === 'true', reached = (isWanted.has(focused) ? focused : wanted.find(isSelected)) ?? wanted[0];
  for (const li of wanted) { const index = li === reached ? 0 : -1; if (li.tabIndex !== index) li.tabIndex = index; }
}
