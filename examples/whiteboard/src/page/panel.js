// The panel of what is chosen: its fields, which check what is typed, and its buttons.
import { align, deleteChosen, distribute, putInto, reorder } from './arrange.js';
import { FARTHEST, readColour, readText, readWhole } from './checks.js';
import { at } from './elements.js';
import { DEEPEST, childrenOf, objects } from './doc.js';
import { moveFocusByArrows } from './focus.js';
import { openPage } from './pages.js';
import { chosenObjects, onlyChosen, whenChosen } from './selection.js';
import { make, setLater } from './talk.js';
import { STONE, colourOf, hexOf, kindOf, labelOf, sizeOf, spotOf, textOf } from './values.js';

// The fields: what each reads, or { fault }, what it shows of an object, and the edit that it makes. All but the colour are of one object.
const place = (name, k, what, least, pairOf) => ({
  read: (typed) => readWhole(typed, what, least),
  show: (object) => pairOf(object)[k],
  edit: (object, value) => ['set', object.id, name, pairOf(object).map((it, j) => j === k ? value : it)],
});
const words = (name) => ({
  read: (typed) => readText(typed, name),
  show: (object) => textOf(object.properties[name]),
  edit: (object, value) => value === '' ? ['clear', object.id, name] : ['set', object.id, name, value],
});
const FIELDS = {
  name: words('name'), text: words('text'),
  x: place('at', 0, 'X', -FARTHEST, spotOf), y: place('at', 1, 'Y', -FARTHEST, spotOf),
  w: place('size', 0, 'The width', 1, sizeOf), h: place('size', 1, 'The height', 1, sizeOf),
  colour: { read: readColour, show: (object) => hexOf(object.properties.fill, ''), edit: (object, value) => ['set', object.id, 'fill', colourOf(value)], isOfAll: true },
};
const MOST_HOLDERS = 500;                               // frames that are offered to put something into
let shown = null;                                       // the object whose fields are filled

// ---- filling ----

export function fillPanel(hasOthers = true) {
  const id = onlyChosen(), object = objects.get(id) ?? null, several = object ? [object] : chosenObjects().map((it) => objects.get(it)), isPage = object?.kind === 'page';
  shown = id;
  at('panel').dataset.of = object ? (isPage ? 'page' : object.kind) : several.length ? 'several' : 'none';
  at('what').textContent = object ? kindOf(object) : several.length ? `${several.length.toLocaleString()} objects` : 'Nothing chosen';
  at('what').title = object?.id ?? '';
  if (object) for (const [name, field] of Object.entries(FIELDS)) fillField(at(name), String(field.show(object)));
  if (several.length && !object) fillField(at('colour'), colourOfAll(several));
  if (several.length && document.activeElement !== at('fill')) at('fill').value = hexOf(several[0].properties.fill, STONE);
  if (several.length && !isPage && hasOthers) fillHolders(several);
}

function fillField(field, text) {
  if (document.activeElement !== field && !field.hasAttribute('aria-invalid') && field.value !== text) field.value = text;
}

// Returns what the field of the colour shows of several objects: nothing if they differ.
function colourOfAll(several) {
  const first = FIELDS.colour.show(several[0]);
  return several.every((it) => FIELDS.colour.show(it) === first) ? first : '';
}

// Lists the page and its frames, but not what would be put into itself. Of very many it lists the first ones.
function fillHolders(several) {
  if (document.activeElement === at('into')) return;
  const own = new Set(several.map(({ id }) => id)), parents = new Set(several.map(({ parent }) => parent)), options = [];
  const add = (id, depth) => {
    const holder = objects.get(id);
    if (!holder || (id !== openPage() && holder.kind !== 'frame') || own.has(id) || options.length > MOST_HOLDERS) return;
    options.push(new Option(`${'\u2003'.repeat(depth)}${labelOf(holder)}`, id, false, parents.size === 1 && parents.has(id)));
    if (depth <= DEEPEST) for (const child of childrenOf(id)) add(child, depth + 1);
  };
  add(openPage(), 0);
  if (parents.size > 1) options.unshift(new Option('Different places', '', true, true));
  else if (!options.some(({ selected }) => selected)) options.unshift(new Option(labelOf(objects.get([...parents][0])), [...parents][0], true, true));
  at('into').replaceChildren(...options);
}

// ---- what is typed ----

// Shows below a field what is wrong with it, or nothing.
function showFault(name, fault) {
  const line = at(`${name}-fault`), field = at(name);
  if (line.textContent === (fault ?? '')) return;
  if (!fault) field.removeAttribute('aria-invalid'); else field.setAttribute('aria-invalid', 'true');
  line.textContent = fault ?? '';
  line.hidden = !fault;
}

function take(name) {
  const { read, show, edit } = FIELDS[name], { value, fault } = read(at(name).value);
  showFault(name, fault ?? null);
  if (fault) return;
  at(name).value = value;
  make(objectsOf(name).filter((it) => String(show(it)) !== String(value)).map((it) => edit(it, value)));
}

// Returns the objects of which a field is.
const objectsOf = (name) => (FIELDS[name].isOfAll ? chosenObjects() : [shown]).filter((id) => objects.has(id)).map((id) => objects.get(id));

// Shows again what the object has.
function restore(name) {
  const of = objectsOf(name);
  showFault(name, null);
  if (of.length) at(name).value = name === 'colour' ? colourOfAll(of) : FIELDS[name].show(of[0]);
}
whenChosen(() => { for (const name of Object.keys(FIELDS)) showFault(name, null); });

function step(event, name) {
  const by = { ArrowUp: 1, ArrowDown: -1 }[event.key], { value } = FIELDS[name].read(at(name).value);
  if (!by || typeof value !== 'number') return;
  event.preventDefault();
  at(name).value = value + by * (event.shiftKey ? 10 : 1);
  take(name);
}

for (const name of Object.keys(FIELDS)) {
  const field = at(name);
  field.onchange = () => take(name);
  field.oninput = () => { if (field.hasAttribute('aria-invalid')) showFault(name, FIELDS[name].read(field.value).fault ?? null); };
  field.addEventListener('keydown', (event) => {
    if (event.key === 'Enter') take(name);
    else if (event.key === 'Escape') { restore(name); at('stage').focus(); event.stopPropagation(); }
    else step(event, name);
  });
}

// ---- buttons ----

at('panel').onsubmit = (event) => event.preventDefault();
at('fill').oninput = () => { for (const id of chosenObjects()) setLater(id, 'fill', colourOf(at('fill').value)); };
at('into').onchange = () => { if (at('into').value) putInto(at('into').value); at('into').blur(); };
at('front').onclick = () => reorder(1);
at('back').onclick = () => reorder(-1);
at('delete').onclick = () => deleteChosen();
for (const button of at('align').children) {
  const { side, axis } = button.dataset;
  button.onclick = () => side ? align(side) : distribute(Number(axis));
}
moveFocusByArrows(at('align'));
