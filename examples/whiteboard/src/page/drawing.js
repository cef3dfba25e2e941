// The board's elements, a group for each object. What changed is drawn, and nothing else. Only a frame's group has a transform: each transform is a part
// that the browser puts together anew in each frame in which something moves, and a board may have thousands of shapes.
import { at, setAttributes, svg } from './elements.js';
import { DEEPEST, ROOT, childrenOf, objects, originOf } from './doc.js';
import { PAPER, STONE, formOf, hexOf, inkOn, labelOf, nameOf, sizeOf, spotOf, wordsOf } from './values.js';

const drawn = new Map();                                // { group, body, label, inner } by ids
const stale = new Set();                                // objects whose children's groups are to be put in order
const lifted = new Set();                               // objects whose groups are in a layer above the board

export const isLifted = (id) => lifted.has(id);
export const liftedIds = () => [...lifted];
export const markStale = (ids) => { for (const id of ids) stale.add(id); };

function elementsOf(object) {
  const made = drawn.get(object.id), form = formOf(object) === 'ellipse' ? 'ellipse' : 'rect';
  if (made?.body.localName === form) return made;
  const body = svg(form, { class: 'body' });
  if (made) { made.body.replaceWith(body); made.body = body; return made; }
  const isPage = object.kind === 'page', inner = isPage || object.kind === 'frame' ? svg('g') : null, label = svg('text', { class: 'label' });
  const group = svg('g', { class: object.kind, 'data-id': object.id });
  group.append(...(isPage ? [] : [body, label]), ...(inner ? [inner] : []));
  const elements = { group, body, label, inner };
  drawn.set(object.id, elements);
  return elements;
}

export function draw(object) {
  if (object.kind === 'document') return;
  const elements = elementsOf(object);
  if (object.kind === 'page') return;
  place(object);
  paint(object, elements);
}

// Puts an object's elements where it is. A lifted group isn't in its parent's: its place is one of the board.
export function place(object) {
  const { group, body, label } = drawn.get(object.id), [x, y] = lifted.has(object.id) ? originOf(object.id) : spotOf(object), [w, h] = sizeOf(object);
  if (object.kind === 'frame') {
    setAttributes(group, { transform: `translate(${x} ${y})` });
    setAttributes(body, { width: w, height: h, rx: 3 });
    setAttributes(label, { x: 1, y: -6 });
    return;
  }
  const isText = object.kind === 'text', [a, b] = [x + w / 2, y + h / 2];
  setAttributes(body, body.localName === 'ellipse' ? { cx: a, cy: b, rx: w / 2, ry: h / 2 } : { x, y, width: w, height: h, rx: 6 });
  setAttributes(label, isText ? { x, y: y + 2 } : { x: a, y: b });
}

function paint(object, { body, label, inner }) {
  const { fill } = object.properties, isFrame = object.kind === 'frame', hex = hexOf(fill, isFrame ? PAPER : STONE);
  if (object.kind !== 'text') setAttributes(body, { fill: hex });
  if (isFrame) setAttributes(inner, { color: inkOn(hex) });             // of a text in it that has no colour
  if (object.kind === 'shape') setAttributes(label, { fill: inkOn(hex) });
  if (object.kind === 'text') setAttributes(label, { fill: hexOf(fill, 'currentColor') });
  const words = object.kind === 'text' ? wordsOf(object) || labelOf(object) : nameOf(object);
  if (label.textContent !== words) label.textContent = words;
}

export function erase(id) {
  drawn.get(id)?.group.remove();
  for (const it of [drawn, stale, lifted]) it.delete(id);
}

// Puts the groups of these children, and no others, into an object's group.
function order(id, children) {
  const holder = id === ROOT ? at('objects') : drawn.get(id).inner;
  if (!holder) return;                                  // nothing can be in a shape or a text
  let before = null;
  for (const child of children) {
    const { group } = drawn.get(child) ?? {};
    if (!group || lifted.has(child)) continue;
    const next = before ? before.nextSibling : holder.firstChild;
    if (group !== next) holder.insertBefore(group, next);
    before = group;
  }
  while (holder.lastChild !== before) holder.lastChild.remove();
}

// Shows one page, with what came and went in it. What is deeper than the rules allow, as a server that breaks them can report, isn't drawn: a browser
// can't draw any depth.
export function drawPage(page) {
  const pages = childrenOf(ROOT);
  order(ROOT, pages);
  for (const id of pages) if (drawn.has(id)) setAttributes(drawn.get(id).group, { display: id === page ? 'inline' : 'none' });
  const pending = objects.has(page) ? [[page, 0]] : [];
  for (let next; (next = pending.pop());) {
    const [id, depth] = next, children = depth > DEEPEST ? [] : childrenOf(id);
    if (stale.delete(id) || depth > DEEPEST) order(id, children);
    for (const child of children) if (objects.has(child)) pending.push([child, depth + 1]);
  }
}

// ---- the layer above: what is in it moves without the board being painted again ----

// Lifts these objects. All colours are read before anything is changed: else the browser computes the styles anew for each.
export function lift(ids, layer = 'lifted') {
  const raised = ids.filter((id) => drawn.get(id)?.group.parentNode && !lifted.has(id)), colours = raised.map((id) => getComputedStyle(drawn.get(id).group).color);
  for (const [k, id] of raised.entries()) {
    const { group } = drawn.get(id);
    group.setAttribute('color', colours[k]);
    lifted.add(id);
    at(layer).append(group);
    place(objects.get(id));
  }
}

export function putBack(ids) {
  const parents = new Set();
  for (const id of ids) {
    if (!lifted.delete(id) || !objects.has(id)) continue;
    drawn.get(id).group.removeAttribute('color');
    place(objects.get(id));
    parents.add(objects.get(id).parent);
  }
  for (const id of parents) if (drawn.has(id)) order(id, childrenOf(id));
}
