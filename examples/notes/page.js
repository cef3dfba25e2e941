// Sticky notes that several people share. A note is a `text` on the first page, with the properties `text`, `at` [x, y] and `fill`.
import { Client, Colour, Link, ROOT, warnBeforeClosing } from './lugcurrant.js';

const INKS = ['#f6e58d', '#badc58', '#7ed6df', '#ffbe76', '#ff9aa2'].map((hex) => Colour.of(hex));
const at = (id) => document.getElementById(id), board = at('board'), line = at('line');
const client = await Client.load(), { signals } = client, notes = new Map();
const link = new Link(client, new URL('./', location.href.replace(/^http/, 'ws')));
let page = null, end = () => {};

// Makes an edit. One that can't be made has changed nothing: the line says why.
function edit(act) { try { act(); } catch (fault) { if (fault.name !== 'ClientError') throw fault; line.textContent = `Not done: ${fault.message}`; } }

function make(kind, words, style) { const element = document.createElement(kind); element.textContent = words; element.style.cssText = style; return element; }

// The element of a note. It listens to its own object alone.
function noteOf(id) {
  const element = make('article', '', 'position: absolute; width: 11em; box-shadow: 0 2px 6px #0004; cursor: grab');
  const text = make('textarea', '', 'width: 100%; height: 7em; box-sizing: border-box; border: 0; padding: .5em; background: none; font: inherit; resize: none');
  const ink = make('button', '◐', 'border: 0; background: none'), gone = make('button', '×', 'border: 0; background: none; float: right');
  const properties = () => client.object(id)?.properties ?? {};
  const spot = () => { const { at: place } = properties(); return Array.isArray(place) ? place.map(Number) : [20, 60]; };
  const next = () => INKS[(INKS.findIndex(({ rgba }) => rgba === properties().fill?.rgba) + 1) % INKS.length];
  text.oninput = () => edit(() => client.set(id, 'text', text.value));
  Object.assign(ink, { title: 'Another colour', onclick: () => edit(() => client.set(id, 'fill', next())) });
  Object.assign(gone, { title: 'Delete', onclick: () => edit(() => client.delete(id)) });
  element.addEventListener('pointerdown', (event) => { if (event.target === element) drag(id, event, spot()); });
  element.append(ink, gone, text);
  const draw = (object) => {
    if (!object) return;
    const [left, top] = spot(), { fill, text: words = '' } = object.properties;
    Object.assign(element.style, { left: `${left}px`, top: `${top}px`, background: fill instanceof Colour ? String(fill) : '#ffffff' });
    if (text.value !== String(words)) text.value = String(words);
  };
  draw(client.object(id));
  return { element, end: signals.object(id).subscribe(draw) };
}

// Moves a note with the pointer, one edit a frame at most, and puts it in front of the others.
function drag(id, { clientX, clientY }, [left, top]) {
  let next = null;
  const send = () => { const spot = next; next = null; if (spot) edit(() => client.set(id, 'at', spot)); };
  const place = (event) => [event.clientX - clientX + left, event.clientY - clientY + top].map(Math.round);
  const move = (event) => { if (!next) requestAnimationFrame(send); next = place(event); };
  const stop = () => { document.removeEventListener('pointermove', move); document.removeEventListener('pointerup', stop); send(); };
  document.addEventListener('pointermove', move);
  document.addEventListener('pointerup', stop);
  if (signals.children(page).value.at(-1) !== id) edit(() => client.moveLast(id, page));
}

// Shows these notes, the last one in front.
function list(ids) {
  for (const [id, { element, end: stop }] of notes) if (!ids.includes(id)) { stop(); element.remove(); notes.delete(id); }
  ids.forEach((id, k) => {
    if (!notes.has(id)) { notes.set(id, noteOf(id)); board.append(notes.get(id).element); }
    notes.get(id).element.style.zIndex = k;
  });
}

// The first page may be another one, or the first of all.
function listenToPage([first = null]) {
  if (first === page) return;
  end();
  page = first;
  end = page ? signals.children(page).subscribe(list) : () => {};
  list(page ? signals.children(page).value : []);
}

function tellState() { line.textContent = `${link.words || link.state}${link.unsent ? `, edits to be sent: ${link.unsent}` : ''}`; }

at('add').onclick = () => edit(() => {
  const note = client.createLast('text', page ?? client.createLast('page', ROOT)), place = notes.size % 12;
  client.set(note, 'at', [30 + 40 * place, 70 + 30 * place]);
  client.set(note, 'fill', INKS[notes.size % INKS.length]);
});
at('offline').onchange = ({ target }) => { link.offline = target.checked; };
for (const name of ['state', 'unsent']) link.on(name, tellState);
link.on('refused', ({ words }) => { line.textContent = `Taken back: ${words}`; });
warnBeforeClosing(() => link.unsent);
signals.children(ROOT).subscribe(listenToPage);
listenToPage(signals.children(ROOT).value);
