// The pointers of the others, each with a name and a colour of its own. A window shows { at, page, name } while its pointer is on the board, which the link
// sends 30 times a second at most. What comes of others may be anything, as other programs may show themselves.
import { at } from './elements.js';
import { openPage, whenOpened } from './pages.js';
import { onBoard, sight, whenSeen } from './sight.js';
import { show } from './talk.js';

const NAME = 'name', LONGEST = 30, MOST = 200, FARTHEST = 1e7;       // where the name is kept; characters of it; pointers; units from the board's middle
const stage = at('stage'), pointers = new Map();        // { element, label, spot, page } by the ids of clients
let last = null, isDue = false;                         // where the own pointer is on the stage, in the window

// ---- the others ----

const isSpot = (it) => Array.isArray(it) && it.length === 2 && it.every((n) => Number.isFinite(n) && Math.abs(n) <= FARTHEST);
const nameOf = (client, name) => (typeof name === 'string' && [...name.trim()].slice(0, LONGEST).join('')) || `Guest ${client}`;

export function takePointers({ changes }) {
  for (const [client, value] of changes) {
    if (!isSpot(value?.at) || typeof value.page !== 'string') remove(client);
    else if (pointers.has(client) || pointers.size < MOST) put(client, value);
  }
}

function put(client, { at: spot, page, name }) {
  if (!pointers.has(client)) pointers.set(client, made(client));
  const pointer = Object.assign(pointers.get(client), { spot, page }), words = nameOf(client, name);
  if (pointer.label.textContent !== words) pointer.label.textContent = words;
  place(pointer);
}

// Neighbours among the ids have colours that are far apart: the golden angle.
function made(client) {
  const element = at('pointer').content.firstElementChild.cloneNode(true);
  element.style.setProperty('--own', `hsl(${(client * 137.508) % 360} 65% 32%)`);
  element.dataset.client = client;
  at('others').append(element);
  return { element, label: element.lastElementChild };
}

function place({ element, spot: [x, y], page }) {
  element.hidden = page !== openPage();
  element.style.transform = `translate(${sight.x + x * sight.scale}px, ${sight.y + y * sight.scale}px)`;
}

function remove(client) {
  pointers.get(client)?.element.remove();
  pointers.delete(client);
}

export function placePointers() { for (const pointer of pointers.values()) place(pointer); }

// ---- the own one ----

const rounded = (n) => Math.round(10 * n) / 10;
const own = () => ({ at: onBoard(last).map(rounded), page: openPage(), name: at('myname').value.trim() });

// A frame has one place at most. A window in the background has no frames, and shows nothing.
function showSoon() {
  if (isDue || !last) return;
  isDue = true;
  requestAnimationFrame(() => { isDue = false; if (last) show(own()); });
}

function leave() {
  if (last) show(null);
  last = null;
}

stage.addEventListener('pointermove', ({ clientX, clientY }) => { last = { clientX, clientY }; showSoon(); });
for (const end of ['pointerleave', 'pointercancel']) stage.addEventListener(end, leave);
document.addEventListener('visibilitychange', () => { if (document.hidden) leave(); });
for (const when of [whenSeen, whenOpened]) when(() => { placePointers(); showSoon(); });

at('myname').value = localStorage.getItem(NAME) ?? '';
at('myname').oninput = () => { localStorage.setItem(NAME, at('myname').value); showSoon(); };
at('myname').onkeydown = ({ key }) => { if (key === 'Enter') stage.focus(); };
