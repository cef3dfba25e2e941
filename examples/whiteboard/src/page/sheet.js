// On a narrow screen the lists and the panel are in a sheet below the board. A bar on it opens either of them, and drags the sheet higher or lower.
import { at, keepFingers } from './elements.js';
import { boxOf, objects } from './doc.js';
import { showRows, scrollToRow } from './list.js';
import { lastChosen } from './selection.js';
import { bring } from './sight.js';

const PARTS = { lists: at('showlists'), details: at('showdetails') };
const isNarrow = matchMedia('(max-width: 900px)');
const HALF = 0.45, FULL = 0.8, CLOSED = 0.15, TAP = 4;  // shares of the window's height; pixels
let open = null, drag = null;

function show(part, share = HALF) {
  open = part;
  at('sheet').dataset.open = part ?? '';
  at('sheet').style.setProperty('--height', `${Math.round(share * innerHeight)}px`);
  for (const [name, button] of Object.entries(PARTS)) button.setAttribute('aria-expanded', name === part);
  at('grip').setAttribute('aria-expanded', part !== null);
  requestAnimationFrame(settle);
}

// What is chosen stays in sight, on the board and in the list.
function settle() {
  showRows();
  const id = lastChosen();
  if (!objects.has(id) || objects.get(id).kind === 'page' || !isNarrow.matches) return;
  scrollToRow(id);
  if (open) bring(boxOf(id));
}

export const openSheet = (part) => { if (isNarrow.matches && open !== part) show(part); };
export function closeSheet() {
  if (!open) return;
  const button = PARTS[open];
  show(null);
  if (at('sheet').contains(document.activeElement)) button.focus();
}

for (const [name, button] of Object.entries(PARTS)) button.onclick = () => show(open === name ? null : name);

// ---- the grip: a tap goes from closed to half to all, a drag to wherever it ends ----

const shareNow = () => open ? at('parts').offsetHeight / innerHeight : 0;

at('grip').onclick = () => {
  if (drag?.isOver) { drag = null; return; }
  const share = shareNow();
  show(share > HALF + 0.05 ? null : open ?? 'lists', share ? FULL : HALF);
};
at('grip').onpointerdown = (event) => {
  drag = { from: event.clientY, share: shareNow(), isOver: false };
  at('grip').setPointerCapture(event.pointerId);
};
at('grip').onpointermove = (event) => {
  if (!drag || drag.isOver || Math.abs(event.clientY - drag.from) < TAP && !drag.isMoved) return;
  drag.isMoved = true;
  show(open ?? 'lists', Math.max(0, Math.min(FULL, drag.share + (drag.from - event.clientY) / innerHeight)));
};
at('grip').onpointerup = () => {
  if (!drag?.isMoved) { drag = null; return; }
  drag.isOver = true;                                   // the click that follows is no tap
  if (shareNow() < CLOSED) show(null);
};
at('grip').onpointercancel = () => { drag = null; };
keepFingers(at('grip'));
isNarrow.addEventListener('change', () => { show(null); });
