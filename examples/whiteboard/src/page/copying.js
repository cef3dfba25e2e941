// Copy, cut, paste and duplicate, by keys and by buttons.
import { at } from './elements.js';
import { deleteChosen } from './arrange.js';
import { boxOfCopies, copyOf, pasting, readCopy, readWords } from './clipboard.js';
import { objects, originOf } from './doc.js';
import { openPage } from './pages.js';
import { choose, outermost } from './selection.js';
import { isInSight, middle } from './sight.js';
import { make } from './talk.js';
import { say } from './toast.js';

const TYPE = 'application/x-whiteboard+json', KEPT = 'whiteboard copy', STEP = 20;
let copied = null, times = 0;                           // the last copy, and how often it was pasted

const countOf = (ids) => ids.length === 1 ? '1 object' : `${ids.length.toLocaleString('en')} objects`;

// Copies what is chosen: to the system's clipboard if there is an event for it, and to other windows of this page. Returns whether it was copied.
function copy(event = null) {
  const ids = outermost(), { text, fault } = ids.length ? copyOf(ids) : { fault: 'Choose what to copy first.' };
  if (fault) { say(fault); return false; }
  event?.clipboardData.setData(TYPE, text);
  event?.clipboardData.setData('text/plain', text);
  event?.preventDefault();
  copied = text;
  times = 0;
  try { localStorage.setItem(KEPT, text); } catch { /* storage is full or refused: other windows get it by the clipboard alone */ }
  say(`Copied ${countOf(ids)}.`);
  return true;
}

// Pastes copies in front in a holder: a step beside where they were, or in the middle if that isn't in sight.
async function paste(copies, { holder = openPage(), isBeside = true } = {}) {
  if (!holder) return say('Add a page first.');
  times += 1;
  const [x, y, w, h] = boxOfCopies(copies), [mx, my] = middle(), beside = [x + times * STEP, y + times * STEP, w, h];
  const by = isBeside && isInSight(beside) ? [times * STEP, times * STEP] : [mx - w / 2 - x, my - h / 2 - y];
  const { edits, tops } = pasting(copies, holder, originOf(holder), by), ids = await make(edits);
  return choose(tops.map((k) => ids[k]).filter((id) => objects.has(id)));
}

function pasteText(text) {
  const copy = readCopy(text), { copies, fault } = copy ?? readWords(text);
  if (fault) return say(fault);
  if (copy && text !== copied) { copied = text; times = 0; }
  return paste(copies, { isBeside: copy !== null });
}

export function duplicate() {
  const ids = outermost(), { text, fault } = ids.length ? copyOf(ids, 'duplicated') : { fault: 'Choose what to duplicate first.' };
  if (fault) return say(fault);
  const holders = new Set(ids.map((id) => objects.get(id).parent));
  times = 0;
  return paste(readCopy(text).copies, holders.size === 1 ? { holder: [...holders][0] } : {});
}

function pasteKept() {
  let text = copied;
  try { text = localStorage.getItem(KEPT) ?? copied; } catch { /* storage is refused */ }
  pasteText(text ?? '');
}

const isInField = ({ target }) => Boolean(target.matches?.('input, textarea, select'));
addEventListener('copy', (event) => { if (!isInField(event)) copy(event); });
addEventListener('cut', (event) => { if (!isInField(event) && copy(event)) deleteChosen(); });
addEventListener('paste', (event) => {
  if (isInField(event)) return;
  event.preventDefault();
  pasteText(event.clipboardData.getData(TYPE) || event.clipboardData.getData('text/plain'));
});
at('copy').onclick = () => copy();
at('paste').onclick = pasteKept;
at('duplicate').onclick = duplicate;
