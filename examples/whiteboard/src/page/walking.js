// Tab on the board: it goes from object to object, in the order of the list. Past the last one it leaves the board, and after Escape it does at once.
import { at } from './elements.js';
import { boxOf, objects } from './doc.js';
import { listedBeside } from './list.js';
import { choose, lastChosen } from './selection.js';
import { bring } from './sight.js';
import { labelOf } from './values.js';

const stage = at('stage');
let isLeaving = false;

stage.addEventListener('keydown', (event) => {
  if (event.key === 'Shift') return;
  const next = event.key === 'Tab' && !isLeaving && !event.ctrlKey && !event.metaKey && !event.altKey ? listedBeside(lastChosen(), event.shiftKey ? -1 : 1) : null;
  isLeaving = event.key === 'Escape';
  if (!next) return;
  event.preventDefault();
  choose([next.id]);
  bring(boxOf(next.id));
  at('spoken').textContent = `${labelOf(objects.get(next.id))}, ${next.place} of ${next.count}`;
});
stage.addEventListener('focus', () => { isLeaving = false; });
