// The whiteboard page: it draws what the worker reports, and sends what a person does as edits. All merging is the proved client's, in the worker.
// Here is which part of the page hears of what.
import './theme.js';
import './install.js';
import './keys.js';
import './layers.js';
import './walking.js';
import { at } from './elements.js';
import { objects, takeReport, whenChanged } from './doc.js';
import { draw, drawPage, erase, markStale } from './drawing.js';
import { forgetGone } from './gestures.js';
import { noteChanges } from './lifting.js';
import { listPage, scrollToRow, showRows, whenWritten } from './list.js';
import { drawMarks } from './marks.js';
import { atMostEvery } from './pace.js';
import { keepPage, openPage, whenOpened } from './pages.js';
import { fillPanel } from './panel.js';
import { placePointers, takePointers } from './pointers.js';
import { dressIfThere, dropRow, idOfRow } from './rows.js';
import { chosenIds, isChosen, lastChosen, pruneChosen, whenChosen } from './selection.js';
import { isSeveral } from './several.js';
import { sight, whenSeen } from './sight.js';
import { keepState, keeps, showBroken, showState, stateNow } from './status.js';
import { ask, send, whenBroken, whenTold } from './talk.js';
import { say } from './toast.js';
import { labelOf } from './values.js';
import { CHANGED, anewWords, refusal } from './words.js';
import { write } from './writing.js';

const PACE = 100;                                       // milliseconds between two looks of the panel and the foot of the page in a drag
const fillPanelSoon = atMostEvery(PACE, () => fillPanel(false)), showStateSoon = atMostEvery(PACE, showState);

// What changed is drawn, and nothing else: of most changes that is one object, and no row of the lists.
whenChanged(({ changed, gone, reordered }) => {
  for (const id of gone) { erase(id); dropRow(id); }
  for (const id of changed) { draw(objects.get(id)); dressIfThere(id); }
  markStale(reordered);
  const isOther = keepPage() || gone.size > 0 || reordered.size > 0;
  if (isOther) { drawPage(openPage()); listPage(); forgetGone(); pruneChosen(openPage()); placePointers(); }
  noteChanges(changed, openPage());
  drawMarks();
  if (isOther) fillPanel(); else if ([...changed].some(isChosen)) fillPanelSoon();
});

whenChosen((before) => {
  for (const id of new Set([...before, ...chosenIds()])) dressIfThere(id);
  if (lastChosen()) scrollToRow(lastChosen());
  showRows();
  fillPanel();
  document.body.classList.toggle('chosen', chosenIds().length > 0);
});
whenOpened(() => { listPage(); fillPanel(); });

whenSeen(() => {
  const text = `${Math.round(100 * sight.scale)} %`;
  if (at('zoom').textContent !== text) at('zoom').textContent = text;
});

whenTold('tree', takeReport);
whenTold('state', (told) => { keepState(told); showStateSoon(told); });
whenTold('shown', takePointers);
whenTold('kept', ({ window }) => keeps(window !== null));
whenTold('changed', () => say(CHANGED));
whenTold('anew', (told) => say(anewWords(told)));
whenTold('refused', (told) => say(refusal({ ...told, name: objects.has(told.id) ? labelOf(objects.get(told.id)) : '' })));
whenTold('broken', showBroken);
whenBroken(showBroken);

whenWritten(write);
at('stage').ondblclick = (event) => {
  const object = objects.get(event.target.closest?.('[data-id]')?.dataset.id);
  if (object && object.kind !== 'page' && !isSeveral()) write(object.id);
};
at('list').addEventListener('click', (event) => { if (idOfRow(event)) drawMarks(); });

// For tests, and for a look from the console.
window.lugcurrant = { objects, send, state: stateNow, text: async () => (await ask({ do: 'text' })).text, chosen: chosenIds, sight };
