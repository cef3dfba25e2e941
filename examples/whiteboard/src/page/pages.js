// The pages, and which one is open.
import { at } from './elements.js';
import { ROOT, below, childrenOf, objects } from './doc.js';
import { drawPage, markStale } from './drawing.js';
import { putAllBack } from './lifting.js';
import { choose } from './selection.js';
import { send } from './talk.js';

let page = null;
const listeners = [];

export const openPage = () => page;
export const whenOpened = (act) => listeners.push(act);

export function showPage(id) {
  putAllBack();
  page = id;
  markStale(below(id));
  drawPage(id);
  for (const act of listeners) act();
  choose([id]);
}

// Opens another page if the open one is gone. Returns whether it was.
export function keepPage() {
  if (objects.has(page)) return false;
  page = childrenOf(ROOT)[0] ?? null;
  if (page) markStale(below(page));
  return true;
}

at('newpage').onclick = async () => {
  const made = await send(['createLast', 'page', ROOT], ['set', '$', 'name', `Page ${childrenOf(ROOT).length + 1}`]);
  if (made) showPage(made);
};
