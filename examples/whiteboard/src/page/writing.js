// Goes to where the words of an object are written: to the text of a text, and else to the name.
import { at } from './elements.js';
import { objects } from './doc.js';
import { openSheet } from './sheet.js';

export function write(id) {
  const field = at(objects.get(id)?.kind === 'text' ? 'text' : 'name');
  openSheet('details');
  field.focus();
  field.select();
}
