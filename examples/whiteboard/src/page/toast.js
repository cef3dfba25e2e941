// Says a sentence at the foot of the board, for as long as it takes to read.
import { at } from './elements.js';

const LEAST = 4000, FOR_A_CHARACTER = 60;
let silence = null;

export function say(words) {
  at('toast').textContent = words;
  at('toast').classList.add('shown');
  clearTimeout(silence);
  silence = setTimeout(() => at('toast').classList.remove('shown'), Math.max(LEAST, FOR_A_CHARACTER * words.length));
}
