// The switch for those without a Shift key: while it is on, each tap adds an object to what is chosen, or takes it away.
import { at } from './elements.js';

let isOn = false;

export const isSeveral = () => isOn;

export function setSeveral(value) {
  isOn = value;
  at('several').setAttribute('aria-pressed', value);
}

at('several').onclick = () => setSeveral(!isOn);
