// The line at the foot of the page: how the connection is, and what waits.
import { at } from './elements.js';
import { setOffline } from './talk.js';
import { stateWords, waitingWords } from './words.js';

const BAD = ['full', 'disk failed', 'disk failed before', 'fault', 'another document', 'unguarded'];
const BROKEN = { state: 'fault', words: '', offline: false, id: null, version: 0, waiting: 0, unsent: 0, here: null };
let state = { ...BROKEN, state: 'connecting' }, isKept = true;

export const stateNow = () => state;
export const keeps = (value) => { isKept = value; };
export const keepState = (told) => { state = told; };

const write = (element, text) => { if (element.textContent !== text) element.textContent = text; };

export function showState(told) {
  const [label, sentence] = stateWords(told.state, isKept);
  at('state').className = told.state === 'online' ? 'online' : BAD.includes(told.state) ? 'bad' : '';
  write(at('state').lastElementChild, label);
  write(at('words'), sentence);
  write(at('waiting'), waitingWords(told.unsent));
  at('waiting').className = told.unsent ? 'some' : '';
  write(at('here'), told.here ? `${told.here} here` : '');
  at('offline').checked = told.offline;
}

export function showBroken({ message }) {
  console.error(message);
  keepState({ ...state, ...BROKEN });
  showState(state);
}

at('offline').onchange = () => setOffline(at('offline').checked);

// The browser asks before the page is closed while the server hasn't all edits: others don't see them until this browser opens the page again.
addEventListener('beforeunload', (event) => { if (state.unsent > 0) { event.preventDefault(); event.returnValue = ''; } });
