// Sentences for what can't be done, and for how the connection is.

// Why the client, or the server, refuses an edit: by the name of the reason.
const NO_VALUE = 'it has a value that can’t be saved';
const REASONS = {
  NotOpen: 'the board has not been online in this browser yet',
  NotShown: 'it was deleted',
  Gone: 'someone else deleted it',
  ParentNotShown: 'the frame or page it belongs in was deleted',
  ParentGone: 'someone else deleted the frame or page it belongs in',
  BadParent: 'only pages and frames can hold objects',
  OwnDescendant: 'a frame can’t be put into itself',
  Cycle: 'someone else put that frame into this one first',
  Crowded: 'there is no room left between its neighbours; bring it to the front or to the back instead',
  TooDeep: 'objects can be nested 100 deep at most',
  Taken: 'another object has taken this place',
  IsRoot: 'the document itself can’t be moved or deleted',
  IdsSpent: 'this window has created as many objects as it can; open a new window',
  Full: 'this window has made as many changes as it can; open a new window',
  Memory: 'the browser has no memory left; close other windows',
  BadId: 'another window has used its number',
  'too large': 'it is too large for the server',
  unreadable: 'the server can’t read it',
  TypeError: NO_VALUE, RangeError: NO_VALUE, NotAValue: NO_VALUE, OutOfRange: NO_VALUE, ValueTooDeep: NO_VALUE,
};
const SETS = { at: 'move', size: 'resize', fill: 'colour', name: 'rename', text: 'change the text of', form: 'change' };
const EDITS = { set: 'change', clear: 'change', setJson: 'change', delete: 'delete' };

// What an edit does, as a verb.
function doingOf({ edit, property }) {
  if (edit.startsWith('create')) return 'add';
  if (edit.startsWith('move')) return 'move';
  return SETS[property] ?? EDITS[edit] ?? 'change';
}

// Returns the sentence for an edit that was refused, and so was not done or was taken back. `name` is the name of the object, if it has one.
export function refusal({ by, edit, property, code, words, name }) {
  const it = name ? `“${name}”` : 'this object', why = REASONS[code] ?? words, doing = `${doingOf({ edit, property })} ${it}`;
  return by === 'the server' ? `Taken back: could not ${doing}, because ${why}.` : `Could not ${doing}: ${why}.`;
}

// How the connection is: a word or two, and a sentence where a person may want one.
const STATES = {
  connecting: ['Connecting', ''],
  online: ['Online', ''],
  offline: ['Offline', 'Your changes are kept in this browser until you go online.'],
  'no server': ['No connection', 'The server can’t be reached. Your changes are kept in this browser until it is back.'],
  'no seat': ['Server is full', 'Too many people are here. Your changes are kept until there is room.'],
  replaced: ['Starting over', 'Another window uses the same identity. Your changes are being made again.'],
  stranger: ['Starting over', 'The server lost its history. Your changes are being made again.'],
  'too large': ['Online', 'A change was too large for the server.'],
  unreadable: ['Online', 'The server could not read a change.'],
  full: ['Read only', 'The server can take no more changes. You still see those of others.'],
  'disk failed': ['Not saving', 'The server can’t write to its disk. Your changes are kept until it can.'],
  'disk failed before': ['Not saving', 'The server can’t write to its disk. Your changes are kept until it can.'],
  'no memory': ['Server is busy', 'Your changes will be sent again soon.'],
  'another document': ['Another document', 'The server has another document now. Reload the page to open it.'],
  unguarded: ['Not connected', 'This page can’t check which document the server has.'],
  fault: ['Stopped', 'Something went wrong. Reload the page to continue.'],
  closed: ['Closed', ''],
};

// Returns [label, sentence] of a state. `isKept` is false if the browser keeps nothing: then a closed window loses what waits.
export function stateWords(state, isKept) {
  const [label, sentence] = STATES[state] ?? [state, ''];
  return [label, isKept ? sentence : sentence.replace(/are kept(?: in this browser)? until/, 'are lost if you close this window before')];
}

export const waitingWords = (count) => !count ? 'All changes saved' : `${count.toLocaleString()} ${count === 1 ? 'change' : 'changes'} to send`;

export function anewWords({ made, lost, unsure }) {
  const parts = [`${made} ${made === 1 ? 'change was' : 'changes were'} made again`];
  if (lost) parts.push(`${lost} could not be`);
  if (unsure) parts.push(`${unsure} may be lost`);
  return lost || unsure ? `Started over: ${parts.join(', ')}.` : 'Started over. Nothing was lost.';
}

export const CHANGED = 'What this browser had kept was damaged. Changes that were not sent yet may be lost.';
