// Copies of objects as text, and the edits that paste them. A copy goes through the system's clipboard, so it can be pasted in another window or
// document. What is pasted may come from anywhere, so it is checked.
import { readText } from './checks.js';
import { DEEPEST, boxAround, boxOf, childrenOf, objects } from './doc.js';

const MOST_OBJECTS = 5000, MOST_PROPERTIES = 64, MOST_NESTED = 16;
const LONGEST = 1 << 22, LONGEST_VALUE = 1 << 16;       // characters of a copy, and of a property's JSON in it
const FARTHEST = 1e12;
const KINDS = ['frame', 'shape', 'text'], NAME = /^[a-z0-9_]{1,32}$/, BIG = /^-?\d{1,19}$/, HALF = /\p{Cs}/u, BEGIN = '{"whiteboard":1';

// Why objects can't be copied or pasted.
const FAULTS = {
  many: (done) => `More than ${MOST_OBJECTS.toLocaleString('en')} objects can’t be ${done} at once.`,
  long: (done) => `This is too much text to be ${done} at once.`,
  damaged: () => 'This copy can’t be read: it is damaged.',
};

// ---- copying ----

// Returns { text } of a copy of these objects with all in them, or { fault } with a sentence if they are too many or too large. What is copied can be
// pasted.
export function copyOf(ids, done = 'copied') {
  let count = 0;
  const one = (id, depth) => {
    count += 1;
    const { kind, properties } = objects.get(id);
    return { kind, properties: Object.fromEntries(Object.entries(properties).map(([name, value]) => [name, written(value)])), children: depth > DEEPEST || count > MOST_OBJECTS ? [] : childrenOf(id).filter((child) => objects.has(child)).map((child) => one(child, depth + 1)) };
  };
  const copied = [];
  for (const id of ids) if (count <= MOST_OBJECTS) copied.push({ ...one(id, 0), box: boxOf(id) });
  if (count > MOST_OBJECTS) return { fault: FAULTS.many(done) };
  const text = JSON.stringify({ whiteboard: 1, objects: copied }), { fault } = readCopy(text, done);
  return fault ? { fault } : { text };
}

const written = (value) => Array.isArray(value) ? value.map(written) : typeof value === 'bigint' ? { big: String(value) } : value;

// ---- pasting ----

// Reads a copy. Returns { copies }, { fault } with a sentence of why it can't be pasted, or null if the text is no copy.
export function readCopy(text, done = 'pasted') {
  if (!text.startsWith(BEGIN)) return null;
  if (text.length > LONGEST) return { fault: FAULTS.long(done) };
  try {
    const { objects: given } = JSON.parse(text), read = { count: 0 };
    if (!Array.isArray(given) || !given.length) refuse('damaged');
    return { copies: given.map((it) => ({ ...readObject(it, read, 0), box: readBox(it.box) })) };
  } catch (fault) { return { fault: FAULTS[fault.why ?? 'damaged'](done) }; }        // other faults are that it is no JSON, or nested too deep
}

class Refused extends Error {
  constructor(why) { super(why); this.why = why; }
}
function refuse(why) { throw new Refused(why); }

// Returns an object of a copy, with all in it. `read` counts them.
function readObject({ kind, properties, children }, read, depth) {
  read.count += 1;
  if (read.count > MOST_OBJECTS) refuse('many');
  if (depth > DEEPEST || !KINDS.includes(kind) || !Array.isArray(children) || (kind !== 'frame' && children.length)) refuse('damaged');
  return { kind, properties: readProperties(properties), children: children.map((child) => readObject(child, read, depth + 1)) };
}

function readProperties(given) {
  if (given === null || typeof given !== 'object' || Array.isArray(given)) refuse('damaged');
  const all = Object.entries(given);
  if (all.length > MOST_PROPERTIES || all.some(([, value]) => JSON.stringify(value).length > LONGEST_VALUE)) refuse('long');
  return Object.fromEntries(all.map(([name, value]) => [NAME.test(name) ? name : refuse('damaged'), readValue(value, 0)]));
}

// Returns a value that a property can have.
function readValue(value, depth) {
  if (Array.isArray(value) && depth < MOST_NESTED) return value.map((it) => readValue(it, depth + 1));
  if (typeof value === 'boolean' || Number.isSafeInteger(value) || (typeof value === 'string' && !HALF.test(value))) return value;
  if (Number.isInteger(value?.rgba) && value.rgba >= 0 && value.rgba <= 0xffffffff) return { rgba: value.rgba };
  const big = BIG.test(value?.big) ? BigInt(value.big) : null;
  return big !== null && BigInt.asIntN(64, big) === big ? big : refuse('damaged');
}

const readBox = (box) => Array.isArray(box) && box.length === 4 && box.every((it) => typeof it === 'number' && Math.abs(it) <= FARTHEST) ? box : refuse('damaged');

// Returns the edits that create these copies in front in a holder, and which of the created objects are the outermost ones. `origin` is the board's
// point of the holder, and they are put so far from where they were copied.
export function pasting(copies, holder, origin, [dx, dy]) {
  const edits = [], tops = [];
  let made = 0;
  const add = ({ kind, properties, children }, parent) => {
    const id = `$${made}`;
    made += 1;
    edits.push(['createLast', kind, parent], ...Object.entries(properties).map(([name, value]) => ['set', id, name, value]));
    for (const child of children) add(child, id);
  };
  for (const copy of copies) {
    const [x, y] = copy.box, spot = [Math.round(x + dx - origin[0]), Math.round(y + dy - origin[1])];
    tops.push(made);
    add({ ...copy, properties: { ...copy.properties, at: spot } }, holder);
  }
  return { edits, tops };
}

// Reads a text from elsewhere as a copy of a text object. Returns { copies }, or { fault } with a sentence.
export function readWords(text) {
  if (text.length > LONGEST) return { fault: FAULTS.long('pasted') };
  const words = text.trim().replace(/\s+/g, ' ').replace(/\p{Cs}/gu, '\ufffd'), { fault } = readText(words, 'text');
  if (!words) return { fault: 'There is nothing to paste: copy an object or a text first.' };
  const size = [Math.max(40, Math.min(600, 9 * words.length)), 22];
  return fault ? { fault } : { copies: [{ kind: 'text', properties: { text: words, size }, children: [], box: [0, 0, ...size] }] };
}

export const boxOfCopies = (copies) => boxAround(copies.map(({ box }) => box));
