// Properties as the page draws them. Another program may give a property any value, so each of these falls back to a default, and is bounded.
//
// An object's properties: `name`, `at` [x, y] in its parent, `size` [width, height], `fill` a colour, `form` "ellipse" or "rect" of a shape,
// `text` of a text.
export const INKS = { Yellow: '#e9c46a', Orange: '#e08e6d', Red: '#b4405f', Purple: '#8d7bb5', Blue: '#6f9ccf', Green: '#7fb09a', 'Light grey': '#d9d3cb', 'Dark grey': '#4a4750' };
export const SIZES = { frame: [260, 180], shape: [110, 76], text: [130, 22] };
const NAMES = { frame: 'Frame', rect: 'Rectangle', ellipse: 'Ellipse', text: 'Text', shape: 'Shape', page: 'Page' };
export const PAPER = '#ffffff';                         // a frame without a colour
export const STONE = '#d9d3cb';                         // a shape without one
const DARK = '#2c2a30';
const FARTHEST = 1000000000, LONGEST_LABEL = 200, LONGEST_TEXT = 2000;  // units; characters

const isNumber = (value) => typeof value === 'number' || typeof value === 'bigint';
const bounded = (value) => Math.max(-FARTHEST, Math.min(FARTHEST, Number(value)));
const pairOf = (value, usual) => Array.isArray(value) && value.length === 2 && value.every(isNumber) ? value.map(bounded) : usual;

export const spotOf = (object) => object.kind === 'page' ? [0, 0] : pairOf(object.properties.at, [40, 40]);
export const sizeOf = (object) => pairOf(object.properties.size, SIZES[object.kind] ?? [100, 70]).map((n) => Math.max(1, n));
export const textOf = (value) => ['string', 'number', 'bigint', 'boolean'].includes(typeof value) ? String(value) : '';
export const formOf = ({ kind, properties: { form } }) => kind === 'shape' && (form === 'rect' || form === 'ellipse') ? form : kind;
export const kindOf = (object) => NAMES[formOf(object)];

// What is read of an object in a list and on the board.
const short = (text, most) => text.length > most ? `${text.slice(0, most).replace(/[\ud800-\udbff]$/, '')}…` : text;
export const labelOf = (object) => nameOf(object).trim() || short(wordsOf(object).trim(), LONGEST_LABEL) || kindOf(object);
export const nameOf = ({ properties: { name } }) => short(textOf(name), LONGEST_LABEL);
export const wordsOf = ({ properties: { text } }) => short(textOf(text), LONGEST_TEXT);

export const hexOf = (fill, usual) => fill?.rgba === undefined ? usual : `#${fill.rgba.toString(16).padStart(8, '0').slice(0, 6)}`;
export const colourOf = (hex) => ({ rgba: parseInt(hex.slice(1), 16) * 256 + 255 });

// Returns white or a dark grey: what is read better on this colour.
export function inkOn(hex) {
  const [r, g, b] = [1, 3, 5].map((at) => parseInt(hex.slice(at, at + 2), 16));
  return 0.299 * r + 0.587 * g + 0.114 * b > 140 ? DARK : '#ffffff';
}

export const isSameList = (a, b) => a.length === b.length && a.every((it, k) => it === b[k]);
