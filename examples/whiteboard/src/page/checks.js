// Checks what is typed into the panel's fields. Each returns { value }, or { fault } with a sentence that says what is wrong.
import { INKS } from './values.js';

export const FARTHEST = 1000000000;                     // how far a field may put an object, and how large make it
export const LONGEST = { name: 200, text: 2000 };

const grouped = (number) => number.toLocaleString('en').replace('-', '−');

// A whole number from `least` to FARTHEST. `what` is what the number is, as the sentence begins.
export function readWhole(typed, what, least) {
  const text = typed.trim().replace('−', '-');
  if (!text) return { fault: `${what} is empty: type a whole number.` };
  if (!/^[+-]?(\d+\.?\d*|\.\d+)$/.test(text)) return { fault: `“${short(typed.trim())}” is not a number: type a whole number, such as 120.` };
  const value = Number(text);
  if (value < least) return { fault: `${what} must be ${grouped(least)} or more.` };
  if (value > FARTHEST) return { fault: `${what} must be ${grouped(FARTHEST)} or less.` };
  if (!Number.isInteger(value)) return { fault: `${what} must be a whole number: ${Math.floor(value)} or ${Math.ceil(value)}.` };
  return { value };
}

// A colour: three or six hex digits, or the name of a swatch. The value is written #rrggbb.
export function readColour(typed) {
  const text = typed.trim(), named = Object.entries(INKS).find(([name]) => name.toLowerCase() === text.toLowerCase()), digits = /^#?([0-9a-f]{3}|[0-9a-f]{6})$/i.exec(text)?.[1].toLowerCase();
  if (!text) return { fault: 'The colour is empty: type one such as #336699.' };
  if (named) return { value: named[1] };
  if (!digits) return { fault: `“${short(text)}” is not a colour: type one such as #336699 or Green.` };
  return { value: `#${digits.length === 3 ? [...digits].map((it) => it + it).join('') : digits}` };
}

// A text of at most LONGEST characters.
export function readText(typed, what) {
  const length = typed.length - (typed.match(/[\u{10000}-\u{10ffff}]/gu)?.length ?? 0), most = LONGEST[what];
  return length <= most ? { value: typed } : { fault: `A ${what} can have ${grouped(most)} characters; this one has ${grouped(length)}.` };
}

const short = (text) => text.length > 20 ? `${text.slice(0, 20)}…` : text;
