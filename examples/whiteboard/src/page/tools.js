// The tool and the colour that were picked, and what they create.
import { at } from './elements.js';
import { ROOT, holderAt, originOf } from './doc.js';
import { openPage } from './pages.js';
import { choose, chosenObjects } from './selection.js';
import { middle } from './sight.js';
import { make, send } from './talk.js';
import { moveFocusByArrows } from './focus.js';
import { INKS, SIZES, colourOf } from './values.js';

let tool = 'select', ink = INKS.Blue;
const buttons = [...document.querySelectorAll('[data-tool]')];

export const pickedTool = () => tool;

export function pickTool(name) {
  tool = name;
  for (const button of buttons) button.setAttribute('aria-pressed', button.dataset.tool === name);
  at('stage').classList.toggle('drawing', name !== 'select');
}

// Creates what the tool draws in the frame that is at a point of the board, or on the page: in a box, or in the default size if there is none.
export async function create([x, y], box = null) {
  const page = openPage(), kind = tool === 'rect' || tool === 'ellipse' ? 'shape' : tool, holder = page ? holderAt(page, [x, y]) : '$';
  const [left, top] = page ? originOf(holder) : [0, 0], [a, b, w, h] = (box ?? [x, y, ...SIZES[kind]]).map(Math.round);
  const edits = page ? [] : [['createLast', 'page', ROOT], ['set', '$', 'name', 'Page 1']];
  edits.push(['createLast', kind, holder], ['set', '$', 'at', [a - left, b - top]], ['set', '$', 'size', [w, h]]);
  if (kind === 'frame') edits.push(['set', '$', 'name', 'Frame']);
  if (kind === 'shape') edits.push(['set', '$', 'form', tool], ['set', '$', 'fill', colourOf(ink)]);
  if (kind === 'text') edits.push(['set', '$', 'text', 'Text']);
  pickTool('select');
  const made = await send(...edits);
  if (made) choose([made]);
}

// The same in the middle of what is in sight, for those who draw by keys.
export function createInMiddle() {
  const [x, y] = middle(), [w, h] = SIZES[tool] ?? SIZES.shape;
  return create([x, y], [x - w / 2, y - h / 2, w, h]);
}

function pickInk(hex) {
  ink = hex;
  for (const button of at('swatches').children) button.setAttribute('aria-pressed', button.dataset.ink === hex);
}

function addSwatch([name, hex]) {
  const button = document.createElement('button');
  button.dataset.ink = hex;
  button.title = name;
  button.setAttribute('aria-label', name);
  button.style.background = hex;
  button.onclick = () => {
    pickInk(hex);
    make(chosenObjects().map((id) => ['set', id, 'fill', colourOf(hex)]));
  };
  at('swatches').append(button);
}

for (const button of buttons) button.onclick = () => pickTool(button.dataset.tool);
for (const named of Object.entries(INKS)) addSwatch(named);
pickInk(ink);
for (const id of ['tools', 'swatches']) moveFocusByArrows(at(id));
