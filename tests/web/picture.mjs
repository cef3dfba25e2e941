#!/usr/bin/env node
// Draws a small design in the page, with a second window beside it, and takes its picture:
//     node --experimental-websocket picture.mjs LUGCURRANT FILE.png
import { execFileSync } from 'node:child_process';
import { fileURLToPath } from 'node:url';
import { Browser, sleep, until } from './devtools.mjs';
import { Server, endAfter } from './server.mjs';

const [program, file] = process.argv.slice(2);
endAfter(120);

const colour = (hex) => ({ rgba: parseInt(hex, 16) * 256 + 255 });
let last = null;
// The edits of an object behind the last one.
const made = (kind, holder, [x, y, w, h], more) => [['create', kind, holder, last], ['set', '$', 'at', [x, y]], ['set', '$', 'size', [w, h]],
  ...Object.entries(more).map(([name, value]) => ['set', '$', name, value])];

const page = fileURLToPath(new URL('../../examples/whiteboard/', import.meta.url));
execFileSync(`${page}build`, { stdio: 'ignore' });
const server = await Server.start(program, { page });
const browser = await Browser.start();
try {
  const open = async () => {
    const window = await browser.open(`http://127.0.0.1:${server.port}/`, 1080, 640);
    if (!await until(() => window.js("window.lugcurrant?.state().state === 'online' && lugcurrant.state().id > 0"), 60)) throw new Error('the page does not join');
    return window;
  };
  const window = await open();
  const send = async (edits) => (last = await window.js(`lugcurrant.send(...${JSON.stringify(edits)})`));
  const draw = (kind, holder, place, more) => send(made(kind, holder, place, more));
  const inside = async (holder, ...list) => { last = null; for (const one of list) await draw(one[0], holder, one[1], one[2]); };
  const board = await send([['create', 'page', '0:0', null], ['set', '$', 'name', 'Jam labels']]);
  last = null;
  const label = await draw('frame', board, [40, 50, 250, 330], { name: 'Label', fill: colour('fffdf9') });
  const notes = await draw('frame', board, [330, 50, 300, 200], { name: 'Notes', fill: colour('ffffff') });
  await draw('shape', board, [330, 290, 190, 90], { name: 'Ask Ben: matt paper?', form: 'rect', fill: colour('e9c46a') });
  await draw('text', board, [545, 320, 110, 24], { text: '\u2190 by Friday', fill: colour('7d7781') });
  await inside(label, ['shape', [0, 0, 250, 74], { name: 'Redcurrant', form: 'rect', fill: colour('b4405f') }], ['shape', [40, 104, 66, 66], { form: 'ellipse', fill: colour('9d2f4d') }],
    ['shape', [94, 124, 72, 72], { form: 'ellipse', fill: colour('b4405f') }], ['shape', [144, 98, 62, 62], { form: 'ellipse', fill: colour('c65d7b') }],
    ['shape', [120, 78, 60, 20], { form: 'ellipse', fill: colour('7fb09a') }], ['text', [62, 222, 140, 22], { text: 'Sweet & sharp', fill: colour('4a4750') }],
    ['shape', [30, 270, 190, 36], { name: '220 g', form: 'rect', fill: colour('4a4750') }]);
  await inside(notes, ['shape', [18, 22, 120, 70], { name: 'Bigger fruit', form: 'rect', fill: colour('e08e6d') }], ['shape', [158, 22, 120, 70], { name: 'One leaf only', form: 'rect', fill: colour('7fb09a') }],
    ['shape', [18, 110, 120, 70], { name: 'Bar code?', form: 'rect', fill: colour('6f9ccf') }], ['shape', [158, 110, 120, 70], { name: 'Mail the printer', form: 'rect', fill: colour('8d7bb5') }]);
  await open();
  await until(async () => window.js("lugcurrant.state().here === 2 && lugcurrant.state().waiting === 0"));
  await window.call('Page.bringToFront');
  await window.clickAt([208 + 40 + 130, 46 + 50 + 170]);
  await sleep(400);
  await window.picture(file);
} finally {
  await browser.end();
  await server.end();
}
process.exit(0);
