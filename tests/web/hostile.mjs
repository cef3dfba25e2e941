#!/usr/bin/env node
// The whiteboard over objects whose properties have any values, as other programs may give them: each is drawn and listed, nothing throws, and nothing of
// a name is taken for more than a text:
//     node --experimental-websocket hostile.mjs LUGCURRANT [PICTURES]
import assert from 'node:assert';
import { join } from 'node:path';
import { below, childrenOf, objects, takeReport } from '../../examples/whiteboard/src/page/doc.js';
import { becomes, passed, run } from './whiteboard.mjs';

// More children than a call can have arguments.
const MANY = 300000, put = Array.from({ length: MANY }, (_, k) => ({ id: `1:${k + 2}`, kind: 'shape', parent: '1:1', properties: {}, children: [] }));
takeReport({ put: [{ id: '1:1', kind: 'page', parent: '0:0', properties: {}, children: put.map(({ id }) => id) }, ...put], gone: [], turn: 0 });
assert.deepEqual([below('1:1').length, childrenOf('1:1').length, objects.size], [MANY + 1, MANY, MANY + 1]);
passed(`a page of ${MANY} objects is read`);

const VALUES = ['0', '-7', '9223372036854775807n', '-9223372036854775808n', 'true', "''", "'   '", "'x'.repeat(100000)", "'🍇'.repeat(3000)", "'\\u202e\\u0000\\n'", "'<img src=x onerror=\"window.isTaken = true\">'",
  "'constructor'", "'__proto__'", "'toString'", "'unseen'", "'page'", "'$0'", "'url(#objects)'", '{ rgba: 0 }', '{ rgba: 0xffffffff }', '[]', '[[[]]]', '[1]', '[1, 2, 3]', '[0, 0]', '[-50, -60]', "['1', '2']",
  '[9223372036854775807n, -9223372036854775808n]', '[9007199254740991, 9007199254740991]', '[{ rgba: 1 }, {}.x ?? 2]', '[true, false]'];
const NAMES = ['name', 'text', 'at', 'size', 'fill', 'form', '__proto__', 'constructor'], KINDS = ['frame', 'shape', 'text'];

await run(async ({ open, pictures }) => {
  const board = await open(), { window } = board;
  const page = await board.page('Any');
  const count = () => board.js('lugcurrant.objects.size'), drawn = () => board.js("document.querySelectorAll('#objects [data-id]').length - 1");
  let made = 0;
  for (const kind of KINDS) {
    const edits = NAMES.flatMap((name) => VALUES.map((value, k) => `['createLast', '${kind}', '${page}'], ['set', '$', 'at', [${20 + 60 * (k % 12)}, ${20 + 8 * made++ % 560}]], ['set', '$', '${name}', ${value}]`));
    await board.js(`lugcurrant.send(${edits}).then(() => 1)`);
  }
  await becomes(`${made} objects are drawn`, async () => (await count()) === made + 2 && (await drawn()) === made, async () => `${await count()} ${await drawn()} ${window.faults}`, 180);

  // What is drawn and listed.
  const wrong = () => board.js(`[...document.querySelectorAll('#board *, #over *')].flatMap((it) => [...it.attributes].map(({ name, value }) => name + '=' + value)).filter((it) => /NaN|undefined|Infinity|object Object|function|null/.test(it) || it.length > 120)`);
  assert.deepEqual(await wrong(), []);
  passed('with numbers in each place');
  const labels = await board.js("[...document.querySelectorAll('#board .label')].map((it) => it.textContent)");
  assert(labels.every((it) => it.length <= 2001 && !/function|object Object|undefined/.test(it)), labels.find((it) => it.length > 2001));
  assert.equal(await board.js("document.querySelectorAll('#stage img, #sheet img').length + Number(window.isTaken ?? 0)"), 0);
  passed('what is written on them is a text, and has at most 2,000 characters');
  const rows = async () => {
    const read = [];
    for (let top = 0; top < 27 * made; top += 500) {
      await board.js(`document.querySelector('.left').scrollTop = ${top}`);
      await board.drawnAgain();
      read.push(...await board.js("[...document.querySelectorAll('#list li')].map((li) => [li.dataset.id, li.textContent, li.firstChild.className, li.offsetHeight])"));
    }
    return new Map(read.map((it) => [it[0], it]));
  };
  const listed = await rows();
  assert.equal(listed.size, made);
  for (const [id, label, icon, height] of listed.values()) assert(label.trim() && label.length <= 201 && ['frame', 'shape', 'rect', 'ellipse', 'text'].includes(icon) && height === 27, `${id} ${label.slice(0, 50)} ${icon} ${height}`);
  passed('each is listed with a name of at most 200 characters, and the icon of its kind');
  if (pictures) await window.picture(join(pictures, 'hostile.png'));

  // Each is chosen: its panel is filled.
  await board.js("document.querySelector('.left').scrollTop = 0");
  await board.drawnAgain();
  await board.focus('stage');
  for (let k = 0; k < made; k += 1) {
    await window.key('Tab');
    const [chosen, what, x, width] = await board.js("[lugcurrant.chosen().length, document.getElementById('what').textContent, document.getElementById('x').value, document.getElementById('w').value]");
    assert(chosen === 1 && ['Frame', 'Shape', 'Rectangle', 'Ellipse', 'Text'].includes(what) && /^-?\d{1,10}$/.test(x) && /^\d{1,10}$/.test(width), `${chosen} ${what} ${x} ${width}`);
  }
  passed('each is chosen, and its panel has numbers in the fields for them');

  // All at once.
  await window.key('a', { ctrl: true });
  await window.key('ArrowRight');
  await board.drawnAgain();
  for (const button of ['[data-side=left]', '[data-side=middle]', '[data-axis="0"]', '[data-axis="1"]']) { await board.js(`document.querySelector('#align ${button}').click()`); await board.drawnAgain(); }
  assert.deepEqual(await wrong(), []);
  await becomes('all are moved, aligned and spaced', async () => (await board.state()).unsent === 0, async () => JSON.stringify(await board.state()), 180);
  await board.focus('stage');
  await window.key('c', { ctrl: true, commands: ['copy'] });
  assert.equal(await board.said(), 'This is too much text to be copied at once.');
  passed('properties of 100,000 characters are not copied, and that is said');
  await window.key('Delete');
  await becomes('all are deleted', async () => (await count()) === 2, count, 180);
  assert.deepEqual(window.faults, []);
  passed('nothing has thrown');
});
