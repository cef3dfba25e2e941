#!/usr/bin/env node
// What the whiteboard takes from the clipboard, in Chromium: a copy of any properties, in another window too; and hostile or too large ones, of which it
// takes nothing and says why:
//     node --experimental-websocket paste.mjs LUGCURRANT [PICTURES]
import assert from 'node:assert';
import { join } from 'node:path';
import { becomes, passed, run } from './whiteboard.mjs';

const MOST = 5000;
const DAMAGED = 'This copy can’t be read: it is damaged.', MANY = 'More than 5,000 objects can’t be pasted at once.', LONG = 'This is too much text to be pasted at once.';
const copyText = (...objects) => `{"whiteboard":1,"objects":[${objects.join()}]}`;
const object = ({ kind = 'shape', properties = '{}', children = '[]', box = '[0,0,10,10]' } = {}) => `{"kind":${JSON.stringify(kind)},"properties":${properties},"children":${children},"box":${box}}`;
const withName = (value) => copyText(object({ properties: `{"name":${value}}` }));
const nested = (depth) => depth ? object({ kind: 'frame', children: `[${nested(depth - 1)}]` }) : object();

const REFUSED = [
  ['it is cut', '{"whiteboard":1,"objects":[', DAMAGED], ['it has no objects', '{"whiteboard":1}', DAMAGED], ['none is in it', copyText(), DAMAGED],
  ['an object is none', copyText('null'), DAMAGED], ['an object is a list', copyText('[]'), DAMAGED], ['it has a page', copyText(object({ kind: 'page' })), DAMAGED],
  ['a kind is unknown', copyText(object({ kind: 'constructor' })), DAMAGED], ['a shape has children', copyText(object({ children: `[${object()}]` })), DAMAGED],
  ['children are none', copyText(object({ kind: 'frame', children: '7' })), DAMAGED], ['the properties are none', copyText(object({ properties: 'null' })), DAMAGED],
  ['the properties are a list', copyText(object({ properties: '[1]' })), DAMAGED], ['a property has a wrong name', copyText(object({ properties: '{"Name":1}' })), DAMAGED],
  ['a value is null', withName('null'), DAMAGED], ['a value is no whole number', withName('1.5'), DAMAGED], ['a number is too large', withName('1e300'), DAMAGED],
  ['a large number has more than 64 bits', withName('{"big":"9223372036854775808"}'), DAMAGED], ['a large number is none', withName('{"big":"1e9"}'), DAMAGED],
  ['a large number has a million digits', withName(`{"big":"${'9'.repeat(1e6)}"}`), LONG],
  ['a colour is below 0', withName('{"rgba":-1}'), DAMAGED], ['a colour has more than 32 bits', withName('{"rgba":4294967296}'), DAMAGED], ['a text has half a character', withName('"\\ud800"'), DAMAGED],
  ['lists are 17 deep', withName(`${'['.repeat(17)}${']'.repeat(17)}`), DAMAGED], ['lists are 30,000 deep', withName(`${'['.repeat(3e4)}${']'.repeat(3e4)}`), DAMAGED],
  ['a box has three numbers', copyText(object({ box: '[0,0,1]' })), DAMAGED], ['a box is of texts', copyText(object({ box: '["0","0","1","1"]' })), DAMAGED],
  ['a box is too far away', copyText(object({ box: '[1e13,0,1,1]' })), DAMAGED], ['frames are 100 deep', copyText(nested(100)), DAMAGED],
  ['there are too many objects', copyText(...Array(MOST + 1).fill(object())), MANY], ['there are too many in a frame', copyText(object({ kind: 'frame', children: `[${Array(MOST).fill(object())}]` })), MANY],
  ['an object has 65 properties', copyText(object({ properties: `{${Array.from({ length: 65 }, (_, k) => `"p${k}":1`)}}` })), LONG],
  ['a property is too long', withName(JSON.stringify('x'.repeat(65537))), LONG], ['a list is too long', withName(`[${Array(40000).fill(1)}]`), LONG],
  ['it is longer than 4 MiB', withName(JSON.stringify('x'.repeat(1 << 22))), LONG],
  ['a plain text is too long', 'x'.repeat(2001), 'A text can have 2,000 characters; this one has 2,001.'], ['a plain text is longer than 4 MiB', 'x'.repeat((1 << 22) + 1), LONG],
  ['there is no text', ' \n ', 'There is nothing to paste: copy an object or a text first.'],
];

await run(async ({ open, pictures }) => {
  const board = await open(), other = await open(), { window } = board;
  const page = await board.page('Here'), count = (it = board) => it.js('lugcurrant.objects.size');
  // Large numbers can't be asked for by value: so children and parents alone are.
  const childrenOf = (it, id) => it.js(`lugcurrant.objects.get('${id}')?.children ?? []`), parentOf = (id) => board.js(`lugcurrant.objects.get('${id}').parent`);
  const copy = async (it, key = 'c') => { await it.window.front(); await it.focus('stage'); await it.window.key(key, { ctrl: true, commands: [{ c: 'copy', x: 'cut', v: 'paste' }[key]] }); };
  const paste = (it) => copy(it, 'v');
  // Pastes a text as if it came from another program.
  const pasteText = async (text) => {
    await board.js("document.getElementById('toast').textContent = ''");
    await board.js(`(() => { const data = new DataTransfer(); data.setData('text/plain', ${JSON.stringify(text)}); dispatchEvent(new ClipboardEvent('paste', { clipboardData: data })); })()`);
  };

  // A frame with all kinds of properties, pasted in another window.
  const made = await board.js(`lugcurrant.send(['createLast', 'frame', '${page}'], ['set', '$', 'name', '$0'], ['set', '$', 'at', [40, 40]], ['set', '$', 'size', [200, 100]], ['set', '$', 'big', -9223372036854775808n],
    ['set', '$', 'list', [1, [true, { rgba: 255 }], 'x']], ['set', '$', 'fill', { rgba: 0x7fb09aff }], ['createLast', 'text', '$0'], ['set', '$1', 'text', 'Ünder 🍇'], ['set', '$1', 'at', [10, 10]])`);
  await becomes('another window shows the same', async () => (await other.text()) === (await board.text()) && (await count(other)) === 4);
  const frame = await parentOf(made);
  await window.clickAt(await board.on(50, 130));
  assert.deepEqual(await board.chosen(), [frame]);
  await copy(board);
  await becomes('a frame is copied', async () => (await board.said()) === 'Copied 1 object.', () => board.said());
  const there = await other.page('There');
  await becomes('the other window has another page', () => other.js(`Boolean(document.querySelector('#pages [data-id="${there}"]'))`));
  await other.window.front();
  await other.window.click(`#pages [data-id="${there}"]`);
  await paste(other);
  await becomes('it is pasted there', async () => (await childrenOf(other, there)).length === 1);
  const shown = (id) => other.js(`JSON.stringify((({ kind, properties: { at, ...others } }) => [kind, Object.entries(others).sort()])(lugcurrant.objects.get('${id}')), (name, value) => typeof value === 'bigint' ? String(value) : value)`);
  const [pasted] = await childrenOf(other, there), [inner] = await childrenOf(other, pasted);
  assert.equal(await shown(pasted), await shown(frame));
  assert.equal(await shown(inner), await shown(made));
  passed('with all its properties, and what is in it');

  // What is refused changes nothing.
  await becomes('both windows have it', async () => (await count()) === 7 && (await board.text()) === (await other.text()));
  const before = await count(), { unsent } = await board.state();
  for (const [why, text, sentence] of REFUSED) {
    await pasteText(text);
    assert.equal(await board.said(), sentence, why);
    passed(`nothing is pasted if ${why}`);
  }
  if (pictures) await window.picture(join(pictures, 'refused.png'));
  assert.deepEqual([await count(), (await board.state()).unsent], [before, unsent]);
  await pasteText(withName('{"rgba":255}').replace('{"name"', '{"__proto__":7,"constructor":[],"form":"constructor","text":[[]],"at":"left","size":[-5,9223],"fill":[],"name"'));
  await becomes('an object with strange properties is pasted, and drawn', async () => (await count()) === before + 1 && board.js("Boolean(document.querySelector('#objects .shape'))"));

  // As many as can be copied, and one more.
  await window.front();
  await window.key('a', { ctrl: true });
  await board.focus('stage');
  await window.key('Delete');
  await becomes('the page is empty', async () => (await childrenOf(board, page)).length === 0);
  await board.js(`lugcurrant.send(...Array(${MOST + 1}).fill(['createLast', 'shape', '${page}']))`);
  await becomes(`${MOST + 1} objects are there`, async () => (await childrenOf(board, page)).length === MOST + 1, count, 300);
  await window.key('a', { ctrl: true });
  await copy(board);
  await becomes('one too many is not copied', async () => (await board.said()) === 'More than 5,000 objects can’t be copied at once.', () => board.said());
  await copy(board, 'x');
  await window.key('d', { ctrl: true });
  await becomes('nor duplicated, nor cut', async () => (await board.said()) === 'More than 5,000 objects can’t be duplicated at once.' && (await childrenOf(board, page)).length === MOST + 1, () => board.said());
  const [, ...others] = (await childrenOf(board, page));
  await board.send(['delete', (await childrenOf(board, page))[0]]);
  await becomes('one is deleted', async () => (await childrenOf(board, page)).length === MOST && (await board.chosen()).length === MOST);
  await copy(board);
  await becomes('5,000 are copied', async () => (await board.said()) === 'Copied 5,000 objects.', () => board.said());
  await paste(board);
  await becomes('and pasted', async () => (await childrenOf(board, page)).length === 2 * MOST && (await board.chosen()).length === MOST, count, 300);
  assert.deepEqual((await childrenOf(board, page)).slice(0, MOST), others);
  assert.deepEqual([window.faults, other.window.faults], [[], []]);
});
