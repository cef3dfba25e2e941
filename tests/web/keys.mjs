#!/usr/bin/env node
// The whiteboard by keys alone, in Chromium: what Tab reaches, what has a name for a screen reader, and all that a pointer does:
//     node --experimental-websocket keys.mjs LUGCURRANT [PICTURES]
import assert from 'node:assert';
import { join } from 'node:path';
import { becomes, passed, run } from './whiteboard.mjs';

const same = (a, b) => JSON.stringify(a) === JSON.stringify(b);

// Runs in the page: what can be reached or is shown, and has no name.
function nameless() {
  const isShown = (it) => it.getClientRects().length > 0;
  const nameOf = (it) => it.getAttribute('aria-label') || it.textContent.trim() || it.labels?.[0]?.textContent.trim() || document.getElementById(it.getAttribute('aria-labelledby'))?.textContent;
  return [...document.querySelectorAll('button, input, select, a, [tabindex], [role]')].filter((it) => isShown(it) && !['status', 'alert'].includes(it.getAttribute('role')) && !nameOf(it)).map((it) => it.outerHTML.slice(0, 80));
}

// Runs in the page: whether the element with the focus looks other than without it.
function isFocusSeen() {
  const it = document.activeElement, style = getComputedStyle(it.id === 'offline' ? it.nextElementSibling : it), after = getComputedStyle(it, '::after');
  return it.matches(':focus-visible') && ((style.outlineStyle !== 'none' && parseFloat(style.outlineWidth) >= 2) || after.borderTopWidth === '2px');
}

await run(async ({ open, pictures }) => {
  const board = await open(), { window } = board;
  const press = async (key, options) => { await window.key(key, options); await board.drawnAgain(); };
  const newest = async () => (await board.objects()).at(-1), properties = async (id) => (await board.object(id))?.properties ?? {};

  // A page, and objects drawn by keys.
  await board.page('Keys');
  await becomes('a page is there', async () => (await board.objects()).length === 2);
  await board.focus('stage');
  for (const [key, kind, form] of [['r', 'shape', 'rect'], ['o', 'shape', 'ellipse'], ['t', 'text'], ['f', 'frame']]) {
    const before = (await board.objects()).length;
    await press(key);
    await press('Enter');
    await becomes(`${key} and Enter draw`, async () => (await board.objects()).length === before + 1);
    const made = await newest();
    assert.deepEqual([made.kind, made.properties.form], [kind, form]);
    assert.deepEqual(await board.chosen(), [made.id]);
  }
  const [, , rect, ellipse, text, frame] = (await board.objects()).map(({ id }) => id);

  // Tab goes through all of the page, and shows where it is.
  const where = () => board.js("(({ id, dataset: { tool, side, ink, id: row } }) => id === 'stage' ? [id, ...lugcurrant.chosen()].join(' ') : id || tool || side || ink || row || '')(document.activeElement)");
  await board.js("document.querySelector('[data-tool=select]').focus()");
  await press('Tab', { shift: true });
  await press('Tab');
  const reached = [];
  for (let at; (at = await where()) && !reached.includes(at); await press('Tab')) {
    assert(await board.js(`(${isFocusSeen})()`), `the focus is not seen on ${at}`);
    reached.push(at);
  }
  const onBoard = [frame, text, ellipse, rect].map((id) => `stage ${id}`);
  const wanted = ['select', 'zoom', 'theme', 'help', 'offline', ...onBoard, 'newpage', rect, 'name', 'x', 'y', 'w', 'h', 'colour', 'fill', 'into', 'left', 'back', 'front', 'copy', 'duplicate', 'paste', 'delete'];
  const order = reached.filter((it) => wanted.includes(it));
  assert.deepEqual(order, wanted, reached.join());
  passed(`Tab reaches ${reached.length} places in order, and each shows the focus`);
  assert.deepEqual(await board.js(`(${nameless})()`), []);
  passed('each has a name');
  const { nodes } = await window.call('Accessibility.getFullAXTree');
  const roles = nodes.filter(({ ignored, name }) => !ignored && name?.value).map(({ role, name }) => `${role.value} ${name.value}`);
  for (const it of ['toolbar Tools', 'toolbar Colour', 'toolbar Align and distribute', 'button Blue', 'listbox Objects', 'option Ellipse', 'application Board', 'textbox Name', 'textbox Width', 'combobox Inside']) {
    assert(roles.includes(it), `${it} is not among ${roles.join(', ')}`);
  }
  passed('a screen reader hears of tools, colours, lists and fields');

  // On the board Tab goes from object to object, and Escape is a way out.
  await board.focus('newpage');
  await press('Tab', { shift: true });
  assert.equal(await where(), `stage ${rect}`);
  await press('Tab', { shift: true });
  assert.equal(await where(), `stage ${ellipse}`);
  assert.equal(await board.js("getComputedStyle(document.querySelector('#marks .chosen')).strokeWidth"), '3px');
  if (pictures) await window.picture(join(pictures, 'focus.png'));
  await press('Escape');
  assert.equal(await where(), 'stage');
  await press('Tab');
  assert.equal(await where(), 'newpage');
  passed('Shift and Tab go back on the board; after Escape, Tab leaves it');
  await press('Tab', { shift: true });
  await press('Tab');
  assert.deepEqual([await where(), await board.js("document.getElementById('spoken').textContent")], [`stage ${frame}`, 'Frame, 1 of 4']);
  await press('Tab', { shift: true });
  assert.equal(await where(), 'offline');
  passed('with nothing chosen it begins with the first, and says which that is; before that it leaves');
  await board.focus('stage');
  await press('Escape');
  await board.focus('zoom');
  await board.focus('stage');
  await press('Tab', { shift: true });
  assert.equal(await where(), `stage ${rect}`);
  passed('backward with the last');
  const far = await board.make('text', (await board.object(rect)).parent, [4000, 3000, 130, 22], { text: 'Far' });
  await becomes('one more is far away', () => board.js(`Boolean(document.querySelector('#objects [data-id="${far}"]'))`));
  await press('Escape');
  await board.focus('zoom');
  await board.focus('stage');
  await press('Tab');
  const [farX, farY] = await board.middleOf(far), stage = await board.js("(({ left, right, top, bottom }) => [left, right, top, bottom])(document.getElementById('stage').getBoundingClientRect())");
  assert(farX > stage[0] && farX < stage[1] && farY > stage[2] && farY < stage[3], `${await where()} at ${farX}, ${farY}`);
  passed('what it reaches is brought into sight');
  await press('Enter');
  assert.equal(await board.focused(), 'text');
  await window.call('Input.insertText', { text: 'Near' });
  await press('Enter');
  await becomes('Enter goes to the text of a text, and takes it', async () => (await properties(far)).text === 'Near');
  await press('Escape');
  assert.equal(await where(), `stage ${far}`);
  await press('Delete');
  await becomes('Delete deletes it', async () => (await board.object(far)) === null);
  await press('1');

  // A toolbar is one stop, and its arrow keys go on.
  await board.js("document.querySelector('[data-tool=select]').focus()");
  await press('ArrowRight');
  assert.equal(await board.js('document.activeElement.dataset.tool'), 'frame');
  await press('End');
  await press('Enter');
  assert.equal(await board.js("document.querySelector('[data-tool=text]').getAttribute('aria-pressed')"), 'true');
  await press('Escape');
  assert.equal(await board.js("document.querySelector('[data-tool=select]').getAttribute('aria-pressed')"), 'true');
  passed('the arrow keys go through a toolbar, Enter picks, Escape leaves the tool');

  // The list: arrows choose, with Shift more, the space bar one more or less.
  await board.js(`document.querySelector('#list [data-id="${frame}"]').focus()`);
  await press('ArrowDown');
  assert.deepEqual([await board.chosen(), await board.focused()], [[text], text]);
  await press('ArrowDown', { shift: true });
  assert.deepEqual(await board.chosen(), [text, ellipse]);
  await press('End');
  assert.deepEqual([await board.chosen(), await board.focused()], [[rect], rect]);
  await press(' ');
  assert.deepEqual(await board.chosen(), []);
  await press(' ');
  await press('Home', { shift: true });
  assert.deepEqual(await board.chosen(), [rect, frame]);
  passed('the list: arrows, Home, End, with Shift, and the space bar');

  // Moving, and the board.
  await press('End');
  await board.focus('stage');
  const [x, y] = (await properties(rect)).at;
  await press('ArrowRight');
  await press('ArrowDown', { shift: true });
  await becomes('arrows move by 1, with Shift by 10', async () => same((await properties(rect)).at, [x + 1, y + 10]), async () => JSON.stringify(await properties(rect)));
  await press('a', { ctrl: true });
  assert.equal((await board.chosen()).length, 4);
  const starts = await Promise.all([rect, ellipse, text, frame].map((id) => board.at(id)));
  await press('ArrowLeft', { shift: true });
  await becomes('all that are chosen', async () => same(await Promise.all([rect, ellipse, text, frame].map((id) => board.at(id))), starts.map(([a, b]) => [a - 10, b])));
  await press('Escape');
  assert.deepEqual(await board.chosen(), []);
  const seen = () => board.js("[lugcurrant.sight.x, lugcurrant.sight.y, lugcurrant.sight.scale]");
  const [left, top, scale] = await seen();
  await press('ArrowRight');
  assert.deepEqual(await seen(), [left - 40, top, scale]);
  passed('Escape chooses nothing; then the arrows move the board');
  await press('+');
  assert((await seen())[2] > 1.2);
  await press('0');
  assert.equal((await seen())[2], 1);
  await press('1');
  const inSight = await board.js("(() => { const stage = document.getElementById('stage').getBoundingClientRect(); return [...document.querySelectorAll('#objects .body')].every((it) => { const { left, right, top, bottom } = it.getBoundingClientRect(); return left >= stage.left && right <= stage.right && top >= stage.top && bottom <= stage.bottom; }); })()");
  assert(inSight);
  passed('+ enlarges, 0 goes back, 1 shows everything');

  // The panel.
  await board.js(`document.querySelector('#list [data-id="${rect}"]').focus()`);
  await press('Enter');
  assert.equal(await board.focused(), 'name');
  await window.call('Input.insertText', { text: 'By keys' });
  await press('Enter');
  await becomes('Enter goes to the name, and takes it', async () => (await properties(rect)).name === 'By keys');
  await window.call('Input.insertText', { text: ' and more' });
  await press('Escape');
  assert.deepEqual([await board.focused(), await board.value('name'), (await properties(rect)).name], ['stage', 'By keys', 'By keys']);
  passed('Escape in a field takes back what was typed, and goes to the board');
  await board.focus('w');
  const { size: [w, h] } = await properties(rect);
  await press('ArrowUp', { shift: true });
  await becomes('arrows in a field step', async () => same((await properties(rect)).size, [w + 10, h]), async () => JSON.stringify(await properties(rect)));
  await board.focus('stage');
  await press('[');
  await becomes('[ and ] change the order', async () => /at the back already/.test(await board.said()), () => board.said());
  await press(']');
  await becomes('to the front too', async () => (await board.object((await board.object(rect)).parent)).children[1] === rect);

  // The keys are listed.
  await press('?');
  assert(await board.js("document.getElementById('keys').open && document.getElementById('keys').getBoundingClientRect().height > 200"));
  if (pictures) await window.picture(join(pictures, 'keys.png'));
  await press('r');
  await press('Escape');
  await becomes('? lists the keys, and Escape closes that', () => board.js("!document.getElementById('keys').open"));
  assert.equal(await board.js("document.querySelector('[data-tool=select]').getAttribute('aria-pressed')"), 'true');
  await board.focus('stage');
  await press('Delete');
  await becomes('Delete deletes', async () => (await board.object(rect)) === null);
  assert.deepEqual(window.faults, []);
});
