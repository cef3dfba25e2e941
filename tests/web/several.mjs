#!/usr/bin/env node
// Several objects of the whiteboard at once, in Chromium: chosen with Shift and by a band, moved, copied and pasted, aligned, spaced, put in order, deleted:
//     node --experimental-websocket several.mjs LUGCURRANT [PICTURES]
import assert from 'node:assert';
import { join } from 'node:path';
import { until } from './devtools.mjs';
import { becomes, colour, passed, run } from './whiteboard.mjs';

const same = (a, b) => JSON.stringify(a) === JSON.stringify(b), sameSet = (a, b) => same([...a].sort(), [...b].sort());

await run(async ({ open, pictures }) => {
  const board = await open(), { window } = board;
  const page = await board.page('Plan'), frame = await board.make('frame', page, [330, 40, 300, 260], { name: 'Box' });
  const inFrame = await board.make('shape', frame, [30, 40, 60, 40], { name: 'Inside', form: 'rect', fill: colour('7fb09a') });
  const made = [];
  for (const [k, [x, y, w, h]] of [[40, 60, 80, 40], [90, 140, 120, 60], [60, 240, 40, 80]].entries()) {
    made.push(await board.make('shape', page, [x, y, w, h], { name: `Note ${k}`, form: 'rect', fill: colour('6f9ccf') }));
  }
  await becomes('five objects are drawn', () => board.js("document.querySelectorAll('#objects [data-id]').length === 6"));
  const places = () => Promise.all(made.map((id) => board.at(id)));

  // Choosing.
  await window.clickAt(await board.middleOf(made[0]));
  assert.deepEqual(await board.chosen(), [made[0]]);
  await window.shiftClick(await board.middleOf(made[1]));
  assert.deepEqual(await board.chosen(), [made[0], made[1]]);
  passed('Shift and a click choose a second one');
  await window.shiftClick(await board.middleOf(made[0]));
  assert.deepEqual(await board.chosen(), [made[1]]);
  passed('and leave one out again');
  await window.drag(await board.on(20, 30), await board.on(300, 340));
  assert(sameSet(await board.chosen(), made), String(await board.chosen()));
  passed('a band chooses what it touches');
  assert.equal(await board.js("document.getElementById('what').textContent"), '3 objects');
  await window.drag(await board.on(20, 350), await board.on(700, 20));
  assert(sameSet(await board.chosen(), [...made, frame]), String(await board.chosen()));
  passed('a band chooses a frame that is all in it, and not what it holds');
  await window.drag(await board.on(300, 350), await board.on(440, 60));
  assert(sameSet(await board.chosen(), [inFrame]), String(await board.chosen()));
  passed('of a frame that is in part in it, what it touches there');
  await window.clickAt(await board.on(300, 400));
  assert.deepEqual(await board.chosen(), []);
  passed('a click beside all chooses nothing');

  // Moving.
  await window.drag(await board.on(20, 30), await board.on(300, 340));
  const [x, y] = await board.middleOf(made[0]);
  await window.drag([x, y], [x + 25, y + 10]);
  await becomes('a drag of one moves all that are chosen', async () => same(await places(), [[65, 70], [115, 150], [85, 250]]), places);
  assert(sameSet(await board.chosen(), made));
  await window.press([x + 25, y + 10]);
  await window.mouse('mouseMoved', [x + 60, y + 60]);
  await window.mouse('mouseMoved', [x + 90, y + 90]);
  await window.key('Escape');
  await window.release([x + 90, y + 90]);
  await becomes('Escape in a drag leaves all as it was', async () => same(await places(), [[65, 70], [115, 150], [85, 250]]), places);
  await window.clickAt([x + 25, y + 10]);
  assert.deepEqual(await board.chosen(), [made[0]]);
  passed('a click on one of several chooses it alone');

  // Aligning: to the box around them, which is 65 to 235 and 70 to 330.
  const aligned = async (side, wanted) => {
    await window.click(`#align [data-side=${side}]`);
    await becomes(`aligned: ${side}`, async () => same(await places(), wanted), places);
  };
  await window.drag(await board.on(20, 30), await board.on(300, 340));
  if (pictures) await window.picture(join(pictures, 'several.png'));
  await aligned('left', [[65, 70], [65, 150], [65, 250]]);
  await aligned('right', [[105, 70], [65, 150], [145, 250]]);
  await aligned('centre', [[85, 70], [65, 150], [105, 250]]);
  await aligned('top', [[85, 70], [65, 70], [105, 70]]);
  await aligned('bottom', [[85, 110], [65, 90], [105, 70]]);
  await aligned('middle', [[85, 90], [65, 80], [105, 70]]);
  await window.click('#align [data-side=middle]');
  await becomes('what is aligned already is said to be', async () => (await board.said()) === 'They are aligned already.', () => board.said());
  await window.clickAt(await board.middleOf(inFrame));
  await window.click('#align [data-side=right]');
  await becomes('one object is aligned to its frame', async () => same(await board.at(inFrame), [240, 40]), () => board.at(inFrame));
  await window.clickAt(await board.middleOf(made[0]));
  await window.click('#align [data-side=left]');
  await becomes('one on the page is not, and that is said', async () => (await board.said()).startsWith('Choose two or more objects'), () => board.said());

  // Spaced evenly: from 40 to 320 across, in the order first, third, second; from 60 to 320 down.
  const stood = await places(), spaced = (axis) => window.click(`#align [data-axis="${axis}"]`);
  const put = async (spots) => {
    await board.send(...spots.map((spot, k) => ['set', made[k], 'at', spot]));
    assert(await until(async () => same(await places(), spots)));
  };
  await spaced(0);
  await becomes('of one object it is said that more are needed', async () => (await board.said()) === 'Choose three or more objects to space them evenly.', () => board.said());
  await put([[40, 60], [200, 120], [150, 240]]);
  await window.drag(await board.on(20, 30), await board.on(300, 340));
  await spaced(0);
  await becomes('three are spaced evenly across', async () => same(await places(), [[40, 60], [200, 120], [140, 240]]), places);
  await spaced(1);
  await becomes('and down', async () => same(await places(), [[40, 60], [200, 140], [140, 240]]), places);
  await spaced(1);
  await becomes('what is spaced evenly already is said to be', async () => (await board.said()) === 'They are spaced evenly already.', () => board.said());
  await put([[40, 60], [60, 140], [110, 240]]);
  await spaced(0);
  await becomes('what is wider than its place overlaps by the same', async () => same(await places(), [[40, 60], [70, 140], [140, 240]]), places);
  if (pictures) await window.picture(join(pictures, 'spaced.png'));
  await put(stood);

  // The order.
  const children = async () => (await board.object(page)).children;
  await window.drag(await board.on(20, 30), await board.on(300, 340));
  await window.click('#back');
  await becomes('several go behind what is behind them', async () => same(await children(), [...made, frame]), children);
  await window.click('#front');
  await becomes('and before what is before them', async () => same(await children(), [frame, ...made]), children);

  // Copy and paste, within the window and in another one.
  const count = async () => (await board.objects()).length, before = await count();
  await board.js("document.getElementById('stage').focus()");
  await window.key('c', { ctrl: true, commands: ['copy'] });
  await becomes('Ctrl+C copies', async () => (await board.said()) === 'Copied 3 objects.', () => board.said());
  await window.key('v', { ctrl: true, commands: ['paste'] });
  await becomes('Ctrl+V pastes', async () => (await count()) === before + 3, count);
  const pasted = await board.chosen();
  assert.deepEqual(await Promise.all(pasted.map((id) => board.at(id))), [[105, 110], [85, 100], [125, 90]]);
  assert.deepEqual((await board.object(pasted[1])).properties.name, 'Note 1');
  passed('beside what was copied, with all properties, and chosen');
  await window.key('v', { ctrl: true, commands: ['paste'] });
  await becomes('again, a step further', async () => (await count()) === before + 6 && same(await board.at((await board.chosen())[0]), [125, 130]), count);
  await window.key('x', { ctrl: true, commands: ['cut'] });
  await becomes('Ctrl+X cuts', async () => (await count()) === before + 3, count);
  await window.clickAt(await board.on(345, 55));
  assert.deepEqual(await board.chosen(), [frame]);
  await window.key('d', { ctrl: true });
  await becomes('Ctrl+D duplicates a frame with what is in it', async () => (await count()) === before + 5, count);
  const [twin] = await board.chosen(), { children: inTwin, properties } = await board.object(twin);
  assert.deepEqual([properties.at, properties.name, (await board.object(inTwin[0])).properties.name], [[350, 60], 'Box', 'Inside']);
  passed('as it was');

  const other = await open();
  await other.window.front();
  await becomes('another window shows the same', async () => (await other.text()) === (await board.text()));
  await window.front();
  await board.js("document.getElementById('stage').focus()");
  await window.key('c', { ctrl: true, commands: ['copy'] });
  await becomes('the frame is copied', async () => (await board.said()) === 'Copied 1 object.', () => board.said());
  await other.window.front();
  await other.js("document.getElementById('stage').focus()");
  await other.window.key('v', { ctrl: true, commands: ['paste'] });
  await becomes('and is pasted there', async () => (await count()) === before + 7, count);
  await other.send(['set', page, 'name', '$']);
  await becomes('a text that looks like a reference stays a text', async () => (await board.object(page)).properties.name === '$');

  // A text from elsewhere, and what can't be pasted.
  const paste = (text) => other.js(`(() => { const data = new DataTransfer(); data.setData('text/plain', ${JSON.stringify(text)}); dispatchEvent(new ClipboardEvent('paste', { clipboardData: data })); })()`);
  await paste('  Buy\n currants ');
  await becomes('a pasted text is a text', async () => (await board.objects()).some(({ kind, properties: { text } }) => kind === 'text' && text === 'Buy currants'));
  const now = await count();
  await paste('{"whiteboard":1');
  assert.equal(await other.said(), 'This copy can’t be read: it is damaged.');
  assert.equal(await count(), now);
  passed('a copy that is damaged changes nothing, and that is said (paste.mjs has more)');

  // Many are set once no key follows, or before what a person does next.
  await window.front();
  const crowd = await board.page('Crowd'), MANY = 60;
  await becomes('another page is there', () => board.js(`Boolean(document.querySelector('#pages [data-id="${crowd}"]'))`));
  await window.click(`#pages [data-id="${crowd}"]`);
  await board.js(`lugcurrant.send(...Array.from({ length: ${MANY} }, (_, k) => [['createLast', 'shape', '${crowd}'], ['set', '$', 'at', [20 + 30 * (k % 10), 20 + 30 * Math.floor(k / 10)]], ['set', '$', 'size', [20, 20]]]).flat())`);
  await becomes(`with ${MANY} objects`, async () => (await board.object(crowd)).children.length === MANY && (await board.state()).waiting === 0);
  await board.focus('stage');
  await window.key('a', { ctrl: true });
  const spots = async () => (await board.objects()).filter(({ parent }) => parent === crowd).map(({ properties: { at } }) => at), first = await spots();
  const edits = async () => { const { acknowledged, waiting } = await board.state(); return Number(acknowledged) + Number(waiting); }, had = await edits();
  const arrows = (count) => `for (let k = 0; k < ${count}; k += 1) document.getElementById('stage').dispatchEvent(new KeyboardEvent('keydown', { key: 'ArrowRight', bubbles: true }))`;
  await board.js(`${arrows(10)}; 1`);
  await becomes('ten presses of an arrow key move them by ten', async () => same(await spots(), first.map(([a, b]) => [a + 10, b])), async () => JSON.stringify(await spots()));
  assert.equal(await edits() - had, MANY);
  passed('with an edit for each');
  const box = await board.js(`(() => { ${arrows(5)}; const data = new DataTransfer(); document.getElementById('stage').dispatchEvent(new ClipboardEvent('copy', { clipboardData: data, bubbles: true })); return JSON.parse(data.getData('text/plain')).objects[0].box; })()`);
  assert.deepEqual(box, [first[0][0] + 15, first[0][1], 20, 20]);
  await becomes('what is done next finds them where they are seen', async () => same(await spots(), first.map(([a, b]) => [a + 15, b])) && await board.js("document.querySelectorAll('#objects .shape').length >= 60 && !document.getElementById('carried').hasChildNodes()"));
  await board.js(`${arrows(1)}; 1`);
  await window.key('Delete');
  await becomes('they are deleted, also while they are moved', async () => (await board.object(crowd)).children.length === 0);
  await board.send(['delete', crowd]);
  await becomes('and their page', async () => (await board.object(crowd)) === null && (await board.state()).waiting === 0);

  // Deleting.
  await window.front();
  await window.key('a', { ctrl: true });
  assert(sameSet(await board.chosen(), await children()));
  passed('Ctrl+A chooses everything');
  await window.key('Delete');
  await becomes('Delete deletes it', async () => (await count()) === 2, count);
  await becomes('there too', async () => (await other.text()) === (await board.text()));
  assert.deepEqual([window.faults, other.window.faults], [[], []]);
});
