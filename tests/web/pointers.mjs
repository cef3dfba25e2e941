#!/usr/bin/env node
// The pointers of others on the whiteboard, in Chromium: with names and colours, where they are, on which page, until they go:
//     node --experimental-websocket pointers.mjs LUGCURRANT [PICTURES]
// Two windows, and clients of the package for JavaScript that show what the page does and what it doesn't.
import assert from 'node:assert';
import { join } from 'node:path';
import { Client, Link } from '../../packages/js/src/node.js';
import { sleep, until } from './devtools.mjs';
import { becomes, colour, passed, run } from './whiteboard.mjs';

const same = (a, b) => JSON.stringify(a) === JSON.stringify(b), near = ([a, b], [c, d]) => Math.hypot(a - c, b - d) < 1.5;

// The pointers in a window: [client, name, [x, y] on the stage, whether it is seen].
const pointers = (board) => board.js(`[...document.querySelectorAll('#others > .pointer')].map((it) => {
  const box = it.getBoundingClientRect(), stage = document.getElementById('stage').getBoundingClientRect();
  return [Number(it.dataset.client), it.textContent, [box.x - stage.x, box.y - stage.y], !it.hidden];
}).sort(([a], [b]) => a - b)`);
const seen = async (board) => JSON.stringify(await pointers(board));
const colours = (board) => board.js("[...document.querySelectorAll('.pointer span')].map((it) => getComputedStyle(it).backgroundColor)");

await run(async ({ server, open, pictures }) => {
  const left = await open(), right = await open(), { id } = await left.state(), mine = (await right.state()).id;
  const page = await left.page('Plan');
  for (const [k, name] of ['Bigger fruit', 'One leaf only', 'Bar code?'].entries()) await left.make('shape', page, [60 + 190 * k, 70 + 40 * k, 150, 80], { name, form: 'rect', fill: colour(['e08e6d', '7fb09a', '6f9ccf'][k]) });
  await becomes('both windows have the page', () => right.js(`lugcurrant.objects.has('${page}') && document.querySelectorAll('#objects .shape').length === 3`));
  const isAt = async (client, name, spot) => (await pointers(right)).some(([at, words, there, isShown]) => at === client && words === name && near(there, spot) && isShown);
  const moveTo = async (board, x, y) => { await board.window.front(); await board.window.mouse('mouseMoved', await board.on(x, y), false); };

  await moveTo(left, 200, 120);
  await becomes('a pointer on the board is on the other window\'s board', () => isAt(id, `Guest ${id}`, [200, 120]), () => seen(right));
  assert.deepEqual(await pointers(left), [], 'the own one is not drawn');
  for (let k = 0; k <= 60; k += 1) await left.window.mouse('mouseMoved', await left.on(200 + 3 * k, 120 + 2 * k), false);
  await becomes('it follows, and is where the last move was', () => isAt(id, `Guest ${id}`, [380, 240]), () => seen(right));

  // Names.
  await left.write('myname', 'Ann');
  await moveTo(left, 300, 200);
  await becomes('it has the name that was typed', () => isAt(id, 'Ann', [300, 200]), () => seen(right));
  await left.window.press(await left.middleOf((await left.objects()).find(({ properties }) => properties.name === 'Bigger fruit').id));
  await left.window.mouse('mouseMoved', await left.on(240, 160));
  await left.window.mouse('mouseMoved', await left.on(250, 330));
  await becomes('it is there in a drag too', () => isAt(id, 'Ann', [250, 330]), () => seen(right));
  await left.window.release(await left.on(250, 330));

  // The sight of the one who looks, and of the one who points.
  await right.window.front();
  await right.js("document.getElementById('zoomin').click()");
  const place = () => right.js('[lugcurrant.sight.x + 250 * lugcurrant.sight.scale, lugcurrant.sight.y + 330 * lugcurrant.sight.scale]');
  await becomes('it is at its place of a board that is enlarged', async () => await right.js('lugcurrant.sight.scale > 1.1') && isAt(id, 'Ann', await place()), () => seen(right));
  await right.js("document.getElementById('stage').focus()");
  await right.window.key('0');
  await left.window.front();
  await left.window.call('Input.dispatchMouseEvent', { type: 'mouseWheel', x: (await left.on(250, 330))[0], y: (await left.on(250, 330))[1], deltaX: 0, deltaY: 50 });
  await becomes('a board that moves below the pointer moves the pointer', async () => {
    const [x, y] = await left.js('[(250 - lugcurrant.sight.x) / lugcurrant.sight.scale, (330 - lugcurrant.sight.y) / lugcurrant.sight.scale]');
    const [a, b] = await right.js(`[lugcurrant.sight.x + ${x} * lugcurrant.sight.scale, lugcurrant.sight.y + ${y} * lugcurrant.sight.scale]`);
    return y > 350 && isAt(id, 'Ann', [a, b]);
  }, () => seen(right));

  // Other clients, by the package.
  const links = [];
  const another = async () => { const link = new Link(await Client.load(), server.url); await link.ready; links.push(link); return link; };
  const ben = await another();
  ben.presence.set({ at: [420, 120], page, name: '  Ben  ' });
  await becomes('a program shows itself as a window does', () => isAt(ben.client.id, 'Ben', [420, 120]), () => seen(right));
  assert.deepEqual(ben.presence.others.get(id).name, 'Ann');
  assert(ben.presence.others.get(id).at.every(Number.isFinite));
  passed('and sees what a window shows');
  assert.equal(new Set(await colours(right)).size, 2);
  passed('each has a colour of its own');
  if (pictures) {
    await moveTo(left, 560, 300);
    await sleep(300);
    await right.window.front();
    await right.window.picture(join(pictures, 'pointers.png'));
    await right.js("document.getElementById('theme').click()");
    await sleep(200);
    await right.window.picture(join(pictures, 'pointers-dark.png'));
    await right.js("document.getElementById('theme').click()");
  }

  // What isn't a pointer.
  const odd = await another(), isThere = async (client) => (await pointers(right)).some(([at, , , isShown]) => at === client && isShown);
  for (const value of [1, true, 'at', [], [1, 2], {}, { at: 1, page }, { at: [1], page }, { at: ['1', '2'], page }, { at: [1, 2, 3], page }, { at: [1e300, 0], page }, { at: [null, 1], page },
    { at: [1, 2] }, { at: [1, 2], page: 1 }, { at: { length: 2, 0: 1, 1: 2 }, page }, { at: [1, 2], page: { toString: 'x' } }]) {
    odd.presence.set({ at: [10, 10], page, name: 'odd' });
    assert(await until(() => isThere(odd.client.id)), JSON.stringify(value));
    odd.presence.set(value);
    assert(await until(async () => !await isThere(odd.client.id)), JSON.stringify(value));
  }
  passed('a value that is no place is no pointer');
  for (const [name, words] of [['<img src=x onerror="window.isTaken = true">', '<img src=x onerror="window.isT'], [7, `Guest ${odd.client.id}`], ['   ', `Guest ${odd.client.id}`], ['🍇'.repeat(100), '🍇'.repeat(30)]]) {
    odd.presence.set({ at: [30, 30], page, name });
    assert(await until(() => isAt(odd.client.id, words, [30, 30])), await seen(right));
  }
  assert.equal(await right.js("document.querySelectorAll('#stage img').length + Number(window.isTaken ?? 0)"), 0);
  passed('a name is a text of at most 30 characters');

  // Pages.
  odd.presence.set({ at: [30, 30], page: '9:9', name: 'elsewhere' });
  await becomes('a pointer on another page is not seen', async () => (await pointers(right)).some(([client, words, , isShown]) => client === odd.client.id && words === 'elsewhere' && !isShown), () => seen(right));

  // They go.
  odd.close();
  await becomes('who ends its connection goes', async () => !(await pointers(right)).some(([client]) => client === odd.client.id), () => seen(right));
  await left.window.front();
  await left.window.mouse('mouseMoved', [400, 10], false);
  await becomes('a pointer that leaves the board goes', async () => !(await pointers(right)).some(([client]) => client === id), () => seen(right));
  await moveTo(left, 100, 100);
  await becomes('and comes again', () => isThere(id), () => seen(right));
  await left.window.click('.switch');
  await becomes('a window that is offline shows nothing, and sees nobody', async () => !await isThere(id) && same(await pointers(left), []), () => seen(right));
  await left.window.click('.switch');
  await moveTo(left, 120, 100);
  await becomes('online again it does both', async () => await isThere(id) && (await pointers(left)).some(([, name]) => name === 'Ben'), () => seen(left));
  await server.kill();
  await becomes('without a server nobody is there', async () => same(await pointers(right), []), () => seen(right));
  await server.run(server.port);
  await becomes('with one again all that are there, without a move', async () => await isThere(ben.client.id) && isThere(id), () => seen(right));

  // The name is kept.
  await left.window.reload();
  await left.isOnline();
  assert.equal(await left.value('myname'), 'Ann');
  passed('the name is there when the page is loaded again');
  await left.window.close();
  await becomes('a window that is closed goes', async () => !(await pointers(right)).some(([client]) => client === id), () => seen(right));
  assert.equal((await right.state()).id, mine);
  assert.deepEqual([left.window.faults, right.window.faults], [[], []]);
  for (const link of links) link.close();
});
