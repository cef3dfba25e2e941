#!/usr/bin/env node
// The whiteboard on a phone and on a tablet, in Chromium with touch: drawn, dragged and chosen with a finger, moved and enlarged with two, and the sheet:
//     node --experimental-websocket touch.mjs LUGCURRANT [PICTURES]
import assert from 'node:assert';
import { join } from 'node:path';
import { sleep, until } from './devtools.mjs';
import { becomes, colour, passed, run } from './whiteboard.mjs';

const same = (a, b) => JSON.stringify(a) === JSON.stringify(b), near = (a, b, by = 2) => a.every((it, k) => Math.abs(it - b[k]) <= by);

await run(async ({ open, pictures }) => {
  const phone = await open(390, 780, { touch: true }), { window } = phone;
  const picture = (name) => pictures && window.picture(join(pictures, `${name}.png`));
  const box = (selector) => phone.js(`(() => { const { x, y, width, height } = document.querySelector('${selector}').getBoundingClientRect(); return [x, y, width, height]; })()`);
  const tap = async (selector) => {
    await phone.js(`window.isClicked = false; addEventListener('click', () => { window.isClicked = true; }, { capture: true, once: true }); document.querySelector('${selector}').scrollIntoView({ block: 'nearest' })`);
    await window.tap(await window.middle(selector));
    assert(await until(() => phone.js('window.isClicked')), `a tap clicks ${selector}`);
    await phone.drawnAgain();
  };

  // All of it fits, and what is tapped is large enough for a finger.
  const [, top, width, height] = await box('#stage');
  assert(width === 390 && height > 500, `the board has ${width} by ${height}`);
  assert.equal(await phone.js('document.documentElement.scrollWidth'), 390);
  passed(`the board has the width of a phone, and ${height} pixels of its height`);
  const small = await phone.js(`[...document.querySelectorAll('button, .switch')].filter((it) => it.getClientRects().length && !it.closest('#swatches, #grip') && it.id !== 'grip')
    .filter((it) => it.getBoundingClientRect().height < 28 || it.getBoundingClientRect().right > 390).map((it) => it.id || it.title || it.className)`);
  assert.deepEqual(small, []);
  passed('each button is on the screen');

  // One finger draws, chooses and drags.
  const page = await phone.page('Phone');
  await tap('[data-tool=rect]');
  await window.swipe([await phone.on(60, 80)], [await phone.on(160, 150)]);
  await becomes('a finger draws', async () => (await phone.objects()).some(({ properties: { size } }) => same(size, [100, 70])), async () => JSON.stringify(await phone.objects()));
  const [drawn] = await phone.chosen();
  assert(drawn, 'what was drawn is chosen');
  const note = await phone.make('shape', page, [200, 250, 120, 90], { name: 'Note', form: 'rect', fill: colour('e9c46a') });
  await becomes('another one is there', () => phone.js(`Boolean(document.querySelector('[data-id="${note}"]'))`));
  await window.tap(await phone.middleOf(note));
  assert.deepEqual(await phone.chosen(), [note]);
  passed('a tap chooses');
  const [x, y] = await phone.middleOf(note);
  await window.swipe([[x, y]], [[x - 60, y + 40]]);
  await becomes('a finger drags', async () => same(await phone.at(note), [140, 290]), () => phone.at(note));
  const corner = await phone.on(260, 380);
  await window.swipe([[corner[0] + 8, corner[1] + 8]], [[corner[0] + 38, corner[1] + 28]]);
  await becomes('and resizes, beside the handle too', async () => same((await phone.object(note)).properties.size, [150, 110]), async () => JSON.stringify(await phone.object(note)));

  // Several, without a Shift key.
  await tap('#several');
  await window.tap(await phone.middleOf(drawn));
  assert.deepEqual(await phone.chosen(), [note, drawn]);
  await window.tap(await phone.middleOf(drawn));
  assert.deepEqual(await phone.chosen(), [note]);
  await tap('#several');
  passed('a button in place of Shift adds with a tap, and takes away');

  // Two fingers move the board, and enlarge it around where they are.
  const seen = () => phone.js("[lugcurrant.sight.x, lugcurrant.sight.y, lugcurrant.sight.scale]");
  await window.swipe([[150, 300], [250, 300]], [[180, 360], [280, 360]]);
  assert(near(await seen(), [30, 60, 1]), String(await seen()));
  passed('two fingers move the board');
  assert(same(await phone.at(note), [140, 290]) && same(await phone.chosen(), [note]));
  passed('and nothing on it, though the first finger was on an object');
  await window.swipe([[150, 400], [250, 400]], [[100, 400], [300, 400]]);
  const [left, , scale] = await seen(), middle = (200 - 30) * 2;
  assert(Math.abs(scale - 2) < 0.02 && Math.abs(left + middle - 200) < 4, String(await seen()));
  passed('a pinch enlarges it, and what was between the fingers stays there');
  await window.touch('touchStart', [120, 300], [220, 300]);
  await window.touch('touchMove', [120, 320], [220, 320]);
  await window.touch('touchEnd', [120, 320]);
  const before = await seen();
  await window.touch('touchMove', [160, 420]);
  await window.touch('touchEnd');
  assert(same(await seen(), before) && same(await phone.at(note), [140, 290]));
  passed('a finger that stays does nothing more');
  await tap('#zoom');
  assert((await seen())[2] <= 1);
  passed('a tap shows everything again');

  // A drag that a second finger joins is taken back.
  const from = await phone.middleOf(note);
  await window.touch('touchStart', from);
  for (let k = 1; k <= 4; k += 1) await window.touch('touchMove', [from[0] + 10 * k, from[1]]);
  await window.touch('touchStart', [from[0] + 40, from[1]], [100, 200]);
  await window.touch('touchMove', [from[0] + 40, from[1] + 5], [100, 205]);
  await window.touch('touchEnd');
  await becomes('a drag that a second finger joins is taken back', async () => same(await phone.at(note), [140, 290]), () => phone.at(note));
  await window.swipe([await phone.on(20, 560)], [await phone.on(380, 100)]);
  assert.deepEqual((await phone.chosen()).sort(), [drawn, note].sort());
  passed('one finger beside all spans a band');

  // The sheet.
  const parts = () => phone.js("document.getElementById('parts').offsetHeight"), stage = async () => (await box('#stage'))[3];
  assert.equal(await parts(), 0);
  await picture('phone');
  await window.tap(await phone.middleOf(note));
  await tap('#showdetails');
  assert(await parts() > 250 && await stage() < height && (await phone.js("document.getElementById('showdetails').getAttribute('aria-expanded')")) === 'true');
  passed('a button opens the sheet of what is chosen');
  const isSeen = async () => { const [a, b] = await phone.middleOf(note), [, , , h] = await box('#stage'); return a > 0 && a < 390 && b > top && b < top + h; };
  await becomes('what is chosen stays in sight above it', isSeen, async () => `${await phone.middleOf(note)} ${await box('#stage')}`);
  await tap('#name');
  assert.equal(await phone.js("getComputedStyle(document.getElementById('name')).fontSize"), '16px');
  await phone.write('name', 'Ripe on Friday');
  await becomes('a name is written there', async () => (await phone.object(note)).properties.name === 'Ripe on Friday');
  await picture('phone-details');
  await tap('#showlists');
  await becomes('the other button goes to the lists', () => phone.js("document.getElementById('lists').offsetHeight > 100 && document.querySelectorAll('#list li').length === 2"));
  await tap(`#list [data-id="${drawn}"]`);
  assert.deepEqual(await phone.chosen(), [drawn]);
  passed('a tap in the list chooses');
  await picture('phone-lists');
  const grip = await window.middle('#grip'), tall = await parts();
  await window.swipe([grip], [[grip[0], grip[1] - 180]]);
  await phone.drawnAgain();
  assert(await parts() > tall + 120, `${await parts()} after ${tall}`);
  passed('the grip drags it higher');
  const high = await window.middle('#grip');
  await window.swipe([high], [[high[0], 760]]);
  await phone.drawnAgain();
  assert.equal(await parts(), 0);
  passed('and down until it is closed');

  // The browser takes no tap while what it believes to be a fling lasts.
  for (let k = 0; k < 4; k += 1) {
    await tap('#showlists');
    const from = await window.middle('#grip');
    await window.swipe([from], [[from[0], 760]]);
    await becomes('a fast swipe closes the sheet', async () => await parts() === 0);
    await tap('#showdetails');
    assert(await parts() > 250, `${await parts()}`);
    passed('and the next tap is taken');
    await tap('#showdetails');
  }
  const spot = await phone.middleOf(note), stood = await phone.at(note);
  await window.swipe([spot], [[spot[0], spot[1] - 120]], 4);
  await becomes('an object is dragged fast', async () => !same(await phone.at(note), stood));
  await tap('[data-tool=ellipse]');
  await tap('[data-tool=select]');
  passed('and a tool is tapped then');

  // A tablet: upright with the sheet, lying with the panels.
  const tablet = await open(820, 1180, { touch: true });
  assert.equal(await tablet.js("document.getElementById('stage').clientWidth"), 820);
  await becomes('a tablet shows the same', async () => (await tablet.text()) === (await phone.text()) && tablet.js(`Boolean(document.querySelector('#objects [data-id="${note}"]'))`));
  await tablet.window.tap(await tablet.middleOf(note));
  assert.deepEqual(await tablet.chosen(), [note]);
  await tablet.js("document.getElementById('showdetails').click()");
  await sleep(300);
  if (pictures) await tablet.window.picture(join(pictures, 'tablet.png'));
  await tablet.window.call('Emulation.setDeviceMetricsOverride', { width: 1180, height: 820, deviceScaleFactor: 1, mobile: true });
  await becomes('a tablet has the sheet upright, and panels at both sides when it lies', () => tablet.js("document.getElementById('stage').clientWidth === 1180 - 416 && document.getElementById('details').offsetWidth === 208 && document.getElementById('showlists').offsetHeight === 0"));
  if (pictures) await tablet.window.picture(join(pictures, 'tablet-lying.png'));
  assert.deepEqual([window.faults, tablet.window.faults], [[], []]);
});
