#!/usr/bin/env node
// What the whiteboard says, in Chromium: of what is typed wrong, of edits that are refused, and of the connection; and its dark mode:
//     node --experimental-websocket words.mjs LUGCURRANT [PICTURES]
import assert from 'node:assert';
import { join } from 'node:path';
import { becomes, colour, passed, run } from './whiteboard.mjs';

const same = (a, b) => JSON.stringify(a) === JSON.stringify(b);

await run(async ({ open, server, pictures }) => {
  const board = await open(), { window } = board;
  const picture = (name) => pictures && window.picture(join(pictures, `${name}.png`));
  const page = await board.page('Words'), frame = await board.make('frame', page, [40, 40, 300, 220], { name: 'Box' });
  const note = await board.make('shape', page, [400, 60, 120, 80], { name: 'Note', form: 'rect', fill: colour('e9c46a') });
  const properties = async () => (await board.object(note)).properties;
  await becomes('a note is drawn', () => board.js(`Boolean(document.querySelector('#objects [data-id="${note}"]'))`));
  await window.clickAt(await board.middleOf(note));

  // Fields: a sentence below each says what is wrong with it, and nothing is changed.
  const fault = (id) => board.js(`(({ hidden, textContent }) => hidden ? null : textContent)(document.getElementById('${id}-fault'))`);
  const before = JSON.stringify(await properties());
  for (const [id, typed, sentence] of [
    ['x', '', 'X is empty: type a whole number.'], ['x', '12a', '“12a” is not a number: type a whole number, such as 120.'], ['x', '1e5', '“1e5” is not a number: type a whole number, such as 120.'],
    ['y', '12.5', 'Y must be a whole number: 12 or 13.'], ['y', '-99999999999999999999', 'Y must be −1,000,000,000 or more.'], ['w', '0', 'The width must be 1 or more.'],
    ['h', '-4', 'The height must be 1 or more.'], ['h', '1000000001', 'The height must be 1,000,000,000 or less.'], ['name', 'n'.repeat(201), 'A name can have 200 characters; this one has 201.'],
    ['colour', '', 'The colour is empty: type one such as #336699.'], ['colour', 'bluish', '“bluish” is not a colour: type one such as #336699 or Green.'],
    ['colour', '#12345', '“#12345” is not a colour: type one such as #336699 or Green.'], ['colour', 'url(javascript:alert(1))', '“url(javascript:alert…” is not a colour: type one such as #336699 or Green.'],
  ]) {
    await board.write(id, typed);
    assert.deepEqual([await fault(id), await board.js(`document.getElementById('${id}').getAttribute('aria-invalid')`)], [sentence, 'true']);
  }
  await picture('fields');
  assert.equal(JSON.stringify(await properties()), before);
  passed('a field says what is wrong with what is typed, and nothing is changed');
  assert.equal(await board.value('w'), '0');
  await board.write('w', '0140');
  assert.equal(await fault('w'), null);
  await becomes('what is right then is taken, and the sentence goes', async () => same((await properties()).size, [140, 80]), async () => JSON.stringify(await properties()));
  await board.focus('x');
  await window.key('Escape');
  assert.deepEqual([await fault('x'), await board.value('x')], [null, '400']);
  passed('Escape shows again what the object has');
  await window.clickAt(await board.on(60, 60));
  assert.equal(await fault('y'), null);
  passed('so does another choice');
  await window.clickAt(await board.middleOf(note));
  for (const [typed, value, hex] of [['#336699', 0x336699ff, '#336699'], ['ABC', 0xaabbccff, '#aabbcc'], ['light Grey', 0xd9d3cbff, '#d9d3cb']]) {
    await board.write('colour', typed);
    await becomes(`a colour is typed as ${typed}`, async () => (await properties()).fill.rgba === value && (await board.value('colour')) === hex && (await board.value('fill')) === hex, async () => JSON.stringify(await properties()));
  }
  await board.focus('stage');
  await window.key('a', { ctrl: true });
  assert.deepEqual([await board.value('colour'), await board.js("document.getElementById('what').textContent")], ['', '2 objects']);
  await board.write('colour', 'nothing');
  assert.match(await fault('colour'), /is not a colour/);
  await board.write('colour', 'Yellow');
  await becomes('of several objects the colour of each', async () => (await board.objects()).every(({ kind, properties: { fill } }) => !['frame', 'shape'].includes(kind) || fill?.rgba === 0xe9c46aff));
  await window.clickAt(await board.middleOf(note));
  await board.write('y', '−30');
  await becomes('a minus as it is printed is one', async () => same((await properties()).at, [400, -30]));
  await board.write('name', '');
  await becomes('an empty name is none', async () => (await properties()).name === undefined);
  await board.write('name', '<b>&"Note');
  await becomes('a name may have any characters', async () => (await properties()).name === '<b>&"Note' && board.js(`document.querySelector('#list [data-id="${note}"]').textContent === '<b>&"Note'`));

  // Edits that this client refuses.
  const refused = async (sentence, ...edits) => {
    await board.send(...edits);
    await becomes(sentence, async () => (await board.said()) === sentence, () => board.said());
  };
  await refused('Could not move “Box”: a frame can’t be put into itself.', ['move', frame, frame, null]);
  await refused('Could not move “Box”: only pages and frames can hold objects.', ['moveLast', frame, note]);
  await refused('Could not add this object: only pages and frames can hold objects.', ['createLast', 'shape', note]);
  await refused('Could not delete this object: the document itself can’t be moved or deleted.', ['delete', '0:0']);
  await refused('Could not rename this object: it was deleted.', ['set', '77:1', 'name', 'x']);
  await refused('Could not resize “Box”: it has a value that can’t be saved.', ['set', frame, 'size', [1.5, 2]]);

  // One that the server refuses, as another window was first.
  const other = await open();
  await becomes('another window shows the same', async () => (await other.text()) === (await board.text()));
  await window.front();
  await window.click('.switch');
  await becomes('offline is said', () => board.js("document.querySelector('#state b').textContent === 'Offline' && document.getElementById('words').textContent === 'Your changes are kept in this browser until you go online.'"));
  await board.send(['moveLast', note, frame]);
  await becomes('what waits is counted', () => board.js("document.getElementById('waiting').textContent === '1 change to send'"));
  await picture('offline');
  await other.send(['delete', frame]);
  await becomes('the other window deletes the frame', async () => (await other.object(frame)) === null && (await other.state()).unsent === 0);
  await window.click('.switch');
  const sentence = 'Taken back: could not move “<b>&"Note”, because someone else deleted the frame or page it belongs in.';
  await becomes('what the server refuses is taken back, and why is said', async () => (await board.said()) === sentence && (await board.object(note)).parent === page, () => board.said());
  await becomes('nothing waits then', () => board.js("document.getElementById('waiting').textContent === 'All changes saved'"));

  // The connection.
  await server.kill();
  await becomes('a server that is away is said', () => board.js("document.querySelector('#state b').textContent === 'No connection' && document.getElementById('words').textContent.includes('until it is back')"), () => board.js("document.querySelector('footer').innerText"));
  await server.run(server.port);
  await becomes('and when it is back', () => board.js("document.querySelector('#state b').textContent === 'Online'"));

  // Dark.
  const ground = () => board.js("getComputedStyle(document.querySelector('header')).backgroundColor"), light = await ground();
  const contrast = () => board.js(`(() => {
    const parts = (text) => text.match(/[\\d.]+/g).slice(0, 3).map((it) => { const part = it / 255; return part <= 0.04045 ? part / 12.92 : ((part + 0.055) / 1.055) ** 2.4; });
    const light = (text) => { const [r, g, b] = parts(text); return 0.2126 * r + 0.7152 * g + 0.0722 * b; };
    const behind = (it) => { for (let at = it; at; at = at.parentElement) { const { backgroundColor } = getComputedStyle(at); if (!/rgba\\(.*, 0\\)|transparent/.test(backgroundColor)) return backgroundColor; } return 'rgb(255, 255, 255)'; };
    return [...document.querySelectorAll('button, label, h2, li, footer span, input, select')].filter((it) => it.getClientRects().length && it.textContent.trim() && !it.closest('#swatches')).map((it) => {
      const [a, b] = [light(getComputedStyle(it).color), light(behind(it))].sort((x, y) => y - x);
      return [Math.round(100 * (a + 0.05) / (b + 0.05)) / 100, it.textContent.trim().slice(0, 20)];
    }).sort(([a], [b]) => a - b)[0]; })()`);
  const [least] = await contrast();
  assert(least >= 4.5, `a contrast of ${await contrast()}`);
  await window.prefer('dark');
  await becomes('the page is dark if the system is', async () => (await ground()) !== light, ground);
  const dark = await ground(), [leastDark] = await contrast();
  assert(leastDark >= 4.5, `a contrast of ${await contrast()}`);
  passed(`text has a contrast of ${least} or more, dark ${leastDark}`);
  await window.clickAt(await board.middleOf(note));
  await picture('dark');
  await window.click('#theme');
  await becomes('the switch makes it light', async () => (await ground()) === light);
  await window.prefer('light');
  await window.click('#theme');
  await becomes('or dark', async () => (await ground()) === dark && (await board.js("document.getElementById('theme').getAttribute('aria-pressed')")) === 'true');
  await becomes('in the other window too', () => other.js(`getComputedStyle(document.querySelector('header')).backgroundColor === '${dark}'`));
  await window.reload();
  await board.isOnline();
  assert.equal(await ground(), dark);
  passed('it stays when the page is loaded again');
  await window.click('#theme');
  await window.prefer('dark');
  await becomes('back to what the system has, it follows that again', async () => (await ground()) === dark, ground);
  assert.deepEqual([window.faults, other.window.faults], [[], []]);
});
