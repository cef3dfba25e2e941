#!/usr/bin/env node
// The whiteboard of examples/whiteboard with many objects, narrow, by keys, and while it is closed:
//     node --experimental-websocket board.mjs LUGCURRANT [OBJECTS [PICTURES]] [--browser chromium|firefox]
// It prints frames a second, and the processor's time of the page's thread for each: what doesn't take all of the sixtieth of a second leaves time for 60
// frames, on a machine that has nothing else to do. Ends with 1 if something isn't as it should be.
import assert from 'node:assert';
import { mkdtempSync } from 'node:fs';
import { tmpdir } from 'node:os';
import { execFileSync } from 'node:child_process';
import { join } from 'node:path';
import { fileURLToPath } from 'node:url';
import { parseArgs } from 'node:util';
import { sleep, until } from './devtools.mjs';
import { startBrowser } from './firefox.mjs';
import { Server, endAfter } from './server.mjs';

endAfter(900);
const { values: words, positionals: [program, count = '5000', pictures = null] } = parseArgs({ options: { browser: { type: 'string' } }, allowPositionals: true });
const page = fileURLToPath(new URL('../../examples/whiteboard', import.meta.url));
execFileSync(join(page, 'build'), { stdio: 'ignore' });
const rows = [[[0, 0], 'document', null, []], [[1, 1], 'page', [[0, 0], 'O'], [['name', 'Many']]]];
const digit = (n) => String.fromCharCode(33 + n);
for (let k = 0; k < Number(count); k += 1) {
  const position = digit(Math.floor(k / 8100) % 90) + digit(Math.floor(k / 90) % 90) + digit(k % 90);
  rows.push([[1, 2 + k], 'shape', [[1, 1], position], [['at', ['list', 20 + (k % 100) * 9, 20 + Math.floor(k / 100) * 11]], ['fill', ['rgba', 0x6f9ccfff]], ['form', 'rect'], ['name', `Note ${k}`], ['size', ['list', 8, 9]]]]);
}
const server = new Server(program, mkdtempSync(join(tmpdir(), 'lugcurrant-')), page, []);
execFileSync(program, ['import', join(server.folder, 'canvas')], { input: `[\n${rows.map((row) => JSON.stringify(row)).join(',\n')}\n]\n`, maxBuffer: 1 << 28 });
await server.run(0);
const url = `http://127.0.0.1:${server.port}/`, browser = await startBrowser(words.browser);
const at = async (width, height) => { const w = await browser.open(url, width, height); assert(await until(() => w.js(`window.lugcurrant?.objects.size > ${count}`), 60), 'it loads'); await sleep(1200); return w; };
const begun = performance.now(), wide = await at(1200, 700);
console.log('loaded', Math.round(performance.now() - begun - 1200), 'ms');
const other = await at(1200, 700);
await wide.front();

// The seconds of the processor that the page's thread has had, in Chromium.
const isMeasured = await wide.call('Performance.enable', { timeDomain: 'threadTicks' }).then(() => true, () => false);
const threadTime = async () => isMeasured ? (await wide.call('Performance.getMetrics')).metrics.find(({ name }) => name === 'ThreadTime').value : 0;

async function frames(what, act) {
  const before = await threadTime();
  await wide.js('window.fr=[];window.stop={isOver:false};(function f(t,mine){if(mine.isOver)return;fr.push(t);requestAnimationFrame((t)=>f(t,mine))})(performance.now(),window.stop);1');
  const t = performance.now();
  await act();
  const took = performance.now() - t, used = 1000 * (await threadTime() - before);
  await wide.js('window.stop.isOver=true;1');
  const fr = await wide.js('fr'), gaps = fr.slice(1).map((x, k) => x - fr[k]).sort((a, b) => a - b);
  console.log(what, ((1000 * (fr.length - 1)) / took).toFixed(1), 'frames a second, longest gap', Math.round(gaps.at(-1)), 'ms,', (used / fr.length).toFixed(1), 'ms of the thread each');
  return used / fr.length;
}
await frames('idle', () => sleep(2000));
const box = await wide.js("(()=>{const e=[...document.querySelectorAll('#objects .shape')].reverse().find(e=>{const r=e.getBoundingClientRect();return r.x>260&&r.x<850&&r.y>100&&r.y<600&&document.elementFromPoint(r.x+r.width/2,r.y+r.height/2)?.closest('.shape')===e}); const r=e.getBoundingClientRect(); return [r.x+r.width/2,r.y+r.height/2]})()");
await other.js("window.n2=0; new MutationObserver(()=>window.n2++).observe(document.getElementById('stage'),{subtree:true,attributes:true,attributeFilter:['x']});1");
const each = await frames('drag', async () => {
  await wide.mouse('mousePressed', box);
  const t = performance.now(), pending = [];
  for (let k = 1; k < 180; k += 1) { pending.push(wide.mouse('mouseMoved', [box[0] + (k % 120), box[1] + (k % 60)])); await sleep(Math.max(0, t + (k * 1000) / 60 - performance.now())); }
  await Promise.all(pending);
  await wide.mouse('mouseReleased', [box[0] + 59, box[1] + 59], false);
});
assert(each < 1000 / 60, `a frame takes ${each} ms`);
await sleep(1000);
await frames('the board is moved', async () => { for (let k = 0; k < 60 && isMeasured; k += 1) await wide.call('Input.dispatchMouseEvent', { type: 'mouseWheel', x: 600, y: 300, deltaX: k < 30 ? 3 : -3, deltaY: k < 30 ? 5 : -5 }); });
console.log('the other window moved it', await other.js('window.n2'), 'times of 179');
const t = performance.now();
await wide.js("document.querySelectorAll('#list li')[10].click()");
console.log('a click in the list', Math.round(performance.now() - t), 'ms');

// Fields.
const chosen = await wide.js("document.querySelector('#list li[aria-selected=true]').dataset.id"), spot = () => wide.js(`JSON.stringify(window.lugcurrant.objects.get('${chosen}').properties.at)`);
const was = await spot();
for (const [wrong, why] of [['', 'X is empty: type a whole number.'], ['-99999999999999999999', 'X must be −1,000,000,000 or more.'], ['1e300', '“1e300” is not a number: type a whole number, such as 120.'], ['12.5', 'X must be a whole number: 12 or 13.']]) {
  await wide.js(`(()=>{const e=document.getElementById('x'); e.focus(); e.value='${wrong}'; e.dispatchEvent(new Event('change')); e.blur(); return 1})()`);
  await sleep(150);
  assert.equal(await spot(), was, `X ${wrong} moves nothing`);
  assert.equal(await wide.js("document.getElementById('x-fault').textContent"), why);
}
await wide.js("(()=>{const e=document.getElementById('x'); e.focus(); e.value='77'; e.dispatchEvent(new Event('change')); e.blur(); return 1})()");
assert(await until(async () => (await spot()).startsWith('[77,')));

// By keys: Tab goes to the chosen row, arrows go on from it, and the focus stays on a row while the list is scrolled under it.
await wide.js("document.getElementById('newpage').focus();1");
const focused = () => wide.js("document.activeElement.closest?.('li')?.dataset.id ?? document.activeElement.id ?? ''");
const drawnAgain = () => wide.js('new Promise((done) => requestAnimationFrame(() => requestAnimationFrame(() => setTimeout(() => done(1)))))');
const seen = [];
for (let k = 0; k < 6; k += 1) { await wide.key('Tab'); await drawnAgain(); seen.push(await focused()); if (seen.at(-1) === chosen) break; }
assert(seen.includes(chosen), `Tab reaches ${seen} and not ${chosen}`);
await wide.key('ArrowDown');
await drawnAgain();
const next = await focused();
assert.notEqual(next, chosen);
assert.equal(next, await wide.js("document.querySelector('#list li[aria-selected=true]').dataset.id"));
for (const pixels of [135, -270, 40000, -40000]) {
  await wide.js(`document.querySelector('.left').scrollBy(0, ${pixels});1`);
  await drawnAgain();
  assert.equal(await focused(), next, `the focus stays when the list is scrolled by ${pixels} pixels`);
}

// The chosen object is deleted: its row is removed, nothing is chosen, and Tab still reaches one row.
await wide.key('Delete');
assert(await until(() => wide.js(`!window.lugcurrant.objects.has('${next}')`)), 'the chosen object is deleted');
await drawnAgain();
assert.equal(await wide.js("document.querySelectorAll('#list li[aria-selected=true]').length"), 0);
assert.equal(await wide.js("document.querySelectorAll('#list li[tabindex=\"0\"]').length"), 1, 'Tab reaches one row');
assert.equal(await wide.js("document.getElementById('what').textContent"), 'Nothing chosen');

// Edits that wait: the browser asks before it closes.
await wide.js("document.getElementById('offline').click();1");
await until(() => wide.js("window.lugcurrant.state().state === 'offline'"));
await wide.js(`window.lugcurrant.send(['set', '${chosen}', 'name', 'unsent']);1`);
assert(await until(() => wide.js('window.lugcurrant.state().unsent === 1')), 'one edit is unsent');
assert.equal(await wide.js("(()=>{const e=new Event('beforeunload',{cancelable:true}); window.dispatchEvent(e); return e.defaultPrevented})()"), true);
await wide.js("document.getElementById('offline').click();1");
assert(await until(() => wide.js('window.lugcurrant.state().unsent === 0')));
assert.equal(await wide.js("(()=>{const e=new Event('beforeunload',{cancelable:true}); window.dispatchEvent(e); return e.defaultPrevented})()"), false);
if (pictures) await wide.picture(join(pictures, 'wide.png'));

// A phone.
const phone = await at(390, 780);
const board = await phone.js("(()=>{const r=document.getElementById('stage').getBoundingClientRect(); return [r.width,r.height]})()");
assert(board[0] === 390 && board[1] > 500, `the board has ${board}`);
if (pictures) await phone.picture(join(pictures, 'phone.png'));
await phone.js("document.querySelector('[data-tool=ellipse]').click();1");
const before = await phone.js('window.lugcurrant.objects.size');
await phone.mouse('mousePressed', [150, 620]); await phone.mouse('mouseMoved', [250, 690]); await phone.mouse('mouseReleased', [250, 690], false);
assert(await until(() => phone.js(`window.lugcurrant.objects.size === ${before + 1}`)), 'it can be drawn on a phone');
await sleep(400);
if (pictures) await phone.picture(join(pictures, 'phone-chosen.png'));
await phone.js("document.getElementById('showlists').click();1");
await sleep(500);
if (pictures) await phone.picture(join(pictures, 'phone-lists.png'));
assert.deepEqual([wide.faults, other.faults, phone.faults], [[], [], []]);
console.log('all as it should be');
await browser.end();
await server.end();
process.exit(0);
