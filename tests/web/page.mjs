#!/usr/bin/env node
// The whiteboard page in a headless Chromium: every gesture, two windows side by side, one offline and back, the server killed and started anew:
//     node --experimental-websocket page.mjs LUGCURRANT [PICTURES] [--break]
// With LUGCURRANT_LIBRARY (packages/c/build) set, a Python program edits beside the two windows.
// PICTURES is a folder for screenshots. With --break the windows' clients hear other places than the server sent: then it has to fail.
import { execFileSync, spawn } from 'node:child_process';
import { cpSync, mkdirSync, mkdtempSync, readFileSync, rmSync, writeFileSync } from 'node:fs';
import { tmpdir } from 'node:os';
import { join } from 'node:path';
import { fileURLToPath } from 'node:url';
import { Browser, sleep, until } from './devtools.mjs';
import { Server, endAfter } from './server.mjs';

const isBroken = process.argv.includes('--break');
const [program, pictures] = process.argv.slice(2).filter((word) => !word.startsWith('--'));
endAfter(900);

const source = fileURLToPath(new URL('../../examples/whiteboard/', import.meta.url));
const folder = mkdtempSync(join(tmpdir(), 'lugcurrant-page-'));
execFileSync(join(source, 'build'), { stdio: 'ignore' });
cpSync(source, folder, { recursive: true });
if (isBroken) {
  const file = join(folder, 'lugcurrant.js'), text = readFileSync(file, 'utf8');
  const broken = text.replace('  receive(message) {', `  receive(message) {
    message = textOfBytes(message);
    if (!message.includes(',[' + this.id + ',')) message = message.replace(/"at",\\["list",\\d+/, '"at",["list",1');`);
  if (broken === text) throw new Error('there is nothing to break');
  writeFileSync(file, broken);
}
if (pictures) mkdirSync(pictures, { recursive: true });

const server = await Server.start(program, { page: folder });
const browser = await Browser.start();
const results = [];
const check = (name, isRight, seen = '') => { results.push(Boolean(isRight)); console.log(`${isRight ? 'ok  ' : 'FAIL'} ${name}${isRight ? '' : ` ${seen}`}`); };
const picture = async (window, name) => pictures && window.picture(join(pictures, `${name}.png`));

// A Python program that edits as well, until it is told to end at this version or above.
class Partner {
  constructor() {
    const path = fileURLToPath(new URL('../../packages/python/src', import.meta.url));
    this.child = spawn('/usr/bin/python3', [fileURLToPath(new URL('partner.py', import.meta.url)), String(server.port)], { env: { ...process.env, PYTHONPATH: path }, stdio: ['pipe', 'pipe', 'inherit'] });
    process.on('exit', () => this.child.kill('SIGKILL'));
    this.said = new Promise((resolve) => { let text = ''; this.child.stdout.on('data', (data) => { text += data; }); this.child.stdout.on('end', () => resolve(text)); });
  }

  tell(words) { this.child.stdin.write(`${words}\n`); }
  async end(version) { this.tell(`end ${version}`); return JSON.parse(await this.said); }
}

// A point of the board, in the window.
const on = (x, y) => [208 + x, 46 + y];

class Page {
  static async open() {
    const page = new Page(await browser.open(`http://127.0.0.1:${server.port}/`));
    if (!await until(() => page.window.js("window.lugcurrant?.state().state === 'online' && lugcurrant.state().id > 0"), 60)) throw new Error(`the page does not join: ${await page.window.js('document.body.innerText')} ${page.window.faults}`);
    return page;
  }

  // Loads the page anew.
  async reload() {
    await this.window.reload();
    if (!await until(() => this.window.js("window.lugcurrant?.state().state === 'online' && lugcurrant.state().id > 0"), 60)) throw new Error('the page does not come back');
    await until(() => this.window.js('lugcurrant.objects.size > 1'));
  }

  constructor(window) { this.window = window; }
  state() { return this.window.js('lugcurrant.state()'); }
  text() { return this.window.js('lugcurrant.text()'); }
  objects() { return this.window.js('[...lugcurrant.objects.values()]'); }
  said() { return this.window.js("document.getElementById('toast').textContent"); }
  async named(name) { return (await this.objects()).find(({ properties }) => properties.name === name || properties.text === name); }
  async newest() { return (await this.objects()).sort((a, b) => Number(b.id.split(':')[1]) - Number(a.id.split(':')[1]))[0]; }
  // Draws with a tool; what was made, when the page shows it.
  async draw(tool, from, to) {
    const before = (await this.objects()).length;
    await this.window.click(`[data-tool=${tool}]`);
    if (to) await this.window.drag(from, to); else await this.window.clickAt(from);
    await until(async () => (await this.objects()).length > before, 10);
    await sleep(150);
    const [known] = await this.window.js('lugcurrant.chosen()');
    return (await this.objects()).find(({ id }) => id === known);
  }
  // The object once it fulfils a condition, or as it is after a while.
  async when(id, condition) {
    let object;
    await until(async () => { object = (await this.objects()).find((one) => one.id === id); return condition(object); }, 10);
    return object;
  }
}

const same = (a, b) => JSON.stringify(a) === JSON.stringify(b);
let partner = null;
// Whether the pages come to show the same. The Python program makes no edit meanwhile.
async function agree(pages) {
  partner?.tell('rest');
  const isSame = await until(() => showSame(pages), 20);
  partner?.tell('go');
  return isSame;
}
async function showSame(pages) {
  const states = await Promise.all(pages.map((page) => page.state())), texts = await Promise.all(pages.map((page) => page.text()));
  return states.every(({ waiting, version }) => waiting === 0 && version === states[0].version) && texts.every((text) => text === texts[0]);
}

try {
  const left = await Page.open(), { window } = left;
  check('the page joins', (await left.state()).id > 0);

  const frame = await left.draw('frame', on(60, 70), on(380, 330));
  check('a frame is drawn, and a page for it', frame?.kind === 'frame' && same(frame.properties.size, [320, 260]) && (await left.objects()).some(({ kind }) => kind === 'page'), JSON.stringify(frame));
  const box = await left.draw('rect', on(430, 90), on(550, 170));
  check('a rectangle is drawn', box?.kind === 'shape' && same(box.properties.at, [430, 90]) && same(box.properties.size, [120, 80]), JSON.stringify(box));
  const round = await left.draw('ellipse', on(100, 120), on(200, 200));
  check('an ellipse in a frame stands in it', round?.parent === frame.id && round.properties.form === 'ellipse' && same(round.properties.at, [40, 50]), JSON.stringify(round));
  const words = await left.draw('text', on(440, 220));
  check('a text is written', words?.kind === 'text' && words.properties.text === 'Text', JSON.stringify(words));

  const right = await Page.open();
  check('a second window shows the same', await agree([left, right]));
  check('it has another id, and the pages tell how many are here', (await right.state()).id !== (await left.state()).id && await until(async () => (await left.state()).here === 2));

  partner = process.env.LUGCURRANT_LIBRARY && !isBroken ? new Partner() : null;
  if (partner) check('a Python program makes a frame beside them', await until(async () => (await left.objects()).some(({ properties }) => /^Python/.test(properties.name)), 30));

  await window.call('Page.bringToFront');
  const before = Number((await left.state()).acknowledged);
  await window.js('(() => { let frames = 0, count = () => { frames += 1; window.frames_seen = frames; requestAnimationFrame(count); }; requestAnimationFrame(count); })()');
  await window.drag(on(480, 120), on(600, 280), 40);
  const dragged = await left.when(box.id, ({ properties }) => same(properties.at, [550, 250]));
  check('a drag moves it', same(dragged.properties.at, [550, 250]), JSON.stringify(dragged));
  await until(async () => (await left.state()).waiting === 0);
  const sent = Number((await left.state()).acknowledged) - before, seen = await window.js('window.frames_seen');
  check(`a drag of 40 moves is at most an edit a frame`, sent >= 1 && sent <= seen + 1, `${sent} edits in ${seen} frames`);
  check('the other window shows it there', await until(async () => same((await right.objects()).find(({ id }) => id === box.id).properties.at, [550, 250])));

  await window.drag(on(670, 330), on(700, 350));
  check('its corner makes it larger', same((await left.when(box.id, ({ properties }) => same(properties.size, [150, 100]))).properties.size, [150, 100]), JSON.stringify(await left.newest()));
  await window.write('#name', 'Currant jelly');
  check('it gets a name', (await left.when(box.id, ({ properties }) => properties.name)).properties.name === 'Currant jelly');
  await window.click('#swatches button:nth-child(3)');
  check('a swatch gives it a colour', (await left.when(box.id, ({ properties }) => properties.fill?.rgba === 0xb4405fff)).properties.fill.rgba === 0xb4405fff);
  await window.js("(() => { const field = document.getElementById('fill'); field.value = '#336699'; field.dispatchEvent(new Event('input')); })()");
  check('so does the field for colours', (await left.when(box.id, ({ properties }) => properties.fill.rgba === 0x336699ff)).properties.fill.rgba === 0x336699ff);
  await window.write('#x', '500');
  check('a number gives it a place', same((await left.when(box.id, ({ properties }) => properties.at[0] === 500)).properties.at, [500, 250]));
  await window.js('document.getElementById("stage").focus()');
  await window.key('ArrowRight');
  check('an arrow key moves it by one', same((await left.when(box.id, ({ properties }) => properties.at[0] === 501)).properties.at, [501, 250]));

  const children = async (page, id) => (await page.objects()).find((object) => object.id === id).children;
  const order = await children(left, box.parent);
  await window.click('#back');
  await until(async () => !same(await children(left, box.parent), order));
  const back = await children(left, box.parent);
  check('a button brings it one to the back', back.indexOf(box.id) === order.indexOf(box.id) - 1, `${order} ${back}`);
  await window.js('document.getElementById("stage").focus()');
  await window.key(']');
  check('and a key to the front', await until(async () => same(await children(left, box.parent), order)));

  await window.drag(on(560, 300), on(300, 280));
  const inside = await left.when(box.id, ({ parent }) => parent === frame.id);
  check('dropped on a frame it stands in it, at the same place of the board', inside.parent === frame.id && same(inside.properties.at, [181, 160]), JSON.stringify(inside));
  check('the other window shows it there too', await until(async () => (await right.objects()).find(({ id }) => id === box.id).parent === frame.id));
  await picture(window, 'frame');
  await window.drag(on(300, 280), on(620, 420));
  check('dragged out of it, it stands on the page', (await left.when(box.id, ({ parent }) => parent !== frame.id)).parent === frame.parent);
  await window.js(`(() => { const field = document.getElementById('into'); field.value = '${frame.id}'; field.dispatchEvent(new Event('change')); })()`);
  check('the field puts it into the frame', (await left.when(box.id, ({ parent }) => parent === frame.id)).parent === frame.id);
  await window.drag(on(70, 80), on(110, 100));
  check('a frame moves with what is in it', same((await left.when(frame.id, ({ properties }) => properties.at[0] === 100)).properties.at, [100, 90]) && same((await left.when(round.id, Boolean)).properties.at, [40, 50]));

  await left.window.js(`lugcurrant.send(['move', '${frame.id}', '${frame.id}', null])`);
  check('what this client refuses is said in words', await until(async () => (await left.said()) === 'Could not move “Frame”: a frame can’t be put into itself.'), await left.said());

  await right.window.call('Page.bringToFront');
  await right.window.click('.switch');
  check('a window goes offline', await until(async () => (await right.state()).state === 'offline'));
  await right.draw('rect', on(450, 380), on(520, 440));
  await right.window.write('#name', 'Made offline');
  await right.window.js(`lugcurrant.send(['move', '${words.id}', '${frame.id}', null], ['set', '${words.id}', 'at', [40, 200]])`);
  await right.window.js(`lugcurrant.send(['set', '${round.id}', 'fill', { rgba: 0x7fb09aff }])`);
  await sleep(300);
  const offline = await right.state();
  check('there its edits wait, and are counted', offline.unsent >= 7 && offline.waiting === offline.unsent && (await right.window.js("document.getElementById('waiting').textContent")) === `${offline.unsent} changes to send`, JSON.stringify(offline));
  await picture(right.window, 'offline');
  await window.call('Page.bringToFront');
  await left.window.js(`lugcurrant.send(['set', '${words.id}', 'text', 'Written meanwhile'])`);
  const spare = (await left.window.js(`lugcurrant.send(['create', 'frame', '${frame.parent}', null], ['set', '$', 'at', [420, 300]], ['set', '$', 'size', [160, 110]], ['set', '$', 'name', 'Spare'])`));
  await until(async () => (await left.state()).waiting === 0);
  check('the windows show different things meanwhile', (await left.text()) !== (await right.text()) && !(await left.named('Made offline')) && !(await right.named('Written meanwhile')));
  await right.window.click('.switch');
  check('back online they show the same', await agree([left, right]) && (await left.named('Made offline')) && (await right.named('Written meanwhile')), `${await left.text()}${await right.text()}`);

  await right.window.click('.switch');
  await until(async () => (await right.state()).state === 'offline');
  await right.window.js(`lugcurrant.send(['move', '${words.id}', '${spare}', null])`);
  await left.window.js(`lugcurrant.send(['delete', '${spare}'])`);
  await until(async () => (await left.state()).waiting === 0);
  await right.window.click('.switch');
  check('what the server refuses is taken back, and said in words', await until(async () => (await right.said())=== 'Taken back: could not move “Written meanwhile”, because someone else deleted the frame or page it belongs in.') && await agree([left, right]), await right.said());

  await window.call('Page.bringToFront');
  const press = await window.js(`(() => { const box = document.querySelector('#stage [data-id="${round.id}"]').getBoundingClientRect(); return [box.x + box.width / 2, box.y + box.height / 2]; })()`);
  await window.press(press);
  for (let k = 1; k <= 10; k++) { await window.mouse('mouseMoved', [press[0] + 3 * k, press[1] + 2 * k]); if (k === 5) await server.kill(); }
  await window.release([press[0] + 30, press[1] + 20]);
  check('where the server is killed in a drag, it is said', await until(async () => (await left.state()).state === 'no server' && (await right.state()).state === 'no server'));
  const alone = await left.draw('rect', on(560, 60), on(640, 120));
  check('and one goes on', alone?.kind === 'shape' && (await left.state()).waiting > 0);
  await picture(window, 'no-server');
  await server.run(server.port);
  check('after its start all is there again, and the same', await until(async () => (await left.state()).state === 'online' && (await right.state()).state === 'online', 40) && await agree([left, right]) && (await right.objects()).some(({ id }) => id === alone.id));

  await window.js('document.getElementById("stage").focus()');
  await window.clickAt(on(600, 90));
  await window.key('Delete');
  check('a key deletes', await until(async () => !(await right.objects()).some(({ id }) => id === alone.id)));
  await window.click('#newpage');
  check('a second page is there', await until(async () => (await right.objects()).filter(({ kind }) => kind === 'page').length === 2));
  const second = (await left.objects()).find(({ kind, properties }) => kind === 'page' && properties.name === 'Page 2');
  check('what is drawn then stands on it', (await left.draw('ellipse', on(200, 200), on(300, 300)))?.parent === second?.id);
  await window.click('#pages li:first-child');
  check('and one goes back to the first', await until(async () => window.js(`!!document.querySelector('#stage [data-id="${frame.id}"]')?.getBoundingClientRect().width`)));
  await window.clickAt(on(240, 180));
  await picture(window, 'whiteboard');

  // A window that is loaded anew: what waits is there, under the same id; and again once the server has it.
  await right.window.click('.switch');
  await until(async () => (await right.state()).state === 'offline');
  const kept = (await right.window.js(`lugcurrant.send(['createLast', 'shape', '${frame.parent}'], ['set', '$', 'name', 'Kept'], ['set', '$', 'at', [700, 400]])`));
  const beforehand = await right.state();
  await sleep(500);
  await server.kill();
  await server.run(server.port);
  await right.reload();
  check('the browser asks first, as edits wait', same(right.window.dialogs, ['beforeunload']), right.window.dialogs.join());
  const afterwards = await right.state();
  check('a window that is loaded anew has its id, and what waited', afterwards.id === beforehand.id && beforehand.waiting >= 3 && (await right.objects()).some(({ id, properties }) => id === kept && properties.name === 'Kept'), JSON.stringify([beforehand, afterwards]));
  check('and the other window gets it', await until(async () => (await left.objects()).some(({ id, properties }) => id === kept && properties.name === 'Kept')) && await agree([left, right]));
  await left.reload();
  check('so is the other one, with its own id', (await left.state()).id !== (await right.state()).id && await agree([left, right]));

  // A page that never fills up.
  const isFull = async () => (await right.objects()).find(({ id }) => id === second.id).children.length >= 1000;
  await window.js(`lugcurrant.send(...Array.from({ length: 1000 }, () => ['createLast', 'shape', '${second.id}']))`);
  check('a thousand shapes stand one behind the other', await until(isFull, 60) && await agree([left, right]), await left.said());
  await window.js(`lugcurrant.send(...[...lugcurrant.objects.values()].filter(({ parent, properties }) => parent === '${second.id}' && !properties.form).map(({ id }) => ['delete', id]))`);
  check('and are gone again', await until(async () => !(await right.objects()).some(({ parent, properties }) => parent === second.id && !properties.form), 60) && await agree([left, right]));

  if (partner) {
    partner.tell('rest');
    await until(() => showSame([left, right]));
    const program = await partner.end((await left.state()).version);
    partner = null;
    check('the Python program, which was away as well, shows the same in the end', program.edits > 40 && await until(async () => (await left.text()) === program.text && server.show().tree === program.text), JSON.stringify(program));
  }
  check('in the end both windows show what the folder holds', await agree([left, right]) && (await left.text()) === server.show().tree && (await right.text()) === server.show().tree);
  check('no script has failed', !left.window.faults.length && !right.window.faults.length, [...left.window.faults, ...right.window.faults].join('\n'));
} catch (fault) {
  check('the test goes through', false, fault.stack);
} finally {
  await browser.end();
  await server.end();
  rmSync(folder, { recursive: true, force: true });
}
const failed = results.filter((isRight) => !isRight).length;
console.log(`${results.length - failed} passed, ${failed} failed`);
process.exit(failed ? 1 : 0);
