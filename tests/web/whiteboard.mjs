// The whiteboard of examples/whiteboard in Chromium, over a server of its own: what its tests share.
import assert from 'node:assert';
import { execFileSync } from 'node:child_process';
import { mkdirSync } from 'node:fs';
import { join } from 'node:path';
import { fileURLToPath } from 'node:url';
import { Browser, until } from './devtools.mjs';
import { Server, endAfter } from './server.mjs';

export const SOURCE = fileURLToPath(new URL('../../examples/whiteboard/', import.meta.url));
const SECONDS = 900, PATIENCE = 60;                     // for a test, and for what it waits for: the machine may be busy

// Runs a test: `act` gets a Board's server, what opens windows, and a folder for pictures, or null. Ends the program.
export async function run(act) {
  endAfter(SECONDS);
  const [program, pictures = null] = process.argv.slice(2).filter((word) => !word.startsWith('--'));
  execFileSync(join(SOURCE, 'build'), { stdio: 'ignore' });
  if (pictures) mkdirSync(pictures, { recursive: true });
  const server = await Server.start(program, { page: SOURCE }), browser = await Browser.start();
  const open = (width, height, options) => Board.open(browser, server, width, height, options);
  await act({ server, browser, open, pictures });
  await browser.end();
  await server.end();
  process.exit(0);
}

let steps = 0;
export function passed(what) { steps += 1; console.log(`ok ${steps}   ${what}`); }
export async function becomes(what, isSo, seen = () => '', seconds = PATIENCE) {
  assert(await until(isSo, seconds), `${what}: ${await seen()}`);
  passed(what);
}
export const colour = (hex) => ({ rgba: parseInt(hex, 16) * 256 + 255 });

// A window with the whiteboard.
export class Board {
  static async open(browser, server, width = 1120, height = 680, options = {}) {
    const board = new Board(await browser.open(`http://127.0.0.1:${server.port}/`, width, height, options));
    await board.isOnline();
    return board;
  }

  constructor(window) { this.window = window; }

  async isOnline() {
    const isSo = () => this.window.js("window.lugcurrant?.state().state === 'online' && lugcurrant.state().id > 0");
    assert(await until(isSo, PATIENCE), `the page joins: ${this.window.faults}`);
  }

  js(expression) { return this.window.js(expression); }
  state() { return this.js('lugcurrant.state()'); }
  text() { return this.js('lugcurrant.text()'); }
  objects() { return this.js('[...lugcurrant.objects.values()]'); }
  object(id) { return this.js(`lugcurrant.objects.get(${JSON.stringify(id)}) ?? null`); }
  chosen() { return this.js('lugcurrant.chosen()'); }
  said() { return this.js("document.getElementById('toast').textContent"); }
  focused() { return this.js("document.activeElement.closest?.('li')?.dataset.id ?? document.activeElement.id ?? ''"); }
  value(id) { return this.js(`document.getElementById('${id}').value`); }
  async at(id) { return (await this.object(id))?.properties.at; }

  // Makes edits, and returns the id of the last object that they created.
  send(...edits) { return this.js(`lugcurrant.send(...${JSON.stringify(edits)})`); }
  // Creates a page, or an object in front in a holder.
  page(name) { return this.send(['createLast', 'page', '0:0'], ['set', '$', 'name', name]); }
  make(kind, holder, [x, y, w, h], more = {}) {
    const sets = Object.entries({ at: [x, y], size: [w, h], ...more });
    return this.send(['createLast', kind, holder], ...sets.map(([name, value]) => ['set', '$', name, value]));
  }

  // The point of the window where a point of the board is, before it is moved.
  async on(x, y) {
    const [left, top] = await this.js("(() => { const { x, y } = document.getElementById('stage').getBoundingClientRect(); return [x, y]; })()");
    return [left + x, top + y];
  }
  middleOf(id) { return this.window.middle(`#stage [data-id="${id}"] > .body`); }
  drawnAgain() { return this.js('new Promise((done) => requestAnimationFrame(() => requestAnimationFrame(() => setTimeout(() => done(1)))))'); }
  focus(id) { return this.js(`document.getElementById('${id}').focus()`); }

  // Puts a text into a field as a person does, and leaves it with Enter.
  async write(id, text) {
    await this.js(`document.getElementById('${id}').focus(); document.getElementById('${id}').select();`);
    if (text === '') await this.window.key('Delete', { commands: ['deleteBackward'] });
    else await this.window.call('Input.insertText', { text });
    await this.window.key('Enter');
  }
}
