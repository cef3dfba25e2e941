// A headless Firefox, over WebDriver BiDi, with the actions of devtools.mjs.
import { spawn, spawnSync } from 'node:child_process';
import { mkdtempSync, rmSync, writeFileSync } from 'node:fs';
import { tmpdir } from 'node:os';
import { join } from 'node:path';
import { Actions, Browser, until } from './devtools.mjs';

const STARTS_WITHIN = 60000;
const LISTENS = /WebDriver BiDi listening on (ws:\S+)/;
// The code points that WebDriver gives to keys that write nothing.
const KEYS = { Backspace: '\uE003', Tab: '\uE004', Enter: '\uE007', Shift: '\uE008', Escape: '\uE00C', ArrowLeft: '\uE012', ArrowUp: '\uE013', ArrowRight: '\uE014',
  ArrowDown: '\uE015', Delete: '\uE017' };

// Debian's programs of the browsers, which are its packages' names too.
const PROGRAMS = { chromium: 'chromium', firefox: 'firefox-esr' };

// Starts the browser of this name. Both kinds open windows with the same actions. Ends the test if the program is missing.
export async function startBrowser(name = 'chromium') {
  const program = PROGRAMS[name];
  if (!program) throw new Error(`cannot start the browser ${name}: give one of ${Object.keys(PROGRAMS).join(', ')}`);
  if (spawnSync(program, ['--version']).error) { console.log(`skipped: there is no ${program} (Debian's package ${program} has it)`); process.exit(0); }
  return name === 'firefox' ? Firefox.start() : Browser.start();
}

export class Firefox {
  static async start() {
    const profile = mkdtempSync(join(tmpdir(), 'lugcurrant-firefox-'));
    const words = ['--headless', '--no-remote', '--profile', profile, '--remote-debugging-port=0', 'about:blank'];
    const child = spawn(PROGRAMS.firefox, words, { stdio: ['ignore', 'ignore', 'pipe'], env: { ...process.env, MOZ_HEADLESS: '1' } });
    const browser = new Firefox(profile, child);
    browser.socket = await connect(`${await addressOf(child)}/session`);
    browser.socket.onmessage = ({ data }) => browser.hear(JSON.parse(data));
    await browser.call('session.new', { capabilities: { alwaysMatch: { unhandledPromptBehavior: { default: 'ignore', beforeUnload: 'accept' } } } });
    await browser.call('session.subscribe', { events: ['log.entryAdded'] });
    return browser;
  }

  constructor(profile, child) {
    Object.assign(this, { profile, child, calls: 0, waiters: new Map(), windows: new Map() });
    process.on('exit', () => child.kill('SIGKILL'));
  }

  hear({ id, type, result, error, message, method, params }) {
    if (id) {
      const { resolve, reject } = this.waiters.get(id);
      this.waiters.delete(id);
      return type === 'error' ? reject(new Error(`${error}: ${message}`)) : resolve(result);
    }
    if (method === 'log.entryAdded' && params.level === 'error') this.windows.get(params.source.context)?.faults.push(params.text);
  }

  call(method, params = {}) {
    const id = (this.calls += 1);
    return new Promise((resolve, reject) => { this.waiters.set(id, { resolve, reject }); this.socket.send(JSON.stringify({ id, method, params })); });
  }

  async open(url, width = 1120, height = 680) {
    const { context } = await this.call('browsingContext.create', { type: 'window' }), window = new FirefoxWindow(this, context);
    this.windows.set(context, window);
    await this.call('browsingContext.setViewport', { context, viewport: { width, height }, devicePixelRatio: 1 });
    await this.call('browsingContext.navigate', { context, url, wait: 'complete' });
    return window;
  }

  async end() {
    const ended = new Promise((resolve) => this.child.once('exit', resolve));
    this.child.kill();
    await ended;
    try { rmSync(this.profile, { recursive: true, force: true, maxRetries: 20 }); } catch { /* a process of the browser's still writes there */ }
  }
}

// Returns the address that the browser prints when it listens.
function addressOf(child) {
  return new Promise((resolve, reject) => {
    let text = '';
    setTimeout(() => reject(new Error(`firefox-esr does not start: ${text}`)), STARTS_WITHIN).unref();
    child.once('error', reject);
    child.once('exit', () => reject(new Error(`firefox-esr has ended: ${text}`)));
    child.stderr.on('data', (data) => { text += data; const found = LISTENS.exec(text); if (found) resolve(found[1]); });
  });
}

function connect(url) {
  return new Promise((resolve, reject) => {
    const socket = new WebSocket(url);
    socket.onopen = () => resolve(socket);
    socket.onerror = () => reject(new Error(`firefox-esr does not answer at ${url}`));
  });
}

export class FirefoxWindow extends Actions {
  constructor(browser, context) { super(); Object.assign(this, { browser, context, faults: [] }); }

  call(method, params) { return this.browser.call(method, { context: this.context, ...params }); }

  // Returns the value of an expression. It comes as JSON, because BiDi has its own form of objects.
  async js(expression) {
    const wrapped = `(async () => JSON.stringify({ value: await (0, eval)(${JSON.stringify(expression)}) }))()`;
    const { type, result, exceptionDetails } = await this.browser.call('script.evaluate', { expression: wrapped, target: { context: this.context }, awaitPromise: true });
    if (type === 'exception') throw new Error(exceptionDetails.text);
    return JSON.parse(result.value).value;
  }

  async act(type, id, actions) { await this.call('input.performActions', { actions: [{ type, id, actions }] }); }

  async mouse(type, [x, y]) {
    const move = { type: 'pointerMove', x: Math.round(x), y: Math.round(y) };
    const button = { mousePressed: { type: 'pointerDown', button: 0 }, mouseReleased: { type: 'pointerUp', button: 0 } }[type];
    await this.act('pointer', 'mouse', button ? [move, button] : [move]);
  }

  async key(key) {
    const value = KEYS[key] ?? key;
    await this.act('key', 'keyboard', [{ type: 'keyDown', value }, { type: 'keyUp', value }]);
  }

  // Writes into a field, and leaves it.
  async write(selector, text) {
    await this.js(`(() => { const field = document.querySelector(${JSON.stringify(selector)}); field.focus(); field.select(); })()`);
    for (const letter of text) await this.key(letter);
    await this.js('document.activeElement.blur()');
  }

  async front() { await this.call('browsingContext.activate'); }

  async picture(file) { writeFileSync(file, Buffer.from((await this.call('browsingContext.captureScreenshot')).data, 'base64')); }

  // Loads the page again, and returns when the old one is gone.
  async reload() {
    await this.js('window.isOld = true');
    await this.call('browsingContext.reload', { wait: 'complete' });
    if (!await until(() => this.js('!window.isOld').catch(() => false))) throw new Error('the page is not loaded again');
  }

  async close() { this.browser.windows.delete(this.context); await this.call('browsingContext.close'); }
}
