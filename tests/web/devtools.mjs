// A headless Chromium, over the DevTools protocol.
import { spawn } from 'node:child_process';
import { existsSync, mkdtempSync, readFileSync, rmSync, writeFileSync } from 'node:fs';
import { tmpdir } from 'node:os';
import { join } from 'node:path';

export const sleep = (milliseconds) => new Promise((resolve) => setTimeout(resolve, milliseconds));

// Whether it becomes true within so many seconds.
export async function until(what, seconds = 20) {
  for (const end = Date.now() + seconds * 1000; Date.now() < end; await sleep(40)) if (await what()) return true;
  return false;
}

export class Browser {
  static async start() {
    const profile = mkdtempSync(join(tmpdir(), 'lugcurrant-chromium-'));
    const words = ['--headless=new', '--no-sandbox', '--disable-gpu', '--remote-debugging-port=0', `--user-data-dir=${profile}`, '--no-first-run', '--disable-dev-shm-usage',
      '--disable-background-timer-throttling', '--disable-renderer-backgrounding', '--disable-backgrounding-occluded-windows', 'about:blank'];
    const browser = new Browser(profile, spawn('chromium', words, { stdio: 'ignore' }));
    const file = join(profile, 'DevToolsActivePort');
    if (!await until(() => existsSync(file) && readFileSync(file, 'utf8').includes('\n'), 60)) throw new Error('chromium does not start');
    browser.port = Number(readFileSync(file, 'utf8').split('\n')[0]);
    return browser;
  }

  constructor(profile, child) {
    Object.assign(this, { profile, child });
    process.on('exit', () => child.kill('SIGKILL'));
  }

  // Opens a window of this size: a computer's, or one that is touched.
  async open(url, width = 1120, height = 680, { touch = false, scheme = null } = {}) {
    const target = await (await fetch(`http://127.0.0.1:${this.port}/json/new?${encodeURIComponent(url)}`, { method: 'PUT' })).json();
    const window = new Window(await Window.connect(target.webSocketDebuggerUrl));
    for (const domain of ['Runtime', 'Log', 'Page']) await window.call(`${domain}.enable`);
    await window.call('Emulation.setFocusEmulationEnabled', { enabled: true });
    await window.call('Emulation.setDeviceMetricsOverride', { width, height, deviceScaleFactor: 1, mobile: touch });
    if (touch) await window.call('Emulation.setTouchEmulationEnabled', { enabled: true, maxTouchPoints: 5 });
    if (scheme) await window.prefer(scheme);
    return window;
  }

  async end() {
    const ended = new Promise((resolve) => this.child.once('exit', resolve));
    this.child.kill();
    await ended;
    try { rmSync(this.profile, { recursive: true, force: true, maxRetries: 20 }); } catch { /* a process of the browser's still writes there */ }
  }
}

// What a test does in a window of any browser, with the window's own `js` and `mouse`.
export class Actions {
  async press([x, y]) { await this.mouse('mouseMoved', [x, y], false); await this.mouse('mousePressed', [x, y]); }
  async release(point) { await this.mouse('mouseReleased', point, false); }
  async clickAt(point) { await this.press(point); await this.release(point); }

  async drag(from, to, steps = 12) {
    await this.press(from);
    for (let k = 1; k <= steps; k++) await this.mouse('mouseMoved', [from[0] + (to[0] - from[0]) * k / steps, from[1] + (to[1] - from[1]) * k / steps]);
    await this.release(to);
  }

  middle(selector) { return this.js(`(() => { const box = document.querySelector(${JSON.stringify(selector)}).getBoundingClientRect(); return [box.x + box.width / 2, box.y + box.height / 2]; })()`); }
  async click(selector) { await this.clickAt(await this.middle(selector)); }
}

export class Window extends Actions {
  static connect(url) {
    return new Promise((resolve, reject) => {
      const socket = new WebSocket(url);
      socket.onopen = () => resolve(socket);
      socket.onerror = () => reject(new Error('no DevTools'));
    });
  }

  constructor(socket) {
    super();
    Object.assign(this, { socket, calls: 0, waiters: new Map(), faults: [], dialogs: [] });
    socket.onmessage = ({ data }) => this.hear(JSON.parse(data));
  }

  hear({ id, result, error, method, params }) {
    if (id) { const { resolve, reject } = this.waiters.get(id); this.waiters.delete(id); return error ? reject(new Error(error.message)) : resolve(result); }
    // A page that asks before it is left: the test leaves it.
    if (method === 'Page.javascriptDialogOpening') { this.dialogs.push(params.type); this.call('Page.handleJavaScriptDialog', { accept: true }).catch(() => {}); }
    if (method === 'Runtime.exceptionThrown') this.faults.push(params.exceptionDetails.exception?.description ?? params.exceptionDetails.text);
    if (method === 'Log.entryAdded' && params.entry.level === 'error' && params.entry.source !== 'network' && !params.entry.text.includes('net::ERR_CONNECTION_REFUSED')) this.faults.push(params.entry.text);
  }

  call(method, params = {}) {
    const id = (this.calls += 1);
    return new Promise((resolve, reject) => { this.waiters.set(id, { resolve, reject }); this.socket.send(JSON.stringify({ id, method, params })); });
  }

  async js(expression) {
    const { result, exceptionDetails } = await this.call('Runtime.evaluate', { expression, awaitPromise: true, returnByValue: true });
    if (exceptionDetails) throw new Error(exceptionDetails.exception?.description ?? exceptionDetails.text);
    return result.value;
  }

  mouse(type, [x, y], pressed = true, modifiers = 0) { return this.call('Input.dispatchMouseEvent', { type, x, y, button: 'left', buttons: pressed ? 1 : 0, clickCount: 1, modifiers }); }

  async shiftClick(point) { for (const type of ['mousePressed', 'mouseReleased']) await this.mouse(type, point, type === 'mousePressed', 8); }

  // Presses a key: its name, or what it writes. `commands` are what the browser's editor does for it, as `copy`.
  async key(key, { ctrl = false, shift = false, commands } = {}) {
    const modifiers = (ctrl ? 2 : 0) + (shift ? 8 : 0), written = { Enter: '\r' }[key] ?? (key.length === 1 && !ctrl ? key : undefined);
    const code = { Tab: 9, Enter: 13, Escape: 27, ' ': 32 }[key];
    await this.call('Input.dispatchKeyEvent', { type: 'keyDown', key, modifiers, text: written, windowsVirtualKeyCode: code, commands });
    await this.call('Input.dispatchKeyEvent', { type: 'keyUp', key, modifiers, windowsVirtualKeyCode: code });
  }

  // Touches with a finger at each of these points, until the next call: `touchStart`, `touchMove`, `touchEnd`.
  touch(type, ...points) { return this.call('Input.dispatchTouchEvent', { type, touchPoints: points.map(([x, y], id) => ({ x, y, id })) }); }
  // A tap that comes sooner after another touch than a person's would be no click, or a double one.
  async tap(point) { await sleep(350); await this.touch('touchStart', point); await sleep(40); await this.touch('touchEnd'); }

  // Moves fingers from points to points.
  async swipe(from, to, steps = 8) {
    await this.touch('touchStart', ...from);
    for (let k = 1; k <= steps; k += 1) { await this.touch('touchMove', ...from.map(([x, y], n) => [x + (to[n][0] - x) * k / steps, y + (to[n][1] - y) * k / steps])); await sleep(16); }
    await this.touch('touchEnd');
  }

  // Sets what the system prefers: `light` or `dark`.
  prefer(scheme) { return this.call('Emulation.setEmulatedMedia', { features: [{ name: 'prefers-color-scheme', value: scheme }] }); }

  // Writes into a field, and leaves it.
  async write(selector, text) {
    await this.js(`(() => { const field = document.querySelector(${JSON.stringify(selector)}); field.focus(); field.select(); })()`);
    await this.call('Input.insertText', { text });
    await this.js('document.activeElement.blur()');
  }

  async picture(file) {
    await this.call('Page.bringToFront');
    await sleep(250);
    writeFileSync(file, Buffer.from((await this.call('Page.captureScreenshot', { format: 'png' })).data, 'base64'));
  }

  async front() { await this.call('Page.bringToFront'); }

  // Loads the page again, and returns when the old one is gone.
  async reload() {
    await this.js('window.isOld = true');
    await this.call('Page.reload');
    if (!await until(() => this.js('!window.isOld').catch(() => false))) throw new Error('the page is not loaded again');
  }

  // Closes the window. The connection ends with it, at times before the answer.
  async close() {
    const closed = new Promise((resolve) => { this.socket.onclose = resolve; });
    this.call('Page.close').catch(() => {});
    await closed;
  }
}
