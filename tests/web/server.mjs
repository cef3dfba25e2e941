// A `lugcurrant serve` on a free port of the loopback, for tests.
import { mkdtempSync, rmSync } from 'node:fs';
import { tmpdir } from 'node:os';
import { join } from 'node:path';
import { execFileSync, spawn } from 'node:child_process';

const STARTS_WITHIN = 30000;

// No server outlives the test, however that ends.
const running = new Set();
process.on('exit', () => { for (const child of running) child.kill('SIGKILL'); });
for (const signal of ['SIGINT', 'SIGTERM']) process.on(signal, () => process.exit(1));

// Seconds after which a test ends with a failure, whatever it waits for.
export function endAfter(seconds) {
  setTimeout(() => { console.error(`it has not ended after ${seconds} seconds`); process.exit(1); }, seconds * 1000).unref();
}

export class Server {
  static async start(program, { page = null, words = [] } = {}) {
    const server = new Server(program, mkdtempSync(join(tmpdir(), 'lugcurrant-')), page, words);
    await server.run(0);
    return server;
  }

  constructor(program, folder, page, words) { Object.assign(this, { program, folder, page, words, process: null, port: 0 }); }

  get url() { return `ws://127.0.0.1:${this.port}/`; }

  async run(port) {
    const words = ['serve', join(this.folder, 'canvas'), '--port', String(port), ...this.words, ...(this.page ? ['--page', this.page] : [])];
    const child = spawn(this.program, words, { stdio: ['ignore', 'ignore', 'pipe'] });
    this.process = child;
    running.add(child);
    child.once('exit', () => running.delete(child));
    const line = await new Promise((resolve, reject) => {
      let text = '';
      setTimeout(() => reject(new Error('the server does not start')), STARTS_WITHIN).unref();
      this.process.stderr.on('data', (data) => { text += data; if (/127\.0\.0\.1:\d+.*\n/.test(text)) resolve(text); });
      this.process.once('exit', () => reject(new Error(`the server has ended: ${text}`)));
    });
    this.port = Number(/127\.0\.0\.1:(\d+)/.exec(line)[1]);
  }

  // Kills the server as a crash would.
  async kill() {
    const ended = new Promise((resolve) => this.process.once('exit', resolve));
    this.process.kill('SIGKILL');
    await ended;
  }

  // Kills it and starts another one with the same folder, at the same port.
  async restart() { await this.kill(); await this.run(this.port); }

  // What the folder holds, as `lugcurrant show` prints it: the version, and the tree.
  show() {
    const text = execFileSync(this.program, ['show', join(this.folder, 'canvas')], { encoding: 'utf8', maxBuffer: 1 << 28 });
    const end = text.indexOf('\n');
    return { version: Number(text.slice('version '.length, end)), tree: text.slice(end + 1) };
  }

  async end() { await this.kill(); rmSync(this.folder, { recursive: true, force: true }); }
}
