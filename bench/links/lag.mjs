// How late another client sees a drag:  lag.mjs lug|yjs RTT CLIENTS HZ SECONDS [plain|coalesce]     README.md says more
import { fork } from 'node:child_process';
import { mkdtempSync, readFileSync, rmSync } from 'node:fs';
import { tmpdir } from 'node:os';
import { join } from 'node:path';
import * as lib from './lib.mjs';

const [kind, rtt, clients, hz, seconds, mode = 'plain'] = process.argv.slice(2);
lib.endAfter(Number(seconds) + 150);
const folder = mkdtempSync(join(tmpdir(), 'links-')), file = (name) => join(folder, name);
const read = (name) => JSON.parse(readFileSync(file(name), 'utf8'));
process.on('exit', () => rmSync(folder, { recursive: true, force: true }));

const runs = {
  lug: (port) => lib.start(lib.lugcurrant, ['serve', file('canvas'), '--port', String(port), '--quiet']),
  yjs: (port) => lib.start('y-websocket-server', [], { HOST: '127.0.0.1', PORT: String(port) }),
};

async function makePage(url) {
  const { client, link } = await lib.lugClient(url);
  await link.ready;
  client.createLast('page', lib.ROOT);
  await link.settled();
  link.close();
}

const message = (child) => new Promise((resolve) => child.once('message', resolve));
const exited = (child) => new Promise((resolve) => child.once('exit', resolve));
const forked = (name, words) => {
  const child = fork(lib.path(name), words, { stdio: ['ignore', 'ignore', 'inherit', 'ipc'] });
  process.on('exit', () => child.kill());
  return child;
};

// For each step the milliseconds until the watcher saw this step of the note, or a later one; and how many it never saw.
function lagsOf(edits, seen) {
  const byNote = new Map(), lags = [];
  for (const [note, step, time] of seen) {
    if (!byNote.has(note)) byNote.set(note, []);
    byNote.get(note).push({ step, time });
  }
  for (const [note, step, time] of edits) {
    const first = byNote.get(note)?.find((it) => it.step >= step);
    if (first) lags.push((first.time - time) / 10);
  }
  return { lags, missed: edits.length - lags.length };
}

const behind = await lib.behindProxy(runs[kind], rtt);
if (kind === 'lug') await makePage(behind.direct);
const watcher = forked('watch.mjs', [kind, behind.url, file('seen')]);
await message(watcher);
const dragger = forked('drag.mjs', [kind, behind.url, clients, hz, seconds, file('edits'), mode]), dragged = exited(dragger);
dragger.once('message', () => behind.reset());
const before = lib.cpuSeconds(behind.server.pid);
await dragged;
await lib.sleep(Number(rtt) * 2 + 800);
const stats = await behind.stats(), serverCpu = lib.cpuSeconds(behind.server.pid) - before;
watcher.send('end');
await exited(watcher);

const { edits, waits, most, drained } = read('edits'), seen = read('seen'), { lags, missed } = lagsOf(edits, seen);
const steps = new Set(seen.map(([note, step]) => `${note} ${step}`));
const median = Math.round(lib.percentile(lags, 0.5)), p95 = Math.round(lib.percentile(lags, 0.95));
if (mode === 'plain') lib.record(`drag of ${kind} at ${rtt} ms by ${clients}`, { median, p95, waiting: most });
console.log(JSON.stringify({
  kind, rtt: Number(rtt), n: Number(clients), hz: Number(hz), mode, edits: edits.length,
  medianMs: median, p95Ms: p95, maxMs: Math.round(lib.percentile(lags, 1)), missed,
  stepsSeenPct: Math.round(100 * steps.size / edits.length), mostWaiting: most, drainMs: drained, waits: waits.map(([, count]) => count).join(','),
  upKB: Math.round(stats.up / 1024), downKB: Math.round(stats.down / 1024), serverCpuS: Number(serverCpu.toFixed(2)),
}));
process.exit(0);
