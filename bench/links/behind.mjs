// How long a client that comes back takes to hear 10,000 entries of a document of so many notes:  behind.mjs RTT [NOTES]
import { execFileSync } from 'node:child_process';
import { mkdtempSync, rmSync } from 'node:fs';
import { tmpdir } from 'node:os';
import { join } from 'node:path';
import * as lib from './lib.mjs';

const ENTRIES = 10000;
const [rtt, notes] = [process.argv[2], process.argv[3] ?? '40000'].map(Number);
const folder = mkdtempSync(join(tmpdir(), 'links-')), canvas = join(folder, 'canvas');
lib.endAfter(150);
process.on('exit', () => rmSync(folder, { recursive: true, force: true }));

// Positions of three digits, in order.
const digit = (n) => String.fromCharCode(33 + n);
const position = (k) => digit(Math.floor(k / 8100)) + digit(Math.floor(k / 90) % 90) + digit(k % 90);

function importNotes() {
  const rows = [[[0, 0], 'document', null, []], [[1, 1], 'page', [[0, 0], 'O'], []]];
  for (let k = 0; k < notes; k += 1) {
    const properties = [['at', ['list', k % 1000, k]], ['fill', ['rgba', 0xffff00ff]], ['text', `note ${k} ${'x'.repeat(150)}`]];
    rows.push([[1, 2 + k], 'shape', [[1, 1], position(k)], properties]);
  }
  execFileSync(lib.lugcurrant, ['import', canvas], { input: `[\n${rows.map((row) => JSON.stringify(row)).join(',\n')}\n]\n`, maxBuffer: 1 << 28 });
}

async function openReady(url) {
  const one = await lib.lugClient(url);
  await one.link.ready;
  await lib.until(() => one.client.objects().size > notes, 60000, 10);
  return one;
}

importNotes();
const server = await lib.behindProxy((port) => lib.start(lib.lugcurrant, ['serve', canvas, '--port', String(port), '--quiet']), 0);
const writer = await openReady(server.direct), reader = await openReady(server.url);
await lib.sleep(500);
reader.link.close();
await lib.sleep(300);
const from = Number(reader.client.version);
for (let k = 0; k < ENTRIES; k += 1) writer.client.set(`1:${2 + k % notes}`, 'at', [k, k]);
await lib.until(() => Number(writer.client.waiting) === 0, 120000, 20);
await server.setRtt(rtt);
await server.reset();
const to = Number(writer.client.version), begun = performance.now();
lib.linkOf(reader.client, server.url);
await lib.until(() => Number(reader.client.version) >= to, 100000, 2);
console.log(JSON.stringify({ rtt, behind: to - from, ms: Math.round(performance.now() - begun), ...await server.stats() }));
process.exit(0);
