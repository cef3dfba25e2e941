// Edits a second that one client has acknowledged, and how long 10,000 entries take for a client that comes back:  tput.mjs RTT
import { mkdtempSync, rmSync } from 'node:fs';
import { tmpdir } from 'node:os';
import { join } from 'node:path';
import * as lib from './lib.mjs';

const EDITS = 20000, MEASURED_FOR = 4000, BEHIND = 10000;
const rtt = Number(process.argv[2]), folder = mkdtempSync(join(tmpdir(), 'links-'));
lib.endAfter(240);
process.on('exit', () => rmSync(folder, { recursive: true, force: true }));
const say = (line) => console.log(JSON.stringify({ rtt, ...line }));
const since = (begun) => performance.now() - begun;

// Makes more edits than can be judged meanwhile, and counts those that were.
async function countEdits({ client }, page, port) {
  const known = Number(client.acknowledged), begun = performance.now();
  for (let k = 0; k < EDITS; k += 1) client.set(page, 'n', k);
  await lib.sleep(MEASURED_FOR);
  const acknowledged = Number(client.acknowledged) - known, judged = lib.metric(await lib.get(port, '/metrics'), 'lugcurrant_edits_total') - 1;
  const seconds = since(begun) / 1000;
  say({ what: 'edits a second', judged: Math.round(judged / seconds), acknowledged: Math.round(acknowledged / seconds) });
}

// Has another client make edits until this one is so many entries behind, and lets it come back.
async function comeBack({ client }, page, { direct, url }) {
  const writer = await lib.lugClient(direct);
  await writer.link.ready;
  const more = BEHIND + Number(client.version) - Number(writer.client.version);
  for (let k = 0; k < more; k += 1) writer.client.set(page, 'm', k);
  await lib.until(() => Number(writer.client.waiting) === 0, 120000);
  const behind = Number(writer.client.version) - Number(client.version), begun = performance.now();
  const link = lib.linkOf(client, url);
  await lib.until(() => client.version >= writer.client.version, 100000, 2);
  say({ what: 'entries behind', behind, ms: Math.round(since(begun)) });
  link.close();
}

const server = await lib.behindProxy((port) => lib.start(lib.lugcurrant, ['serve', join(folder, 'canvas'), '--port', String(port), '--quiet']), rtt);
const first = await lib.lugClient(server.url);
await first.link.ready;
const page = first.client.createLast('page', lib.ROOT);
await first.link.settled();
const second = await lib.lugClient(server.url);
await lib.until(() => second.client.id && second.client.version >= first.client.version, 20000);
second.link.close();
await countEdits(first, page, server.port);
first.link.close();
await lib.sleep(300);
await comeBack(second, page, server);
process.exit(0);
