#!/usr/bin/env node
// A module that may take 8 MiB: where memory is refused nothing changes, and afterwards the client goes on:
//     node memory.mjs SMALL.wasm
import assert from 'node:assert';
import { readFileSync } from 'node:fs';
import { Client } from '../../packages/js/src/node.js';
import { endAfter } from './server.mjs';

endAfter(120);
const client = await Client.load(readFileSync(process.argv[2]));
const refused = (act) => { try { act(); return ''; } catch (fault) { return fault.code; } };

client.receive('["welcome",7]');
const page = client.create('page', '0:0');
let made = 0;
while (made < 1000000 && !refused(() => client.set(page, `p${made}`, 'x'.repeat(200)))) made += 1;
assert(made > 1000 && made < 1000000, `${made} edits were made`);
assert(client.memory <= 8 << 20);

const waiting = client.waiting, first = String(client.editMessage(1)), version = client.version, acknowledged = client.acknowledged;
for (let k = 0; k < 1000; k++) {
  assert.strictEqual(refused(() => client.set(page, `q${k}`, 'y'.repeat(20000))), 'Memory');
  assert.deepStrictEqual([client.waiting, client.version, client.acknowledged], [waiting, version, acknowledged]);
}
assert.strictEqual(refused(() => client.text()), 'Memory');
assert.strictEqual(refused(() => client.receive(`["copy",9,0,[[[0,0],"document",null,[["t","${'z'.repeat(1 << 21)}"]]]]]`)), 'Memory');
assert.deepStrictEqual([client.waiting, client.version, client.acknowledged, String(client.editMessage(1))], [waiting, version, acknowledged, first]);

for (let k = 0; k < 500; k++) {
  const [, id, number, change] = JSON.parse(new TextDecoder().decode(client.editMessage(1)));
  const outcome = change[0] === 'create' ? ['created', change[3]] : ['wasset'];
  assert.strictEqual(client.receive(JSON.stringify(['entry', client.version + 1, [id, number, change, outcome]])).what, 'took');
}
assert.deepStrictEqual([client.waiting, client.acknowledged], [waiting - 500, 500]);
client.set(page, 'again', true);
assert.strictEqual(client.waiting, waiting - 499);
console.log(`refused after ${made} edits with ${client.memory} bytes: 1002 refusals changed nothing, and 500 entries and an edit were taken afterwards`);
