#!/usr/bin/env node
// A client that is kept in a file, and what was kept changed by hand or cut:  keep.mjs
import assert from 'node:assert';
import { mkdtempSync, readFileSync, rmSync, writeFileSync } from 'node:fs';
import { tmpdir } from 'node:os';
import { join } from 'node:path';
import { Kept, ROOT, ReplayError, shelfOfFile } from '../src/node.js';
import { FakeServer } from './fake.mjs';

const folder = mkdtempSync(join(tmpdir(), 'kept-')), path = join(folder, 'client'), server = new FakeServer();
const text = (bytes) => Buffer.from(bytes).toString();

function partsOf(bytes) {
  const parts = [];
  for (let at = 0; at < bytes.length; at += 4 + bytes.readUInt32LE(at)) parts.push(bytes.subarray(at + 4, at + 4 + bytes.readUInt32LE(at)));
  return parts;
}
const fileOf = (parts) => Buffer.concat(parts.flatMap((part) => { const head = Buffer.alloc(4); head.writeUInt32LE(part.length); return [head, Buffer.from(part)]; }));

// Keeps a client with two edits that the server has and three that wait: all of it once, and a journal of 8. Answers the file and the tree.
async function keep() {
  const kept = new Kept(shelfOfFile(path)), client = await kept.load();
  const send = (message) => { for (const answer of server.answer(text(message))) client.receive(answer); };
  await kept.flush();
  send(client.joinMessage());
  const page = client.createLast('page', ROOT);
  client.set(page, 'name', 'Plan');
  for (const message of [...client.messages()]) send(message);
  send(client.askMessage());
  await kept.flush();
  client.set(page, 'name', 'Other');
  const frame = client.createLast('frame', page);
  client.set(frame, 'name', 'Last');
  await kept.close();
  return { right: readFileSync(path), tree: client.text() };
}

const { right, tree } = await keep(), parts = partsOf(right);
let tried = 0;

async function load(bytes, options) {
  writeFileSync(path, bytes);
  const kept = new Kept(shelfOfFile(path));
  try { return { kept, client: await kept.load(null, options), fault: kept.fault }; } catch (fault) { return { kept, client: null, fault }; }
}

// As it was kept.
{
  const { kept, client, fault } = await load(right);
  assert.deepEqual([fault, client.text(), Number(client.waiting)], [null, tree, 3]);
  await kept.close();
  tried += 1;
}

// Cut by a crash within the last edit, which was never sent then.
{
  const { kept, client, fault } = await load(right.subarray(0, right.length - 5));
  assert.deepEqual([fault, Number(client.waiting)], [null, 2]);
  await kept.close();
  tried += 1;
}

// Changed: nothing of it is touched; and with `takePrefix` the client is what it was before.
async function changed(index, change, code) {
  const wrong = parts.map((part, k) => (k === index ? Buffer.from(change(Buffer.from(part).toString('latin1')), 'latin1') : part)), bytes = fileOf(wrong);
  const first = await load(bytes);
  assert(first.fault instanceof ReplayError, `number ${index}: ${first.fault}`);
  assert.deepEqual([first.fault.index, first.fault.code, first.fault.left.length], [index, code, parts.length - index]);
  assert.equal(first.fault.kept, index ? text(wrong[index].subarray(1)) : text(wrong[0]));
  if (!code) assert.notEqual(first.fault.made, first.fault.kept);
  await first.kept.close();
  assert(readFileSync(path).equals(bytes), 'what was kept is touched');
  const prefix = await load(fileOf(parts.slice(0, index)));
  const wanted = prefix.client.text(), waiting = Number(prefix.client.waiting);
  await prefix.kept.close();
  const second = await load(bytes, { takePrefix: true });
  assert(second.fault instanceof ReplayError && second.fault.index === index);
  assert.deepEqual([second.client.text(), Number(second.client.waiting)], [wanted, waiting]);
  await second.kept.close();
  tried += 1;
}

const last = parts.length - 1, isEdit = (k) => parts[k][0] === 1;
assert.deepEqual(parts.map((_, k) => isEdit(k)).slice(1), [false, true, true, false, false, false, true, true, true]);
await changed(0, (it) => it.slice(0, -9), 'NotJson');
await changed(1, (it) => it.replace('welcome', 'welcomes'), 'NotAMessage');
await changed(2, (it) => it.replace('[1,1]', '[1,7]'), 'Inconsistent');                    // not the next id
await changed(2, (it) => it.replace('"edit",1,1', '"edit",2,1'), 'NotOwn');
await changed(2, (it) => it.replace('"edit",1,1', '"edit",1,2'), 'Gap');
await changed(3, (it) => it.replace('"edit",1,2', '"edit",1,1'), 'old');
await changed(3, (it) => it.replace('["edit",', '["edit", '), null);                       // the same edit, not as the client sends it
await changed(4, (it) => it.replace('"entry",1', '"entry",2'), 'ahead');
await changed(5, (it) => it.replace('page', 'text'), 'not for me');                        // not its own edit
await changed(5, (it) => `\u0001${it.slice(1)}`, 'NotAnEdit');
await changed(last - 2, (it) => it.replace('"edit",1,3', '"edit",1,4'), 'Gap');
await changed(last - 2, (it) => it.replace('["edit",1,3', '["ask",1,3'), 'NotAMessage');
await changed(last, (it) => it.slice(0, -4), 'NotJson');
await changed(last, (it) => `\u0007${it.slice(1)}`, 'unknown');

// An edit that was changed into another one of the client's own is that one, whatever the client shows: the server judges it.
for (const [index, change] of [[last - 1, (it) => it.replace('frame', 'page')], [last, (it) => it.replace('[1,2]', '[1,9]')], [last, (it) => it.replace('Last', 'Final')]]) {
  const wrong = parts.map((part, k) => (k === index ? Buffer.from(change(text(part))) : part)), { kept, client, fault } = await load(fileOf(wrong));
  assert.deepEqual([fault, Number(client.waiting)], [null, 3]);
  assert.equal(text(client.editMessage(3 - last + index)), text(wrong[index].subarray(1)));
  assert(!wrong[index].equals(parts[index]));
  await kept.close();
  tried += 1;
}
rmSync(folder, { recursive: true });
console.log(`${tried} kept files, each as it should be`);
