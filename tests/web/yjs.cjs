#!/usr/bin/env node
// How fast Yjs hears the edits of bench.mjs: each as an update of its own, applied to a second document:
//     NODE_PATH=/usr/share/nodejs node yjs.cjs [OBJECTS]
// Yjs (Debian's node-yjs) does another job: it judges nothing and knows no order of positions. Seconds are the processor's.
const Y = require('yjs');

const n = Number(process.argv[2] ?? 10000), names = ['x', 'y', 'w', 'h', 'fill', 'name'];
const used = () => { const { user, system } = process.cpuUsage(); return (user + system) / 1e6; };
const author = new Y.Doc(), heard = new Y.Doc(), objects = author.getMap('objects');
let updates = [];
author.on('update', (update) => updates.push(update));

function part(name, count, edit) {
  updates = [];
  let begun = used();
  for (let k = 0; k < count; k++) author.transact(() => edit(k));
  const made = used() - begun;
  begun = used();
  for (const update of updates) Y.applyUpdate(heard, update);
  console.log(`  ${name}: ${Math.round(count / (used() - begun))} heard a second, ${Math.round(count / made)} made (${count})`);
}

console.log(`node ${process.version}, Yjs ${require('yjs/package.json').version}`);
part('creation', n, (k) => objects.set(`2:${k + 2}`, new Y.Map([['kind', 'shape'], ['place', ['2:1', String(k)]]])));
part('first set', 6 * n, (k) => objects.get(`2:${k % n + 2}`).set(names[Math.floor(k / n)], k));
part('set again', n, (k) => objects.get(`2:${k % n + 2}`).set('x', k));
if (heard.getMap('objects').size !== n) throw new Error('something was lost');
console.log(`  the document as one update: ${Y.encodeStateAsUpdate(heard).length} bytes`);
