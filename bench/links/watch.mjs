// Writes down each step of each note that it sees, until its parent says `end`:  watch.mjs lug|yjs URL OUT     started by lag.mjs
import { writeFileSync } from 'node:fs';
import * as lib from './lib.mjs';

const [kind, url, out] = process.argv.slice(2);
const seen = [];                                        // [note, step, time]
process.on('message', (word) => {
  if (word !== 'end') return;
  writeFileSync(out, JSON.stringify(seen));
  process.exit(0);
});

async function watchLug() {
  const one = await lib.lugClient(url, JSON.parse(process.env.PAUSES ?? '{}'));
  one.seen = () => {
    for (const { id, properties: { at } } of one.client.changed().put) if (at) seen.push([id, at[0], lib.stamp()]);
  };
  return () => one.client.id;
}

function watchYjs() {
  const one = lib.yjsClient(url, 'bench');
  one.doc.getMap('notes').observeDeep((events) => {
    for (const { path, target } of events) if (path.length) seen.push([path[0], target.get('at')[0], lib.stamp()]);
  });
  return () => one.provider.synced;
}

const isReady = kind === 'lug' ? await watchLug() : watchYjs();
await lib.until(isReady, 30000);
process.send('ready');
