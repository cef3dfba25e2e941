// Clients that each drag a note of its own:  drag.mjs lug|yjs URL CLIENTS HZ SECONDS OUT [plain|coalesce]     started by lag.mjs
//
// A step is an edit of the note's place: [step, time]. With `coalesce` a client of Lugcurrant makes the last step alone, once nothing waits, as a
// program would that thins out its edits by itself.
import { writeFileSync } from 'node:fs';
import * as lib from './lib.mjs';

const [kind, url, ...words] = process.argv.slice(2), [clientCount, hz, seconds] = words.map(Number), [, , , out, mode = 'plain'] = words;
const edits = [];                                       // [note, step, time]
const waits = [];                                       // [seconds, edits that wait] of the first client, each second
let most = 0;                                           // edits that waited, at most

// Each kind's client: whether it is ready, how it takes a note, sets its place, and how much waits.
async function lugDragger() {
  const { client, link } = await lib.lugClient(url, JSON.parse(process.env.PAUSES ?? '{}'));
  return {
    isReady: () => client.id && client.children(lib.ROOT).length > 0,
    trouble: () => `${link.state} ${link.words}`,
    take() { this.note = client.createLast('shape', client.children(lib.ROOT)[0]); },
    set(place) { client.set(this.note, 'at', place); },
    waiting: () => Number(client.waiting),
  };
}

function yjsDragger() {
  const { Y, doc, provider } = lib.yjsClient(url, 'bench'), note = new Y.Map();
  return {
    isReady: () => provider.synced,
    trouble: () => 'not synced',
    take() {
      this.note = `n${doc.clientID}`;
      note.set('at', [0, 0]);
      doc.getMap('notes').set(this.note, note);
    },
    set: (place) => note.set('at', place),
    waiting: () => provider.ws?.bufferedAmount ?? 0,
  };
}

// Drags until the time is over. A step that was passed over for the sake of what waits is made in the end, if it is the last.
async function drag(one, number, begun) {
  await lib.sleep((number / clientCount) * 1000 / hz);
  const first = performance.now();
  let left = null;
  for (let step = 1; performance.now() - begun < seconds * 1000; step += 1) {
    const time = lib.stamp();
    edits.push([one.note, step, time]);
    const isLate = mode === 'coalesce' && kind === 'lug' && one.waiting() > 0;
    if (!isLate) one.set([step, time]);
    left = isLate ? step : null;
    most = Math.max(most, one.waiting());
    if (number === 0 && step % hz === 0) waits.push([Math.round((performance.now() - begun) / 100) / 10, one.waiting()]);
    await lib.sleep(Math.max(0, first + step * 1000 / hz - performance.now()));
  }
  if (left === null) return;
  while (one.waiting() > 0) await lib.sleep(2);
  one.set([left, lib.stamp()]);
}

const draggers = [];
for (let k = 0; k < clientCount; k += 1) draggers.push(kind === 'lug' ? await lugDragger() : yjsDragger());
if (!await lib.until(() => draggers.every((one) => one.isReady()), 60000, 20)) {
  console.log('NOT READY', draggers.map((one) => one.trouble()).join());
  process.exit(1);
}
for (const one of draggers) one.take();
const isEmpty = () => draggers.every((one) => one.waiting() === 0);
await lib.until(isEmpty, 30000, 20);
process.send?.('go');
await lib.sleep(300);
const begun = performance.now();
await Promise.all(draggers.map((one, number) => drag(one, number, begun)));
const ended = performance.now(), isDrained = await lib.until(isEmpty, 120000, 10);
writeFileSync(out, JSON.stringify({ edits, waits, most, drained: isDrained ? Math.round(performance.now() - ended) : -1 }));
await lib.sleep(1500);
process.exit(0);
