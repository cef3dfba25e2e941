#!/usr/bin/env node
// Random worlds:  worlds.mjs [FIRST [COUNT]] [--trace] [--first]      world.mjs has what happens in one, and checks.mjs what is checked.
// --trace prints each call of a flow (trace.mjs); --first ends with the first fault.
// After each message the client must show what the simple merge of the same messages shows. When a client begins anew, each edit that waited must
// be judged, made again or told. In the end all show the server's document, nothing waits, and each value that was set stands in the log once: but
// for those that were told, and for two classes that no client can see, which are counted: `hidden` and `late`.
import { World } from './world.mjs';
import { isTracing, trace, traceEvents } from './trace.mjs';

const [first = 1, count = 200] = process.argv.slice(2).filter((word) => !word.startsWith('--')).map(Number), total = {};
const mostFaults = process.argv.includes('--first') ? 1 : 9;
let faults = 0;
const begun = performance.now();
for (let seed = first; seed < first + count; seed += 1) {
  const world = new World(seed);
  try {
    const stat = await world.play();
    for (const { n, client, flow } of world.players) {
      traceEvents(flow, n);
      trace('end', n, client.text(), Number(client.version), Number(client.acknowledged), Number(client.waiting), flow.unsent, flow.state);
    }
    for (const key in stat) total[key] = key === 'most' ? Math.max(total[key] ?? 0, stat[key]) : (total[key] ?? 0) + stat[key];
    for (const kind in world.kinds) if (world.kinds[kind]) total[`with ${kind}`] = (total[`with ${kind}`] ?? 0) + 1;
  } catch (fault) {
    faults += 1;
    console.error(`world ${seed} ${JSON.stringify(world.kinds)}: ${fault.stack.split('\n').slice(0, 4).join(' | ').slice(0, 700)}`);
    if (faults >= mostFaults) break;
  }
}
(isTracing ? console.error : console.log)(`${count} worlds, ${faults} faults, ${((performance.now() - begun) / 1000).toFixed(1)} s: ${JSON.stringify(total)}`);
process.exitCode = faults ? 1 : 0;
