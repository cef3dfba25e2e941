// A TCP proxy that holds bytes for half a round trip each way:  proxy.mjs LISTEN TARGET RTT CONTROL
//
// LISTEN, TARGET and CONTROL are ports of the loopback, RTT is in milliseconds. A GET at CONTROL is answered by the counts as JSON; before that
// /reset sets them to 0, /rtt?N takes another round trip, /cut ends all connections and takes no more, and /up takes them again.
import http from 'node:http';
import net from 'node:net';

const [listen, target, firstRtt, control] = process.argv.slice(2).map(Number);
const EARLY = 0.3;                                      // milliseconds: a timer may be that much too early
const stats = { up: 0, down: 0, upChunks: 0, downChunks: 0, connections: 0 };
const pairs = new Set();
let rtt = firstRtt, isCut = false;

// Passes what comes from one socket on to the other, later.
function pump(from, to, direction) {
  const queue = [];
  let timer = null;

  function pass(data) {
    if (data === null) to.end();
    else if (!to.destroyed) to.write(data);
  }
  function flush() {
    const now = performance.now();
    while (queue.length && queue[0].due <= now + EARLY) pass(queue.shift().data);
    timer = queue.length ? setTimeout(flush, Math.max(0, queue[0].due - now)) : null;
  }
  function later(data) {
    if (rtt === 0 && !queue.length) { pass(data); return; }
    queue.push({ data, due: performance.now() + rtt / 2 });
    timer ??= setTimeout(flush, rtt / 2);
  }

  from.on('data', (data) => {
    stats[direction] += data.length;
    stats[`${direction}Chunks`] += 1;
    later(data);
  });
  from.on('end', () => later(null));
  from.on('error', () => to.destroy());
  from.on('close', () => { if (queue.length) setTimeout(() => to.destroy(), rtt + 50); else to.destroy(); });
}

net.createServer({ allowHalfOpen: true, noDelay: true }, (client) => {
  if (isCut) { client.destroy(); return; }
  stats.connections += 1;
  const server = net.connect({ port: target, host: '127.0.0.1', noDelay: true, allowHalfOpen: true });
  const pair = { client, server };
  pairs.add(pair);
  client.on('close', () => pairs.delete(pair));
  pump(client, server, 'up');
  pump(server, client, 'down');
}).listen(listen, '127.0.0.1', 512);

function obey(url) {
  if (url === '/cut') {
    isCut = true;
    for (const { client, server } of pairs) { client.destroy(); server.destroy(); }
  }
  if (url === '/up') isCut = false;
  if (url === '/reset') for (const name of Object.keys(stats)) stats[name] = 0;
  if (url.startsWith('/rtt?')) rtt = Number(url.slice('/rtt?'.length));
}

http.createServer(({ url }, answer) => {
  obey(url);
  answer.end(JSON.stringify({ ...stats, open: pairs.size, cut: isCut, rtt }));
}).listen(control, '127.0.0.1');
