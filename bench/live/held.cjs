// Prints what a y-websocket server holds, as Yjs reads it:  held.cjs PORT
// The last step of each client, in the order of their numbers, as JSON. It finds yjs, y-websocket
// and ws by NODE_PATH.
const Y = require('yjs'), { WebsocketProvider } = require('y-websocket'), WebSocket = require('ws');

const doc = new Y.Doc(), url = `ws://127.0.0.1:${process.argv[2]}`;
const options = { WebSocketPolyfill: WebSocket, disableBc: true };
new WebsocketProvider(url, 'bench', doc, options).on('synced', () => {
  const objects = [...doc.getMap('objects').entries()].sort(([one], [other]) => one - other);
  console.log(JSON.stringify(objects.map(([, object]) => object.get('t') ?? 0)));
  process.exit(0);
});
setTimeout(() => process.exit(1), 60000);
