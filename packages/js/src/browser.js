// The package in browsers, workers and bundlers: the module is fetched from beside the package; a bundler takes it along by this URL.
import { Client, compile } from './client.js';
import { Link } from './link.js';

export * from './index.js';

let compiled = null;
Client.defaultModule = () => {
  compiled ??= compile(fetch(new URL('../canvas.wasm', import.meta.url))).catch((fault) => {
    compiled = null;                                   // the next call tries again
    throw fault;
  });
  return compiled;
};
Link.findWebSocket = async () => globalThis.WebSocket;
