// One file for two threads of the page, as the server serves a fixed list of files: the worker that runs the client (core.js), and the service worker by
// which the page opens without the server (service.js). It is loaded as a classic script too, so it has no import of its own and awaits nothing.
import { startCore } from './core.js';
import { serveKept } from './service.js';

if ('ServiceWorkerGlobalScope' in self) serveKept();
else startCore();
