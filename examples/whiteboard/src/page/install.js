// Installs the service worker (src/worker/service.js), by which the page opens without the server. It is the same file as the worker's, as the server
// serves a fixed list of files. A browser has none for a page from another machine without https.
if (navigator.serviceWorker) {
  addEventListener('load', () => {
    navigator.serviceWorker.register('worker.js?service', { updateViaCache: 'none' }).catch((fault) => console.warn(`cannot keep the page for use without the server: ${fault.message}`));
  });
}
