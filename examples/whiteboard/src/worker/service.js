// The service worker: it keeps the page's files, so the page opens without the server. What the server has comes first. index.html is asked for at each
// load; it names its other files with their version (`page.js?VERSION`), and a file of one version never changes. So a load has the files of one
// version, and it is the server's unless the server doesn't answer in time; then the next load has it.
const PATIENCE = 3000;                                  // milliseconds for index.html, if there is one that was kept
const VERSION = /page\.js\?(\w+)/;
const FILES = ['page.js', 'page.css', 'worker.js', 'lugcurrant.js', 'canvas.wasm', 'favicon.svg'];
const KEPT_VERSIONS = 2;                                // another window may still load the files of the last but one
const under = new Map();                                // files that are being fetched, by URL

export function serveKept() {
  self.addEventListener('install', (event) => event.waitUntil(fetchPage().then(keep).then(() => self.skipWaiting())));
  self.addEventListener('activate', (event) => event.waitUntil(self.clients.claim()));
  self.addEventListener('fetch', (event) => {
    const { request } = event, { pathname, search } = new URL(request.url);
    if (request.method !== 'GET' || !request.url.startsWith(self.registration.scope)) return;
    if (isPage(pathname)) event.respondWith(openPage(event));
    else if (search && FILES.includes(nameOf(pathname))) event.respondWith(fileOf(request.url));
  });
}

// The cache of index.html, and those of the versions: other pages of the same host have others.
const pageCache = () => `whiteboard ${self.registration.scope}`;
const versionCache = (search) => `${pageCache()}${search}`;

const nameOf = (pathname) => pathname.slice(new URL(self.registration.scope).pathname.length);
const isPage = (pathname) => ['', 'index.html'].includes(nameOf(pathname));
const urlOf = (file, version) => new URL(`${file}?${version}`, self.registration.scope).href;

async function fetchPage() {
  const answer = await fetch(self.registration.scope, { cache: 'no-store' });
  if (answer.status >= 500) throw new Error(`the server answers ${answer.status}`);
  return answer;
}

// The server's page, or the one that was kept if it doesn't come. One that comes too late is kept for the next load.
async function openPage(event) {
  const fetched = fetchPage(), kept = await (await caches.open(pageCache())).match(self.registration.scope);
  event.waitUntil(fetched.then((answer) => keep(answer.clone())).catch(() => {}));
  if (!kept) return fetched;
  const late = new Promise((resolve) => { setTimeout(resolve, PATIENCE, kept); });
  return Promise.race([fetched.catch(() => kept), late]);
}

// Keeps a page once all its files are kept.
async function keep(answer) {
  const text = answer.ok ? await answer.clone().text() : '', [, version] = VERSION.exec(text) ?? [];
  if (!version) return;
  const files = await Promise.all(FILES.map((file) => fileOf(urlOf(file, version))));
  if (files.some(({ ok }) => !ok)) return;
  await (await caches.open(pageCache())).put(self.registration.scope, answer);
  const versions = (await caches.keys()).filter((name) => name.startsWith(versionCache('?')));
  for (const old of versions.slice(0, -KEPT_VERSIONS)) await caches.delete(old);
}

// A file of a version: kept, or else fetched and kept.
async function fileOf(url) {
  const files = await caches.open(versionCache(new URL(url).search)), kept = await files.match(url);
  if (kept) return kept;
  if (!under.has(url)) under.set(url, fetchFile(url, files).finally(() => under.delete(url)));
  return (await under.get(url)).clone();
}

async function fetchFile(url, files) {
  const answer = await fetch(url, { cache: 'no-store' });
  if (answer.ok) await files.put(url, answer.clone());
  return answer;
}
