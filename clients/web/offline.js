// The service worker: what the server hands out is kept, and is used where the server can't be reached.

const KEPT = 'playground';

/** Keeps all files of the page, so that it opens without the network from the first visit on. */
async function keepAll() {
  const files = await (await fetch('files.json', { cache: 'no-store' })).json();
  await (await caches.open(KEPT)).addAll(files.map(file => new Request(file, { cache: 'no-store' })));
}

/** What the server says, which is kept; without a server what was kept. */
async function answered(request) {
  const kept = await caches.open(KEPT);
  try {
    const response = await fetch(request);
    if (response.ok) await kept.put(request, response.clone());
    return response;
  } catch (fault) {
    const found = await kept.match(request, { ignoreSearch: true });
    if (found) return found;
    throw fault;
  }
}

self.addEventListener('install', event => event.waitUntil(keepAll().then(() => self.skipWaiting())));
self.addEventListener('activate', event => event.waitUntil(self.clients.claim()));
self.addEventListener('fetch', event => {
  if (event.request.method === 'GET' && new URL(event.request.url).origin === location.origin) event.respondWith(answered(event.request));
});
