// The state of the page as the part of its address after `#`, so that a case can be sent.

const encoder = new TextEncoder();
const decoder = new TextDecoder();

const through = async (bytes, stream) => new Uint8Array(await new Response(new Blob([bytes]).stream().pipeThrough(stream)).arrayBuffer());

function toBase64(bytes) {
  let text = '';
  for (const byte of bytes) text += String.fromCharCode(byte);
  return btoa(text).replaceAll('+', '-').replaceAll('/', '_').replace(/=+$/, '');
}

const fromBase64 = text => Uint8Array.from(atob(text.replaceAll('-', '+').replaceAll('_', '/')), it => it.charCodeAt(0));

/** `#z=..` is deflated, `#j=..` is not, where the browser can't. */
export async function written(state) {
  const bytes = encoder.encode(JSON.stringify(state));
  if (typeof CompressionStream === 'undefined') return `#j=${toBase64(bytes)}`;
  return `#z=${toBase64(await through(bytes, new CompressionStream('deflate-raw')))}`;
}

/** The state of an address, the name of an example as `{example}`, or null. */
export async function read(hash) {
  const found = /^#(z|j|example)=(.+)$/.exec(hash);
  if (!found) return null;
  const [, kind, text] = found;
  try {
    if (kind === 'example') return { example: decodeURIComponent(text) };
    const bytes = fromBase64(text);
    const state = JSON.parse(decoder.decode(kind === 'j' ? bytes : await through(bytes, new DecompressionStream('deflate-raw'))));
    return isState(state) ? state : null;
  } catch {
    return null;
  }
}

const areTexts = (it, count) => Array.isArray(it) && it.length === count && it.every(word => typeof word === 'string');
const isPairs = it => Array.isArray(it) && it.every(pair => areTexts(pair, 2));
// A tree's name, the language of its source, and its text. Older addresses have none.
const areSources = it => it === undefined || (Array.isArray(it) && it.every(source => areTexts(source, 3)));

const isTry = it => ['tree', 'path', 'strategy'].every(name => typeof it?.[name] === 'string') && Number.isInteger(it.budget);

function isState(it) {
  return isTry(it) && isPairs(it.trees) && isPairs(it.modules) && ['undefined', 'string'].includes(typeof it.module)
    && areSources(it.sources) && (it.tries === undefined || (Array.isArray(it.tries) && it.tries.every(isTry)));
}
