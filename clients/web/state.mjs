// What the page knows: the session, the texts that aren't loaded, and what is chosen. It goes into the page's address.

import { Bench } from './bench.mjs';
import { Client } from './client.mjs';
import { language } from './languages.mjs';
import { laidOut, readTerm, remembered, withCharacters, withoutPositions } from './terms.mjs';
import { written } from './address.mjs';

/** The largest budget. */
export const MOST = 1000000;
/** The longest address that every browser of today takes. */
const LONGEST = 500000;

// The first worker was started by the page's head, before the scripts were there.
let early = window.earlyWorker;

function makeWorker() {
  const worker = early ?? new Worker(new URL('worker.mjs', import.meta.url), { type: 'module' });
  early = undefined;
  return worker;
}

export const client = new Client(makeWorker);
export const bench = new Bench(client);

/**
 * `tree` and `module` are the ones that are shown. `drafts` are texts that were edited and aren't loaded, those of sources by the names of
 * their trees; `faulty` the names of those that were refused, and `marks` the places of the tree that are marked. `draftLanguages` says which
 * language a source has that isn't loaded. `isLeaving` says that the session is about to be left, and `opened` counts those that were
 * begun.
 */
export const page = {
  tree: '',
  module: '',
  drafts: { tree: new Map(), module: new Map(), source: new Map() },
  faulty: { tree: new Set(), module: new Set(), source: new Set() },
  draftLanguages: new Map(),
  order: { tree: [], module: [] },
  marks: new Map(),
  isText: false,
  isBytes: false,
  isBusy: false,
  isLeaving: false,
  opened: 0,
  isTouched: false,
  isChecking: true,
  checking: undefined,
  hash: '',
  tries: [],
  examples: [],
  strategies: [],
  languages: {},
};

export const loadedTexts = kind => (kind === 'tree' ? bench.trees : bench.modules);

/** The names of all trees, or of all modules, in the order in which they came. */
export function names(kind) {
  const there = new Set([...loadedTexts(kind).keys(), ...page.drafts[kind].keys(), ...(kind === 'tree' ? page.drafts.source.keys() : [])]);
  for (const name of there) if (!page.order[kind].includes(name)) page.order[kind].push(name);
  return page.order[kind].filter(it => there.has(it));
}

/** A printed term as it is shown: with the characters of its strings, or with their bytes. */
export const shownText = text => (page.isBytes ? text : withCharacters(text));

/** The name of the language of a tree's source; undefined where it has none. */
export const languageOf = name => bench.sources.get(name)?.language
  ?? (page.drafts.source.has(name) ? page.draftLanguages.get(name) : undefined);

/** A printed term of the tree that is shown, as it is drawn: the places that nodes have in a source are shown there. */
export const drawnText = text => (languageOf(page.tree) ? withoutPositions(shownText(text)) : shownText(text));

/** It as nodes. */
export const shownTerm = text => readTerm(drawnText(text));

const overLines = remembered(text => laidOut(readTerm(text)));

/** The text that is loaded, as an editor shows it; undefined where there is none. */
export function loadedText(kind, name) {
  const text = loadedTexts(kind).get(name);
  return text === undefined || kind === 'module' ? text : overLines(shownText(text));
}

export const textOf = (kind, name) => page.drafts[kind].get(name) ?? loadedText(kind, name) ?? '';

// ---- the address

/** What `{path, budget, strategy}` are now, from the fields of the page. */
export const fields = { now: () => ({ path: '/', budget: 100000, strategy: '' }) };

// Whether a tree is what its source spells, which the address has in its place.
function isSpelled(name) {
  if (page.drafts.source.has(name)) return true;
  const text = bench.sources.get(name)?.text;
  return text !== undefined && !page.drafts.tree.has(name) && language(languageOf(name))?.parse(text).term === bench.trees.get(name);
}

const stateNow = () => ({
  trees: names('tree').filter(name => !isSpelled(name)).map(name => [name, page.drafts.tree.get(name) ?? bench.trees.get(name)]),
  sources: names('tree').filter(languageOf).map(name => [name, languageOf(name), page.drafts.source.get(name) ?? bench.sources.get(name).text]),
  modules: names('module').map(name => [name, textOf('module', name)]),
  tree: page.tree,
  module: page.module,
  ...fields.now(),
});

let keeping;

/** Has the address say soon what is there, if something was changed. */
export function keepAddress() {
  leaveAddress();
  if (page.isTouched && !page.isLeaving) keeping = setTimeout(writeAddress, 300);
}

/** Has the address stay as it is. */
export function leaveAddress() {
  clearTimeout(keeping);
}

/** Has the address say what is there. Resolves to whether it could be that long. */
export async function writeAddress() {
  const { opened } = page;
  const hash = await written(stateNow());
  if (hash.length > LONGEST) return false;
  // another address was entered meanwhile, and is about to be opened, or is open
  if (location.hash !== page.hash || page.opened !== opened) return true;
  page.hash = hash;
  history.replaceState(null, '', hash);
  return true;
}
