// The page: opens an example or the case of its address, and says what buttons and keys do.

import { addModule, addTree, remove } from './contents.mjs';
import { apply, goTo, instead, loadDrafts, preview, run, stop, time, tryOut } from './runs.mjs';
import { bench, client, leaveAddress, names, page, writeAddress } from './state.mjs';
import { byId, showText, wireTextDialog } from './parts.mjs';
import { check, sayFault } from './telling.mjs';
import { choose, clearSaid, editors, notice, on, pathChanged, select, show, showTree, strategyChanged } from './view.mjs';
import { language, prepare } from './languages.mjs';
import { read } from './address.mjs';

// ---- opening

/** The sources of a state: those of trees that are there, or that can be read, whose trees are added; and the texts of the others. */
async function sourcesOf({ trees, sources = [] }) {
  await Promise.all(sources.map(([, name]) => prepare(name, page.languages[name])));
  const found = { trees: [...trees], sources: [], unread: new Map() };
  for (const [name, known, given] of sources) {
    const text = given.replace(/\r\n?/g, '\n');
    const { term } = language(known)?.parse(text) ?? {};
    const isThere = trees.some(it => it[0] === name);
    if (!isThere && term !== undefined) found.trees.push([name, term]);
    if (isThere || term !== undefined) found.sources.push([name, { language: known, text }]);
    else found.unread.set(name, text);
  }
  return found;
}

/** Opens a state: its trees and modules become a new session, which the timeline begins with. A run that is going on is ended. */
const open = (state, hash, said) => instead(async () => {
  const { trees, sources, unread } = await sourcesOf(state);
  const texts = { tree: new Map(trees), module: new Map(state.modules), source: unread };
  clearSaid();
  Object.assign(page, {
    tree: state.tree,
    module: state.module ?? state.modules.at(-1)?.[0] ?? '',
    drafts: { tree: new Map(texts.tree), module: new Map(texts.module), source: unread },
    draftLanguages: new Map(state.sources?.map(([name, known]) => [name, known])),
    opened: page.opened + 1,
    order: { tree: [...texts.tree.keys()], module: [...texts.module.keys()] },
    marks: new Map(),
    isText: false,
    isTouched: false,
    isChecking: true,
    hash,
    tries: state.tries ?? [],
  });
  byId('about').textContent = state.about ?? '';
  byId('path').value = state.path;
  byId('budget').value = state.budget;
  byId('example').value = state.id ?? '';
  editors.strategy.value = state.strategy;
  bench.clear({ trees: [], modules: [], sources: [] });
  if (!client.isThere) await client.start();
  const faults = await bench.begin({ trees, modules: state.modules, sources });
  page.drafts = { tree: new Map(), module: new Map(), source: unread };
  for (const { kind, name } of faults) page.drafts[kind].set(name, texts[kind].get(name));
  for (const { kind, name, refusal } of faults.reverse()) sayFault(kind, name, refusal);
  if (said) notice(said);
});

/** What an address opens, and what is said of that. */
function stateOf(hash, found) {
  if (!hash) return { state: page.examples[0], said: '' };
  if (found && !('example' in found)) return { state: { ...found, about: 'A case that was sent in the address of this page.' }, said: '' };
  const example = page.examples.find(it => it.id === found?.example);
  if (example) return { state: example, said: '' };
  return { state: page.examples[0], said: 'The address holds no case that this page can read, so an example is shown.' };
}

async function openAddress() {
  const { hash } = location;
  if (hash && hash === page.hash) return;
  leaveAddress();
  const found = await read(hash);
  // of several addresses one after the other the last is opened
  if (hash !== location.hash) return;
  const { state, said } = stateOf(hash, found);
  await open(state, hash, said);
}

// ---- what is done

function take({ tree, path, budget, strategy }) {
  if (names('tree').includes(tree) && tree !== page.tree) choose('tree', tree);
  byId('path').value = path;
  byId('budget').value = budget;
  editors.strategy.value = strategy;
  page.marks = new Map();
  strategyChanged();
  show();
  byId('apply').focus();
}

async function share() {
  page.isTouched = true;
  if (await writeAddress()) showText('Share', 'This address holds the trees, the modules and the strategy as they are now.', location.href);
  else showText('Share', 'The trees and modules are too long for an address: send the script in its place.', '');
}

function toggleText() {
  if (page.isText && page.drafts.tree.size) {
    run(async () => { if (await loadDrafts()) page.isText = false; });
    return;
  }
  page.isText = !page.isText;
  show();
}

function wholeTree() {
  select('/');
  byId('path').focus();
}

function toggleBytes() {
  page.isBytes = !page.isBytes;
  page.marks = new Map();
  show();
}

const back = () => bench.canUndo && run(() => goTo(bench.at - 1));
const forth = () => bench.canRedo && run(() => goTo(bench.at + 1));

const CHECKS = { strategy: tryOut, tree: () => check('tree'), module: () => check('module'), source: async () => showTree() };

/** Checks soon what is typed, unless something is run first. */
function checkSoon(kind) {
  clearTimeout(page.checking);
  const tried = CHECKS[kind];
  page.checking = setTimeout(() => tried().catch(fault => {
    if (fault.kind === 'trapped') run(() => { throw fault; });
  }), 500);
}

// ---- keys and buttons

const isTyping = target => target.closest?.('input, textarea, select, .CodeMirror');

/** What a key does, or undefined. */
function actOf(event) {
  const isCommand = event.ctrlKey || event.metaKey;
  const key = event.key.toLowerCase();
  if (key === 'enter' && isCommand) return () => run(apply);
  if (key === 'enter' && event.altKey) return () => run(preview);
  if (key === 'escape' && page.isBusy) return stop;
  if (!isCommand || event.altKey || isTyping(event.target)) return undefined;
  if (key === 'y' || (key === 'z' && event.shiftKey)) return forth;
  return key === 'z' ? back : undefined;
}

function pressed(event) {
  const act = document.querySelector('dialog[open]') ? undefined : actOf(event);
  if (!act) return;
  event.preventDefault();
  event.stopPropagation();
  act();
}

function wire() {
  Object.assign(on, { edited: checkSoon, goTo: at => run(() => goTo(at)), tried: take });
  const clicks = {
    apply: () => run(apply),
    preview: () => run(preview),
    stop,
    undo: back,
    redo: forth,
    share,
    script: () => showText('Script', 'Commands that lead from nothing to what is there now, for the program.', bench.script()),
    dump: () => run(async () => showText('Dump', 'A script that makes the trees and modules again, as they are now.', await bench.dump())),
    'path-root': wholeTree,
    'tree-add': addTree,
    'tree-remove': () => remove('tree'),
    'tree-text': toggleText,
    'tree-bytes': toggleBytes,
    'module-add': addModule,
    'module-remove': () => remove('module'),
  };
  for (const [id, act] of Object.entries(clicks)) byId(id).onclick = act;
  byId('path').oninput = pathChanged;
  byId('path').onchange = showTree;
  byId('budget').oninput = pathChanged;
  byId('example').onchange = ({ target }) => { location.hash = `example=${target.value}`; };
  document.addEventListener('keydown', pressed, true);
  addEventListener('hashchange', openAddress);
  wireTextDialog();
}

async function begin() {
  wire();
  const [took, found] = await Promise.all([client.start(), fetch(new URL('examples.json', import.meta.url)).then(it => it.json())]);
  Object.assign(page, found);
  byId('unproved').hidden = page.isProved;
  byId('engine').textContent = `The engine was ready after ${time(took)}.`;
  byId('example').append(...page.examples.map(it => new Option(it.title, it.id)));
  await openAddress();
  document.documentElement.dataset.ready = Math.round(performance.now());
}

// Without the network the page opens from what was kept. Over plain HTTP from another machine nothing can be kept.
navigator.serviceWorker?.register('offline.js').catch(() => {});

begin().catch(fault => notice(`The workbench can't start here: ${fault.message}`));
