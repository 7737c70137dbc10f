// What the buttons do with the session: one thing at a time, each of which can be stopped.

import { MOST, bench, client, drawnText, languageOf, page, shownTerm } from './state.mjs';
import { button, byId, say, soon, withCode } from './parts.mjs';
import { clearSaid, editors, notice, saidOf, show, showButtons, showTree } from './view.mjs';
import { MARKED, differences, pathText, readPath } from './terms.mjs';
import { check, sayFault, sayNotRun, sayRefusal, sayWarnings } from './telling.mjs';
import { language } from './languages.mjs';
import { Broken } from './client.mjs';

/** A run that takes longer than so many milliseconds shows a button to stop it. */
const SOON = 150;

// What is being run, until it has ended.
let running = Promise.resolve();

/** Does something that calls the engine, unless something is being done. Resolves when it is done. */
export function run(act) {
  if (page.isBusy) return Promise.resolve();
  running = alone(act);
  return running;
}

/** Does something in place of what is being done, which is ended. What is made here has nothing of the session before it. */
export async function instead(act) {
  while (page.isBusy) {
    page.isLeaving = true;
    stop();
    await running;
  }
  page.isLeaving = false;
  await run(act);
}

// A run that is stopped or breaks off ends in a session that is made again.
async function alone(act) {
  clearTimeout(page.checking);
  page.isBusy = true;
  showButtons();
  const late = setTimeout(() => {
    byId('stop').hidden = false;
    byId('busy').textContent = 'Running…';
  }, SOON);
  try {
    await act();
  } catch (fault) {
    await recover(fault);
  } finally {
    clearTimeout(late);
    page.isBusy = false;
    // what is shown stays as it is where another session is about to begin
    if (!page.isLeaving) showEnd();
  }
}

function showEnd() {
  if (document.activeElement === byId('stop')) byId('apply').focus();
  byId('stop').hidden = true;
  byId('busy').textContent = '';
  show();
  // on a phone this may be below what is seen
  if (saidOf('strategy').hasChildNodes()) soon(saidOf('strategy'), () => saidOf('strategy').scrollIntoView({ block: 'nearest' }));
}

export function stop() {
  if (page.isBusy) client.end('stopped', 'stopped');
}

const CAUSES = {
  stopped: () => 'The run was stopped.',
  trapped: ({ isStack, message }) => (isStack
    ? 'The engine ran out of stack: this is deeper than the browser allows.'
    : `The engine broke off (${message}).`),
  failed: ({ message }) => `The engine can't go on (${message}).`,
};

async function recover(fault) {
  if (page.isLeaving && fault instanceof Broken) return;
  if (!(fault instanceof Broken)) {
    notice(`This page has a fault: ${fault.message}`);
    console.error(fault);
    return;
  }
  const cause = CAUSES[fault.kind](fault);
  // what is too deep for the engine here isn't checked again as somebody types on
  if (fault.kind === 'trapped') page.isChecking = false;
  try {
    const isWhole = await bench.again();
    notice(`${cause} The session was made again: ${isWhole ? 'nothing is lost.' : 'its trees and modules are there, its steps are gone.'}`);
  } catch (again) {
    notice(`${cause} The session could not be made again (${again.message}). Reload the page: its address keeps your texts.`);
  }
}

// ---- loading what was edited

// Drops the drafts that were loaded, unless somebody has typed on meanwhile.
function forget(drafts, loaded) {
  for (const [name, text] of loaded) if (drafts.get(name) === text) drafts.delete(name);
}

function stepsOfDrafts() {
  const modules = [...page.drafts.module];
  const tree = (name, text, source) => ({ kind: 'tree', name, text, source, isNew: !bench.trees.has(name) });
  const read = [...page.drafts.source].map(([name, text]) => [name, { language: languageOf(name), text }]);
  const trees = [
    ...[...page.drafts.tree].map(([name, text]) => tree(name, text)),
    ...read.map(([name, source]) => tree(name, language(source.language).parse(source.text).term, source)),
  ];
  if (modules.length > 1) return [{ kind: 'modules', modules }, ...trees];
  return [...modules.map(([name, text]) => ({ kind: 'module', name, text, isNew: !bench.modules.has(name) })), ...trees];
}

/** Loads the drafts, each as a step, and several modules as one. Resolves to whether all are accepted. */
export async function loadDrafts() {
  clearSaid();
  const unread = [...page.drafts.source].find(([name, text]) => !language(languageOf(name))?.parse(text).root);
  if (unread) {
    [page.tree] = unread;
    page.faulty.source.add(page.tree);
    showTree();
    return false;
  }
  for (const step of stepsOfDrafts()) {
    const kind = step.kind === 'tree' ? 'tree' : 'module';
    page.marks = new Map();
    const { refusal, warnings } = await bench.perform(step);
    if (refusal) {
      sayFault(kind, step.name, refusal);
      return false;
    }
    if (step.source) forget(page.drafts.source, [[step.name, step.source.text]]);
    else forget(page.drafts[kind], step.modules ?? [[step.name, step.text]]);
    if (warnings.length) sayWarnings(kind, step.name, warnings);
  }
  return true;
}

// ---- applying

function faultOfFields(path, budget, strategy) {
  if (!page.tree) return 'There is no tree: add one.';
  if (!path) return 'A path is `/`, or numbers with a `/` before each, as `/0/2`.';
  if (!budget) return 'The budget is a number of steps from 1 to 1,000,000.';
  return strategy.trim() ? '' : 'Write a strategy first.';
}

/** The step that the fields say; null where one can't be read, which is said. */
function stepNow() {
  const path = readPath(byId('path').value.trim());
  const number = Number(byId('budget').value);
  const budget = Number.isInteger(number) && number >= 1 && number <= MOST ? number : 0;
  const strategy = editors.strategy.value;
  byId('path').setAttribute('aria-invalid', String(!path));
  byId('budget').setAttribute('aria-invalid', String(!budget));
  const fault = faultOfFields(path, budget, strategy);
  if (!fault) return { kind: 'apply', tree: page.tree, path: pathText(path), budget, strategy };
  say(saidOf('strategy'), 'refused', ...withCode(fault));
  return null;
}

/** Loads what was edited. Resolves to the step that the fields say, or to null where something is refused, which is said. */
async function ready() {
  if (await loadDrafts()) return stepNow();
  sayNotRun();
  return null;
}

export async function apply() {
  const step = await ready();
  if (!step) return;
  const before = bench.trees.get(step.tree);
  page.isTouched = true;
  const { refusal, took } = await bench.perform(step);
  saidOf('strategy').dataset.took = took;
  page.marks = new Map();
  if (refusal) {
    sayRefusal('apply', step, refusal, () => run(apply));
    return;
  }
  page.isText = false;
  page.isChecking = true;
  const count = markChanges(before, bench.trees.get(step.tree));
  const what = count ? `${placesOf(count)} ${count < MARKED ? '' : 'or more '}changed. ` : 'the tree stayed the same. ';
  say(saidOf('strategy'), '', `Applied in ${time(took)}: ${what}`, button('Undo', () => run(() => goTo(bench.at - 1))));
}

export async function preview() {
  const step = await ready();
  if (!step) return;
  page.marks = new Map();
  const { refusal, changes, steps, took } = await bench.preview(step);
  if (refusal) {
    sayRefusal('preview', step, refusal, () => run(preview));
    return;
  }
  page.isText = false;
  sayChanges({ changes, steps, took }, isSmall(changes));
}

/** Marks what would be replaced, with both sides where these are shown, and says how much it is. */
function sayChanges({ changes, steps, took }, isShown) {
  page.marks = new Map();
  for (const { path, ...sides } of changes) {
    const [before, after] = [sides.before, sides.after].map(drawnText);
    const told = { title: 'would be…', titles: ['now', 'after'], label: (_, it) => `would be ${it}` };
    page.marks.set(path, { kind: 'preview', before, after, isShown, ...told });
  }
  if (changes.length) {
    const what = `Would replace ${placesOf(changes.length)}, in ${steps.toLocaleString('en')} steps (${time(took)}). `;
    say(saidOf('strategy'), '', what, button('Apply', () => run(apply)));
  } else {
    say(saidOf('strategy'), '', `Would replace nothing: the strategy puts no term anywhere (${steps} steps).`);
  }
}

// ---- while a strategy is typed

/** So many steps a strategy may take that is tried while it is typed. */
const TRIED = 20000;

/**
 * Tries the strategy as it is typed, on the tree that is shown: what it would replace is marked. Where a text is edited that isn't
 * loaded, or a field is wrong, it is only said of the strategy whether it would be refused.
 */
export async function tryOut() {
  const path = readPath(byId('path').value.trim());
  const areDrafts = Object.values(page.drafts).some(it => it.size);
  if (areDrafts || !path || page.isText || !bench.trees.has(page.tree)) return check('strategy');
  if (page.isBusy || client.isBusy || !page.isChecking || !editors.strategy.value.trim()) return undefined;
  const { opened } = page;
  const { at } = bench;
  const step = { kind: 'apply', tree: page.tree, path: pathText(path), budget: TRIED, strategy: editors.strategy.value };
  const found = await bench.preview(step);
  const isSame = page.opened === opened && bench.at === at && page.tree === step.tree && editors.strategy.value === step.strategy
    && byId('path').value.trim() === step.path;
  if (page.isBusy || !isSame) return undefined;
  sayTried(step, found);
  return undefined;
}

function sayTried(step, found) {
  const { refusal } = found;
  if (!refusal) sayChanges(found, false);
  else {
    page.marks = new Map();
    if ([8, 10, 11].includes(refusal.number)) sayRefusal('preview', step, refusal);
    else if (refusal.number === 13) say(saidOf('strategy'), '', `It takes more than ${TRIED.toLocaleString('en')} steps: Preview shows what it does.`);
    else say(saidOf('strategy'), '', ...withCode(`It would be refused (${refusal.word}): ${refusal.reason}`));
  }
  showTree();
}

/** Goes to a place in the timeline, and shows a tree that differs there. */
export async function goTo(at) {
  clearSaid();
  const before = new Map(bench.trees);
  await bench.goTo(at);
  page.isTouched = true;
  page.marks = new Map();
  const changed = [...bench.trees.keys()].filter(it => before.get(it) !== bench.trees.get(it));
  if (changed.length && !changed.includes(page.tree)) [page.tree] = changed;
  if (before.has(page.tree) && bench.trees.has(page.tree)) markChanges(before.get(page.tree), bench.trees.get(page.tree));
}

/** Marks where two trees differ. Returns at how many places, or MARKED where there are more. */
function markChanges(before, after) {
  const found = differences(shownTerm(before), shownTerm(after));
  const isShown = isSmall(found);
  const told = { kind: 'changed', isShown, title: 'was…', titles: ['before', 'now'], label: it => `was ${it}` };
  page.marks = new Map(found.map(it => [pathText(it.path), { before: String(it.before), after: String(it.after), ...told }]));
  return found.length;
}

// Few and small enough to be shown with both sides at once.
const isSmall = changes => changes.length <= 6 && changes.every(it => String(it.before).length + String(it.after).length < 4000);

const placesOf = count => `${count.toLocaleString('en')} ${count === 1 ? 'place' : 'places'}`;

export const time = ms => (ms < 10 ? `${ms.toFixed(1)} ms` : ms < 1000 ? `${Math.round(ms)} ms` : `${(ms / 1000).toFixed(1)} s`);
