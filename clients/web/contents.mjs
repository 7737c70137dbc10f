// Adding and removing trees and modules.

import { askForName } from './parts.mjs';
import { bench, loadedTexts, names, page } from './state.mjs';
import { clearSaid, editors, show } from './view.mjs';
import { loadDrafts, run } from './runs.mjs';
import { prepare } from './languages.mjs';
import { isName } from './commands.mjs';
import { sayFault } from './telling.mjs';

/** What a new module begins with, and where one writes on in it. */
const PARTS = 'signature constructors\n  \nrules\n  \nstrategies\n  ';
const RULES = { line: 4, column: 3 };

function faultOfName(kind, name) {
  if (!isName(name)) return 'A name is a letter or _, then letters, digits and _ - + * $ . \' (64 at most).';
  return names(kind).includes(name) ? `There is a ${kind} of this name.` : undefined;
}

function freeName(kind, first) {
  const there = names(kind);
  for (let i = 1; ; i++) {
    const name = i === 1 ? first : `${first}${i}`;
    if (!there.includes(name)) return name;
  }
}

export async function addTree() {
  const copies = names('tree').filter(it => bench.trees.has(it)).map(it => [`a copy of ${it}`, { copied: it }]);
  const sources = Object.entries(page.languages).map(([language, { title }]) => [`a source in ${title}`, { language }]);
  const starts = [['an empty text', null], ...copies, ...sources];
  const answer = await askForName('Add a tree', freeName('tree', 't'), starts, it => faultOfName('tree', it));
  if (!answer) return;
  page.tree = answer.name;
  page.marks = new Map();
  page.isTouched = true;
  if (answer.from?.copied) {
    await run(() => bench.perform({ kind: 'copy', name: answer.from.copied, to: answer.name }));
    return;
  }
  if (answer.from) {
    await addSource(answer.name, answer.from.language);
    return;
  }
  page.drafts.tree.set(answer.name, '');
  page.isText = true;
  show();
  editors.tree.focus();
}

async function addSource(name, language) {
  await prepare(language, page.languages[language]);
  page.draftLanguages.set(name, language);
  page.drafts.source.set(name, '');
  page.isText = false;
  show();
  editors.source.focus();
}

export async function addModule() {
  const there = names('module');
  const ready = page.strategies.filter(([name]) => !there.includes(name)).map(([name, text]) => [`the strategies ${name}`, { name, text }]);
  const starts = [['a new text', null], ...ready];
  const answer = await askForName('Add a module', freeName('module', 'm'), starts, it => faultOfName('module', it));
  if (!answer) return;
  page.module = answer.name;
  page.isTouched = true;
  page.drafts.module.set(answer.name, answer.from?.text ?? PARTS);
  if (answer.from) {
    await run(loadDrafts);
    return;
  }
  show();
  editors.module.go(RULES);
}

/** Removes the tree or the module that is shown. */
export async function remove(kind) {
  const name = page[kind];
  if (!name) return;
  for (const it of kind === 'tree' ? ['tree', 'source'] : [kind]) {
    page.drafts[it].delete(name);
    page.faulty[it].delete(name);
  }
  page.isTouched = true;
  if (!loadedTexts(kind).has(name)) {
    show();
    return;
  }
  await run(async () => {
    clearSaid();
    const { refusal } = await bench.perform({ kind: kind === 'tree' ? 'drop' : 'unload', name });
    if (refusal) sayFault(kind, name, refusal);
  });
}
