// What the page shows: its panes, its editors and its steps.

import { Find } from './find.mjs';
import { Outline } from './outline.mjs';
import { SourcePane } from './source_pane.mjs';
import { Tabs, button, byId, say, showTimeline, withCode } from './parts.mjs';
import { bench, fields, keepAddress, languageOf, loadedText, names, page, shownTerm, textOf } from './state.mjs';
import { labelOf } from './commands.mjs';
import { completionsOf, meaningOf } from './names.mjs';
import { makeEditor } from './editors.mjs';
import { pathText, readPath } from './terms.mjs';
import { sourceOf } from './source.mjs';

/** What is done when something is chosen or typed; the page fills it in. */
export const on = { edited() {}, goTo() {}, tried() {} };

const chosen = path => {
  byId('path').value = path;
  pathChanged();
  byId('tree-hint').replaceChildren(...withCode(`The strategy is applied at \`${path}\`.`));
  sourcePane.mark(path);
};

const outline = new Outline(byId('outline'), chosen);
const find = new Find(outline, chosen);
const sourcePane = new SourcePane(select, sourceEdited);

const known = { complete: completionsOf, explain: meaningOf };

export const editors = {
  tree: makeEditor(byId('tree-input'), { mode: 'terms', changed: text => edited('tree', text) }),
  module: makeEditor(byId('module-input'), { mode: 'strategies', ...known, changed: text => edited('module', text) }),
  strategy: makeEditor(byId('strategy-input'), { mode: 'strategies', ...known, changed: strategyChanged, numbers: false }),
  source: sourcePane.editor,
};

const tabs = {
  tree: new Tabs(byId('tree-tabs'), 'tree-panel', name => choose('tree', name)),
  module: new Tabs(byId('module-tabs'), 'module-panel', name => choose('module', name)),
};

fields.now = () => ({ path: byId('path').value, budget: Number(byId('budget').value), strategy: editors.strategy.value });

export const saidOf = kind => byId(`${kind}-said`);

// ---- showing

export function show() {
  for (const kind of ['tree', 'module']) showPane(kind);
  showTree();
  const steps = bench.steps.map(it => ({ label: labelOf(it), kind: it.kind }));
  showTimeline(byId('steps'), steps, bench.at, at => on.goTo(at));
  const tries = page.tries.map(it => button(labelOf({ kind: 'apply', ...it }), () => on.tried(it)));
  byId('tries').replaceChildren(...(tries.length ? ['Try: ', ...tries] : []));
  showButtons();
  keepAddress();
}

function showTabs(kind) {
  const kinds = kind === 'tree' ? ['tree', 'source'] : [kind];
  const is = (what, name) => kinds.some(it => page[what][it].has(name));
  const all = names(kind).map(name => ({ name, isEdited: is('drafts', name), isFaulty: is('faulty', name) }));
  tabs[kind].show(all, page[kind]);
}

export function showPane(kind) {
  const all = names(kind);
  if (!all.includes(page[kind])) page[kind] = all.at(-1) ?? '';
  const name = page[kind];
  showTabs(kind);
  // laying a large tree out as text takes long, and most of the time nobody looks at it
  if (kind === 'module' || isTextShown()) editors[kind].value = name && textOf(kind, name);
  editors[kind].label = name ? `Text of the ${kind} ${name}` : `There is no ${kind}`;
  editors[kind].isReadOnly = !name;
  byId(`${kind}-remove`).disabled = !name;
}

const isTextShown = () => page.isText || (!bench.trees.has(page.tree) && !languageOf(page.tree));

/** The printed tree that is shown: that of the source as it is typed, where that can be read. */
export function shownTree() {
  const typed = page.drafts.source.has(page.tree) && sourceOf(page.tree).root;
  return typed ? String(typed) : bench.trees.get(page.tree);
}

export function showTree() {
  const text = shownTree();
  const isText = isTextShown();
  byId('tree-editor').hidden = !isText;
  byId('outline-box').hidden = isText;
  byId('find-box').hidden = isText;
  byId('tree-hint').hidden = isText;
  byId('tree-text').setAttribute('aria-pressed', String(isText));
  byId('tree-bytes').setAttribute('aria-pressed', String(page.isBytes));
  if (isText) {
    editors.tree.value = page.tree && textOf('tree', page.tree);
    editors.tree.refresh();
  }
  const path = pathText(readPath(byId('path').value) ?? []);
  byId('path-root').hidden = path === '/';
  sourcePane.show(page.tree, path);
  if (isText) return;
  outline.show(text === undefined ? undefined : shownTerm(text), { marks: page.marks, path, keep: outline.name === page.tree });
  outline.name = page.tree;
  find.renew();
}

export function showButtons() {
  byId('undo').disabled = page.isBusy || !bench.canUndo;
  byId('redo').disabled = page.isBusy || !bench.canRedo;
  for (const id of ['apply', 'preview']) byId(id).setAttribute('aria-disabled', String(page.isBusy));
  document.body.classList.toggle('running', page.isBusy);
}

export function notice(text) {
  byId('notice').hidden = !text;
  byId('notice').replaceChildren(...withCode(text));
}

/** Takes away all that was said and marked of refusals. */
export function clearSaid() {
  for (const kind of ['tree', 'module', 'strategy', 'source']) {
    say(saidOf(kind));
    editors[kind].clear();
  }
  page.faulty = { tree: new Set(), module: new Set(), source: new Set() };
  for (const id of ['path', 'budget']) byId(id).removeAttribute('aria-invalid');
  notice('');
}

// ---- what somebody does

function edited(kind, text) {
  const name = page[kind];
  if (text === loadedText(kind, name)) page.drafts[kind].delete(name);
  else page.drafts[kind].set(name, text);
  page.isTouched = true;
  page.faulty[kind].delete(name);
  say(saidOf(kind));
  editors[kind].clear();
  if (kind === 'tree') {
    page.marks = new Map();
    // of a tree and its source that which was edited last is loaded
    if (bench.trees.has(name)) page.drafts.source.delete(name);
  }
  showTabs(kind);
  keepAddress();
  on.edited(kind);
}

// The source is read soon, and the tree with it.
function sourceEdited(text) {
  const name = page.tree;
  page.drafts.tree.delete(name);
  page.drafts.source.delete(name);
  if (!bench.trees.has(name) || sourceOf(name)?.text !== text) page.drafts.source.set(name, text);
  page.marks = new Map();
  page.faulty.source.delete(name);
  // the path was that of what was clicked on
  byId('path').value = '/';
  pathChanged();
  showTabs('tree');
  on.edited('source');
}

/** Takes what is at a path as what the strategy is applied to, and shows it in the tree and in the source. */
export function select(path) {
  if (!byId('outline-box').hidden) outline.reach(path);
  chosen(path);
}

export function strategyChanged() {
  page.isTouched = true;
  editors.strategy.clear();
  say(saidOf('strategy'));
  keepAddress();
  on.edited('strategy');
}

export function pathChanged() {
  page.isTouched = true;
  byId('path').removeAttribute('aria-invalid');
  byId('path-root').hidden = byId('path').value.trim() === '/';
  keepAddress();
}

export function choose(kind, name) {
  page[kind] = name;
  if (kind === 'tree') {
    page.marks = new Map();
    byId('path').value = '/';
  }
  editors[kind].clear();
  show();
}
