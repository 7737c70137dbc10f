// What is said of refusals and warnings, at the text that they are about, and while somebody types.

import { MOST, client, names, page, textOf } from './state.mjs';
import { applying, placeInStrategy } from './commands.mjs';
import { button, byId, made, refusalParts, say, warningParts, withCode } from './parts.mjs';
import { choose, editors, saidOf, showPane, showTree } from './view.mjs';
import { refused } from './explain.mjs';

const goButton = (kind, name, place) => button(`Go to line ${place.line}, column ${place.column}`, () => {
  if (kind !== 'strategy' && page[kind] !== name) choose(kind, name);
  if (kind === 'tree') {
    page.isText = true;
    showTree();
  }
  editors[kind].go(place);
});

// In the text that the engine keeps, lines that began in the first column begin with a blank.
function placeInDraft(text, { line, column }, isOfText) {
  const isIndented = isOfText && line > 1 && /^\S/.test(text.split('\n')[line - 1] ?? '');
  return { line, column: column - (isIndented ? 1 : 0) };
}

/** Says of a tree or a module that it is refused, or of another module that the refusal is about. */
export function sayFault(kind, loaded, refusal) {
  const name = names(kind).includes(refusal.module) ? refusal.module : loaded ?? page[kind];
  page[kind] = name;
  page.faulty[kind].add(name);
  if (kind === 'tree') page.isText = true;
  showPane(kind);
  showTree();
  const place = refusal.place && placeInDraft(textOf(kind, name), refusal.place, refusal.isOfText);
  if (place) editors[kind].mark(place, refusal.reason);
  for (const it of refusal.others ?? []) {
    const isOfText = it.module !== undefined;
    if ((it.module ?? loaded) === name) editors[kind].mark(placeInDraft(textOf(kind, name), it.place, isOfText), it.reason);
  }
  say(saidOf(kind), 'refused', ...refusalParts(refusal, place ? [goButton(kind, name, place)] : []));
}

/** Says what an accepted tree or module may not be meant to say. Another tree than the one that is shown stays in the background. */
export function sayWarnings(kind, loaded, warnings) {
  const name = names(kind).includes(warnings[0].module) ? warnings[0].module : loaded ?? page[kind];
  if (kind === 'module') page.module = name;
  showPane(kind);
  if (page[kind] === name) warnings.filter(it => it.place).forEach(it => editors[kind].mark(it.place, it.reason, true));
  say(saidOf(kind), 'warned', ...warningParts(warnings, place => goButton(kind, name, place)));
}

/** Says at the strategy that it isn't run, since a tree or a module is refused, as its own pane says. */
export function sayNotRun() {
  const kind = ['source', 'tree'].find(it => page.faulty[it].size) ?? 'module';
  const show = button(`Show the ${kind}`, () => saidOf(kind).scrollIntoView({ block: 'center' }));
  const name = page[kind === 'source' ? 'tree' : kind];
  say(saidOf('strategy'), 'refused', ...withCode(`Not run, since the ${kind} \`${name}\` is refused. `), show);
}

/** Says of an `apply` or a `preview` that it is refused. `again` makes it once more. */
export function sayRefusal(word, step, refusal, again) {
  if (refusal.module && names('module').includes(refusal.module)) {
    sayFault('module', refusal.module, refusal);
    sayNotRun();
    return;
  }
  const move = place => placeInStrategy(word, step, place);
  const moved = { ...refusal, ...refusal.tell(move) };
  const buttons = [];
  if (refusal.place) {
    const place = move(refusal.place);
    editors.strategy.mark(place, moved.reason);
    for (const it of refusal.others ?? []) if (it.module === undefined) editors.strategy.mark(move(it.place), it.reason);
    buttons.push(goButton('strategy', '', place));
  }
  if (refusal.number === 9) byId('path').setAttribute('aria-invalid', 'true');
  if (refusal.number === 13 && step.budget < MOST) {
    byId('budget').setAttribute('aria-invalid', 'true');
    buttons.push(button(`${word === 'apply' ? 'Apply' : 'Preview'} within 1,000,000 steps`, () => {
      byId('budget').value = MOST;
      again();
    }));
  }
  const calm = refusal.number >= 12 ? [made('div', { textContent: 'Nothing was changed.' })] : [];
  say(saidOf('strategy'), 'refused', ...refusalParts(moved, buttons), ...calm);
}

// ---- checks while somebody types, in a session of their own

/** The calls that show whether a text is refused. */
function checking(kind, step) {
  const modules = [['run', 'begin'], ...names('module').map(name => ['module', name, textOf('module', name)]), ['run', 'commit']];
  if (kind === 'tree') return [['tree', page.tree, textOf('tree', page.tree)]];
  return kind === 'module' ? modules : [...modules, ['tree', 'x', '0'], ['run', applying('preview', step)]];
}

/** Says of what is typed whether it would be refused. */
export async function check(kind) {
  if (page.isBusy || client.isBusy || !page.isChecking) return;
  const name = page[kind];
  const { opened } = page;
  const strategy = editors.strategy.value;
  const step = { kind: 'apply', tree: 'x', path: '/', budget: 1, strategy };
  const outcomes = await client.call('aside', checking(kind, step));
  const isSame = kind === 'strategy' ? editors.strategy.value === strategy : page[kind] === name;
  if (page.isBusy || !isSame || page.opened !== opened) return;
  if (kind === 'strategy') {
    const refusal = refused(outcomes.at(-1));
    const areLoaded = outcomes.slice(0, -1).every(it => it.status === 0);
    if (areLoaded && refusal && strategy.trim() && [8, 10, 11].includes(refusal.number)) sayRefusal('preview', step, refusal);
    return;
  }
  const refusal = outcomes.map(refused).find(Boolean);
  if (refusal && (kind === 'tree' ? page.isText : (refusal.module ?? name) === name)) sayFault(kind, name, refusal);
}
