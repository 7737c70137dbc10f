// Modules and trees from files. The modules are one step, where the first of them stands.

import { AS_JSON, REFUSED } from './engine.mjs';
import { ofCommand, ofFile, parsed, shown } from './telling.mjs';

/** A load that is refused. All was said of it. */
export class Refused extends Error {}

/**
 * Loads files. `loads` has a `kind`, a `name` and a `file` of each, and `run` what it needs: `session`, its `begun()` for another one,
 * `explains`, `json`, `read(file)`, `say(text)` and `tell(text)`.
 */
export function load(loads, run) {
  const modules = loads.filter(it => it.kind === 'module');
  for (const it of loads) {
    if (it.kind === 'tree') loadTree(it, run);
    else if (it === modules[0]) loadModules(modules, run);
  }
}

function loadTree(it, run) {
  const outcome = run.session.tree(it.name, run.read(it.file));
  if (outcome.status === REFUSED) refuse(it, outcome, run);
  tell(it, outcome, run);
}

function loadModules(modules, run) {
  const { session } = run;
  session.run('begin\n');
  const texts = modules.map(it => {
    const text = run.read(it.file);
    const outcome = session.module(it.name, text);
    if (outcome.status === REFUSED) refuse(it, outcome, run);
    return text;
  });
  const outcome = session.run('commit\n');
  if (outcome.status === REFUSED) refuseAll(modules, texts, outcome, run);
  if (run.explains) warn(modules, texts, run);
}

/** Refuses the modules together, for the fault of one. The engine says where in its file that is if it can be loaded where the others are. */
function refuseAll(modules, texts, outcome, run) {
  const at = faultyOf(modules, run);
  const faulty = modules[at];
  const alone = aside(modules, texts, it => it.name !== faulty.name, run, session => session.module(faulty.name, texts[at]));
  if (alone.answers.equals(outcome.answers)) refuse(faulty, alone, run);
  else refuse(faulty, outcome, run, ofCommand);
}

/**
 * The place of the module for which all are refused: of two that define the same the last that was given, or else the one with the first
 * fault. Of several of one name that is the last, whose text counts.
 */
function faultyOf(modules, { session }) {
  session.explain(AS_JSON);
  const [first] = session.run('commit\n').said.toString('latin1').split('\n');
  const { code, module, notes } = parsed(first);
  const others = code === 'twice' ? notes.flatMap(it => it.labels.map(label => label.module)) : [];
  const names = modules.map(it => it.name);
  return Math.max(...[module, ...others].map(it => names.lastIndexOf(it)));
}

/** Says what the modules may not be meant to say, which the engine says of one that is loaded where the others are. */
function warn(modules, texts, run) {
  aside(modules, texts, () => true, run, session => modules.forEach((it, at) => tell(it, session.module(it.name, texts[at]), run)));
}

/** Calls `use` with another session, in which those of the modules are that `takes` wants. */
function aside(modules, texts, takes, run, use) {
  const session = run.begun();
  session.run('begin\n');
  modules.forEach((it, at) => takes(it) && session.module(it.name, texts[at]));
  session.run('commit\n');
  const found = use(session);
  session.close();
  return found;
}

function tell(it, { said }, run, as = ofFile) {
  run.tell(as(said.toString('latin1'), it, run.json));
}

function refuse(it, outcome, run, as = ofFile) {
  if (run.explains && outcome.said.length) tell(it, outcome, run, as);
  else run.say(`stratbench: ${shown(it.file)}: ${outcome.answers.toString()}`);
  throw new Refused();
}
