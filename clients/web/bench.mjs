// What the page knows of the session: its steps, its trees and modules as the engine has them, and how to make it again.

import { applying, commandOf, touched } from './commands.mjs';
import { refused, warnings } from './explain.mjs';
import { Broken } from './client.mjs';

/** The most milliseconds of steps that are run again. Beyond them a session is made again from its trees and modules alone. */
const REPLAYED = 3000;

/** Where the two terms of a line of `preview` part: the first ` => ` outside of quotes. */
const CHANGE = /^(\S+) ((?:[^"]|"(?:[^"\\]|\\.)*")*?) => ([^]*)$/;

export class Bench {
  constructor(client) {
    this.client = client;
    this.clear({ trees: [], modules: [], sources: [] });
  }

  clear(base) {
    this.base = base;
    this.begun = { trees: [], modules: [] };                // what of it was accepted
    this.steps = [];                                        // those to undo, and after `at` those to redo
    this.at = 0;
    this.trees = new Map();                                 // texts as the engine prints them
    this.modules = new Map();                               // texts as the page gave them
    this.sources = new Map();                               // of a tree: the source that it was read from, `{language, text}`
  }

  get canUndo() { return this.at > 0; }
  get canRedo() { return this.at < this.steps.length; }

  make(...words) { return this.client.call('make', ...words); }

  /** Runs commands. Returns the answers without the last line feed. */
  async ask(script) { return (await this.make('run', script)).answers.replace(/\n$/, ''); }

  /**
   * Begins a session with these trees and modules, `{modules, trees, sources}`. All are one step, which the timeline begins with.
   * Where some are refused, the others are loaded. Returns the refused ones, `{kind, name, refusal}`.
   */
  async begin(base) {
    await this.client.call('begin');
    this.clear(base);
    const faults = await this.loadTogether(base) ?? await this.loadApart(base);
    await this.refresh(base.trees.map(([name]) => name));
    this.sources = new Map(base.sources.filter(([name]) => this.trees.has(name)));
    this.begun = { trees: [...this.trees], modules: [...this.modules] };
    return faults;
  }

  async loadTogether({ modules, trees }) {
    await this.make('run', 'begin');
    for (const [kind, many] of [['module', modules], ['tree', trees]]) {
      for (const [name, text] of many) {
        if ((await this.make(kind, name, text)).status) {
          await this.make('run', 'abandon');
          return null;
        }
      }
    }
    if ((await this.make('run', 'commit')).status) {
      await this.make('run', 'abandon');
      return null;
    }
    for (const [name, text] of modules) this.modules.set(name, text);
    return [];
  }

  // Modules that need others come again after those, as long as that helps.
  async loadApart({ modules, trees }) {
    let left = [...modules];
    let faults;
    do {
      faults = [];
      for (const [name, text] of left) {
        const outcome = await this.make('module', name, text);
        if (outcome.status) faults.push({ kind: 'module', name, refusal: refused(outcome) });
        else this.modules.set(name, text);
      }
      const next = left.filter(([name]) => faults.some(it => it.name === name));
      if (next.length === left.length) break;
      left = next;
    } while (left.length);
    for (const [name, text] of trees) {
      const outcome = await this.make('tree', name, text);
      if (outcome.status) faults.push({ kind: 'tree', name, refusal: refused(outcome) });
    }
    return faults;
  }

  /** Makes a step. Returns `{refusal, warnings, took}`; a refused one changes nothing. */
  async perform(step) {
    const outcome = await this.done(step);
    const refusal = refused(outcome);
    if (refusal) return { refusal, warnings: [], took: outcome.took };
    this.steps.length = this.at;
    this.steps.push({ ...step, took: outcome.took, modulesBefore: new Map(this.modules), sourcesBefore: new Map(this.sources) });
    this.at++;
    this.keep(step);
    await this.refresh(touched(step));
    if (step.kind === 'tree') this.steps.at(-1).printed = this.trees.get(step.name);
    return { refusal: null, warnings: warnings(outcome), took: outcome.took };
  }

  async done(step) {
    if (step.kind === 'tree' || step.kind === 'module') return this.make(step.kind, step.name, step.text);
    if (step.kind === 'modules') return this.loadInGroup(step.modules);
    return this.make('run', commandOf(step), 100000);
  }

  async loadInGroup(modules) {
    await this.make('run', 'begin');
    const said = [];
    for (const [name, text] of modules) {
      const outcome = await this.make('module', name, text);
      if (outcome.status) {
        await this.make('run', 'abandon');
        return outcome;
      }
      said.push(outcome.said);
    }
    const outcome = await this.make('run', 'commit');
    if (outcome.status) await this.make('run', 'abandon');
    return { ...outcome, said: said.join('') + outcome.said };
  }

  /** Notes what a step makes of the modules' texts and of the sources. */
  keep(step) {
    if (step.kind === 'module') this.modules.set(step.name, step.text);
    if (step.kind === 'modules') step.modules.forEach(([name, text]) => this.modules.set(name, text));
    if (step.kind === 'unload') this.modules.delete(step.name);
    if (step.kind === 'tree' && step.source) this.sources.set(step.name, step.source);
    if (step.kind === 'copy' && this.sources.has(step.name)) this.sources.set(step.to, this.sources.get(step.name));
    if (step.kind === 'drop') this.sources.delete(step.name);
  }

  /** Shows what `apply` would replace: `{changes: [{path, before, after}], steps}`, or `{refusal}`. */
  async preview(step) {
    const outcome = await this.make('run', applying('preview', step), 100000);
    const refusal = refused(outcome);
    if (refusal) return { refusal };
    const [first, ...lines] = outcome.answers.trimEnd().split('\n');
    const changes = lines.map(it => CHANGE.exec(it)).map(([, path, before, after]) => ({ path, before, after }));
    return { changes, steps: Number(/steps (\d+)/.exec(first)[1]), took: outcome.took };
  }

  /** Goes to the place in the timeline after so many steps. */
  async goTo(at) {
    const [from, to] = [Math.min(at, this.at), Math.max(at, this.at)];
    if (from === to) return;
    const command = at < this.at ? `undo ${this.at - at}` : `redo ${at - this.at}`;
    const outcome = await this.make('run', command);
    if (outcome.status) throw new Broken('failed', outcome.answers);
    const passed = this.steps.slice(from, to);
    if (at < this.at) {
      this.modules = new Map(passed[0].modulesBefore);
      this.sources = new Map(passed[0].sourcesBefore);
    } else passed.forEach(step => this.keep(step));
    this.at = at;
    await this.refresh(passed.flatMap(step => touched(step)));
  }

  // What the engine says that these trees are now.
  async refresh(trees) {
    for (const name of new Set(trees)) {
      const { answers, status } = await this.make('show', name);
      if (status) this.trees.delete(name);
      else this.trees.set(name, answers.replace(/\n$/, ''));
    }
  }

  dump() { return this.ask('dump'); }

  /** The commands that lead from nothing to the session as it is. */
  script() {
    const { trees, modules } = this.begun;
    const loads = (kind, many) => many.map(([name, text]) => commandOf({ kind, name, text }));
    const commands = [...loads('module', modules), ...loads('tree', trees)];
    const together = modules.length > 1 ? ['begin', ...commands, 'commit'] : commands;
    return [...together, ...this.steps.slice(0, this.at).map(commandOf)].join('\n');
  }

  /**
   * Makes the session again, in a new worker. Returns whether its steps are there again: they are run once more where that
   * takes no longer than some seconds, else there are its trees and modules alone.
   */
  async again() {
    const { base, steps, at } = this;
    const now = { trees: [...this.trees], modules: [...this.modules], sources: [...this.sources] };
    await this.client.start();
    if (steps.reduce((sum, it) => sum + it.took, 0) <= REPLAYED) {
      try {
        await this.begin(base);
        for (const step of steps) {
          if ((await this.perform(step)).refusal) throw new Broken('failed', 'a step is refused');
        }
        await this.goTo(at);
        return true;
      } catch (fault) {
        if (!(fault instanceof Broken)) throw fault;
        await this.client.start();
      }
    }
    await this.begin(now);
    return false;
  }
}
