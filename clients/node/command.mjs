// The command line over the engine: a script goes in, and its answers come out, as the program has them.

import { commandsOf, lineFeeds, linesOf } from './commands.mjs';
import { AS_JSON, AS_TEXT, NotRun, REFUSED, Session, Trap } from './engine.mjs';
import { load, Refused } from './loading.mjs';
import { given, help, Wrong } from './options.mjs';
import { shown, signed } from './telling.mjs';

/** The exit statuses of the program. */
const WRONG_LINE = 2;
const FILES = 3;
const MEMORY = 4;
/** The budget of a command that names none. */
const STEPS = 100000;

/** Ends the run with a status. */
class Ended extends Error {
  constructor(status) {
    super(`status ${status}`);
    this.status = status;
  }
}

/** A session whose answers, and what is said of them, are bytes. */
class Bytes extends Session {
  copied(call) {
    return Buffer.from(this.engine.copied((at, room) => this.engine.call(call, this.handle, at, room)));
  }
}

/**
 * Does what the words say, and returns the exit status. `world` has what it needs: `engine()`, a new engine; `options` of the program;
 * `version`; `read(file, isScript)` and `write(file, bytes)`, which raise errors, and `reason(fault)`, what the system says of one; `input()`, all of
 * standard input, or `lines()`, its lines as they come, one or several; `out(bytes)` and `err(bytes)`.
 */
export async function run(words, world) {
  try {
    const line = given(words, world.options);
    if (line.help) world.out(Buffer.from(help(world.options)));
    else if (line.version) world.out(Buffer.from(`stratbench ${world.version}\n`));
    else return await new Run(line, world).all();
    return 0;
  } catch (fault) {
    const [text, status] = ending(fault);
    world.err(Buffer.from(text));
    return status;
  }
}

/** What is said of what ended a run, and its exit status. */
function ending(fault) {
  if (fault instanceof Ended) return ['', fault.status];
  if (fault instanceof Refused) return ['', REFUSED];
  if (fault instanceof Wrong) return [`error: ${fault.message}\n\nUsage: stratbench [OPTIONS] [FILE]\n\nFor more information, try '--help'.\n`, WRONG_LINE];
  if (fault instanceof Trap || fault instanceof NotRun) return [fault.isStack ? 'stratbench: the stack ran out\n' : `stratbench: no memory: ${fault.message}\n`, MEMORY];
  throw fault;
}

class Run {
  constructor(line, world) {
    this.line = line;
    this.world = world;
    this.byLines = Boolean(line.lines || line.interactive);
    this.isTyped = this.byLines && line.file === null;
    this.json = Boolean(line['explain-json']);
    this.explains = Boolean(this.json || line.explain || line.interactive);
    this.status = 0;
  }

  async all() {
    this.engine = await this.world.engine();
    this.session = this.begun();
    try {
      load(this.line.loads, this);
      await this.answerAll();
      for (const it of this.line.write) this.write(it);
      return this.status;
    } finally {
      if (!this.engine.isBroken) this.session.close();
    }
  }

  /** A new session, as the options want it. */
  begun() {
    const session = new Bytes(this.engine, this.json ? AS_JSON : AS_TEXT);
    const { 'max-terms': terms, 'max-steps': steps } = this.line;
    if (terms || steps) session.limits(terms, steps);
    if (this.line.library) session.library();
    return session;
  }

  say(text) { this.world.err(Buffer.from(text)); }

  /** Says what was said of a call, a text of bytes. */
  tell(text) {
    if (this.explains) this.world.err(Buffer.from(this.json ? text : signed(text), 'latin1'));
  }

  // ---- the script

  async answerAll() {
    if (this.line.stop) await this.answerParts(this.commands());
    else if (this.isTyped) await this.answerParts(this.world.lines());
    else this.answer(this.script());
  }

  /** The commands of the script, one by one. */
  async* commands() {
    if (!this.isTyped) yield* (this.byLines ? linesOf : commandsOf)(this.script());
    else for await (const part of this.world.lines()) yield* linesOf(part);
  }

  /**
   * Answers each part of the script before the next is read, up to the first with a command that is refused where that was asked for. The
   * engine drops empty lines before a command, and counts them: with one for each line before it, what is explained has its places in the
   * script.
   */
  async answerParts(parts) {
    let before = 0;
    for await (const part of parts) {
      const isRefused = this.answer(Buffer.concat([Buffer.alloc(before, '\n'), part]));
      if (isRefused && this.line.stop) return;
      if (this.explains) before += lineFeeds(part);
    }
  }

  /** Answers a script, or a part of one. Returns whether a command was refused. */
  answer(script) {
    const { status, answers, said } = this.session[this.byLines ? 'lines' : 'run'](script, this.line.steps ?? STEPS);
    this.world.out(answers);
    this.tell(said.toString('latin1'));
    if (status > REFUSED) {
      this.say('stratbench: no memory\n');
      throw new Ended(MEMORY);
    }
    this.worst(status);
    return status === REFUSED;
  }

  worst(status) { this.status = Math.max(this.status, status); }

  // ---- files

  script() {
    if (this.line.file === null) return this.world.input();
    return this.read(this.line.file, true);
  }

  read(file, isScript = false) {
    try {
      return this.world.read(file, isScript);
    } catch (fault) {
      const what = isScript ? `\nstratbench: can't read ${shown(file)}` : `: ${shown(file)}`;
      this.say(`stratbench: read fault${what}\n    ${this.world.reason(fault)}\n`);
      throw new Ended(FILES);
    }
  }

  write({ name, file }) {
    const { status, answers } = this.line.pretty ? this.session.run(`pretty ${name}\n`) : this.session.show(name);
    if (status === REFUSED) {
      this.say(`stratbench: ${shown(file)}: ${answers.toString()}`);
      this.worst(REFUSED);
      return;
    }
    try {
      this.world.write(file, answers);
    } catch (fault) {
      this.say(`stratbench: write fault: ${shown(file)}\n    ${this.world.reason(fault)}\n`);
      this.worst(FILES);
    }
  }
}
