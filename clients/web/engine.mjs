// The proved engine, a WebAssembly module, as sessions in JavaScript. Pointers are BigInts, since they have 64 bits.

const encoder = new TextEncoder();
const decoder = new TextDecoder();

/** How a script ended. */
export const ACCEPTED = 0;
export const REFUSED = 1;
export const CUT = 2;
export const NO_MEMORY = 3;

/** The most bytes that a module's memory takes. */
const LIMIT = 1 << 30;

/** A call of the engine that ended in the middle, as where the stack ran out. The module is of no use any more. */
export class Trap extends Error {
  constructor(cause) {
    super(`${cause}`);
    this.name = 'Trap';
    this.isStack = cause instanceof RangeError || /stack|out of bounds/i.test(cause.message);
  }
}

/** A call that found no memory, or a budget out of range. */
export class NotRun extends Error {}

/** The first version of the module that this client speaks to, and the first one after it that it doesn't. */
const FROM = [1, 3, 0];
const BELOW = [2, 0, 0];

/** A module of a version that this client doesn't speak to. */
export class Misfit extends Error {
  constructor(version) {
    const what = version ? `is version ${version}` : 'says no version';
    super(`the engine ${what}, and this client is for versions from ${FROM.join('.')} to below ${BELOW.join('.')}`);
  }
}

/** Whether this client speaks to this version, as `1.3.0`. */
export function fits(version) {
  const numbers = version.split('.').map(Number);
  const isBefore = other => {
    const at = numbers.findIndex((it, i) => it !== other[i]);
    return at >= 0 && numbers[at] < other[at];
  };
  return numbers.length === 3 && !isBefore(FROM) && isBefore(BELOW);
}

export class Engine {
  /** Loads the module from its bytes or from a response. Raises `Misfit` where it is of another version. */
  static async load(source, limit = LIMIT) {
    const { instance } = await instantiated(source);
    const it = new Engine(instance.exports);
    if (!fits(it.version())) throw new Misfit(it.version());
    it.wasm.stratbench_limit(BigInt(limit));
    return it;
  }

  constructor(wasm) {
    this.wasm = wasm;
    this.isBroken = false;
  }

  session() { return new Session(this); }

  /** The version that the module says, or nothing. */
  version() {
    if (!this.wasm.stratbench_version) return '';
    const memory = new Uint8Array(this.wasm.memory.buffer);
    const at = Number(this.wasm.stratbench_version());
    return decoder.decode(memory.slice(at, memory.indexOf(0, at)));
  }

  /** The bytes in use. */
  used() { return Number(this.wasm.stratbench_used()); }

  /** Calls the module. After a trap what is in its memory is half done, so nothing may be called again. */
  call(name, ...words) {
    if (this.isBroken) throw new Trap(new Error('the module has trapped before'));
    try {
      return this.wasm[name](...words);
    } catch (cause) {
      this.isBroken = true;
      throw new Trap(cause);
    }
  }

  room(bytes) {
    const at = this.call('stratbench_room', BigInt(bytes));
    if (at === 0n) throw new NotRun('there is no memory');
    return at;
  }

  /** Calls `use` with the place and the length of these bytes in the module's memory. */
  lend(bytes, use) {
    const at = this.room(bytes.length + 1);
    this.view(at, bytes.length).set(bytes);
    try {
      return use(at, BigInt(bytes.length));
    } finally {
      if (!this.isBroken) this.call('stratbench_release', at);
    }
  }

  /** Returns the bytes that `copy` writes: it takes a place and how much room is there, and returns how much it wants. */
  copied(copy) {
    const length = this.lend(new Uint8Array(1), at => copy(at, 0n));
    const at = this.room(Number(length) + 1);
    copy(at, length);
    const bytes = this.view(at, Number(length)).slice();
    this.call('stratbench_release', at);
    return bytes;
  }

  // A view is void once the memory grows, so each use takes a new one.
  view(at, length) { return new Uint8Array(this.wasm.memory.buffer, Number(at), length); }
}

async function instantiated(source) {
  if (!(typeof Response !== 'undefined' && source instanceof Response)) return WebAssembly.instantiate(source, {});
  try {
    return await WebAssembly.instantiateStreaming(source.clone(), {});
  } catch {
    return WebAssembly.instantiate(await source.arrayBuffer(), {});   // a server that doesn't know the type
  }
}

const bytesOf = text => (typeof text === 'string' ? encoder.encode(text) : text);

/** The forms in which calls are explained. */
export const AS_TEXT = 1;
export const AS_JSON = 2;

/**
 * A session. Its calls return `{status, answers, said}`: the answers of the call, and what `--explain=json`, or `--explain`, would say
 * of it. Places are lines and columns of the script, or of the text that is loaded.
 */
export class Session {
  constructor(engine, form = AS_JSON) {
    this.engine = engine;
    this.handle = engine.room(Number(engine.call('stratbench_size')));
    engine.call('stratbench_new', this.handle);
    this.explain(form);
  }

  /** Says in which form the calls that follow are explained. */
  explain(form) {
    this.form = form;
    this.engine.call('stratbench_explain', this.handle, form);
  }

  /** Answers the commands of a script, which may go on over lines. `steps` is the budget of those that name none. */
  run(script, steps = 100000) {
    return this.engine.lend(bytesOf(script), (at, length) => this.ended('stratbench_run', at, length, steps));
  }

  /** Answers the lines of a script, each a command. */
  lines(script, steps = 100000) {
    return this.engine.lend(bytesOf(script), (at, length) => this.ended('stratbench_lines', at, length, steps));
  }

  /** Begins anew, with these limits: the greatest size of a term, and the greatest budget. */
  limits(terms = 100000, steps = 1000000) {
    const status = this.engine.call('stratbench_limits', this.handle, terms, steps);
    if (status) throw new NotRun(status === NO_MEMORY ? 'there is no memory' : 'the limits are too low or too high');
    this.explain(this.form);
  }

  /** Loads the library as a step. */
  library() { return this.ended('stratbench_library'); }

  /** Sets the tree, or the module, of this name to a text of any length, as a step. */
  tree(name, text) { return this.loaded('stratbench_tree', name, text); }
  module(name, text) { return this.loaded('stratbench_module', name, text); }

  /** Answers with the text of a tree. */
  show(name) {
    return this.engine.lend(bytesOf(name), (at, length) => this.ended('stratbench_show', at, length));
  }

  close() {
    this.engine.call('stratbench_drop', this.handle);
    this.engine.call('stratbench_release', this.handle);
    this.handle = 0n;
  }

  loaded(call, name, text) {
    return this.engine.lend(bytesOf(name), (at, length) => this.engine.lend(
      bytesOf(text),
      (textAt, textLength) => this.ended(call, at, length, textAt, textLength),
    ));
  }

  ended(call, ...words) {
    const status = this.engine.call(call, this.handle, ...words);
    if (status > CUT) throw new NotRun(status === NO_MEMORY ? 'there is no memory' : 'the budget is out of range');
    return { status, answers: this.copied('stratbench_copy'), said: this.copied('stratbench_hints') };
  }

  copied(call) {
    return decoder.decode(this.engine.copied((at, room) => this.engine.call(call, this.handle, at, room)));
  }
}
