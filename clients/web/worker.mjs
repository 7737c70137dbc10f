// The engine in a worker of its own, so that a long run leaves the page as it is and can be ended with the worker.
import { Engine, Trap } from './engine.mjs';

// It is fetched and compiled at once, before the page asks.
const loading = fetch(new URL('stratbench.wasm', import.meta.url)).then(it => Engine.load(it));
let engine;
let session;

/** Makes one call of a session: `[call, ...words]`. */
const make = (of, [call, ...words]) => of[call](...words);

const calls = {
  async load() {
    engine = await loading;
    session = engine.session();
    return performance.now();
  },
  begin() {
    session.close();
    session = engine.session();
  },
  make(...words) {
    const begun = performance.now();
    const outcome = make(session, words);
    return { ...outcome, took: performance.now() - begun };
  },
  // Makes calls in a session of its own that is dropped again, as to check texts.
  aside(many) {
    const other = engine.session();
    const outcomes = many.map(it => make(other, it));
    other.close();
    return outcomes;
  },
};

onmessage = async ({ data: { id, call, words } }) => {
  try {
    postMessage({ id, outcome: await calls[call](...words) });
  } catch (fault) {
    postMessage({ id, fault: { message: fault.message, isTrap: fault instanceof Trap, isStack: Boolean(fault.isStack) } });
  }
};
