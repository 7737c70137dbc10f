// The page's end of the worker: calls with answers, and an end to a run that takes too long.

/** What a call is refused with: `stopped`, `trapped`, or `failed`. */
export class Broken extends Error {
  constructor(kind, message, isStack = false) {
    super(message);
    this.kind = kind;
    this.isStack = isStack;
  }
}

export class Client {
  constructor(makeWorker) {
    this.makeWorker = makeWorker;
    this.waiting = new Map();
    this.last = 0;
  }

  /** Starts a worker, in place of the one before. Resolves to the milliseconds until it was ready. */
  start() {
    this.end('stopped', 'the run was stopped');
    this.worker = this.makeWorker();
    this.worker.onmessage = ({ data }) => this.answer(data);
    this.worker.onerror = event => this.end('failed', event.message || 'the worker could not be started');
    return this.call('load');
  }

  call(call, ...words) {
    return new Promise((resolve, reject) => {
      if (!this.worker) return reject(new Broken('failed', 'the engine is not running'));
      const id = ++this.last;
      this.waiting.set(id, { resolve, reject });
      this.worker.postMessage({ id, call, words });
    });
  }

  answer({ id, outcome, fault }) {
    const waiting = this.waiting.get(id);
    this.waiting.delete(id);
    if (!fault) return waiting?.resolve(outcome);
    waiting?.reject(new Broken(fault.isTrap ? 'trapped' : 'failed', fault.message, fault.isStack));
    if (fault.isTrap) this.end('trapped', fault.message, fault.isStack);
  }

  /** Ends the worker. What is waiting for it is refused with this kind. */
  end(kind, message, isStack = false) {
    this.worker?.terminate();
    this.worker = undefined;
    for (const { reject } of this.waiting.values()) reject(new Broken(kind, message, isStack));
    this.waiting.clear();
  }

  get isBusy() { return this.waiting.size > 0; }

  /** Whether there is a worker. */
  get isThere() { return this.worker !== undefined; }
}
