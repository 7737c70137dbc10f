// Runs scripts by the module, each in a session of its own, for trials/wasm: `node answers.mjs MODULE`. Standard input has a script a
// line, as `{script, library, lines, loads}` in JSON, with bytes in base64; standard output what came out, `{answers, said, status}`.

import { readFileSync } from 'node:fs';
import { createInterface } from 'node:readline';
import { AS_TEXT, Engine, Session, Trap } from '../engine.mjs';

const bytes = readFileSync(process.argv[2]);
let engine = await Engine.load(bytes, 2 ** 31);

/** A session whose answers are bytes in base64. */
class Coded extends Session {
  constructor(it) { super(it, AS_TEXT); }

  copied(call) {
    return Buffer.from(this.engine.copied((at, room) => this.engine.call(call, this.handle, at, room))).toString('base64');
  }
}

/** Loads what the options of the program name: all modules are one step, where the first of them stands. */
function load(session, loads) {
  const modules = loads.filter(([kind]) => kind === 'module');
  const one = ([kind, name, text]) => session[kind](name, Buffer.from(text, 'base64'));
  for (const it of loads) {
    if (it === modules[0]) {
      session.run(Buffer.from('begin\n'));
      modules.forEach(one);
      session.run(Buffer.from('commit\n'));
    } else if (it[0] !== 'module') one(it);
  }
}

function answer({ script, library, lines, loads }) {
  const session = new Coded(engine);
  if (library) session.library();
  load(session, loads);
  const outcome = session[lines ? 'lines' : 'run'](Buffer.from(script, 'base64'));
  session.close();
  return { answers: outcome.answers, said: outcome.said, status: outcome.status };
}

for await (const line of createInterface({ input: process.stdin })) {
  try {
    console.log(JSON.stringify(answer(JSON.parse(line))));
  } catch (fault) {
    if (!(fault instanceof Trap)) throw fault;
    console.log(JSON.stringify({ trap: fault.message }));
    engine = await Engine.load(bytes, 2 ** 31);
  }
}
