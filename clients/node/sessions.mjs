// Sessions of the workbench for programs in node:
//
//   import { load } from 'stratbench';
//   const engine = await load();
//   const session = engine.session();
//   session.library();
//   session.tree('t', '(1,2)');
//   console.log(session.run('apply t do ?(x,y); !(y,x)\nshow t\n').answers);

import { readFile } from 'node:fs/promises';
import { Engine } from './engine.mjs';

export * from './engine.mjs';

/** The most bytes that a session's memory takes where nothing else is said. */
const LIMIT = 2 ** 31;

/** Loads the engine, of which each has a memory of its own. */
export async function load(limit = LIMIT) {
  return Engine.load(await readFile(new URL('stratbench.wasm', import.meta.url)), limit);
}
