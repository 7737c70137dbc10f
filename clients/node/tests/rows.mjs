// Runs rows by the command line of the package, for trials/package: `node rows.mjs FOLDER`, the folder of the package. Standard input has a row a
// line, as `{words, script, files}` in JSON, with bytes in base64; standard output what came out, `{out, said, status}`.

import { readFileSync } from 'node:fs';
import { createInterface } from 'node:readline';
import { pathToFileURL } from 'node:url';

const folder = `${process.argv[2]}/`;
const own = name => import(pathToFileURL(folder + name));
const { run } = await own('command.mjs');
const { load } = await own('sessions.mjs');
const { reason } = await own('system.mjs');
const { options } = JSON.parse(readFileSync(`${folder}words.json`, 'utf8'));
// what the rows have
const version = '1.3.0 (commit ------------, not stated)';

const coded = parts => Buffer.concat(parts).toString('base64');
const bytes = text => Buffer.from(text, 'base64');
let engine;

/** A file that isn't there, as the system says it. */
const absent = () => Object.assign(new Error('there is no such file'), { code: 'ENOENT', errno: -2 });

async function answer({ words, script, files }) {
  const [out, said] = [[], []];
  const read = name => {
    if (!Object.hasOwn(files, name)) throw absent();
    return bytes(files[name]);
  };
  const world = {
    engine: async () => (engine && !engine.isBroken ? engine : (engine = await load())),
    options, version, read, reason,
    write: (name, text) => { files[name] = text.toString('base64'); },
    input: () => bytes(script),
    lines: () => [bytes(script)],
    out: text => out.push(text),
    err: text => said.push(text),
  };
  const status = await run(words, world);
  return { out: coded(out), said: coded(said), status };
}

for await (const line of createInterface({ input: process.stdin })) console.log(JSON.stringify(await answer(JSON.parse(line))));
