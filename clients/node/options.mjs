// The words of the command line. The options are those of the program that the engine can do; `words.json` has all of the program's, with
// their lines of help.

import { shown } from './telling.mjs';

/** A command line that isn't taken. */
export class Wrong extends Error {}

const NAMED = 'NAME=FILE';
const NAME = /^[A-Za-z_][A-Za-z0-9_\-+*$.']{0,63}$/;

/** The lowest and the highest number of an option. */
const RANGES = { steps: [1, 4000000000], 'max-steps': [1000000, 4000000000], 'max-terms': [100000, 1000000000] };

/** What isn't done here, though the program has it. */
const LACKS = ['profile', 'check', 'max-tokens'];

/** The options that are taken, of all that the program has. */
export const taken = options => options.filter(({ name }) => !LACKS.includes(name));

/**
 * Returns what the words say: a member for each option, with `true`, a value, or a list of those that may be given again; `loads`, the
 * modules and trees in their order; and `file`. Raises `Wrong`.
 */
export function given(words, options) {
  const found = { loads: [], write: [], file: null };
  const rest = [...words];
  let ended = false;
  while (rest.length) {
    const word = rest.shift();
    if (!ended && word === '--') ended = true;
    else if (ended || word === '-' || !word.startsWith('-')) file(found, word);
    else take(found, option(word, options), rest);
  }
  const [greatest] = RANGES['max-steps'];
  const { steps = 1, 'max-steps': most = greatest } = found;
  if (steps > most) throw new Wrong(`invalid value '${steps}' for '--steps <N>': the greatest budget is ${most} (--max-steps raises it)`);
  return found;
}

function file(found, word) {
  if (found.file !== null) throw new Wrong(`unexpected argument '${word}' found`);
  found.file = word;
}

/** The option that a word names, with the value in the word, if there is one. */
function option(word, options) {
  if (word === '--explain=json') return { option: options.find(it => it.name === 'explain-json') };
  const [, name, value] = /^(--?[^=]*)(?:=(.*))?$/s.exec(word);
  const it = options.find(one => name === `--${one.name}` || (one.short && name === `-${one.short}`));
  if (!it) throw new Wrong(`unexpected argument '${name}' found`);
  if (LACKS.includes(it.name)) throw new Wrong(`'--${it.name}' needs the program: the engine of this package can't do that`);
  if (value !== undefined && !it.value) throw new Wrong(`unexpected value '${value}' for '--${it.name}' found; no more were expected`);
  return { option: it, value };
}

function take(found, { option: it, value }, rest) {
  if (!it.value) {
    once(found, it);
    found[it.name] = true;
    return;
  }
  const text = value ?? rest.shift();
  if (text === undefined) throw new Wrong(`a value is required for '--${it.name} <${it.value}>' but none was supplied`);
  if (it.value !== NAMED) {
    once(found, it);
    found[it.name] = number(it, text);
    return;
  }
  const named = { kind: it.name, ...namedFile(it, text) };
  (it.name === 'write' ? found.write : found.loads).push(named);
}

function once(found, { name, value }) {
  if (name in found) throw new Wrong(`the argument '--${name}${value ? ` <${value}>` : ''}' cannot be used multiple times`);
}

function number({ name, value }, text) {
  const found = /^\+?\d+$/.test(text) ? Number(text) : 0;
  const [lowest, highest] = RANGES[name];
  if (found < lowest || found > highest) {
    throw new Wrong(`invalid value '${shown(text)}' for '--${name} <${value}>': it has to be from ${lowest} to ${highest}`);
  }
  return found;
}

function namedFile({ name, value }, text) {
  const at = text.indexOf('=');
  if (at < 0 || !NAME.test(text.slice(0, at))) {
    throw new Wrong(`invalid value '${shown(text)}' for '--${name} <${value}>': it has to be a name, '=' and a file`);
  }
  return { name: text.slice(0, at), file: text.slice(at + 1) };
}

/** The text of `--help`. */
export function help(options) {
  const left = ({ name, short, value }) => `${short ? `-${short}, ` : '    '}--${name}${value ? ` <${value}>` : ''}`;
  const width = Math.max(...taken(options).map(it => left(it).length)) + 2;
  const lines = taken(options).map(it => `  ${left(it).padEnd(width)}${it.help}`);
  return ['Transforms program trees by the commands of a script, and undoes what they changed', '',
    'Usage: stratbench [OPTIONS] [FILE]', '', 'Options:', ...lines, ''].join('\n');
}
