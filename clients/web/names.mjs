// What the modules define and declare, for completing a name and for what is shown of one.

import { names, textOf } from './state.mjs';
import { remembered } from './terms.mjs';

/** What the words of the language do, in a few words. */
const FORMS = {
  id: 'succeeds, and leaves the term as it is',
  fail: 'fails',
  all: 'all(s) applies s to each child',
  one: 'one(s) applies s to the first child at which it succeeds',
  some: 'some(s) applies s to each child at which it succeeds, to one at least',
  not: 'not(s) succeeds where s fails',
  where: 'where(s) applies s, and leaves the term as it is',
  test: 'test(s) is where(s)',
  if: 'if s1 then s2 else s3 end',
  rec: 'rec x(s) is s, in which x stands for the whole',
  prim: 'prim("name",t1,..) calls a primitive',
};

// Comments and strings are left out: what is in them defines nothing.
const LEFT_OUT = /\/\/[^\n]*|\/\*[^]*?\*\/|"(?:[^"\\]|\\[^])*"/g;
const SECTION = /\b(rules|strategies|constructors|sorts)\b/g;
const HEAD = /^[ \t]*([A-Za-z_][\w'-]*)[ \t]*(\([^()]*\))?[ \t]*(=(?!>)|:(?!:))/gm;
// Several constructors may be declared on a line.
const DECLARED = /([A-Za-z_][\w'-]*)\s*:([^:]*?)(?=[A-Za-z_][\w'-]*\s*:|$)/g;

const KINDS = { rules: 'a rule', strategies: 'a strategy', constructors: 'a constructor' };

function sectionAt(sections, index) {
  return sections.findLast(it => it.index < index)?.word ?? '';
}

/** What a text defines, `{name, kind, head, line}`, in its order. */
const definedIn = remembered(text => {
  const blank = text.replace(LEFT_OUT, it => it.replace(/[^\n]/g, ' '));
  const sections = [...blank.matchAll(SECTION)].map(it => ({ word: it[1], index: it.index }));
  const lineAt = index => blank.slice(0, index).split('\n').length;
  const heads = [...blank.matchAll(HEAD)].map(({ index, 0: whole, 1: name, 2: parameters = '', 3: sign }) => ({
    name,
    kind: KINDS[sectionAt(sections, index)],
    head: sign === ':' ? name : `${name}${parameters}`,
    line: lineAt(index + whole.search(/\S/)),
  })).filter(it => it.kind && it.kind !== KINDS.constructors);
  const declared = sections.flatMap(({ word, index }, i) => {
    if (word !== 'constructors') return [];
    const part = blank.slice(index + word.length, sections[i + 1]?.index);
    return [...part.matchAll(DECLARED)].map(it => ({
      name: it[1],
      kind: KINDS.constructors,
      head: `${it[1]} : ${it[2].trim().replace(/\s+/g, ' ')}`,
      line: lineAt(index + word.length + it.index),
    }));
  });
  return [...heads, ...declared];
}, 64);

const all = () => names('module').flatMap(module => definedIn(textOf('module', module)).map(it => ({ ...it, module })));

/** What is said of a name: what defines or declares it, and where. Nothing where it isn't known. */
export function meaningOf(name) {
  if (Object.hasOwn(FORMS, name)) return FORMS[name];
  const found = all().filter(it => it.name === name).slice(0, 5);
  return found.map(({ head, kind, module, line }) => `${head}: ${kind} of ${module}, line ${line}`).join('\n');
}

/** The names that begin so, each once, in their order, with what is said of them. */
export function completionsOf(start) {
  const found = new Map(Object.entries(FORMS).filter(([name]) => name.startsWith(start)));
  for (const { name, head, kind, module } of all()) {
    if (name.startsWith(start) && !found.has(name)) found.set(name, `${head}: ${kind} of ${module}`);
  }
  return [...found].map(([name, said]) => ({ name, said })).sort((one, other) => (one.name < other.name ? -1 : 1));
}
