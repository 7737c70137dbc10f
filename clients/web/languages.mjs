// The languages of sources: their grammars, which tools/web makes of the client's, and their parsers.

import { readTerm, unquoted, withoutPositions } from './terms.mjs';

/** So many trees of texts are kept. */
const KEPT = 6;

const known = new Map();
let grammars;

/** Makes a language ready, where its parser can be had. `about` is what the page is told of it. */
export async function prepare(name, about) {
  if (!about || known.has(name)) return;
  try {
    grammars ??= fetch(new URL('grammars.json', import.meta.url)).then(it => it.json());
    const [{ frontEnd }, all] = await Promise.all([import(new URL(about.parser, import.meta.url)), grammars]);
    const grammar = all[about.grammar];
    const fields = new Map(Object.entries(grammar.constructors).map(([head, it]) => [head, it.fields]));
    known.set(name, new Language(about, grammar, frontEnd(fields)));
  } catch (fault) {
    grammars = undefined;
    console.warn(`There is no parser for ${about.title}: ${fault.message}`);
  }
}

/** The language of this name, where it is ready. */
export const language = name => known.get(name);

/** Where a character of a text begins in bytes, and which character begins at a byte. */
function bytesOf(text) {
  if (!/[^\0-\x7f]/.test(text)) return [at => at, at => at];
  const bytes = new Uint32Array(text.length + 1);
  const units = new Map([[0, 0]]);
  let sum = 0;
  for (let at = 0; at < text.length; at++) {
    const code = text.charCodeAt(at);
    // the second half of a pair is where the pair ends
    sum += code < 0x80 ? 1 : code < 0x800 ? 2 : code >= 0xd800 && code < 0xdc00 ? 4 : code >= 0xdc00 && code < 0xe000 ? 0 : 3;
    bytes[at + 1] = sum;
    units.set(sum, at + 1);
  }
  return [at => bytes[at], at => units.get(at) ?? 0];
}

/** Where in a text the nodes of a tree are that have positions in it. */
export function placesOf(root, text) {
  const [, unit] = bytesOf(text);
  const places = new Map();
  const walk = node => {
    if (node.position) places.set(node, node.position.slice(1, -1).split(',').map(it => unit(Number(it))));
    node.kids.forEach(walk);
  };
  walk(root);
  return places;
}

// Of ATerm's escapes for three bytes the engine prints shorter ones.
const SHORT = { '\\011': '\\t', '\\012': '\\n', '\\015': '\\r' };
const asPrinted = term => (term.includes('\\') ? term.replace(/\\(?:\d{3}|.)/g, it => SHORT[it] ?? it) : term);

const SPECIAL = { '\n': '\\n', '\r': '\\r', '\t': '\\t', '\u2028': '\\u2028', '\u2029': '\\u2029' };

// What a grammar can't say: the texts of strings.
const LITERALS = {
  javascript: (node, { quote }, like) => {
    if (node.head !== 'StringLiteral' || node.kids[0].kind !== 'string') return null;
    const mark = /^['"]/.test(like) ? like[0] : quote;
    const text = unquoted(node.kids[0].head).replace(/[\\\n\r\t\u2028\u2029]/g, it => SPECIAL[it] ?? `\\${it}`);
    return mark + text.replaceAll(mark, `\\${mark}`) + mark;
  },
  json: node => (node.head === 'String' && node.kids[0].kind === 'string' ? JSON.stringify(unquoted(node.kids[0].head)) : null),
};

class Language {
  constructor({ title, grammar: of, kind, mode }, grammar, front) {
    Object.assign(this, { title, mode, kind, front });
    this.grammar = { ...grammar, atoms: new Set(grammar.atoms), text: new Set(grammar.text), apart: new Set(grammar.apart) };
    this.comment = new RegExp(grammar.comment, 'gs');
    this.literal = LITERALS[of];
    this.kept = new Map();
  }

  /**
   * Reads a text. Returns `{term, root, spans}`: the term, its nodes, and where in the text those are that have a place there. Of a text
   * that is no program `{place, message}`.
   */
  parse(text) {
    if (!this.kept.has(text)) {
      if (this.kept.size === KEPT) this.kept.delete(this.kept.keys().next().value);
      this.kept.set(text, this.shallow(text) ?? { place: 0, message: 'it is nested too deep' });
    }
    return this.kept.get(text);
  }

  // What a text is parsed to, or nothing where the browser's stack is too small for it.
  shallow(text) {
    try {
      return this.parsed(text);
    } catch (fault) {
      if (fault instanceof RangeError) return undefined;
      throw fault;
    }
  }

  /** The term of a text without positions, or nothing where the text is no program. */
  plain(text) {
    const { term } = this.front(this.kind, false, text, at => at);
    return term && withoutPositions(asPrinted(term));
  }

  parsed(text) {
    const [byte, unit] = bytesOf(text);
    const found = this.front(this.kind, true, text, byte);
    if (found.term === undefined) return { place: unit(found.place), message: found.message };
    const term = asPrinted(found.term);
    const root = readTerm(term);
    return { term, root, spans: placesOf(root, text) };
  }
}
