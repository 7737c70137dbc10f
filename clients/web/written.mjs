// The text of a tree in its language: it is written, and parsed and compared with the tree, until it has the brackets that it needs.

import { Anew, Layout, NoTree, Writer } from './writer.mjs';
import { spelt } from './rope.mjs';
import { withoutPositions } from './terms.mjs';

/** So many parses look for the brackets that are needed, and so many characters are parsed at most for those that aren't. */
const TRIES = 40;
const FEWER = 300000;

// ---- comparing

/**
 * Where in a text the nodes of a tree are whose text it is, by these, and the nodes that differ from those of the text, if some do.
 * A block may be the brackets of a statement.
 */
function compared(grammar, now, { root, spans }) {
  const places = new Map();
  const wrong = [];
  const walk = (one, two, around) => {
    const own = Object.hasOwn(grammar.constructors, one.head) ? one : around;
    const { constructor } = grammar.brackets[grammar.constructors[one.head]?.sort] ?? {};
    if (one.head !== two.head && constructor === two.head && two.kids.at(-1)?.kids.length === 1) return walk(one, two.kids.at(-1).kids[0], own);
    if (spans.has(two)) places.set(one, spans.get(two));
    if (one.head !== two.head || one.kids.length !== two.kids.length) return wrong.push(own);
    return one.kids.forEach((kid, i) => walk(kid, two.kids[i], own));
  };
  walk(now, root, now);
  return { places, wrong };
}

/** The comments of a text. What looks like one in a string is none, and may hide one after that. */
function commentsOf({ comment, grammar }, text, { spans }) {
  const atoms = [...spans].filter(([node]) => grammar.atoms.has(node.head)).map(([, it]) => it);
  const found = [];
  comment.lastIndex = 0;
  for (let it; (it = comment.exec(text));) {
    const atom = atoms.find(([first, last]) => first <= it.index && it.index < last);
    if (atom) comment.lastIndex = Math.max(atom[1], it.index + 1);
    else found.push(it[0]);
  }
  return found;
}

/** Those comments of one text that another lacks. */
function lost(before, after) {
  const left = [...after];
  return before.filter(it => {
    const at = left.indexOf(it);
    if (at >= 0) left.splice(at, 1);
    return at < 0;
  });
}

// ---- the brackets that are needed

class Search {
  constructor(writer, now) {
    this.writer = writer;
    this.now = now;
    this.plain = withoutPositions(String(now));
    this.rope = writer.slot(writer.root, now, true);
    this.numbers = new Map(writer.marked.map((node, i) => [node, i]));
  }

  tried(active) {
    const { text, where } = spelt(this.rope, this.writer.brackets, active);
    const parsed = this.writer.language.parse(text);
    if (!parsed.root) return { text, where, parsed, wrong: [this.now] };
    return { text, where, parsed, ...compared(this.writer.grammar, this.now, parsed) };
  }

  /** The text with the brackets that it needs, or with which it is still wrong. */
  found() {
    let active = new Set();
    let result = this.tried(active);
    for (let i = 0; i < TRIES && result.wrong.length; i++) {
      const more = this.more(result, active);
      if (!more.length) break;
      active = new Set([...active, ...more]);
      result = this.tried(active);
    }
    return result.wrong.length || active.size < 2 ? result : this.fewer(active, result);
  }

  // The brackets to try next: those around the parts of what is wrong, then around it, then all.
  more({ wrong, where, parsed }, active) {
    const isFree = it => it !== undefined && !active.has(it);
    const choices = parsed.root
      ? [wrong.flatMap(node => node.kids.flatMap(kid => (kid.isList ? kid.kids : [kid]))), wrong].map(nodes => nodes.map(it => this.numbers.get(it)))
      : [[...where].filter(([, [first, last]]) => first <= parsed.place && parsed.place <= last).map(([it]) => it)];
    return [...choices, [...where.keys()]].map(it => it.filter(isFree)).find(it => it.length) ?? [];
  }

  // Without those brackets that do nothing: halves are left out, their halves, down to one.
  fewer(active, result) {
    let least = active;
    const waiting = [[...active].reverse()];
    for (let parsed = 0; parsed < FEWER && waiting.length; parsed += result.text.length) {
      const some = waiting.shift();
      const rest = new Set([...least].filter(it => !some.includes(it)));
      if (this.isRight(rest)) least = rest;
      else if (some.length > 1) waiting.push(some.slice(0, some.length >> 1), some.slice(some.length >> 1));
    }
    return least === active ? result : this.tried(least);
  }

  // A block that is a bracket is in the tree of the text alone.
  isRight(active) {
    const { text } = spelt(this.rope, this.writer.brackets, active);
    if (this.writer.language.plain(text) === this.plain) return true;
    return [...active].some(it => this.writer.brackets[it].constructor) && !this.tried(active).wrong.length;
  }
}

// First as the text is written, then with the signs that it does without, then with nodes made anew: where it is wrong, and everywhere.
const WAYS = [
  () => ({ isComplete: false, isCoarse: () => false }),
  () => ({ isComplete: true, isCoarse: () => false }),
  wrong => ({ isComplete: true, isCoarse: node => wrong.includes(node) }),
  () => ({ isComplete: true, isCoarse: () => true }),
];

/**
 * Writes a tree as a text of a language. `old` is what that text was parsed to which some of its nodes are of. Returns `{text, places, lost}`:
 * where in the text each node is, and the comments that it lacks; or `{fault, wrong}`, why no text was found and the node that has none.
 */
export function written(language, text, old, now) {
  if (String(now) === old.term) return { text, places: compared(language.grammar, now, old).places, lost: [] };
  old.layout ??= new Layout(language, text, old);
  old.comments ??= commentsOf(language, text, old);
  let result;
  for (const way of WAYS) {
    try {
      result = new Search(new Writer(language, text, old, way(result?.wrong)), now).found();
    } catch (fault) {
      if (fault instanceof NoTree) return { fault: `It is no tree of ${language.title}: ${fault.message}.`, wrong: now };
      if (fault instanceof Anew) return { fault: `No text of ${language.title} was found for the tree: parts of the source overlap.`, wrong: now };
      throw fault;
    }
    if (!result.wrong.length) return { text: result.text, places: result.places, lost: lost(old.comments, commentsOf(language, result.text, result.parsed)) };
  }
  const why = result.parsed.root ? 'what it spells is another tree' : result.parsed.message;
  return { fault: `No text of ${language.title} was found for the tree: ${why}.`, wrong: result.wrong[0] };
}
