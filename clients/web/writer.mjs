// Writes a tree as a rope: what is left of an old tree keeps its text, and what is new is written by the grammar's templates.

import { between, lines, placed } from './rope.mjs';
import { unquoted } from './terms.mjs';

/** A node has to be made anew. */
export class Anew extends Error {}
/** A tree is none of the language. */
export class NoTree extends Error {}

/** What a writer knows of an old text: the nodes by their positions, the lists that they are in, and how it is written. */
export class Layout {
  constructor(language, text, { root, spans }) {
    this.origins = new Map();
    for (const node of spans.keys()) this.origins.set(node.position + node.head, node);
    this.lists = new Map();                                 // of an element of a list: the list, and its place there
    const walk = node => node.kids.forEach((kid, i) => {
      if (node.isList) this.lists.set(kid, [node, i]);
      walk(kid);
    });
    walk(root);
    const blanks = [...text.matchAll(/^([ \t]+)[^\s*]/gm)].map(it => it[1]);
    this.unit = blanks[0]?.[0] === '\t' ? '\t' : blanks.reduce((one, two) => (two.length < one.length ? two : one), blanks[0] ?? '  ');
    const marks = { '"': 0, "'": 0 };
    const there = new Map();
    for (const [node, [first, last]] of spans) {
      if (text[first] in marks) marks[text[first]]++;
      const { sign, mayMiss } = language.grammar.constructors[node.head].parts.at(-1) ?? {};
      if (mayMiss) there.set(sign, (there.get(sign) ?? 0) + (text.endsWith(sign, last) ? 1 : -1));
    }
    this.quote = marks['"'] > marks["'"] ? '"' : "'";
    this.missing = new Set([...there].filter(([, count]) => count < 0).map(([sign]) => sign));
  }
}

export class Writer {
  /** `isComplete` says that new text has all signs, and `isCoarse` of which nodes with another field of their own all is made anew. */
  constructor(language, text, old, { isComplete, isCoarse }) {
    const { root, spans, layout } = old;
    const { origins, lists, unit, quote, missing } = layout;
    Object.assign(this, { language, grammar: language.grammar, text, root, spans, origins, lists, isCoarse });
    // a level of indentation, the quotation mark of strings, and the signs that the text does without
    this.style = { unit, quote, without: isComplete ? new Set() : missing };
    this.marked = [];                                       // the nodes that may have brackets, and these
    this.brackets = [];
  }

  origin(node) { return node.position ? this.origins.get(node.position + node.head) : undefined; }
  constructorOf(node) { return Object.hasOwn(this.grammar.constructors, node.head) ? this.grammar.constructors[node.head] : undefined; }
  isAbsent(node) { return node.head === this.grammar.absent || (node.isList && node.isLeaf); }

  /** The indentation of the line of a place. */
  indent(place) { return /^[ \t]*/.exec(this.text.slice(this.text.lastIndexOf('\n', place - 1) + 1, place))[0]; }

  /** A text with blanks in the places of its comments. */
  bare(first, last) { return this.text.slice(first, last).replace(this.language.comment, it => it.replace(/[^\n]/g, ' ')); }

  /** The nodes right below one that have a place, in the order of the text. */
  slots(node) {
    const found = node.kids.flatMap(kid => (this.spans.has(kid) ? [kid] : this.slots(kid)));
    return found.sort((one, two) => this.spans.get(one)[0] - this.spans.get(two)[0]);
  }

  // ---- what is left of old nodes

  /** The text of an old node, with other ropes at some places in it, `[first, last, rope]`. The rest of it is copied. */
  spliced(node, parts) {
    const [begin, end] = this.spans.get(node);
    const indent = this.indent(begin);
    const inner = this.slots(node).map(it => [...this.spans.get(it), it]).filter(([first, last]) => !parts.some(it => first < it[1] && it[0] < last));
    const rope = [];
    let at = begin;
    for (const [first, last, what] of [...parts, ...inner].sort((one, two) => one[0] - two[0] || one[1] - two[1])) {
      if (first < at) throw new Anew();
      rope.push(...lines(this.text.slice(at, first), indent));
      const there = placed(Array.isArray(what) ? what : this.copied(what), this.deeper(first, indent));
      rope.push(...this.gap(rope, there, this.text[first]), ...there);
      at = last;
      const after = this.text.slice(at, this.text.indexOf('\n', at) + 1 || undefined);
      rope.push(...this.gap(there, after && at < end ? [after] : [], undefined, this.text[last - 1]));
    }
    return [...rope, ...lines(this.text.slice(at, end), indent)];
  }

  // A blank where two texts would be one, of which one begins or ends in another way than what was there.
  gap(before, after, began, ended) {
    const isText = it => typeof it === 'string' || it.blanks !== undefined;
    const [one, two] = [before.findLast(isText), after.find(isText)];
    if (typeof one !== 'string' || typeof two !== 'string' || two[0] === began || one.at(-1) === ended) return [];
    return between(one, two) ? [' '] : [];
  }

  // How much deeper the line of a place is indented.
  deeper(place, indent) {
    const own = this.indent(place);
    return own.startsWith(indent) ? own.slice(indent.length) : '';
  }

  copied(node) {
    const text = this.text.slice(...this.spans.get(node));
    return !text.includes('\n') || this.grammar.atoms.has(node.head) ? [text] : this.spliced(node, []);
  }

  /** The text of a node that stands where an old one was, or nowhere. */
  slot(old, now, isPlain) {
    const origin = this.origin(now);
    const from = origin ?? (old && this.spans.has(old) && old.head === now.head ? old : undefined);
    if (origin === old && origin?.equals(now)) return this.copied(origin);
    const rope = from ? this.within(from, now) : this.fresh(now, old);
    return isPlain ? rope : this.bracketed(now, rope);
  }

  bracketed(node, rope) {
    const brackets = this.grammar.brackets[this.constructorOf(node)?.sort];
    if (!brackets || brackets.constructor === node.head) return rope;
    const number = this.marked.push(node) - 1;
    this.brackets.push(brackets);
    return [{ number, opens: true }, ...rope, { number, opens: false }];
  }

  // An old node with other parts, or made anew where these have no place of their own.
  within(old, now) {
    if (old.equals(now)) return this.copied(old);
    try {
      return this.spliced(old, this.changes(old, now));
    } catch (fault) {
      if (!(fault instanceof Anew)) throw fault;
      return this.fresh(now, old);
    }
  }

  changes(old, now) {
    if (this.grammar.atoms.has(old.head) || old.kids.length !== now.kids.length) throw new Anew();
    const fields = this.fieldsOf(old.head);
    const hasWord = old.kids.some((kid, i) => kid.kind === 'string' && !kid.equals(now.kids[i]));
    return this.constructorOf(old).fields.flatMap((name, i) => {
      const [one, two, field] = [old.kids[i], now.kids[i], fields.get(name)];
      if (one.equals(two)) return hasWord && this.spans.has(one) && !field.plain ? [[...this.spans.get(one), this.bracketed(two, this.copied(one))]] : [];
      if (one.isList && two.isList && field.kind === 'list') return this.listChanges(old, field, one, two, this.isCoarse(now));
      if (this.spans.has(one) && this.constructorOf(two)) return [[...this.spans.get(one), this.slot(one, two, field.plain)]];
      if (this.isCoarse(now)) throw new Anew();
      return [this.wordChange(old, field, one, two)];
    });
  }

  fieldsOf(head) {
    const found = new Map();
    const walk = parts => parts.forEach(it => {
      if (it.parts) walk(it.parts);
      else if (it.field && !found.has(it.field)) found.set(it.field, it);
    });
    walk(this.grammar.constructors[head].parts);
    return found;
  }

  // A name, an operator or a flag, which is once in what is between the node's parts.
  wordChange(node, field, one, two) {
    const [before, after] = [this.word(field, one), this.word(field, two)];
    if (!before?.trim() || !after?.trim()) throw new Anew();
    const escaped = before.trim().replace(/[.*+?^${}()|[\]\\/]/g, '\\$&');
    const wanted = new RegExp(/^[\w$]+$/.test(before.trim()) ? `(?<![\\w$])${escaped}(?![\\w$])` : escaped, 'g');
    const found = this.gaps(node).flatMap(([first, last]) => [...this.bare(first, last).matchAll(wanted)].map(it => first + it.index));
    if (found.length !== 1) throw new Anew();
    return [found[0], found[0] + before.trim().length, [after.trim()]];
  }

  // What is before, between and after the parts of a node.
  gaps(node) {
    const [begin, end] = this.spans.get(node);
    const spans = this.slots(node).map(it => this.spans.get(it));
    return [...spans, [end, end]].map(([first], i) => [i ? spans[i - 1][1] : begin, first]);
  }

  // ---- lists

  // What comes in the place of a list. Each element brings what is above it and in its line: its comments.
  listChanges(node, field, one, two, isCoarse) {
    const [items, news] = [one.kids, two.kids];
    const [separator] = field.given;
    const isEach = items.length === news.length && !news.some((it, i) => this.origin(it) && this.origin(it) !== items[i]);
    if (!items.every(it => this.spans.has(it))) throw new Anew();
    if (isEach) return news.map((it, i) => [...this.spans.get(items[i]), this.slot(items[i], it, field.plain)]);
    if (!items.length || !news.length || isCoarse || !(separator.trim() || separator.includes('\n'))) throw new Anew();
    const around = this.surroundings(node, field, items, separator.trim());
    const sign = separator.trim() ? [separator.trim()] : [];
    const partners = this.partners(items, news);
    const indent = this.indent(this.spans.get(node)[0]);
    const own = items.find((_, i) => around.heads[i].includes('\n'));
    const deeper = own ? this.deeper(this.spans.get(own)[0], indent) : '';
    const rope = news.flatMap((it, i) => {
      const [at, before] = [partners[i], partners[i - 1]];
      const tail = i ? [...lines(around.tails[before] ?? '', indent), ...sign, ...lines(around.rests[before] ?? '', indent)] : [];
      const [opens, closes] = around.brackets[at] ?? [[], []];
      const text = placed([...opens, ...this.slot(items[at], it, field.plain), ...closes], deeper);
      return [...tail, ...this.head(around, separator, i, at, deeper, indent, this.isApart(it, news[i - 1], at, before)), ...text];
    });
    const last = partners.at(-1);
    return [[around.first, around.last, [...rope, ...around.closing, ...lines(around.rests[last] ?? '', indent)]]];
  }

  // Whether a blank line comes before an element: one of the two is a definition, and not both were there.
  isApart(it, before, ...partners) {
    return before !== undefined && partners.some(at => at === undefined) && [it, before].some(node => this.grammar.apart.has(node.head));
  }

  // What is above an element, or before it in its line.
  head({ heads, first }, separator, i, at, deeper, indent, isApart) {
    const isOver = heads.some(it => it.includes('\n'));
    const there = heads[at];
    const isIn = there?.includes('\n');
    if (i === 0 && at !== 0) {
      if (!isIn) return heads[0].includes('\n') ? [{ blanks: deeper }] : [];
      return lines(there.replace(first === 0 ? /^(?:[ \t]*\n)+/ : /^(?:[ \t]*\n)+(?=[ \t]*\n)/, ''), indent);
    }
    const blank = isApart && !/\n[ \t]*\n/.test(there ?? '') ? [{ blanks: '' }] : [];
    if (isIn || i === 0) return [...blank, ...lines(there, indent)];
    if (isOver) return [...blank, { blanks: deeper }];
    if (at) return lines(there, indent);
    return heads.length > 1 ? lines(/^\s*/.exec(heads[1])[0], indent) : [' '];
  }

  // Of each element: what is before it from its line's beginning on, what is after it before its sign, and what is in its line after that.
  surroundings(node, field, items, sign) {
    const own = items.map(it => this.spans.get(it));
    const gaps = this.gaps(node);
    const isOf = (side, place) => gaps.find(it => it[side] === place);
    const [begin, end] = [isOf(1, own[0][0])[0], isOf(0, own.at(-1)[1])[1]];
    const spans = sign ? this.withBrackets(node, field, own, sign, begin, end) : own;
    const found = { heads: [], tails: [], rests: [], closing: [] };
    found.brackets = spans.map(([first, last], i) => [[first, own[i][0]], [own[i][1], last]].map(it => lines(this.text.slice(...it), this.indent(first))));
    const [first] = spans[0];
    const feed = this.text.slice(begin, first).indexOf('\n');
    found.heads.push(feed < 0 ? '' : this.text.slice(begin + feed, first));
    found.first = first - found.heads[0].length;
    spans.slice(1).forEach(([next], i) => {
      const [, last] = spans[i];
      const at = last + (sign ? this.bare(last, next).indexOf(sign) : 0);
      if (at < last) throw new Anew();
      const after = this.text.slice(at + sign.length, next);
      const lineEnd = this.bare(at + sign.length, next).indexOf('\n');
      found.tails.push(this.text.slice(last, at));
      found.rests.push(after.slice(0, Math.max(0, lineEnd)));
      found.heads.push(after.slice(Math.max(0, lineEnd)));
    });
    // a comment in the line of the last element is that one's
    const last = spans.at(-1)[1];
    const rest = /^[ \t]*(\S)?[ \t]*(?=\n|$)/.exec(this.bare(last, end));
    const isRest = rest && (!rest[1] || rest[1] === sign) && (end === this.text.length || rest[0].length < end - last);
    const at = isRest && rest[1] ? last + rest[0].indexOf(sign) : last;
    found.last = isRest ? last + rest[0].length : last;
    if (isRest && rest[1]) found.closing.push(sign);
    found.tails.push('');
    found.rests.push(this.text.slice(isRest && rest[1] ? at + sign.length : at, found.last));
    return found;
  }

  // Where elements are with the brackets around them. One pair around a single element may be the list's own.
  withBrackets(node, field, spans, sign, begin, end) {
    const { parts } = this.constructorOf(node);
    const isOwn = spans.length === 1 && parts[parts.findIndex(it => it.field === field.field) - 1]?.sign?.endsWith('(');
    return spans.map(([first, last], i) => {
      const before = this.bare(i ? spans[i - 1][1] : begin, first).split(sign).at(-1);
      const [after] = this.bare(last, spans[i + 1]?.[0] ?? end).split(sign);
      const opens = [.../[(\s]*$/.exec(before)[0].matchAll(/\(/g)].map(it => first - /[(\s]*$/.exec(before)[0].length + it.index).reverse();
      const closes = [.../^[)\s]*/.exec(after)[0].matchAll(/\)/g)].map(it => last + it.index + 1);
      const pairs = Math.min(opens.length, closes.length) - (isOwn ? 1 : 0);
      return pairs > 0 ? [opens[pairs - 1], closes[pairs - 1]] : [first, last];
    });
  }

  // The old place of each new element: its own, or that of one which goes and is where it comes.
  partners(items, news) {
    const places = new Map(items.map((it, i) => [it, i]));
    const all = news.map(it => places.get(this.origin(it)));
    // of two that are the same one the first has its comments
    const own = all.map((at, i) => (all.indexOf(at) < i ? undefined : at));
    const taken = new Set(own);
    const found = [];
    own.forEach((at, i) => {
      const next = (found[i - 1] ?? -1) + 1;
      const isFree = at === undefined && next < items.length && !taken.has(next) && (i === 0 || found[i - 1] !== undefined);
      if (isFree) taken.add(next);
      found.push(isFree ? next : at);
    });
    return found;
  }

  // ---- new text

  /** The text of a node by its template. `old` is the node in whose place it comes, if there is one. */
  fresh(now, old) {
    const constructor = this.constructorOf(now);
    if (constructor?.fields.length !== now.kids.length) throw new NoTree(`no constructor \`${now.head}\` of ${now.kids.length} terms`);
    const like = old && this.spans.has(old) ? this.text.slice(...this.spans.get(old)) : '';
    const literal = this.language.literal(now, this.style, like);
    if (literal !== null) return [literal];
    const values = new Map(constructor.fields.map((name, i) => [name, now.kids[i]]));
    return this.template(constructor.parts, values, this.grammar.atoms.has(now.head));
  }

  template(parts, values, isAtom) {
    const isEmpty = part => part?.kind === 'list' && values.get(part.field).isList && values.get(part.field).isLeaf;
    return parts.reduce((rope, it, i) => {
      if (it.sign !== undefined) return this.joined(rope, this.sign(it, isEmpty(parts[i - 1]), isEmpty(parts[i + 1])), isAtom);
      if (it.parts === undefined) return this.joined(rope, this.field(it, values.get(it.field)), isAtom);
      if (!this.isAbsent(values.get(it.group))) return this.joined(rope, this.template(it.parts, values, isAtom), isAtom);
      return this.joined(rope, it.otherwise ? [it.otherwise] : [], isAtom);
    }, []);
  }

  // A sign, without the lines around an empty list.
  sign({ sign, mayMiss }, isAfterEmpty, isBeforeEmpty) {
    if (mayMiss && this.style.without.has(sign)) return [];
    const text = isBeforeEmpty ? sign.replace(/[\n\t ]+$/, '') : sign;
    return this.signLines(isAfterEmpty ? text.replace(/^[\n\t ]+/, '') : text);
  }

  // In a template a tabulator after a line's end is a level of indentation.
  signLines(text) {
    return lines(text, '').map(it => (it.blanks === undefined ? it : { blanks: it.blanks.replaceAll('\t', this.style.unit) }));
  }

  joined(rope, more, isAtom = false) { return [...rope, ...(isAtom ? [] : this.gap(rope, more)), ...more]; }

  field(field, value) {
    let rope;
    if (field.kind === 'list' && value.isList) rope = this.elements(field, value.kids);
    else if (value.head === this.grammar.absent) rope = [];
    else if (this.constructorOf(value)) rope = this.slot(undefined, value, field.plain);
    else {
      const word = this.word(field, value);
      if (word === null) throw new NoTree(`no text for \`${value}\``);
      rope = word ? [word] : [];
    }
    return placed(rope, this.style.unit.repeat(field.level));
  }

  // Neighbours that were neighbours keep what was between them.
  elements({ given: [separator], plain }, values) {
    return values.reduce((rope, it, i) => {
      const text = it.head === this.grammar.absent ? [] : this.slot(undefined, it, plain);
      if (!i) return text;
      const kept = this.keptBetween(values[i - 1], it);
      const apart = separator.includes('\n') && [it, values[i - 1]].some(node => this.grammar.apart.has(node.head)) ? [{ blanks: '' }] : [];
      const gap = kept ?? [...apart, ...this.signLines(separator)];
      return separator ? this.joined([...rope, ...gap], text) : [...rope, ...text];
    }, []);
  }

  keptBetween(one, two) {
    const [before, after] = [one, two].map(it => this.lists.get(this.origin(it)));
    if (!before || before[0] !== after?.[0] || before[1] + 1 !== after[1]) return null;
    const [first, last] = [this.spans.get(this.origin(one))[1], this.spans.get(this.origin(two))[0]];
    return lines(this.text.slice(first, last), this.indent(this.spans.get(this.origin(one))[0]));
  }

  /** The text of what is no node: a flag, a word, a name or a number; null where it is none. */
  word({ kind, given }, value) {
    if (kind === 'flag') return ['True', 'False'].includes(value.head) ? given[value.head === 'False' ? 1 : 0] : null;
    if (value.kids.length || !['string', 'number'].includes(value.kind)) return null;
    if (value.kind === 'number') return value.head;
    const text = unquoted(value.head);
    return kind === 'word' ? given.find(it => it.startsWith(`${text}=`))?.slice(text.length + 1) ?? '' : text;
  }
}
