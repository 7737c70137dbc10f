// Terms as the workbench prints them: read into nodes that point into the text, laid out, and compared.

// The tokens of a printed term, and white space.
const TOKEN = /-?\d+|[A-Za-z_][A-Za-z0-9_\-+*$.']*|"(?:[^"\\]|\\[^])*"|[[\](){},]|[ \t\r\n]+/y;
const CLOSING = { '(': ')', '[': ']', '{': '}' };
// The annotation that is a position in a source. Many nodes have one, and few are asked for it.
const POSITION = /\{(\(\d+,\d+\))\}/y;
const NONE = Object.freeze([]);

/**
 * One term of a text. `head` is its name, its integer, `[` or `(`; `kids` are its children and `notes` its annotations, of which one that
 * is a position in a source is a text. `start` and `end` are places in `text`, of the whole with annotations. `size` counts the terms in it
 * without annotations.
 */
class Node {
  constructor(text, head, start) {
    this.text = text;
    this.head = head;
    this.start = start;
    this.end = start;
    this.kids = NONE;
    this.notes = NONE;
    this.size = 1;
    this.position = '';                                     // that in a source, as an annotation has it
  }

  get isList() { return this.head === '['; }
  get isTuple() { return this.head === '('; }
  get isLeaf() { return this.kids.length === 0; }
  get kind() {
    if (this.isList || this.isTuple) return 'sign';
    if (this.head[0] === '"') return 'string';
    return /^-?\d/.test(this.head) ? 'number' : 'name';
  }

  /** Its printed text. */
  toString() { return this.text.slice(this.start, this.end); }

  get length() { return this.end - this.start; }

  equals(other) { return this.length === other.length && String(this) === String(other); }

  /** The subterm at a path, or undefined. */
  at(path) { return path.reduce((node, step) => node?.kids[step], this); }
}

/** A function of a text that keeps its last few answers: texts may be long, and are asked for again and again. */
export function remembered(ask, most = 8) {
  const answers = new Map();
  return text => {
    if (answers.has(text)) return answers.get(text);
    if (answers.size === most) answers.delete(answers.keys().next().value);
    answers.set(text, ask(text));
    return answers.get(text);
  };
}

const utf8 = new TextDecoder('utf-8', { fatal: true, ignoreBOM: true });
// What is in quotes, and in it a run of escapes of bytes from 128 on, or another escape.
const QUOTED = /"(?:[^"\\]|\\[^])*"/g;
const BYTES = /((?:\\[23][0-7]{2})+)|\\[^]/g;
// Characters that can't be seen, or turn the direction of a line.
const UNSEEN = /[\p{C}\p{Z}]/u;

const charactersOf = escapes => utf8.decode(Uint8Array.from(escapes.split('\\').slice(1), it => parseInt(it, 8)));
const encoder = new TextEncoder();
const escaped = text => [...encoder.encode(text)].map(it => `\\${it.toString(8).padStart(3, '0')}`).join('');

function asText(quoted) {
  try {
    return quoted.replace(BYTES, (whole, escapes) => (escapes === undefined
      ? whole
      : [...charactersOf(escapes)].map(it => (UNSEEN.test(it) ? escaped(it) : it)).join('')));
  } catch {
    return quoted;
  }
}

/** A printed term in which each string that is UTF-8 has its characters in place of the escapes of their bytes. It spells the same term. */
export const withCharacters = remembered(text => (text.includes('\\') ? text.replace(QUOTED, asText) : text));

const POSITIONS = /"(?:[^"\\]|\\[^])*"|\{\(\d+,\d+\)\}/g;

/** A printed term without the annotations that are positions in a source. */
export const withoutPositions = remembered(text => text.replace(POSITIONS, it => (it[0] === '"' ? it : '')));

const ESCAPES = { n: '\n', t: '\t', r: '\r' };

/** The text that a quoted name stands for. Bytes that aren't UTF-8 become the sign for such. */
export function unquoted(quotation) {
  const inside = quotation.slice(1, -1);
  if (!inside.includes('\\')) return inside;
  const bytes = [...inside.matchAll(/\\(\d{3})|\\(.)|[^\\]+/gs)].flatMap(([whole, octal, letter]) => (octal
    ? [parseInt(octal, 8)]
    : [...encoder.encode(letter === undefined ? whole : ESCAPES[letter] ?? letter)]));
  return new TextDecoder('utf-8', { ignoreBOM: true }).decode(Uint8Array.from(bytes));
}

const LETTERS = { '\n': '\\n', '\t': '\\t', '\r': '\\r', '"': '\\"', '\\': '\\\\' };

/** A text as the quoted name that stands for it, as the engine prints it. */
export const quoted = text => `"${text.replace(/["\\]|[^ -~]+/g, run => [...run].map(it => LETTERS[it] ?? escaped(it)).join(''))}"`;

/** Reads a printed term. Returns null where the text is none. */
export const readTerm = remembered(read);

function read(text) {
  let at = 0;
  let token = '';
  const next = () => {
    do {
      TOKEN.lastIndex = at;
      const found = TOKEN.exec(text);
      if (!found) {
        token = at === text.length ? '' : undefined;
        return;
      }
      token = found[0];
      at = TOKEN.lastIndex;
    } while (/^[ \t\r\n]/.test(token));
  };
  const start = () => at - token.length;
  const list = () => {                                      // after the opening bracket
    const closing = CLOSING[token];
    const found = [];
    next();
    while (token !== closing) {
      const node = term();
      if (!node) return null;
      found.push(node);
      if (token === ',') {
        next();
        if (token === closing) return null;
      } else if (token !== closing) return null;
    }
    return found.length ? found : NONE;
  };
  const notes = node => {
    POSITION.lastIndex = start();
    const found = POSITION.exec(text);
    if (!found) return list();
    at = POSITION.lastIndex;
    node.position = found[1];
    return [found[1]];
  };
  const term = () => {
    if (!token || /^[,)\]}{]/.test(token)) return null;
    const node = new Node(text, token, start());
    node.end = at;
    const isName = !/^[[(\d-]/.test(token);
    if (isName) next();
    if (!isName && !/^[[(]/.test(token)) next();
    else if (token === '(' || (!isName && token === '[')) {
      node.kids = list();
      if (!node.kids) return null;
      node.end = at;
      next();
    }
    if (token === '{') {
      node.notes = notes(node);
      if (!node.notes) return null;
      node.end = at;
      next();
    }
    for (const kid of node.kids) node.size += kid.size;
    return node;
  };
  next();
  const whole = term();
  return whole && token === '' ? whole : null;
}

/** The text of a path, as commands take it. */
export const pathText = path => (path.length ? path.map(it => `/${it}`).join('') : '/');

/** The path of a text, or null. */
export function readPath(text) {
  if (text === '/' || text === '') return [];
  return /^(?:\/\d{1,10})+$/.test(text) ? text.slice(1).split('/').map(Number) : null;
}

/** How many places of a tree are marked at most. */
export const MARKED = 500;

/**
 * The outermost places at which two terms differ: what is inside differs in its head, its annotations or its number of children.
 * Each is `{path, before, after}`. `most` bounds how many are looked for.
 */
export function differences(before, after, most = MARKED) {
  const found = [];
  const walk = (a, b, path) => {
    if (found.length >= most || a.equals(b)) return;
    const isSame = a.head === b.head && a.kids.length === b.kids.length && a.kids.length > 0 && String(a.notes) === String(b.notes);
    if (!isSame) found.push({ path, before: a, after: b });
    else a.kids.forEach((kid, i) => walk(kid, b.kids[i], [...path, i]));
  };
  walk(before, after, []);
  return found;
}

/**
 * The nodes of two terms that make them differ, for marking: as small as possible. In lists and tuples of unlike length the common
 * ends are left out.
 */
export function differing(before, after) {
  const old = new Set();
  const now = new Set();
  const walk = (a, b) => {
    if (a.equals(b)) return;
    const isSame = a.head === b.head && a.kids.length && b.kids.length && String(a.notes) === String(b.notes);
    if (isSame && a.kids.length === b.kids.length) {
      a.kids.forEach((kid, i) => walk(kid, b.kids[i]));
    } else if (isSame && a.isList) {
      const [m, n] = [a.kids.length, b.kids.length];
      let front = 0;
      while (front < m && front < n && a.kids[front].equals(b.kids[front])) front++;
      let back = 0;
      while (back < m - front && back < n - front && a.kids[m - 1 - back].equals(b.kids[n - 1 - back])) back++;
      a.kids.slice(front, m - back).forEach(kid => old.add(kid));
      b.kids.slice(front, n - back).forEach(kid => now.add(kid));
    } else {
      old.add(a);
      now.add(b);
    }
  };
  walk(before, after);
  return { old, now };
}

/** How many short children at the front stay on the line of their name. */
function inFront({ head, kids }, left) {
  let used = head.length + 1;
  const first = kids.findIndex(kid => {
    used += kid.length + 2;
    return !kid.isLeaf || kid.length > 24 || used > left;
  });
  return Math.min(first < 0 ? kids.length : first, kids.length - 1);
}

/**
 * Lays a term out over lines of about `width` signs, and hands each piece to `say(piece, kind, node)`: kinds are `name`, `number`,
 * `string`, `sign`, `note`, and `open` and `close` around each node of `marked`.
 */
export function layOut(node, width, say, marked = new Set()) {
  const put = (it, left, depth) => {
    if (marked.has(it)) say('', 'open', it);
    const isFlat = it.length <= left;
    const [open, close] = it.isList ? ['[', ']'] : it.isTuple ? ['(', ')'] : it.kids.length ? ['(', ')'] : ['', ''];
    if (!it.isList && !it.isTuple) say(it.head, it.kind, it);
    if (open) {
      say(open, 'sign', it);
      const front = isFlat || it.isList ? 0 : inFront(it, width - 2 * depth);
      it.kids.forEach((kid, i) => {
        const isOnLine = isFlat || i < front;
        if (!isOnLine) say(`\n${'  '.repeat(depth + 1)}`, 'space', it);
        put(kid, isOnLine ? Infinity : width - 2 * depth - 3, depth + 1);
        if (i < it.kids.length - 1) say(isFlat || i + 1 < front ? ', ' : ',', 'sign', it);
      });
      if (!isFlat && it.kids.length) say(`\n${'  '.repeat(depth)}`, 'space', it);
      say(close, 'sign', it);
    }
    if (it.notes.length) say(`{${it.notes.join(', ')}}`, 'note', it);
    if (marked.has(it)) say('', 'close', it);
  };
  put(node, width, 0);
}

/** A term as a text over lines, which spells the same term. */
export function laidOut(node, width = 64) {
  let text = '';
  layOut(node, width, piece => { text += piece; });
  return text;
}
