// Reads JSON, with comments: the term of its text, as the front end of the client for Python has it. Positions are bytes in UTF-8.

import { quoted } from './terms.mjs';

const SPACE = /(?:[ \t\r\n]|\/\/[^\n\r]*|\/\*[^]*?\*\/)*/y;
const TOKEN = /"(?:[^"\\\0-\x1f]|\\.)*"|-?\d+(?:\.\d+)?(?:[eE][-+]?\d+)?|true|false|null|[[\]{},:]/y;
const INTEGER = /^-?(?:0|[1-9]\d{0,17})$/;

class Wrong extends Error {
  constructor(place, message) {
    super(message);
    this.place = place;
  }
}

/** The term of a text, `{term}`, or what is wrong with it, `{place, message}`. `byte` gives the byte of each character. */
export const frontEnd = () => (kind, isPlaced, text, byte) => {
  try {
    return { term: new Reader(text, byte).document() };
  } catch (fault) {
    if (!(fault instanceof Wrong)) throw fault;
    return { place: byte(fault.place), message: fault.message };
  }
};

class Reader {
  constructor(text, byte) {
    this.text = text;
    this.byte = byte;
    this.last = 0;
    this.next();
  }

  /** Goes to the next token: `token` is its text, and nothing at the end; `last` is where the one before ended. */
  next() {
    this.last = this.end ?? 0;
    SPACE.lastIndex = this.last;
    SPACE.test(this.text);
    this.first = SPACE.lastIndex;
    TOKEN.lastIndex = this.first;
    this.token = TOKEN.exec(this.text)?.[0] ?? '';
    this.end = this.first + this.token.length;
    if (!this.token && this.first < this.text.length) throw new Wrong(this.first, 'no JSON begins here');
  }

  /** Goes past a sign. */
  pass(sign, message) {
    if (this.token !== sign) throw new Wrong(this.first, message);
    this.next();
  }

  placed(term, first) { return `${term}{(${this.byte(first)},${this.byte(this.last)})}`; }

  document() {
    const value = this.value();
    if (this.token) throw new Wrong(this.first, 'something comes after the value');
    return `Document(${value}){(0,${this.byte(this.text.length)})}`;
  }

  value() {
    const { token, first } = this;
    if (token === '{') return this.placed(`Object([${this.elements('}', () => this.member())}])`, first);
    if (token === '[') return this.placed(`Array([${this.elements(']', () => this.value())}])`, first);
    if (token[0] === '"') return this.string();
    if (!/^[-\d tfn]/.test(token)) throw new Wrong(first, 'a value is wanted');
    this.next();
    if (token === 'null') return this.placed('Null', first);
    if (/^[tf]/.test(token)) return this.placed(`Boolean(${token === 'true' ? 'True' : 'False'})`, first);
    return this.placed(`Number(${INTEGER.test(token) ? BigInt(token) : `"${token}"`})`, first);
  }

  /** What is between two brackets. A comma may come after the last one. */
  elements(closing, element) {
    const found = [];
    this.next();
    while (this.token !== closing) {
      found.push(element());
      if (this.token !== closing) this.pass(',', 'a comma is wanted, or a bracket that closes');
    }
    this.next();
    return found.join(',');
  }

  member() {
    const { first } = this;
    if (this.token[0] !== '"') throw new Wrong(first, 'a key is wanted, in quotation marks');
    const key = this.string();
    this.pass(':', 'a colon is wanted');
    return this.placed(`Member(${key},${this.value()})`, first);
  }

  string() {
    const { token, first } = this;
    let value;
    try {
      value = JSON.parse(token);
    } catch {
      throw new Wrong(first, 'a wrong escape in a string');
    }
    this.next();
    return this.placed(`String(${quoted(value)})`, first);
  }
}
