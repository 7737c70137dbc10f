// Looks for names, strings and integers in the tree.

import { byId } from './parts.mjs';
import { pathText } from './terms.mjs';

/** So many matches are counted. */
const MOST = 10000;

/** The paths of the subterms whose head has the text in it, in their order, MOST of them at most. */
export function pathsOf(term, text) {
  const found = [];
  const walk = (node, path) => {
    if (found.length === MOST) return;
    if (!node.isList && !node.isTuple && node.head.includes(text)) found.push(pathText(path));
    node.kids.forEach((kid, i) => walk(kid, [...path, i]));
  };
  walk(term, []);
  return found;
}

export class Find {
  /** `outline` shows the tree. A match is chosen there, and `choose` is called with its path. */
  constructor(outline, choose) {
    this.outline = outline;
    this.choose = choose;
    this.paths = [];
    this.at = -1;
    this.field = byId('find');
    this.field.oninput = () => this.look();
    this.field.onkeydown = event => this.pressed(event);
    byId('find-next').onclick = () => this.go(1);
    byId('find-before').onclick = () => this.go(-1);
  }

  /** Looks again, as where the tree is another one. Nothing is chosen. */
  renew() {
    const text = this.field.value;
    this.paths = text && this.outline.term ? pathsOf(this.outline.term, text) : [];
    this.at = this.paths.indexOf(this.outline.path);
    this.say();
  }

  look() {
    this.renew();
    if (this.paths.length && this.at < 0) this.go(1);
  }

  go(by) {
    if (!this.paths.length) return;
    this.at = this.at < 0 ? (by > 0 ? 0 : this.paths.length - 1) : (this.at + by + this.paths.length) % this.paths.length;
    this.outline.reach(this.paths[this.at]);
    this.choose(this.paths[this.at]);
    this.say();
  }

  say() {
    const count = this.paths.length;
    const all = count === MOST ? `${MOST.toLocaleString('en')} or more` : count.toLocaleString('en');
    const which = this.at < 0 ? all : `${(this.at + 1).toLocaleString('en')} of ${all}`;
    byId('found').textContent = !this.field.value ? '' : count ? which : 'no match';
    for (const id of ['find-next', 'find-before']) byId(id).disabled = !count;
  }

  pressed(event) {
    if (event.key === 'Escape') {
      this.field.value = '';
      this.renew();
    } else if (event.key === 'Enter' && !event.ctrlKey && !event.metaKey && !event.altKey) {
      event.preventDefault();
      this.go(event.shiftKey ? -1 : 1);
    }
  }
}
