// A term as an outline that opens and closes, by mouse, touch and keys, with places marked.

import { differing, layOut, pathText, readPath, readTerm } from './terms.mjs';

/** A closed row shows so many signs of its term; shorter terms begin closed. */
const SHOWN = 72;
const SHORT = 30;
/** So many rows are opened at first, and so many children shown at a time. */
const ROWS = 60;
const CHILDREN = 100;
/** So many marked places are opened. */
const MARKS = 40;

function element(name, attributes = {}, ...inside) {
  const it = document.createElement(name);
  for (const [key, value] of Object.entries(attributes)) {
    if (value !== undefined && value !== false) it.setAttribute(key, value);
  }
  it.append(...inside);
  return it;
}

/** A term laid out in a `<pre>`, with the nodes of `marked` in a `<mark>`. */
function printed(node, width, marked, kind) {
  const pre = element('pre', { class: 'term' });
  let into = pre;
  layOut(node, width, (text, sort) => {
    if (sort === 'open') into = into.appendChild(element('mark', { class: kind }));
    else if (sort === 'close') into = into.parentNode;
    else into.append(sort === 'sign' || sort === 'space' ? text : element('span', { class: `t-${sort}` }, text));
  }, marked);
  return pre;
}

/** Two terms side by side, with what differs marked. */
export function sideBySide(before, after, titles) {
  const [a, b] = [readTerm(before), readTerm(after)];
  const { old, now } = differing(a, b);
  // where all differs there is nothing to point out
  const column = (node, title, marked, kind) => element('div', { class: kind }, element('h4', {}, title),
    printed(node, 34, marked.has(node) ? new Set() : marked, kind));
  return element('div', { class: 'pair' }, column(a, titles[0], old, 'old'), column(b, titles[1], now, 'new'));
}

export class Outline {
  /** `choose` is called with the path of a subterm that is clicked, or chosen by Enter. */
  constructor(root, choose) {
    this.root = root;
    this.choose = choose;
    this.opened = new Map();                                // by path: whether the reader opened or closed it
    this.more = new Map();                                  // by path: how many children are shown
    root.setAttribute('role', 'tree');
    root.addEventListener('click', event => this.clicked(event));
    root.addEventListener('keydown', event => this.pressed(event));
  }

  /**
   * Shows a term. `marks` maps the text of a path to `{before, after, titles, label}`. `path` is the one that is chosen.
   */
  show(term, { marks = new Map(), path = '/', keep = true } = {}) {
    this.term = term;
    this.marks = marks;
    this.path = path;
    if (!term) {
      this.root.replaceChildren();
      return;
    }
    if (!keep) {
      this.opened.clear();
      this.more.clear();
    }
    this.open = this.openAtFirst();
    this.draw();
  }

  // The paths to open: breadth first while there is room, and the way to each mark.
  openAtFirst() {
    const open = new Set();
    let rows = 1;
    const waiting = [[this.term, []]];
    while (waiting.length && rows < ROWS) {
      const [node, path] = waiting.shift();
      if (node.isLeaf || node.length <= SHORT || rows + node.kids.length > ROWS * 2) continue;
      open.add(pathText(path));
      rows += node.kids.length;
      node.kids.forEach((kid, i) => waiting.push([kid, [...path, i]]));
    }
    [...this.marks.keys()].slice(0, MARKS).forEach(text => this.reveal(open, text));
    return open;
  }

  // Opens what is around the place, and shows enough children there.
  reveal(open, text) {
    const path = readPath(text);
    path.forEach((step, depth) => {
      const around = pathText(path.slice(0, depth));
      open.add(around);
      if (step >= (this.more.get(around) ?? CHILDREN)) this.more.set(around, Math.ceil((step + 1) / CHILDREN) * CHILDREN);
    });
  }

  /** Opens what is around a subterm, chooses it, and brings it into view. */
  reach(text) {
    if (!this.term) return;
    const path = readPath(text);
    this.reveal(this.open, text);
    path.forEach((_, depth) => this.opened.delete(pathText(path.slice(0, depth))));
    this.path = text;
    this.draw();
    const label = this.row(text)?.querySelector('.label');
    if (label) this.bring(label.getBoundingClientRect());
  }

  // Scrolls what is around the tree, and not the page: the reader may be elsewhere in it.
  bring(place) {
    const box = this.root.parentElement;
    const around = box.getBoundingClientRect();
    if (place.top < around.top || place.bottom > around.top + box.clientHeight) box.scrollTop += place.top - around.top - box.clientHeight / 2;
    const [left, right] = [place.left - around.left, place.right - around.left - box.clientWidth];
    if (left < 0 || right > 0) box.scrollLeft += Math.min(left, right);
  }

  isOpen(text) { return this.opened.get(text) ?? this.open.has(text); }

  draw() {
    const focused = this.root.contains(document.activeElement) ? document.activeElement.dataset.path : undefined;
    this.root.replaceChildren(this.item(this.term, [], 1, 1, 1));
    const current = this.row(focused) ?? this.row(this.path) ?? this.root.firstElementChild;
    current.tabIndex = 0;
    if (focused !== undefined) current.focus();
  }

  row(text) { return text === undefined ? null : this.root.querySelector(`[role=treeitem][data-path="${text}"]`); }

  item(node, path, level, position, count) {
    const text = pathText(path);
    const mark = this.marks.get(text);
    const isOpen = !node.isLeaf && this.isOpen(text);
    const item = element('li', {
      role: 'treeitem', 'data-path': text, tabindex: '-1', 'aria-level': level, 'aria-posinset': position, 'aria-setsize': count,
      'aria-expanded': node.isLeaf ? undefined : String(isOpen), 'aria-selected': String(text === this.path),
      'aria-label': this.spoken(node, text, isOpen, mark), class: mark ? `marked ${mark.kind}` : undefined,
    });
    item.append(this.rowOf(node, path, text, isOpen, mark));
    if (mark?.isShown) item.append(sideBySide(mark.before, mark.after, mark.titles));
    if (isOpen) item.append(this.group(node, path, text, level));
    return item;
  }

  spoken(node, text, isOpen, mark) {
    const shown = isOpen ? this.opening(node) : shortened(String(node), 200);
    const after = mark ? `, ${mark.label(shortened(mark.before, 200), shortened(mark.after, 200))}` : '';
    return `${shown}${after}`;
  }

  opening(node) {
    const count = node.kids.length;
    if (node.isList) return `list of ${count}`;
    if (node.isTuple) return `tuple of ${count}`;
    return `${node.head} of ${count}`;
  }

  rowOf(node, path, text, isOpen, mark) {
    const row = element('div', { class: 'row' });
    row.append(element('span', { class: 'toggle', 'aria-hidden': 'true' }, node.isLeaf ? '' : isOpen ? '▾' : '▸'));
    const label = element('span', { class: 'label', 'data-path': text });
    if (isOpen) {
      const head = node.isList ? '[ ]' : node.isTuple ? '( )' : node.head;
      label.append(element('span', { class: `t-${node.kind}` }, head));
      if (node.isList || node.isTuple) label.append(element('span', { class: 'muted' }, ` ${node.kids.length}`));
      if (node.notes.length) label.append(element('span', { class: 't-note' }, shortened(`{${node.notes.join(', ')}}`, SHOWN)));
    } else if (node.length <= SHOWN) {
      label.append(this.inline(node, path));
    } else {
      label.append(element('span', { class: `t-${node.kind}` }, shortened(String(node), SHOWN)));
    }
    row.append(label);
    if (mark) {
      const title = mark.isShown ? 'hide' : mark.title;
      const named = { type: 'button', class: 'badge', tabindex: '-1', 'data-mark': text, 'aria-label': `${title} (Space)` };
      row.append(element('button', named, title));
    }
    return row;
  }

  // A short term on one line, in which each subterm can be clicked.
  inline(node, path) {
    const text = pathText(path);
    const span = element('span', { 'data-path': text, class: text === this.path && path.length ? 'chosen' : undefined });
    if (!node.isList && !node.isTuple) span.append(element('span', { class: `t-${node.kind}` }, node.head));
    if (node.kids.length || node.isList || node.isTuple) {
      span.append(node.isList ? '[' : '(');
      node.kids.forEach((kid, i) => span.append(...(i ? [', '] : []), this.inline(kid, [...path, i])));
      span.append(node.isList ? ']' : ')');
    }
    if (node.notes.length) span.append(element('span', { class: 't-note' }, `{${node.notes.join(', ')}}`));
    return span;
  }

  group(node, path, text, level) {
    const group = element('ul', { role: 'group' });
    const shown = Math.min(this.more.get(text) ?? CHILDREN, node.kids.length);
    for (let i = 0; i < shown; i++) group.append(this.item(node.kids[i], [...path, i], level + 1, i + 1, node.kids.length));
    if (shown < node.kids.length) {
      const rest = node.kids.length - shown;
      const named = { role: 'treeitem', tabindex: '-1', 'data-more': text, 'data-path': `more ${text}`, 'aria-level': level + 1 };
      const said = `show ${Math.min(CHILDREN, rest)} more of ${rest}`;
      group.append(element('li', named, element('div', { class: 'row more' }, element('span', { class: 'toggle' }), said)));
    }
    return group;
  }

  clicked({ target }) {
    const item = target.closest('[role=treeitem]');
    if (!item) return;
    if (item.dataset.more !== undefined) return this.showMore(item.dataset.more);
    if (target.closest('.badge')) return this.toggleMark(target.closest('.badge').dataset.mark);
    if (target.closest('.toggle')) return this.toggle(item);
    const label = target.closest('[data-path]');
    if (target.closest('.row')) this.chosen(label.dataset.path);
  }

  chosen(text) {
    this.path = text;
    this.draw();
    this.choose(text);
  }

  toggle(item, isOpen = item.getAttribute('aria-expanded') !== 'true') {
    if (!item.hasAttribute('aria-expanded')) return;
    this.opened.set(item.dataset.path, isOpen);
    this.draw();
  }

  toggleMark(text) {
    const mark = this.marks.get(text);
    mark.isShown = !mark.isShown;
    this.draw();
  }

  showMore(text) {
    this.more.set(text, (this.more.get(text) ?? CHILDREN) + CHILDREN);
    this.draw();
  }

  // The keys of the tree pattern: arrows, Home, End, Enter to choose the path, Space to open a marked place's two sides.
  pressed(event) {
    const item = event.target.closest('[role=treeitem]');
    if (!item || event.ctrlKey || event.metaKey || event.altKey) return;
    const items = [...this.root.querySelectorAll('[role=treeitem]')];
    const at = items.indexOf(item);
    const isOpen = item.getAttribute('aria-expanded');
    const act = {
      ArrowDown: () => this.focus(items[at + 1]),
      ArrowUp: () => this.focus(items[at - 1]),
      Home: () => this.focus(items[0]),
      End: () => this.focus(items.at(-1)),
      ArrowRight: () => (isOpen === 'false' ? this.toggle(item, true) : isOpen && this.focus(items[at + 1])),
      ArrowLeft: () => (isOpen === 'true' ? this.toggle(item, false) : this.focus(item.parentElement.closest('[role=treeitem]'))),
      Enter: () => (item.dataset.more === undefined ? this.chosen(item.dataset.path) : this.showMore(item.dataset.more)),
      ' ': () => (this.marks.has(item.dataset.path) ? this.toggleMark(item.dataset.path) : this.toggle(item)),
    }[event.key];
    if (!act) return;
    event.preventDefault();
    act();
  }

  focus(item) {
    if (!item) return;
    this.root.querySelectorAll('[role=treeitem][tabindex="0"]').forEach(it => { it.tabIndex = -1; });
    item.tabIndex = 0;
    item.focus();
  }
}

const shortened = (text, most) => (text.length <= most ? text : `${text.slice(0, most - 1)}…`);
