// The pane with the source of the tree that is shown: its text, what a step has changed in it, and what is selected in both.

import { button, byId, made, say, withCode } from './parts.mjs';
import { languageOf, page } from './state.mjs';
import { lineOf, pathAt, placeAt, sourceOf } from './source.mjs';
import { pathText, readPath } from './terms.mjs';
import { hunksOf } from './diff.mjs';
import { makeEditor } from './editors.mjs';

const TAGS = { '-': 'del', '+': 'ins', ' ': 'span' };
const HINT = 'A click in the text selects what is there in the tree, and a click in the tree marks it in the text.';

export class SourcePane {
  /** `choose` is called with the path of what is clicked in the text, `changed` with what is typed. */
  constructor(choose, changed) {
    this.choose = choose;
    this.editor = makeEditor(byId('source-input'), { mode: null, changed, moved: (first, last) => this.moved(first, last) });
  }

  /** Shows the source of a tree, if it has one, with what is at a path marked. */
  show(name, path) {
    const source = name ? sourceOf(name) : undefined;
    // what is there may be shown again and again, as a strategy is typed
    const isNew = source !== this.source;
    this.source = source;
    byId('source-pane').hidden = !source;
    byId('panes').classList.toggle('with-source', Boolean(source));
    if (isNew) this.showDiff(!source || source.before === source.text ? [] : hunksOf(source.before, source.text));
    if (!source) return;
    const { title, mode } = page.languages[languageOf(name)] ?? { title: languageOf(name), mode: null };
    byId('source-language').textContent = title;
    this.editor.mode = mode;
    this.editor.value = source.text;
    this.editor.label = `Source of ${name}, in ${title}`;
    if (isNew) this.editor.refresh();
    if (isNew || !byId('source-said').hasChildNodes()) this.sayAll(title);
    this.mark(path);
  }

  sayAll(title) {
    const { wrong, unwritten, lost, text } = this.source;
    const root = byId('source-said');
    this.editor.clear();
    if (wrong) {
      const place = lineOf(text, wrong.place);
      if (text) this.editor.mark(place, wrong.message);
      const go = button(`Go to line ${place.line}, column ${place.column}`, () => this.editor.go(place));
      say(root, 'refused', made('span', { className: 'word' }, `Not read as ${title}: `), ...withCode(wrong.message), ' ', go);
    } else if (unwritten) {
      const which = this.source.none ? [' Its place in the tree: ', ...this.links()] : [];
      say(root, 'refused', made('span', { className: 'word' }, 'Not written: '), ...withCode(unwritten), ...which, ' The text that was read is shown.');
    } else if (lost.length) {
      say(root, 'warned', made('span', { className: 'word' }, 'Lost: '), `no place was found for ${lost.length === 1 ? 'a comment' : `${lost.length} comments`}. `,
        ...lost.slice(0, 5).flatMap(it => [made('code', { textContent: it }), ' ']));
    } else say(root);
  }

  // The place of what has no text.
  links() {
    const path = pathOf(this.source.root, this.source.none);
    return [button(path, () => this.choose(path)), '.'];
  }

  showDiff(hunks) {
    const count = sign => hunks.flatMap(it => it.lines).filter(it => it.sign === sign).length;
    byId('diff-pane').hidden = !hunks.length;
    byId('panes').classList.toggle('with-diff', hunks.length > 0);
    byId('diff-count').textContent = `${count('-')} lines go, ${count('+')} come`;
    const lineOfDiff = ({ sign, text: line }) => made(TAGS[sign], {}, `${sign}${line}`);
    byId('diff').replaceChildren(...hunks.flatMap(({ head, lines }) => [made('span', { className: 'muted' }, head), ...lines.map(lineOfDiff)]));
  }

  /** Marks in the text what is at a path, and says where it is. */
  mark(text) {
    const path = readPath(text);
    const place = path?.length && this.source?.root && placeAt(this.source, path);
    this.editor.choose(...place || [0, 0]);
    if (!place) {
      byId('source-hint').textContent = HINT;
      return;
    }
    const [first, last] = place.map(it => lineOf(this.source.text, it));
    const where = first.line === last.line ? `line ${first.line}, columns ${first.column} to ${last.column - 1}` : `lines ${first.line} to ${last.line}`;
    byId('source-hint').replaceChildren(...withCode(`\`${text}\` is in ${where}.`));
  }

  moved(first, last) {
    // what was typed since isn't read yet
    if (!this.source?.root || this.source.text !== this.editor.value) return;
    const path = pathAt(this.source, first, last);
    if (path) this.choose(pathText(path));
  }
}

// The path of a node in a tree.
function pathOf(root, node) {
  const walk = (it, path) => (it === node ? path : it.kids.reduce((found, kid, i) => found ?? walk(kid, [...path, i]), null));
  return pathText(walk(root, []) ?? []);
}
