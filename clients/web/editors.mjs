// Editors with line numbers and coloured syntax by CodeMirror where it is at hand, else plain text fields.

const RESERVED = /^(?:module|signature|sorts|constructors|rules|strategies|id|fail|all|one|some|not|where|test|if|then|else|end|rec|prim)$/;
const WORD = /^[A-Za-z_][A-Za-z0-9_'-]*/;

/** A mode for CodeMirror. Texts of strategies have words with a meaning, and names before `:` and `=` are definitions. */
function modeOf(isTerm) {
  const next = (stream, state) => {
    if (state.isComment) {
      if (stream.skipTo('*/')) {
        stream.pos += 2;
        state.isComment = false;
      } else stream.skipToEnd();
      return 'comment';
    }
    if (state.isString || stream.peek() === '"') {
      if (!state.isString) stream.next();
      state.isString = true;
      for (let it; (it = stream.next()) !== undefined;) {
        if (it === '\\') stream.next();
        else if (it === '"') {
          state.isString = false;
          break;
        }
      }
      return 'string';
    }
    if (stream.eatSpace()) return null;
    if (!isTerm && stream.match('//')) {
      stream.skipToEnd();
      return 'comment';
    }
    if (!isTerm && stream.match('/*')) {
      state.isComment = true;
      return 'comment';
    }
    if (stream.match(/^-?\d+/)) return 'number';
    const word = stream.match(WORD);
    if (word) {
      if (!isTerm && RESERVED.test(word[0])) return 'keyword';
      if (/^[A-Z]/.test(word[0])) return 'variable-2';
      return !isTerm && /^\s+[a-zA-Z]/.test(stream.string) && stream.match(/^\s*(?:\([^()]*\))?\s*=(?!>)/, false) ? 'def' : 'variable';
    }
    if (stream.match(/^(?:->|=>|<\+)/)) return 'operator';
    return /[{}]/.test(stream.next()) ? 'meta' : 'operator';
  };
  return () => ({ startState: () => ({ isComment: false, isString: false }), token: next, lineComment: isTerm ? undefined : '//' });
}

const defineModes = () => {
  window.CodeMirror.defineMode('strategies', modeOf(false));
  window.CodeMirror.defineMode('terms', modeOf(true));
};

/** The place in UTF-16 of a column of characters, counted from 1. */
const unitsBefore = (line, column) => [...line].slice(0, column - 1).join('').length;

/**
 * Makes an editor of a text field. `changed` is called as somebody types. Tab leaves the editor, as it leaves any field. `complete` says
 * which names begin with a text, `{name, said}`, and `explain` what a name means. `moved` is called where the cursor is moved, with the
 * places in the text that are selected.
 */
export function makeEditor(field, { mode, changed, complete, explain, moved, numbers = true }) {
  if (!window.CodeMirror) return plainEditor(field, changed, moved);
  if (!window.CodeMirror.modes.strategies) defineModes();
  const keys = complete ? { 'Ctrl-Space': () => completeAt(editor, complete) } : {};
  const editor = window.CodeMirror.fromTextArea(field, {
    mode, lineNumbers: numbers, lineWrapping: true, inputStyle: 'contenteditable', viewportMargin: 30, indentUnit: 2, spellcheck: false,
    screenReaderLabel: field.getAttribute('aria-label'), extraKeys: { Tab: false, 'Shift-Tab': false, ...keys },
    matchBrackets: Boolean(window.CodeMirror.prototype.matchBrackets),
  });
  // what is typed into is an element of its own, which a screen reader has to know as a text field
  const input = editor.getInputField();
  for (const [name, word] of [['role', 'textbox'], ['aria-multiline', 'true'], ['aria-label', field.getAttribute('aria-label')]]) {
    input.setAttribute(name, word);
  }
  if (explain) explainUnder(editor, explain);
  let isSetting = false;
  let isTyping = false;
  let marks = [];
  let chosen;
  editor.on('change', () => {
    if (isSetting) return;
    isTyping = true;
    changed?.(editor.getValue());
  });
  // after what is typed the cursor moves, too
  editor.on('cursorActivity', () => {
    if (!isTyping && !isSetting) moved?.(...['from', 'to'].map(it => editor.indexFromPos(editor.getCursor(it))));
    isTyping = false;
  });
  const clear = () => {
    marks.forEach(it => it.clear());
    marks = [];
  };
  return {
    get value() { return editor.getValue(); },
    set value(text) {
      if (text === editor.getValue()) return;
      isSetting = true;
      setText(editor, text);
      editor.clearHistory();
      isSetting = false;
    },
    clear,
    mark({ line, column }, title, isWarning = false) {
      const at = { line: line - 1, ch: unitsBefore(editor.getLine(line - 1) ?? '', column) };
      const end = /^(?:[A-Za-z_][\w'-]*|"(?:[^"\\]|\\.)*"?|\S)/.exec((editor.getLine(line - 1) ?? '').slice(at.ch))?.[0].length ?? 1;
      const from = (editor.getLine(line - 1) ?? '').length > at.ch ? at : { line: at.line, ch: Math.max(0, at.ch - 1) };
      const shown = { className: isWarning ? 'cm-warning' : 'cm-fault', attributes: { title } };
      marks.push(editor.markText(from, { line: at.line, ch: at.ch + end }, shown));
      if (!isWarning) {
        const handle = editor.addLineClass(line - 1, 'background', 'fault-line');
        if (handle) marks.push({ clear: () => editor.removeLineClass(handle, 'background', 'fault-line') });
      }
    },
    go({ line, column }) {
      editor.focus();
      editor.setCursor({ line: line - 1, ch: unitsBefore(editor.getLine(line - 1) ?? '', column) });
      editor.scrollIntoView(null, 60);
    },
    /** Marks what is between two places, and brings it into view where it wasn't marked. */
    choose(first, last) {
      const there = chosen?.find();
      if (there && editor.indexFromPos(there.from) === first && editor.indexFromPos(there.to) === last) return;
      chosen?.clear();
      chosen = undefined;
      if (first === last) return;
      const [from, to] = [first, last].map(it => editor.posFromIndex(it));
      chosen = editor.markText(from, to, { className: 'cm-chosen' });
      if (!editor.hasFocus()) editor.scrollIntoView({ from, to: from }, 40);
    },
    refresh: () => editor.refresh(),
    focus: () => editor.focus(),
    set mode(name) { if (editor.getOption('mode') !== name) editor.setOption('mode', name); },
    set label(text) { input.setAttribute('aria-label', text); },
    set isReadOnly(is) {
      editor.setOption('readOnly', is);
      input.setAttribute('aria-readonly', String(is));
    },
  };
}

/** Sets the text of an editor. Where most of it stays, only the rest is laid out anew, and what is in view stays. */
function setText(editor, text) {
  const before = editor.getValue();
  const most = Math.min(before.length, text.length);
  let front = 0;
  while (front < most && before[front] === text[front]) front++;
  let back = 0;
  while (back < most - front && before.at(-1 - back) === text.at(-1 - back)) back++;
  if (front + back < text.length / 2 || text.includes('\r')) {
    editor.setValue(text);
    return;
  }
  const [from, to] = [front, before.length - back].map(it => editor.posFromIndex(it));
  editor.replaceRange(text.slice(front, text.length - back), from, to);
}

/** Offers the names that begin with what is before the cursor. */
function completeAt(editor, complete) {
  const hint = () => {
    const to = editor.getCursor();
    const start = /[A-Za-z_][\w'-]*$/.exec(editor.getLine(to.line).slice(0, to.ch))?.[0] ?? '';
    const list = complete(start).map(({ name, said }) => ({ text: name, displayText: said.startsWith(name) ? said : `${name}: ${said}` }));
    return { list, from: { line: to.line, ch: to.ch - start.length }, to };
  };
  editor.showHint?.({ hint, completeSingle: false });
}

/** Shows what a name means where the mouse rests on it. What an underlined fault says goes first. */
function explainUnder(editor, explain) {
  const wrapper = editor.getWrapperElement();
  wrapper.addEventListener('mousemove', ({ clientX, clientY, target }) => {
    if (target.closest('[title]') && target.closest('[title]') !== wrapper) return;
    const { line, ch } = editor.coordsChar({ left: clientX, top: clientY }, 'window');
    const token = editor.getTokenAt({ line, ch: ch + 1 });
    const isName = ['keyword', 'variable', 'variable-2', 'def'].includes(token.type);
    wrapper.title = isName ? explain(token.string) : '';
  });
}

function plainEditor(field, changed, moved) {
  field.addEventListener('input', () => changed?.(field.value));
  for (const name of ['click', 'keyup']) {
    // after what is typed the cursor moves, too
    field.addEventListener(name, ({ key = 'ArrowLeft' }) => /^(?:Arrow|Home|End|Page)/.test(key) && moved?.(field.selectionStart, field.selectionEnd));
  }
  const go = ({ line, column }) => {
    const lines = field.value.split('\n');
    const at = lines.slice(0, line - 1).reduce((sum, it) => sum + it.length + 1, 0) + unitsBefore(lines[line - 1] ?? '', column);
    field.focus();
    field.setSelectionRange(at, Math.min(at + 1, at + (lines[line - 1] ?? '').length - column + 1));
  };
  return {
    get value() { return field.value; },
    set value(text) { field.value = text; },
    clear() { field.removeAttribute('aria-invalid'); },
    mark(_, title, isWarning = false) { if (!isWarning) field.setAttribute('aria-invalid', 'true'); },
    go,
    choose(first, last) { if (document.activeElement !== field) field.setSelectionRange(first, last); },
    refresh() {},
    focus: () => field.focus(),
    set mode(_) {},
    set label(text) { field.setAttribute('aria-label', text); },
    set isReadOnly(is) { field.readOnly = is; },
  };
}
