// Parts of the page: rows of tabs, the timeline, what is said, and dialogs.

export const byId = id => document.getElementById(id);

export function made(name, properties = {}, ...inside) {
  const it = Object.assign(document.createElement(name), properties);
  it.append(...inside);
  return it;
}

/** A text in which what stands between backticks is code. */
export function withCode(text) {
  return text.split(/`([^`]*)`/).map((part, i) => (i % 2 ? made('code', { textContent: part }) : part));
}

/** A row of tabs, gone along by the arrow keys. `tabs` are `{name, isEdited, isFaulty}`. */
export class Tabs {
  constructor(root, panel, choose) {
    this.root = root;
    this.panel = panel;
    this.choose = choose;
    root.addEventListener('keydown', event => this.pressed(event));
  }

  show(tabs, chosen) {
    const isFocused = this.root.contains(document.activeElement);
    this.root.replaceChildren(...tabs.map(({ name, isEdited, isFaulty }) => {
      const className = `${isEdited ? 'edited' : ''} ${isFaulty ? 'faulty' : ''}`;
      const tab = made('button', { type: 'button', textContent: name, className });
      tab.setAttribute('role', 'tab');
      tab.setAttribute('aria-selected', String(name === chosen));
      tab.setAttribute('aria-controls', this.panel);
      tab.setAttribute('aria-label', `${name}${isEdited ? ', edited' : ''}${isFaulty ? ', has a fault' : ''}`);
      tab.tabIndex = name === chosen ? 0 : -1;
      tab.onclick = () => this.choose(name);
      return tab;
    }));
    if (isFocused) this.root.querySelector('[aria-selected=true]')?.focus();
  }

  pressed(event) {
    const tabs = [...this.root.children];
    const at = tabs.indexOf(event.target);
    const to = { ArrowRight: at + 1, ArrowLeft: at - 1, Home: 0, End: tabs.length - 1 }[event.key];
    if (to === undefined || at < 0) return;
    event.preventDefault();
    tabs.at(to % tabs.length).click();
  }
}

/**
 * The steps as a row of buttons; the one that the session is at is marked. Only what has changed is drawn anew: most of the time that is
 * one step, and there may be hundreds.
 */
export function showTimeline(root, steps, at, go) {
  root.onclick = ({ target }) => {
    const item = target.closest('li');
    if (item) go([...root.children].indexOf(item));
  };
  const isFocused = root.contains(document.activeElement);
  const items = [{ label: 'start', kind: '' }, ...steps];
  while (root.childElementCount > items.length) root.lastElementChild.remove();
  items.forEach(({ label, kind }, i) => {
    const item = root.children[i] ?? root.appendChild(made('li', {}, made('button', { type: 'button' })));
    showStep(item, { label, title: i > at ? `redo up to: ${label}` : label, className: `${i > at ? 'later' : ''} ${kind}`, isCurrent: i === at });
  });
  const current = root.children[at];
  if (isFocused) current.firstElementChild.focus();
  soon(root, () => root.scrollTo({ left: current.offsetLeft - root.clientWidth / 2 }));
}

function showStep(item, { label, title, className, isCurrent }) {
  const step = item.firstElementChild;
  if (step.textContent !== label) step.textContent = label;
  if (step.title !== title) step.title = title;
  if (item.className !== className) item.className = className;
  if (step.hasAttribute('aria-current') === isCurrent) return;
  if (isCurrent) step.setAttribute('aria-current', 'step');
  else step.removeAttribute('aria-current');
}

const waiting = new WeakMap();

/** Does something with an element before it is drawn next, once: to ask where it is has the browser lay the page out. */
export function soon(element, act) {
  cancelAnimationFrame(waiting.get(element));
  waiting.set(element, requestAnimationFrame(act));
}

/** Says something in a pane: `kind` is `refused`, `warned` or empty. */
export function say(root, kind = '', ...parts) {
  root.className = `said ${kind}`;
  root.setAttribute('aria-live', kind === 'refused' ? 'assertive' : 'polite');
  root.replaceChildren(...parts);
}

const hintsOf = hints => (hints.length ? [made('ul', {}, ...hints.map(it => made('li', {}, ...withCode(it))))] : []);

/** What is said of a refusal: its word, the reason, hints, and buttons. */
export function refusalParts({ word, reason, hints }, buttons = []) {
  return [made('span', { className: 'word' }, `Refused (${word}): `), ...withCode(reason), ...hintsOf(hints), ...buttons.flatMap(it => [' ', it])];
}

export function warningParts(warnings, buttonOf) {
  return warnings.map(({ reason, hints, place }) => made('div', {}, made('span', { className: 'word' }, 'Warning: '), ...withCode(reason),
    ...hintsOf(hints), ...(place ? [' ', buttonOf(place)] : [])));
}

export const button = (text, act) => made('button', { type: 'button', textContent: text, onclick: act });

/** Shows a text to copy out. */
export function showText(title, about, text) {
  byId('text-title').textContent = title;
  byId('text-about').textContent = about;
  byId('text-shown').value = text;
  byId('text-copied').textContent = '';
  byId('text-dialog').showModal();
  byId('text-shown').select();
}

export function wireTextDialog() {
  byId('text-copy').onclick = async () => {
    byId('text-shown').select();
    try {
      await navigator.clipboard.writeText(byId('text-shown').value);
    } catch {
      document.execCommand('copy');
    }
    byId('text-copied').textContent = 'Copied.';
  };
}

/**
 * Asks for a name, and what to begin with. `starts` are `[label, value]`; `fault` says what is wrong with a name, or nothing.
 * Resolves to `{name, from}`, or null.
 */
export function askForName(title, name, starts, fault) {
  const [dialog, form, from, input, said] = ['add-dialog', 'add-form', 'add-from', 'add-name', 'add-said'].map(byId);
  byId('add-title').textContent = title;
  byId('add-from-label').hidden = starts.length < 2;
  from.replaceChildren(...starts.map(([label], i) => made('option', { value: i, textContent: label })));
  input.value = name;
  said.textContent = '';
  from.onchange = () => { if (starts[from.value][1]?.name) input.value = starts[from.value][1].name; };
  dialog.showModal();
  input.select();
  return new Promise(resolve => {
    let answer = null;
    form.onsubmit = event => {
      const why = fault(input.value);
      said.textContent = why ?? '';
      if (why) event.preventDefault();
      else answer = { name: input.value, from: starts[from.value][1] };
    };
    byId('add-cancel').onclick = () => dialog.close();
    dialog.onclose = () => resolve(answer);
  });
}
