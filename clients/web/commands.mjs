// Steps as commands of a script, and the place of a script's line and column in the text that a step was made of.

const INDENT = '  ';

/** A text with each line indented, so that it goes on with the command before it. */
const indented = text => text.replace(/\r\n?/g, '\n').replace(/^/gm, INDENT);

const isOneLine = text => !text.trim().includes('\n');

/** The words of an `apply` or `preview` before the strategy. */
function head(word, { tree, path, budget }) {
  const at = path && path !== '/' ? ` at ${path}` : '';
  const within = budget === 100000 ? '' : ` within ${budget}`;
  return `${word} ${tree}${at}${within} do`;
}

/** `apply` or `preview` of a strategy, as a command. */
export function applying(word, step) {
  const { strategy } = step;
  return isOneLine(strategy) ? `${head(word, step)} ${strategy.trim()}` : `${head(word, step)}\n${indented(strategy)}`;
}

/** The place in the strategy of a line and a column of its command. */
export function placeInStrategy(word, step, { line, column }) {
  if (!isOneLine(step.strategy)) return { line: line - 1, column: column - INDENT.length };
  const lines = step.strategy.split('\n');
  const first = lines.findIndex(it => it.trim());
  const blanks = lines[first].length - lines[first].trimStart().length;
  return { line: first + 1, column: column - head(word, step).length - 1 + blanks };
}

/** A module as a command that gives the very text that loading gives: lines in the first column get a blank. */
function moduleCommand(name, text) {
  const lines = text.replace(/\r+$/gm, '').replace(/^(?=\S)/gm, ' ').trim();
  return lines.includes('\n') ? `module ${name}\n ${lines}` : `module ${name} ${lines}`;
}

/** A step as commands of a script. A tree's text is that which the engine prints, where it is known. */
export function commandOf(step) {
  switch (step.kind) {
    case 'tree':
      return `tree ${step.name} ${step.printed ?? step.text}`;
    case 'module':
      return moduleCommand(step.name, step.text);
    case 'modules':
      return ['begin', ...step.modules.map(([name, text]) => moduleCommand(name, text)), 'commit'].join('\n');
    case 'apply':
      return applying('apply', step);
    case 'drop':
    case 'unload':
      return `${step.kind} ${step.name}`;
    default:
      return `copy ${step.name} ${step.to}`;
  }
}

/** A step in a few words, for the timeline. */
export function labelOf(step) {
  switch (step.kind) {
    case 'apply': {
      const at = step.path !== '/' ? ` at ${step.path}` : '';
      const within = step.budget === 100000 ? '' : ` within ${step.budget}`;
      return `${step.strategy.trim().replace(/\s+/g, ' ')}${at}${within}`;
    }
    case 'modules':
      return `edit ${step.modules.map(([name]) => name).join(', ')}`;
    case 'tree':
    case 'module':
      return `${step.isNew ? 'add' : 'edit'} ${step.name}`;
    case 'copy':
      return `copy ${step.name} to ${step.to}`;
    default:
      return `remove ${step.name}`;
  }
}

/** The names of the trees that a step may change. */
export function touched(step) {
  switch (step.kind) {
    case 'tree':
    case 'drop':
      return [step.name];
    case 'apply':
      return [step.tree];
    case 'copy':
      return [step.to];
    default:
      return [];
  }
}

/** A label, as names of trees and modules are. */
export const isName = text => /^[A-Za-z_][A-Za-z0-9_\-+*$.']{0,63}$/.test(text);
