// What the engine says of a refusal, or of an accepted module: a line of JSON each.

// The number of a refusal by a fault of modules or strategies.
const CHECK = 11;

/** What the refusals mean, for where nothing more is said. */
const MEANINGS = {
  1: 'there is not enough memory',
  2: 'this is no command',
  3: 'the command is too long: it may have 65,536 bytes',
  4: 'a name is no word, or is longer than 64 bytes',
  5: 'there is no tree of this name',
  6: 'there is no module of this name',
  7: 'the text spells no term',
  8: 'the text is too deep: 1,000 brackets may be open at a place of a tree, and a strategy, or a module, may have 4,000 tokens',
  9: 'the tree has no subterm at this path',
  10: 'the text is no strategy, or no module',
  11: 'a module has a fault',
  12: 'the strategy fails on this term',
  13: 'the budget of steps is used up',
  14: 'a term that was built does not fit: it may have 100,000 terms, and a tree may be 1,000 high',
  15: 'there is nothing to undo',
  16: 'there is nothing to redo',
};

const counted = (count, word) => `${count} ${word.replace(/y$/, count === '1' ? 'y' : 'ie')}${count === '1' ? '' : 's'}`;
const of = ([, strategies, terms]) => ` with ${counted(strategies, 'strategy')} and ${counted(terms, 'term')}`;

/** The faults of the checker, which the explanation gives the place of. */
const FAULTS = {
  parameter: ([name]) => `the strategy parameter \`${name}\` has arguments`,
  twice: it => `\`${it[0]}\` is defined twice${of(it)}`,
  clash: ([name]) => `\`${name}\` is both a definition and a constructor`,
  unknown: it => `nothing defines \`${it[0]}\`${of(it)}`,
  undeclared: ([name, count]) => `no module declares the constructor \`${name}\` with ${counted(count, 'term')}`,
  wild: () => 'what only matches is built',
  primitive: ([name]) => `there is no such primitive as \`${name}\``,
};

/** How a fault is mended, where the explanation doesn't say it. */
const REPAIRS = {
  undeclared([name, count]) {
    const sorts = Array(Number(count)).fill('a').join(' * ');
    return [`write \`${name} : ${sorts && `${sorts} -> `}a\` below \`signature constructors\` of a module`];
  },
};

/** The refusal that an answer says, `{number, word, rest}`, or null. */
export function refusalIn(answers) {
  const found = /^refused (\d+) ([a-z]+)(?: (.*))?$/m.exec(answers);
  return found && { number: Number(found[1]), word: found[2], rest: found[3] ?? '' };
}

// A sentence in which `move` changes the places of the command's own text. It takes and returns a line and a column.
function told({ message, labels }, move) {
  if (!move) return message;
  let bytes = new TextEncoder().encode(message);
  for (const { module, line, column, said: [from, to] } of [...labels].sort((one, other) => other.said[0] - one.said[0])) {
    if (module !== undefined || line === undefined) continue;
    const place = move({ line, column });
    const words = new TextEncoder().encode(`line ${place.line}, column ${place.column}`);
    bytes = new Uint8Array([...bytes.subarray(0, from), ...words, ...bytes.subarray(to)]);
  }
  return new TextDecoder().decode(bytes);
}

/**
 * The entries of what was said: `{isWarning, reason, hints, place, module, isOfText, tell}`. `place` is the line and the column that it
 * speaks of. `module` is the module or tree that it is in, if that is named, and `isOfText` whether the place is one of the text that
 * the engine keeps, in which no line begins in the first column. `others` are the further faults, `{place, module, reason}`. `tell`
 * returns the reason and the hints with places moved.
 */
export function entriesOf(said) {
  return said.split('\n').filter(line => line.startsWith('{')).map(line => {
    const it = JSON.parse(line);
    const place = it.labels.find(label => label.line !== undefined);
    const others = it.notes.filter(note => note.kind === 'fault').flatMap(note => note.labels.slice(0, 1)
      .filter(label => label.line !== undefined)
      .map(({ line, column, module }) => ({ place: { line, column }, module, reason: note.message })));
    const tell = move => ({ reason: told(it, move), hints: it.notes.map(note => told(note, move)) });
    return {
      isWarning: it.severity === 'warning',
      ...tell(null),
      tell,
      place: place && { line: place.line, column: place.column },
      // a strategy that fails in a module isn't a fault of that
      module: place?.module ?? (it.number === CHECK ? it.module : undefined) ?? it.file,
      isOfText: place?.module !== undefined,
      others,
    };
  });
}

/** What is to be shown of a refused call: `{number, word, reason, hints, place, module, tell}`. */
export function refused({ answers, said }) {
  const refusal = refusalIn(answers);
  if (!refusal) return null;
  const entry = entriesOf(said).findLast(it => !it.isWarning);
  const named = /^(.*) (\d+) (\d+)$/.exec(refusal.rest)?.slice(1) ?? [refusal.rest, '0', '0'];
  const fault = FAULTS[refusal.word]?.(named);
  const repairs = REPAIRS[refusal.word]?.(named) ?? [];
  const tell = move => {
    const { reason, hints } = entry?.tell(move) ?? { reason: MEANINGS[refusal.number] ?? refusal.word, hints: [] };
    return { reason: fault ? `${fault}, ${reason}` : reason, hints: [...hints, ...repairs] };
  };
  return { ...refusal, ...entry, ...tell(null), tell };
}

/** The warnings of an accepted call. */
export const warnings = ({ said }) => entriesOf(said).filter(it => it.isWarning);
