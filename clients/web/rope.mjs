// Text that is put together of pieces, a rope: strings, ends of lines with the indentation after them, and places of brackets. A rope is as
// it would be in the first column, so that it can be placed in any.

const WORD = /[\p{ID_Continue}$]$/u;
const WORD_BEGINS = /^[\p{ID_Continue}$]/u;

/** What has to be between two texts, so that they stay apart. */
export function between(one, two) {
  const isWord = WORD.test(one) && WORD_BEGINS.test(two);
  return isWord || ['++', '--', '//', '/*'].includes(one.slice(-1) + two[0]) ? ' ' : '';
}

/** The rope of a text whose first line was indented so. */
export function lines(text, indent) {
  if (!text.includes('\n')) return text ? [text] : [];
  return text.split('\n').flatMap((line, i) => {
    if (i === 0) return line ? [line] : [];
    const blanks = /^[ \t]*/.exec(line)[0];
    const end = blanks.startsWith(indent) ? { blanks: blanks.slice(indent.length) } : { blanks, isFixed: true };
    return line.length > blanks.length ? [end, line.slice(blanks.length)] : [end];
  });
}

/** A rope where it begins after an indentation. */
export const placed = (rope, indent) => (indent
  ? rope.map(it => (it.blanks === undefined || it.isFixed ? it : { ...it, blanks: indent + it.blanks }))
  : rope);

/** The text of a rope, with these brackets, and where each place of brackets is. */
export function spelt(rope, brackets, active) {
  let text = '';
  const where = new Map();
  rope.forEach((it, i) => {
    if (typeof it === 'string') text += it;
    else if (it.blanks !== undefined) text += rope[i + 1]?.blanks === undefined ? `\n${it.blanks}` : '\n';
    else {
      if (it.opens) where.set(it.number, [text.length, text.length]);
      if (active.has(it.number)) text += brackets[it.number][it.opens ? 'opens' : 'closes'];
      if (!it.opens) where.get(it.number)[1] = text.length;
    }
  });
  return { text, where };
}
