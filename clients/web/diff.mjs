// What differs between two texts, line by line, as a unified diff has it.

/** So many lines around a change are in its hunk. */
const AROUND = 3;
/** Where the lines that may differ are so many, one times the other, all go and all come. */
const MOST = 4e6;

const signed = sign => text => ({ sign, text });

/** The lines of two texts in order, `{sign, text}`: with ` ` those in both, with `-` and `+` those that go and come. */
export function lineChanges(before, after) {
  const areWhole = before.endsWith('\n') && after.endsWith('\n');
  const [a, b] = [before, after].map(it => (areWhole ? it.slice(0, -1) : it).split('\n'));
  let front = 0;
  while (front < a.length && front < b.length && a[front] === b[front]) front++;
  let back = 0;
  while (back < a.length - front && back < b.length - front && a[a.length - 1 - back] === b[b.length - 1 - back]) back++;
  const middle = middleOf(a.slice(front, a.length - back), b.slice(front, b.length - back));
  return [...a.slice(0, front).map(signed(' ')), ...middle, ...a.slice(a.length - back).map(signed(' '))];
}

function middleOf(a, b) {
  if (a.length * b.length > MOST) return [...a.map(signed('-')), ...b.map(signed('+'))];
  // how many lines of what is left of both are the same, in order
  const width = b.length + 1;
  const same = new Uint32Array((a.length + 1) * width);
  for (let i = a.length - 1; i >= 0; i--) {
    for (let j = b.length - 1; j >= 0; j--) {
      const at = i * width + j;
      same[at] = a[i] === b[j] ? same[at + width + 1] + 1 : Math.max(same[at + width], same[at + 1]);
    }
  }
  const found = [];
  let [i, j] = [0, 0];
  while (i < a.length || j < b.length) {
    const at = i * width + j;
    if (i < a.length && j < b.length && a[i] === b[j]) {
      found.push({ sign: ' ', text: a[i++] });
      j++;
    } else if (i < a.length && (j === b.length || same[at + width] >= same[at + 1])) found.push({ sign: '-', text: a[i++] });
    else found.push({ sign: '+', text: b[j++] });
  }
  return found;
}

/** The hunks of a unified diff, `{head, lines}`, each with some lines around what has changed. */
export function hunksOf(before, after) {
  const lines = lineChanges(before, after);
  const changed = lines.flatMap(({ sign }, i) => (sign === ' ' ? [] : [i]));
  const ranges = [];
  for (const at of changed) {
    if (ranges.length && at - AROUND <= ranges.at(-1)[1]) ranges.at(-1)[1] = at + AROUND + 1;
    else ranges.push([Math.max(0, at - AROUND), at + AROUND + 1]);
  }
  const count = (some, sign) => some.filter(it => it.sign !== sign).length;
  return ranges.map(([first, last]) => {
    const some = lines.slice(first, last);
    const part = (sign, other) => `${sign}${count(lines.slice(0, first), other) + 1},${count(some, other)}`;
    return { head: `@@ ${part('-', '+')} ${part('+', '-')} @@`, lines: some };
  });
}
