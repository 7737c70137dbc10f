// What is said of a load, with its file in the place of what the engine knows. Texts are bytes, each as the character of its number, so
// that what is no UTF-8 stays as it is.

const SHORT = { '\t': '\\t', '\r': '\\r', '\n': '\\n' };

/** The name of a file as messages show it: its control characters are escaped. */
export const shown = file => file.replace(/\p{Cc}/gu, it => SHORT[it] ?? `\\u{${it.codePointAt(0).toString(16)}}`);

/** The same, as a text of bytes. */
const named = file => Buffer.from(shown(file)).toString('latin1');

/** The object of a line of JSON. */
export const parsed = line => JSON.parse(Buffer.from(line, 'latin1').toString());

const eachJson = (text, change) => text.replace(/^.+$/gm, line => Buffer.from(JSON.stringify(change(parsed(line)))).toString('latin1'));

/** Puts a file in the place of its module's or tree's name, with which the engine begins a line, or after that in JSON. */
export function ofFile(text, { name, file }, isJson) {
  if (isJson) return eachJson(text, it => ({ ...it, file }));
  const begun = `${name}: `;
  return text.replace(/^.*$/gm, line => (line.startsWith(begun) ? `${named(file)}: ${line.slice(begun.length)}` : line));
}

/** Puts a file in the place of the line of the command that loads it with others. */
export function ofCommand(text, { file }, isJson) {
  if (isJson) return eachJson(text, ({ line, ...it }) => ({ ...it, file }));
  return text.replace(/^line 1(?=: )/gm, () => named(file));
}

/** With the program's name before each line that isn't indented. */
export const signed = text => text.replace(/^(?! {4}|$)/gm, 'stratbench: ');
