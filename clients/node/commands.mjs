// Where the lines and the commands of a script end.

const LF = 10;

/** How many lines end in a text. */
export const lineFeeds = text => text.filter(it => it === LF).length;

/** The lines of a text, each with its line feed. */
export function* linesOf(text) {
  for (let at = 0; at < text.length;) {
    const end = text.indexOf(LF, at);
    const next = end < 0 ? text.length : end + 1;
    yield text.subarray(at, next);
    at = next;
  }
}

/** The commands of a script, each with the lines that go on with it: a line begins one unless it is empty, or begins with a blank or `#`. */
export function* commandsOf(script) {
  let command = [];
  for (const line of linesOf(script)) {
    const begins = !' \t\n#'.includes(String.fromCharCode(line[0])) && !/^\r+\n?$/.test(line.toString('latin1'));
    if (begins && command.length) {
      yield Buffer.concat(command);
      command = [];
    }
    command.push(line);
  }
  if (command.length) yield Buffer.concat(command);
}
