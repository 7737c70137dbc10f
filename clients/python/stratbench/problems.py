"""What is wrong with a script or a module, in the form of compilers, which editors read:

    python -m stratbench.problems [OPTION..] FILE

The options are the program's. A FILE that ends in `.str` is a module, which is only looked at (`--check`). Printed is a line for each
fault and each warning, and below it what else is said of it, indented:

    shop.script:3:12: error: refused 11 unknown reverse 0 0: at line 3, column 12
        did you mean `revers`? it takes no arguments

Lines and columns are counted from 1, columns in characters. A place in a module that was loaded before leads to the command, and that in a
file that is loaded into this file, to its first line where none is known. What the program says else stands as it is. The exit status is
the program's, and 127 without one.
"""

from __future__ import annotations

import subprocess
import sys
from collections.abc import Iterator, Sequence

from . import installed
from .diagnostics import Diagnostic, Sentence, others, parsed


def place_of(it: Diagnostic, sentence: Sentence) -> tuple[int, int | None]:
    """Returns the line and the column that a sentence leads to: the line of the command, or else the first one, where it has no place."""
    first = sentence.first()
    if first and first.module is None and first.line is not None:
        return first.line, first.column
    return it.line or 1, None


def lines_of(it: Diagnostic, script: str) -> Iterator[str]:
    """Yields the lines for a diagnostic of the script with this name. A further fault has a place of its own."""
    kind = "warning" if it.severity == "warning" else "error"
    begin = ": ".join(part for part in (it.answer, it.subject) if part)
    yield _line(it, script, kind, it.message, f"{begin}: " if begin and it.message.text else begin)
    yield from (f"    {line}" for line in it.excerpt)
    for note in it.notes:
        yield _line(it, script, kind, note, "") if note.kind == "fault" else f"    {note.text}"


def _line(it: Diagnostic, script: str, kind: str, sentence: Sentence, begin: str) -> str:
    line, column = place_of(it, sentence)
    where = f"{script if it.file is None else it.file}:{line}" + (f":{column}" if column else "")
    return f"{where}: {kind}: {begin}{sentence.text}"


def problems(said: str, script: str) -> Iterator[str]:
    """Yields the lines for what the program said of the script with this name. Steps are no problem."""
    yield from others(said).splitlines()
    for it in parsed(said):
        if it.severity != "profile":
            yield from lines_of(it, script)


def main(words: Sequence[str]) -> int:
    if not words or words[-1].startswith("-"):
        print(__doc__, file=sys.stderr)
        return 2
    *options, file = words
    check = ["--check"] if file.endswith(".str") and "--check" not in options else []
    try:
        program = installed.program()
        ran = subprocess.run([program, "--explain=json", *check, *options, file], stdout=subprocess.DEVNULL, stderr=subprocess.PIPE)
    except OSError as why:
        print(f"stratbench: {why}", file=sys.stderr)
        return 127
    for line in problems(ran.stderr.decode(errors="replace"), file):
        print(line)
    return ran.returncode


if __name__ == "__main__":
    sys.exit(main(sys.argv[1:]))
