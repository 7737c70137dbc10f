"""Texts as they are sent to the workbench, and places in them as the caller has them.

Each line of a command but the first begins with a blank, and its strings have no line feeds:

    >>> text = Text('rules\\n  A : x -> x\\nB : y -> "\\n"')
    >>> text.sent
    'rules\\n  A : x -> x\\n B : y -> "\\\\n"'
    >>> text.own[text.own_at(text.sent.index("B"))]
    'B'
"""

from __future__ import annotations

import re
from bisect import bisect_left
from collections.abc import Iterator

from .diagnostics import Diagnostic, Label, Telling

_STRING = r'"(?:\\.|[^"\\])*"'
# A line feed before a line that begins in the first column.
_COLUMN = re.compile(r"\n(?=[^ \t\n])")
_IN_TERMS = re.compile(f"{_STRING}|{_COLUMN.pattern}", re.DOTALL)
_IN_STRATEGIES = re.compile(rf"{_STRING}|/\*.*?\*/|//[^\n]*|{_COLUMN.pattern}", re.DOTALL)

# The most characters of a line that are shown, and those of them before the place.
_SHOWN = 100
_BEFORE = 60


class Text:
    """A text that is sent. `comments` says whether it may have those of strategies and modules."""

    def __init__(self, own: str, comments: bool = True) -> None:
        self.own = own
        wide = list(_wide(own, comments)) if "\n" in own or "\r" in own else []
        sent, end = [], 0
        for at, instead in wide:
            sent += [own[end:at], instead]
            end = at + 1
        self.sent = "".join([*sent, own[end:]])
        # where what is sent has two characters for one
        self._wide = [at + before for before, (at, _) in enumerate(wide)]

    def own_at(self, at: int) -> int:
        """Returns the place in the caller's text of a place in what is sent."""
        return at - bisect_left(self._wide, at)


# The characters for which two are sent, and these.
def _wide(own: str, comments: bool) -> Iterator[tuple[int, str]]:
    for found in (_IN_STRATEGIES if comments else _IN_TERMS).finditer(own):
        part = found.group()
        if not part.startswith('"'):
            # a line feed alone, or a comment
            yield from ((it.start(), "\n ") for it in _COLUMN.finditer(own, found.start(), found.end() + 1))
            continue
        if re.search(r"\\[\r\n]", part):
            raise ValueError("a backslash before a line feed in a string")
        yield from ((found.start() + it.start(), {"\n": "\\n", "\r": "\\r"}[it.group()]) for it in re.finditer(r"[\r\n]", part))


class Command:
    """A command, with the text in it that is the caller's. It begins on this line of the script, after so many blanks."""

    def __init__(self, head: str, text: Text, line: int, blanks: int) -> None:
        self.text, self.sent = text, head + text.sent
        self.line, self._head, self._blanks = line, len(head), blanks

    def own_place(self, line: int, column: int) -> tuple[int, int] | None:
        """Returns the line and the column in the caller's text of a place in the script, both from 1, if it is there."""
        start = 0
        for _ in range(self.line, line):
            start = self.sent.find("\n", start) + 1
            if start == 0:
                return None
        at = start + column - 1 - (self._blanks if line == self.line else 0) - self._head
        if line < self.line or at < 0:
            return None
        own = min(self.text.own_at(at), len(self.text.own))
        return self.text.own.count("\n", 0, own) + 1, own - self.text.own.rfind("\n", 0, own)

    def explained(self, said: Diagnostic, subject: bool = True, others: Telling = lambda _: None) -> tuple[str, tuple[int, int] | None]:
        """Returns what was said of the command, with the places in the caller's text, and the first of these. `others` says where places
        are that are elsewhere."""

        def own(label: Label) -> tuple[int, int] | None:
            is_here = label.module is None and label.line is not None and label.column is not None
            return self.own_place(label.line or 0, label.column or 0) if is_here else None

        def telling(label: Label) -> str | None:
            there = own(label)
            return f"line {there[0]}, column {there[1]}" if there else others(label)

        found = [there for it in (said.message, *said.notes) for there in map(own, it.labels) if there]
        first = said.first()
        here = own(first) if first else None
        excerpt = None
        if here and said.excerpt:
            excerpt = tuple(shown(self.text.own.split("\n")[here[0] - 1], here[1]))
        return said.told(telling, excerpt, subject), found[0] if found else None


def shown(line: str, column: int) -> list[str]:
    """Returns the line with a sign below its column, from 1.

    >>> print(*shown("f(a,)", 5), sep="\\n")
    f(a,)
        ^
    """
    line = "".join(it if it.isprintable() or it == "\t" else "?" for it in line.rstrip("\r"))
    before, after = line[: column - 1], line[column - 1 :]
    if len(line) > _SHOWN:
        if len(before) > _BEFORE:
            before = ".." + before[-_BEFORE:]
        if len(before) + len(after) > _SHOWN:
            after = after[: _SHOWN - len(before)] + ".."
    return [before + after, "".join(it if it == "\t" else " " for it in before) + "^"]
