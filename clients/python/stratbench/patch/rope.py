"""Text that is put together: pieces that know where lines end, where brackets may be needed, and which comment a text is.

What is copied from one place to another is indented otherwise there. So a line's end is a piece of its own, with the indentation after it
as it is where the rope begins in the first column. The text of an atom of several lines, as of a template, is one piece.

The text of an edit is a rope as long as brackets and comments aren't settled.
"""

from __future__ import annotations

import re
from collections.abc import Iterable, Sequence
from typing import Final, NamedTuple, Optional, Union

from .edits import Cannot


class Break(NamedTuple):
    """A line's end, with the indentation of the next line. `lacks` is how much less than the first line's that is; one that is `fixed` stays."""

    blanks: bytes = b""
    lacks: int = 0
    fixed: bool = False

    def placed(self, indent: bytes) -> Break:
        """The same where the rope begins after an indentation."""
        if self.fixed:
            return self
        there = indent[: max(0, len(indent) - self.lacks)]
        return Break(there + self.blanks, max(0, self.lacks - len(indent)))


class Mark(NamedTuple):
    """Where a bracket may be needed."""

    number: int
    opens: bool


class Copy(NamedTuple):
    """Where the text of an old node begins or ends, which was at this place."""

    place: int
    begins: bool


class Note(NamedTuple):
    """A comment, which was at this place. `to_end` is whether it goes on to the line's end."""

    place: int
    rope: tuple[Union[bytes, Break], ...]
    to_end: bool


Piece = Union[bytes, Break, Mark, Copy, Note]
Rope = list[Piece]


class RopeEdit(NamedTuple):
    """The bytes from `first` to `last` are replaced by the rope. A `tight` one is text in which blanks mean something."""

    first: int
    last: int
    rope: Rope
    tight: bool = False


def in_order(edits: Iterable[RopeEdit]) -> list[RopeEdit]:
    """Returns edits of different fields in the order of the text. Raises `Cannot` where two overlap."""
    found = sorted(edits, key=lambda it: (it.first, it.last))
    if any(one.last > two.first for one, two in zip(found, found[1:])):
        raise Cannot
    return found


_WORD: Final = re.compile(rb"[\w$]")
# What two texts mustn't make together.
_OTHER_SIGNS: Final = (b"++", b"--", b"//", b"/*")


def joined(one: bytes, two: bytes) -> bytes:
    """Returns what has to be between two texts, so that they stay apart.

    >>> joined(b"return", b"x"), joined(b"-", b"-1"), joined(b"f", b"(")
    (b' ', b' ', b'')
    """
    last, first = one[-1:], two[:1]
    return b" " if (_WORD.match(last) and _WORD.match(first)) or last + first in _OTHER_SIGNS else b""


_LINE: Final = re.compile(rb"\r?\n([ \t]*)")


def lines(text: bytes, indent: bytes) -> list[Union[bytes, Break]]:
    """Returns the rope of a text whose first line was indented so."""
    out: list[Union[bytes, Break]] = []
    at = 0
    for found in _LINE.finditer(text):
        if at < found.start():
            out.append(text[at : found.start()])
        there = found[1]
        if there.startswith(indent):
            out.append(Break(there[len(indent) :]))
        elif indent.startswith(there):
            out.append(Break(b"", len(indent) - len(there)))
        else:
            out.append(Break(there, fixed=True))
        at = found.end()
    if at < len(text):
        out.append(text[at:])
    return out


def placed(rope: Iterable[Piece], indent: bytes) -> Rope:
    """Returns a rope where it begins after an indentation."""
    if not indent:
        return list(rope)
    return [_placed(it, indent) for it in rope]


def _placed(it: Piece, indent: bytes) -> Piece:
    if isinstance(it, Break):
        return it.placed(indent)
    if isinstance(it, Note):
        return it._replace(rope=tuple([part.placed(indent) if isinstance(part, Break) else part for part in it.rope]))
    return it


def spelt(rope: Iterable[Piece], newline: bytes) -> bytes:
    """Returns the text of a rope of texts and ends of lines."""
    return b"".join(newline + it.blanks if isinstance(it, Break) else it for it in rope if isinstance(it, (bytes, Break)))


def notes(rope: Iterable[Piece]) -> set[int]:
    """Returns the places of the comments in a rope."""
    return {it.place for it in rope if isinstance(it, Note)}


# The place of the last piece of text.
def _last_text(rope: Sequence[Piece]) -> Optional[int]:
    return next((at for at in range(len(rope) - 1, -1, -1) if not isinstance(rope[at], (Mark, Copy))), None)


def without(rope: Sequence[Piece], there: set[int]) -> Rope:
    """Returns a rope without the comments that are there already, each with the line that it has for itself. Those that stay are noted."""
    out: Rope = []
    dropped = False
    for it in rope:
        if isinstance(it, Note):
            if it.place in there:
                while out and isinstance(out[-1], bytes) and not out[-1].strip():
                    out.pop()
                if out and isinstance(out[-1], bytes):
                    out[-1] = out[-1].rstrip(b" \t")
                dropped = True
                continue
            there.add(it.place)
        elif dropped and isinstance(it, Break) and (last := _last_text(out)) is not None and isinstance(out[last], Break):
            out[last] = it
            dropped = False
            continue
        elif dropped and isinstance(it, Break) and _last_text(out) is None:
            dropped = False
            continue
        if not isinstance(it, (Mark, Copy)):
            dropped = False
        out.append(it)
    return out
