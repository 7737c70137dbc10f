"""Ropes as text, with the brackets that are wanted."""

from __future__ import annotations

from collections.abc import Callable, Iterable, Sequence, Set
from typing import NamedTuple, Optional

from .edits import Edit
from .grammar import Brackets
from .rope import Break, Copy, Mark, Note, Piece, RopeEdit, joined, spelt


class Assembled(NamedTuple):
    """A text with edits made in it, the edits, and where each pair of brackets is or would be."""

    text: bytes
    edits: list[Edit]
    where: dict[int, tuple[int, int]]


class Renderer:
    """Makes texts of ropes. `brackets` says which ones those of a mark are."""

    def __init__(self, newline: bytes, brackets: Callable[[int], Brackets]) -> None:
        self._newline, self._brackets = newline, brackets

    def assembled(self, text: bytes, edits: Sequence[RopeEdit], active: Set[int], first: int = 0, last: Optional[int] = None) -> Assembled:
        """Returns the text from one place to another with edits made in it."""
        last = len(text) if last is None else last
        out: list[bytes] = []
        made: list[Edit] = []
        opened: dict[int, int] = {}
        where: dict[int, tuple[int, int]] = {}
        at, length = first, 0
        for edit in edits:
            out.append(text[at : edit.first])
            length += edit.first - at
            pieces = list(self._pieces(edit.rope, active, _indent(text, edit.first)))
            for mark, piece in pieces:
                if mark is not None and mark.opens:
                    opened[mark.number] = length
                length += len(piece)
                if mark is not None and not mark.opens:
                    where[mark.number] = (opened.get(mark.number, 0), length)
            new = b"".join(piece for _, piece in pieces)
            if new and not edit.tight:
                before = next((it[-1:] for it in reversed(out) if it), b"\n")
                after = text[edit.last : edit.last + 1]
                blank = joined(before, new)
                length += len(blank)
                new = blank + new + (joined(new, after) if edit.last < last else b"")
                length += len(new) - len(blank) - sum(len(piece) for _, piece in pieces)
            out.append(new)
            if new != text[edit.first : edit.last]:
                made.append(Edit(edit.first, edit.last, new))
            at = edit.last
        out.append(text[at:last])
        return Assembled(b"".join(out), made, where)

    # The texts of the pieces of a rope, with the marks that they are of.
    def _pieces(self, rope: Iterable[Piece], active: Set[int], indent: bytes) -> Iterable[tuple[Optional[Mark], bytes]]:
        to_end = False
        pieces = list(rope)
        for at, it in enumerate(pieces):
            if isinstance(it, (Copy, Mark)) and not (isinstance(it, Mark) and it.number in active):
                if isinstance(it, Mark):
                    yield it, b""
                continue
            if isinstance(it, Break):
                to_end = False
                indent = it.blanks
                following = pieces[at + 1] if at + 1 < len(pieces) else None
                yield None, self._newline + (b"" if isinstance(following, Break) else it.blanks)
                continue
            if to_end:
                # what comes after a comment that goes on to the line's end has a line of its own
                to_end = False
                yield None, self._newline + indent
            if isinstance(it, Mark):
                brackets = self._brackets(it.number)
                yield it, brackets.opens if it.opens else brackets.closes
            elif isinstance(it, Note):
                yield None, spelt(it.rope, self._newline)
                to_end = it.to_end
            else:
                yield None, it


def _indent(text: bytes, place: int) -> bytes:
    line = text[text.rfind(b"\n", 0, place) + 1 : place]
    return line[: len(line) - len(line.lstrip(b" \t"))]
