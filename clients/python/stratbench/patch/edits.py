"""Edits of a text, whatever its language is."""

from __future__ import annotations

import re
from bisect import bisect_left, bisect_right
from collections.abc import Iterable, Sequence
from typing import NamedTuple, Optional, Protocol


class Edit(NamedTuple):
    """The bytes from `first` to `last` are replaced by the text."""

    first: int
    last: int
    text: bytes


class SourceComment(Protocol):
    """A comment of a source: where it begins, and its text."""

    @property
    def first(self) -> int: ...

    @property
    def text(self) -> str: ...


class Patch(NamedTuple):
    """The edits of a source, in order, and the comments that aren't in the text after them."""

    edits: list[Edit]
    lost: Sequence[SourceComment]


class Unwritable(Exception):
    """A tree that no text was found for, since it is no tree of the language's."""


class Cannot(Exception):
    """Two trees differ in what has no place of its own in the text."""


def apply_edits(text: bytes, first: int, last: int, edits: Iterable[Edit]) -> bytes:
    """Returns the text from one place to the other with the edits made."""
    out: list[bytes] = []
    for edit in sorted(edits, key=lambda it: (it.first, it.last)):
        if edit.first < first or edit.last > last:
            raise Cannot
        out += [text[first : edit.first], edit.text]
        first = edit.last
    return b"".join([*out, text[first:last]])


def aligned(kept: Sequence[Optional[int]]) -> list[tuple[int, int]]:
    """Returns the pairs of an old and a new place that stay in order: as many as there can be. `kept` has the old place of each new
    one."""
    tails: list[int] = []
    ends: list[int] = []
    before: dict[int, int] = {}
    for at, old in enumerate(kept):
        if old is None:
            continue
        place = bisect_left(tails, old)
        if place < len(tails) and tails[place] == old:
            continue
        if place < len(tails):
            tails[place], ends[place] = old, at
        else:
            tails.append(old)
            ends.append(at)
        if place:
            before[at] = ends[place - 1]
    pairs: list[tuple[int, int]] = []
    at = ends[-1] if ends else -1
    while at >= 0:
        found = kept[at]
        assert found is not None
        pairs.append((found, at))
        at = before.get(at, -1)
    return pairs[::-1]


def gaps(pairs: Sequence[tuple[int, int]], old: int, new: int) -> list[tuple[range, range]]:
    """Returns which old and new places are before each pair that stays, and after the last one, of so many."""
    before = zip([(-1, -1), *pairs], [*pairs, (old, new)])
    return [(range(old_from + 1, old_to), range(new_from + 1, new_to)) for (old_from, new_from), (old_to, new_to) in before]


class Lines:
    """The starts of a text's lines, which a line feed, a carriage return or both end."""

    def __init__(self, text: bytes) -> None:
        self.starts = [0, *(found.end() for found in re.finditer(rb"\r\n|\r|\n", text))]

    def number(self, place: int) -> int:
        """Returns the number of the line of a place, from 1."""
        return bisect_right(self.starts, place)
