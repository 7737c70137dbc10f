"""What comes of a source whose tree a strategy has changed: its new text, a diff, and the comments that it lacks."""

from __future__ import annotations

import codecs
from collections.abc import Mapping, Sequence
from typing import NamedTuple

from ..diff import unified
from ..languages.language import Path, Source
from ..patch.changes import Change, changed, changes_of
from ..patch.edits import Edit, SourceComment, apply_edits
from ..terms import Term, position


class Rewritten(NamedTuple):
    """A source with another tree: the edits, in order, the text after them, and the comments that it lacks."""

    edits: list[Edit]
    text: bytes
    lost: Sequence[SourceComment]


def rewritten(source: Source, new: Term) -> Rewritten:
    """Returns the source with a new tree. Raises what `Source.patch` raises."""
    edits, lost = source.patch(new)
    return Rewritten(edits, apply_edits(source.text, 0, len(source.text), edits), lost)


def with_comments(source: Source, places: Mapping[Path, Term]) -> Rewritten:
    """Returns the source with other terms at these places, but without the changes by which a comment would be lost. `lost` are these
    comments."""
    groups = changes_of(source.term, places, source.language.kinds)
    without: list[SourceComment] = []
    while True:
        found = rewritten(source, changed(source.term, [it for group in groups for it in group]))
        if not found.lost:
            return found._replace(lost=without)
        without += found.lost
        left = {_owner_of(source, groups, it) for it in found.lost}
        groups = [it for at, it in enumerate(groups) if at not in left]


# The group of changes, by its index, that a comment belongs to: that with the smallest in whose lines it is, or the last one before it.
def _owner_of(source: Source, groups: Sequence[Sequence[Change]], comment: SourceComment) -> int:
    found: list[tuple[bool, int, int]] = []
    for at, group in enumerate(groups):
        for it in group:
            first, last = _span(source, it)
            inside = source.lines.number(first) <= source.lines.number(comment.first) <= source.lines.number(last)
            found.append((not inside, last - first if inside else abs(comment.first - last), at))
    return min(found)[2]


# Where a change is: from the first to the last node that goes, or else the nearest node above.
def _span(source: Source, change: Change) -> tuple[int, int]:
    spans = [found for it in change.goes(source.term) if (found := position(it)) is not None]
    if not spans:
        spans = [found for it in up(source.term, change.path) if (found := position(it)) is not None][:1]
    return (spans[0][0], spans[-1][1]) if spans else (0, len(source.text))


def up(term: Term, path: Path) -> list[Term]:
    """Returns the subterm at a path and those above it, from it on."""
    found = [term]
    for step in path:
        found.append(found[-1].children[step])
    return found[::-1]


def shown(name: str, source: Source, edits: Sequence[Edit]) -> bytes:
    """Returns a diff in the encoding of its file, and with its byte order mark, so that it can be applied to it."""
    if source.encoding == "utf-8-sig":
        mark = len(codecs.BOM_UTF8)
        return unified(name, codecs.BOM_UTF8 + source.text, [Edit(it.first + mark, it.last + mark, it.text) for it in edits])
    lines = unified(name, source.text, edits).splitlines(keepends=True)
    return b"".join(line if at < 2 else line.decode().encode(source.encoding) for at, line in enumerate(lines))
