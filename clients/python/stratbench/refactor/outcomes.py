"""What comes of a file whose new tree is known: the patch of its source, and the comments that this loses."""

from __future__ import annotations

from collections.abc import Iterator, Sequence

from ..languages.language import Part, Source
from ..patch.edits import Edit, Unwritable, apply_edits
from ..terms import LIST, NoTerm, Term, exchange, position
from ..terms import at as subterm
from .rewriting import Rewritten, rewritten, shown, up, with_comments
from .runs import Result
from .task import Comment, Outcome, Task


def changed(name: str, source: Source, result: Result, task: Task) -> Outcome:
    """Returns what comes of a file for which a strategy gave another tree, or none."""
    parts = source.parts(result.replaced or {})
    outcome = _in_parts(name, source, parts) if parts is not None else None
    if outcome is None:
        outcome, parts = _whole(name, source, result, task), [Part(0, source, result.replaced or {})]
    if outcome.contents is None:
        return outcome
    places = [source.lines.number(it.first + place) for it in parts or [] for place in _places(it)]
    return outcome._replace(places=tuple(sorted(places)))


# What comes of a source whose parts change alone; nothing where the whole has to be looked at.
def _in_parts(name: str, source: Source, parts: Sequence[Part]) -> Outcome | None:
    edits: list[Edit] = []
    for first, part, replaced in parts:
        try:
            found = rewritten(part, exchange(part.term, replaced))
        except (NoTerm, Unwritable):
            return None
        # a comment may go elsewhere, and the last line has to end
        if found.lost or not found.text.endswith(b"\n") and first + len(part.text) < len(source.text):
            return None
        edits += [Edit(it.first + first, it.last + first, it.text) for it in found.edits]
    if not edits:
        return Outcome(name)
    try:
        return Outcome(name, source.encoded(apply_edits(source.text, 0, len(source.text), edits)), shown(name, source, edits))
    except UnicodeEncodeError:
        return None


# Where what changes begins.
def _places(part: Part) -> Iterator[int]:
    for path, new in part.replaced.items():
        *above, old = reversed(up(part.source.term, path))
        around = next((place[0] for it in reversed(above) if (place := position(it)) is not None), 0)
        yield from _differences(old, new, around)


# Where the terms begin that differ, or the smallest around them with a position. Of a list what is alike at its ends doesn't differ.
def _differences(old: Term, new: Term, around: int) -> Iterator[int]:
    place = position(old)
    first = around if place is None else place[0]
    if old.head != new.head or old.annotations != new.annotations or old.head != LIST and len(old.children) != len(new.children):
        yield first
    elif len(old.children) == len(new.children):
        for one, two in zip(old.children, new.children):
            if one != two:
                yield from _differences(one, two, first)
    else:
        alike = next((at for at, (one, two) in enumerate(zip(old.children, new.children)) if one != two), len(old.children))
        changed = old.children[min(alike, len(old.children) - 1)] if old.children else old
        yield (position(changed) or (first, 0))[0]


# What comes of a source whose tree changes as a whole.
def _whole(name: str, source: Source, result: Result, task: Task) -> Outcome:
    if result.new is None:
        return Outcome(name, left=f"{name}: {result.left}", of_texts=result.of_texts, said=result.warnings)
    try:
        found, left = rewritten(source, result.new), False
        if found.lost and task.keep_comments:
            found, left = with_comments(source, {it: subterm(result.new, it) for it in result.places}), True
        return _rewritten(name, source, result.new, found, left)
    except (NoTerm, Unwritable) as error:
        return Outcome(name, left=f"{name}: the result is no program: {error}", fault="is no program")
    except UnicodeEncodeError as error:
        wrong = error.object[error.start : error.end]
        return Outcome(
            name,
            left=f"{name}: the result doesn't fit the encoding {source.encoding}: it has {wrong!r}",
            fault=f"doesn't fit the encoding {source.encoding}",
        )


# A source as it would be. `left` is whether places are left for the comments that it would lack.
def _rewritten(name: str, source: Source, new: Term, found: Rewritten, left: bool) -> Outcome:
    comments = tuple(Comment(source.lines.number(it.first), it.text, left) for it in found.lost)
    if not found.edits:
        return Outcome(name, comments=comments)
    said = tuple(f"{name}:{line}: {what}" for line, what in source.remarks(new))
    return Outcome(name, source.encoded(found.text), shown(name, source, found.edits), said=said, comments=comments)
