"""Changes within a few statements of a module are made in the text of these statements alone: terms, tokens and the parse of what comes
out take as long as these statements are, and not as the file is.

That is sound since a module is a sequence of statements: where each begins on a line of its own, what is parsed of the lines of some of
them is these statements, whatever comes before and after. So a text in their place that is parsed to other statements, and ends its last
line, changes the module by these.
"""

from __future__ import annotations

import ast
from collections.abc import Iterator, Mapping
from typing import Final

from ...terms import TUPLE, Term, position
from ..language import Part, Path
from .source import Source

# So many statements more are taken on both sides: to them belong the lines around those that change.
_AROUND: Final = 2
# Where more of the text than this would be taken, all is.
_MOST_PARTS: Final = 0.5
# What has to be seen with the whole module around it.
_OF_MODULES: Final = frozenset(["Import", "ImportFrom"])


class _Wide(Exception):
    """The whole source has to be taken."""


def parts(source: Source, replaced: Mapping[Path, Term]) -> list[Part] | None:
    """Returns the parts of a source that change where terms come at these paths, from first to last, or nothing where the whole has to be
    taken."""
    body = source.tree.body
    if b"\r" in source.text or source.encoding not in ("utf-8", "utf-8-sig") or not replaced:
        return None
    if any(len(path) < 2 or path[0] for path in replaced):
        return None
    try:
        found = [_part(source, replaced, *it) for it in _runs(source, sorted({path[1] for path in replaced}), len(body))]
    except (_Wide, SyntaxError):
        return None
    return found if sum(len(it.source.text) for it in found) < _MOST_PARTS * len(source.text) else None


# The first and the last of statements that stand together, so that these are among them.
def _runs(source: Source, changed: list[int], count: int) -> Iterator[tuple[int, int]]:
    runs: list[tuple[int, int]] = []
    for at in changed:
        first, last = max(0, at - _AROUND), min(count - 1, at + _AROUND)
        # what stands on one line stays together
        while first and _line(source, first) <= _last_line(source, first - 1):
            first -= 1
        while last < count - 1 and _line(source, last + 1) <= _last_line(source, last):
            last += 1
        if runs and first <= runs[-1][1] + 1:
            first, _ = runs.pop()
        runs.append((first, last))
    yield from runs


# The line in which a statement begins, with its decorators, and the one in which it ends, from 1.
def _line(source: Source, at: int) -> int:
    it = source.tree.body[at]
    decorators: list[ast.expr] = getattr(it, "decorator_list", [])
    return min([it.lineno, *(one.lineno for one in decorators)])


def _last_line(source: Source, at: int) -> int:
    return source.tree.body[at].end_lineno or 0


def _part(source: Source, replaced: Mapping[Path, Term], first: int, last: int) -> Part:
    body, starts = source.tree.body, source.lines.starts
    begin = starts[_last_line(source, first - 1)] if first else 0
    end = starts[_last_line(source, last)] if last < len(body) - 1 else len(source.text)
    text = source.text[begin:end]
    part = Source(text)
    part.encoding = source.encoding
    if [_shape(it) for it in part.tree.body] != [_shape(it) for it in body[first : last + 1]] or _unit(part) != _unit(source):
        raise _Wide
    found = {
        (0, path[1] - first, *path[2:]): _shifted(new, begin, end) for path, new in replaced.items() if first <= path[1] <= last
    }
    return Part(begin, part, found)


def _shape(it: ast.stmt) -> tuple[type, int, int | None, int]:
    return type(it), it.col_offset, it.end_col_offset, (it.end_lineno or 0) - it.lineno


# The blanks by which the first block is indented.
def _unit(source: Source) -> bytes:
    for it in source.tree.body:
        for field in ("body", "cases", "handlers", "orelse", "finalbody"):
            for inner in getattr(it, field, []):
                line = getattr(inner, "lineno", None) or inner.pattern.lineno
                if line > it.lineno:
                    text = source.text[source.lines.starts[line - 1] :]
                    return text[: len(text) - len(text.lstrip(b" \t\f"))]
    return b"    "


# A term with positions in the part from one byte to the other.
def _shifted(term: Term, begin: int, end: int) -> Term:
    if term.head in _OF_MODULES:
        raise _Wide
    place = position(term)
    annotations = term.annotations
    if place is not None:
        if not begin <= place[0] <= place[1] <= end:
            raise _Wide
        annotations = (Term(TUPLE, (Term(place[0] - begin), Term(place[1] - begin))),)
    return Term(term.head, tuple([_shifted(it, begin, end) for it in term.children]), annotations)
