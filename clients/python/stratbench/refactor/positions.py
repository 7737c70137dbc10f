"""What positions keep a strategy from. They are annotations of a source's nodes, and a variable that a rule has twice compares them, so two
equal expressions differ. Where a strategy changes nothing, it is tried on the trees without annotations."""

from __future__ import annotations

import tempfile
from collections.abc import Iterable, Sequence
from itertools import islice
from typing import Final

from .. import languages
from ..languages.language import Fault, Path, Source
from ..terms import NoTerm, Term, deep, position
from .runs import Bench, Refused, budget
from .task import MOST_TERMS, Task

# The most files that a process of the workbench is given, as in `batches`.
_BATCH: Final = 16


def warning(work: Sequence[tuple[str, bytes]], task: Task) -> list[str]:
    """Returns what is said where the strategy changes none of these files, but would change one of them if its nodes had no positions.
    Returns nothing where none would change, or no rule has a variable twice."""
    rules = task.needs.repeated() if task.needs is not None else []
    if not rules:
        return []
    with deep(), tempfile.TemporaryDirectory(prefix="stratbench-") as room:
        bench, sources = Bench(room, task), iter(_sources(work, task))
        while batch := list(islice(sources, _BATCH)):
            for (name, source), found in zip(batch, bench.previews([_stripped(source.term) for _, source in batch])):
                if found and not isinstance(found, Refused):
                    path, new = next(iter(found.items()))
                    return [f"{name}:{_line(source, path, new)}: warning: {_why(rules)}"]
    return []


# What may have been compared, and how to compare without positions.
def _why(rules: Sequence[tuple[str, str]]) -> str:
    found = " or ".join(f"`{variable}` in `{rule}`" if rule else f"`{variable}` in --do" for rule, variable in rules)
    return f"would change but for positions, which a variable that stands twice compares: {found}; `eq-ignore-annos` doesn't"


# The files that the strategy may change, as far as they are programs of a size that can be given.
def _sources(work: Sequence[tuple[str, bytes]], task: Task) -> Iterable[tuple[str, Source]]:
    language = languages.named(task.language)
    for name, contents in work:
        [source] = language.sources([(name, contents)])
        if isinstance(source, Fault) or source.most_terms > MOST_TERMS:
            continue
        if task.needs is None or task.needs.unmet(source, budget(task, source.least_terms)):
            continue
        try:
            _ = source.term
        except NoTerm:
            continue
        yield name, source


def _stripped(term: Term) -> Term:
    return Term(term.head, tuple(_stripped(it) for it in term.children))


# The line of the first difference, or of the node that it is in.
def _line(source: Source, path: Path, new: Term) -> int:
    it, first = source.term, 0
    for step in path:
        first = (position(it) or (first, 0))[0]
        it = it.children[step]
    while it.head == new.head and len(it.children) == len(new.children):
        found = next(((old, now) for old, now in zip(it.children, new.children) if _stripped(old) != now), None)
        if found is None:
            break
        first = (position(it) or (first, 0))[0]
        it, new = found
    return source.lines.number((position(it) or (first, 0))[0])
