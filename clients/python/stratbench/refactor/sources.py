"""What comes of files of one language."""

from __future__ import annotations

import time
from collections.abc import Sequence

from .. import languages
from ..languages.language import Fault, Source
from ..terms import NoTerm, deep
from .runs import Result, budget, transformed
from .task import MOST_TERMS, Outcome, Task

# What the time goes to.
READING, RUNNING, PATCHING = "reading files", "the workbench", "making patches"


def refactored(work: Sequence[tuple[str, bytes]], task: Task) -> list[Outcome]:
    """Returns what comes of files of these names and contents, in the task's language. Nothing is read or written but for files of its
    own."""
    # the trees are gone before memory is searched for cycles again: that would go through all of them
    with deep():
        return _refactored(work, task)


def _refactored(work: Sequence[tuple[str, bytes]], task: Task) -> list[Outcome]:
    found: dict[int, Outcome] = {}
    waiting: dict[int, Source] = {}
    language = languages.named(task.language)
    begun = time.monotonic()
    for at, source in enumerate(language.sources(work)):
        name = work[at][0]
        try:
            if isinstance(source, Fault):
                place = f"{name}:{source.line}" if source.line else name
                found[at] = Outcome(name, left=f"{place}: no {language.title}: {source.message}")
            elif _is_left(source, task):
                found[at] = Outcome(name)
            else:
                # what is too deep is no source, either
                _ = source.shown
                waiting[at] = source
        except NoTerm as error:
            found[at] = Outcome(name, left=f"{name}: no {language.title}: {error}")
    reading = (time.monotonic() - begun) / max(1, len(work))
    begun = time.monotonic()
    results = transformed(list(waiting.values()), task)
    running = (time.monotonic() - begun) / max(1, len(waiting))
    for (at, source), result in zip(waiting.items(), results):
        begun = time.monotonic()
        outcome = _changed(work[at][0], source, result, task) if result.replaced != {} else Outcome(work[at][0])
        seconds = ((RUNNING, running), (PATCHING, time.monotonic() - begun))
        found[at] = outcome._replace(steps=result.steps, seconds=seconds)
    return [found[at]._replace(seconds=((READING, reading), *found[at].seconds)) for at in range(len(work))]


# Whether the strategy surely leaves a file as it is, so that the workbench needn't be asked.
def _is_left(source: Source, task: Task) -> bool:
    if task.needs is None or source.most_terms > MOST_TERMS:
        return False
    return task.needs.unmet(source, budget(task, source.least_terms))


# Where nothing changes, nothing of patches is loaded.
def _changed(name: str, source: Source, result: Result, task: Task) -> Outcome:
    from .outcomes import changed

    return changed(name, source, result, task)
