"""Definitions tried on terms: a comment `// > S on T`, or `// example: S on T ..`, stands for applying the strategy S to the term T."""

from __future__ import annotations

import re
from collections.abc import Iterator
from typing import Final, NamedTuple

from .faults import faults_of
from .folder import Folder
from .texts import Text

_TRIAL: Final = re.compile(r"// *(?:>|example:) *(?P<strategy>.+) on (?P<term>.+?)(?: (?P<wanted>gives .+|fails))? *$")


class Trial(NamedTuple):
    """A strategy and a term in a comment, and the comment's place."""

    strategy: str
    term: str
    begin: int
    end: int


def trials(text: Text) -> Iterator[Trial]:
    """Yields the trials in the comments of a module.

    >>> [it[:2] for it in trials(Text("// > try(id) on F(1)\\nrules // example: R on 2 gives 3\\n// on"))]
    [('try(id)', 'F(1)'), ('R', '2')]
    """
    for token in text.module.tokens:
        found = _TRIAL.fullmatch(token.text) if token.kind == "comment" else None
        if found:
            yield Trial(found["strategy"], found["term"], token.begin, token.end)


def outcome(folder: Folder, own: str, strategy: str, term: str) -> tuple[bool, str]:
    """Returns whether a strategy gives a term of a term, with the modules of the folder, and which, or what is said of it."""
    faults_of(folder, own)
    gives, text, said = folder.session.outcome(strategy, term)
    return gives, text if gives else "\n".join(f"{it.diagnostic.answer}: {it.diagnostic.told()}" for it in said[:1])
