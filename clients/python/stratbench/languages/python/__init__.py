"""Python: its trees by `ast`, its patches by a patcher of its own, since blocks, decorators and f-strings are like nothing else."""

from __future__ import annotations

from collections.abc import Sequence
from typing import Final, Union

from ..language import Fault, Kinds
from .constructors import CONSTRUCTORS
from .constructors import signature as signature
from .source import Source, deep


class Python:
    """The language of the files with the suffix `.py`."""

    name: Final = "python"
    title: Final = "Python"
    suffixes: Final = (".py",)
    kinds: Final = Kinds(
        frozenset(it.name for it in CONSTRUCTORS.values() if it.sort == "stmt"),
        frozenset(["Import", "ImportFrom"]),
        frozenset(["Dict", "Compare", "MatchMapping", "MatchClass"]),
    )

    def sources(self, work: Sequence[tuple[str, bytes]]) -> Sequence[Union[Source, Fault]]:
        return [_source(contents) for _, contents in work]

    def signature(self) -> str:
        return signature()


def _source(contents: bytes) -> Union[Source, Fault]:
    with deep():
        try:
            return Source(contents)
        except SyntaxError as error:
            return Fault(error.lineno or 0, str(error.msg))


LANGUAGE: Final = Python()
