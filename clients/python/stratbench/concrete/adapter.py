"""What a language has to say for rules to be written in its own syntax."""

from __future__ import annotations

import importlib
import importlib.util
from collections.abc import Mapping
from typing import Optional, Protocol

from .. import languages
from .pattern import Hole, Pattern
from .text import Span


class Adapter(Protocol):
    """The adapter of a language: the object `ADAPTER` of the module `concrete` in its folder."""

    @property
    def title(self) -> str:
        """The name of the language in sentences."""

    @property
    def helpers(self) -> str:
        """The definitions that what is made calls, beside those of `concrete.str`. Their names end with `'`."""

    def parse(self, span: Span) -> Mapping[str, Pattern]:
        """Returns what a text is, in each of the kinds that it can be, the smallest first. Lists are `Items`. Raises `Fault`."""

    def settle(self, hole: Hole, forms: frozenset[str]) -> Pattern:
        """Returns what a hole is in a rule in which its name stands in these forms."""

    def rooted(self, left: Pattern, right: Pattern) -> tuple[Pattern, Pattern]:
        """Returns both sides of a rule of one node: what is put in its place has to be what may stand there."""

    def same(self, have: str, want: str) -> Optional[str]:
        """Returns the strategy with a term that tests that two forms are the same but for layout; "" where equal terms are, and none
        where it can't be."""

    def conversion(self, have: str, want: str) -> Optional[str]:
        """Returns the strategy that makes one form another, "" where there is nothing to do, none where it can't be."""

    def adding(self, needed: str) -> Optional[str]:
        """Returns the strategy that adds an import, as it is written in a source, to a file's tree; none where it is no import."""


def adapter_of(language: str) -> Optional[Adapter]:
    """Returns the adapter of the language of this name, if it has one."""
    name = f"{languages.__name__}.{language}.concrete"
    if language not in languages.NAMES or importlib.util.find_spec(name) is None:
        return None
    found: Adapter = importlib.import_module(name).ADAPTER
    return found
