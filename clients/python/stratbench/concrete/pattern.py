"""Patterns in a language's own syntax, as trees with holes. A language's adapter makes them; nothing here knows a language."""

from __future__ import annotations

from collections.abc import Callable, Iterable, Iterator, Sequence
from dataclasses import dataclass, replace
from typing import NamedTuple, Union

from .text import Source


class At(NamedTuple):
    """Where something stands in the user's text."""

    source: Source
    place: int


class Hole(NamedTuple):
    """A metavariable. `many` stands for any number of elements of the list that it is in. `form` is what stands here, in the adapter's
    words: the same name in two forms needs a conversion. `guards` are strategies that what it is bound to has to pass."""

    name: str
    at: At
    form: str
    many: bool = False
    guards: tuple[str, ...] = ()

    @property
    def shown(self) -> str:
        """What it is called in what is said of it."""
        return f"`${'*' if self.many else ''}{self.name.partition(chr(39))[0]}`"


class Raw(NamedTuple):
    """A pattern of Stratego in the middle of the other syntax, between two places of the user's text."""

    at: At
    last: int


class Leaf(NamedTuple):
    """A string or a number, as strategies spell it."""

    text: str


@dataclass(frozen=True)
class Apply:
    """A constructor. `finish` is a strategy that puts right what is built of lists of unknown length."""

    name: str
    parts: tuple[Pattern, ...] = ()
    finish: str = ""


@dataclass(frozen=True)
class Items:
    """A list, with any holes for many elements."""

    parts: tuple[Pattern, ...] = ()


@dataclass(frozen=True)
class Unseen:
    """What the syntax doesn't show, as whether a name is read or written: matches anything, and is built as this."""

    built: Pattern


@dataclass(frozen=True)
class Inside:
    """A pattern that stands somewhere in a term."""

    pattern: Pattern
    at: At
    guards: tuple[str, ...] = ()


@dataclass(frozen=True)
class Either:
    """One of some patterns, the first that matches."""

    patterns: tuple[Pattern, ...]
    at: At
    guards: tuple[str, ...] = ()


Pattern = Union[Hole, Raw, Leaf, Apply, Items, Unseen, Inside, Either]


def children(pattern: Pattern) -> tuple[Pattern, ...]:
    """Returns the patterns in a pattern."""
    if isinstance(pattern, (Apply, Items)):
        return pattern.parts
    if isinstance(pattern, Either):
        return pattern.patterns
    return (pattern.pattern,) if isinstance(pattern, Inside) else ()


def holes(pattern: Pattern) -> Iterator[Hole]:
    """Yields the holes, in the order of the text."""
    if isinstance(pattern, Hole):
        yield pattern
    for it in children(pattern):
        yield from holes(it)


def mapped(pattern: Pattern, of: Callable[[Hole], Pattern]) -> Pattern:
    """Returns the pattern with something else in the place of each hole."""
    if isinstance(pattern, Hole):
        return of(pattern)
    if isinstance(pattern, (Apply, Items)):
        return replace(pattern, parts=tuple(mapped(it, of) for it in pattern.parts))
    if isinstance(pattern, Either):
        return replace(pattern, patterns=tuple(mapped(it, of) for it in pattern.patterns))
    return replace(pattern, pattern=mapped(pattern.pattern, of)) if isinstance(pattern, Inside) else pattern


def settled(
    patterns: Sequence[Pattern], settle: Callable[[Hole, frozenset[str]], Pattern], others: Iterable[tuple[str, str]] = ()
) -> list[Pattern]:
    """Returns the patterns of a rule, where a metavariable that stands in several forms may need another pattern in some places. `others`
    are names with forms that they have elsewhere."""
    forms: dict[str, set[str]] = {}
    for name, form in others:
        forms.setdefault(name, set()).add(form)
    for it in patterns:
        for hole in holes(it):
            forms.setdefault(hole.name, set()).add(hole.form)
    return [mapped(it, lambda hole: settle(hole, frozenset(forms[hole.name])) if hole.name != "_" else hole) for it in patterns]


def is_rest(pattern: Pattern) -> bool:
    """Whether a list ends with a hole for all that is left."""
    last = pattern.parts[-1] if isinstance(pattern, Items) and pattern.parts else None
    return isinstance(last, Hole) and last.many
