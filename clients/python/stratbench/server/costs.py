"""How many steps a strategy takes at most, where that depends on nothing but those of its parameters.

The steps of each form are those of docs/manual/meaning.md. What goes to all children, or calls itself, has no bound.

    >>> from .reading import read
    >>> text = "signature constructors F : t -> t strategies try(s) = s <+ id  f = try(F(id)); ?F(x)  g(s,t) = s; all(t)  h(s) = try(try(s)); s"
    >>> module = read(text)
    >>> bounds = Bounds(module.by_key.get, lambda name, terms: (name, terms) in module.declared)
    >>> [str(bounds.of(it.key)) for it in module.definitions]
    ['4 + s', '9', 'None', '11 + 2 s']
"""

from __future__ import annotations

from collections.abc import Callable, Iterable, Mapping, Sequence
from typing import NamedTuple, Optional

from ..strategies import Strategy
from .reading import Definition

_Key = tuple[str, int, int]


class Bound(NamedTuple):
    """A number of steps, and how often those of each parameter come to it."""

    steps: int
    times: Mapping[str, int] = {}

    def __str__(self) -> str:
        return " + ".join([str(self.steps), *(f"{count} {name}" if count > 1 else name for name, count in self.times.items())])

    def plus(self, other: Bound) -> Bound:
        """Returns the sum."""
        return Bound(self.steps + other.steps, {it: self.times.get(it, 0) + other.times.get(it, 0) for it in (*self.times, *other.times)})

    def or_else(self, other: Bound) -> Bound:
        """Returns a bound of both."""
        return Bound(max(self.steps, other.steps), {it: max(self.times.get(it, 0), other.times.get(it, 0)) for it in (*self.times, *other.times)})

    def with_parameters(self, given: Mapping[str, Bound]) -> Bound:
        """Returns the bound with those of the parameters in their places."""
        found = Bound(self.steps)
        for name, count in self.times.items():
            it = given[name]
            found = found.plus(Bound(count * it.steps, {one: count * times for one, times in it.times.items()}))
        return found


class _Unbounded(Exception):
    """There is no bound."""


# Beside those of its parts.
_OWN: Mapping[str, int] = {
    "id": 1, "fail": 1, "seq": 1, "not": 2, "where": 1, "match": 1, "build": 1, "applied": 2, "then": 2, "scope": 1, "congruence": 1, "tail": 1,
    "child": 1, "prim": 1,
}  # fmt: skip


class Bounds:
    """The bounds of definitions. These are looked up by their names and numbers of parameters, and constructors by theirs of terms."""

    def __init__(self, bodies: Callable[[_Key], Optional[Sequence[Definition]]], is_declared: Callable[[str, int], object]) -> None:
        self._bodies, self._is_declared = bodies, is_declared
        self._known: dict[_Key, Optional[Bound]] = {}
        self._open: set[_Key] = set()

    def of(self, key: _Key) -> Optional[Bound]:
        """Returns the bound of a call of a definition, if there is one."""
        try:
            return self._called(key)
        except (_Unbounded, RecursionError):
            return None

    def of_strategy(self, it: Strategy) -> Optional[Bound]:
        """Returns the bound of a strategy without parameters, if there is one."""
        try:
            return self._strategy(it, ())
        except (_Unbounded, RecursionError):
            return None

    def _called(self, key: _Key) -> Bound:
        if key in self._open:
            raise _Unbounded
        if key not in self._known:
            self._open.add(key)
            try:
                self._known[key] = self._definition(self._bodies(key) or ())
            except _Unbounded:
                self._known[key] = None
            finally:
                self._open.discard(key)
        found = self._known[key]
        if found is None:
            raise _Unbounded
        return found

    def _definition(self, bodies: Sequence[Definition]) -> Bound:
        if not bodies:
            raise _Unbounded
        # the parameters go by position, and have the names of the first body
        first = bodies[0].strategies
        every = []
        for it in bodies:
            if it.body is None:
                raise _Unbounded
            names = {name: Bound(0, {own: 1}) for name, own in zip(it.strategies, first)}
            every.append(self._strategy(it.body, it.strategies).with_parameters(names))
        found = every.pop()
        while every:
            # the bodies are joined by `<+`
            found = Bound(1).plus(every.pop()).plus(found.or_else(Bound(1)))
        return Bound(1).plus(found)

    def _strategy(self, it: Strategy, parameters: tuple[str, ...]) -> Bound:
        parts = [self._strategy(part, parameters) for part in it.parts] if it.kind not in ("call", "all", "one", "some", "rec") else []
        if it.kind in _OWN:
            return _sum(Bound(_OWN[it.kind]), parts)
        if it.kind == "choice":
            return Bound(1).plus(parts[0]).plus(parts[1].or_else(Bound(1)))
        if it.kind == "guard":
            return Bound(1).plus(parts[0]).plus(parts[1].or_else(parts[2]))
        if it.kind in ("rule", "closure"):
            # a closure has a scope around it
            return _sum(Bound((5 if parts else 3) + (it.kind == "closure")), parts)
        if it.kind == "call":
            return self._call(it, parameters)
        raise _Unbounded

    def _call(self, it: Strategy, parameters: tuple[str, ...]) -> Bound:
        if it.name in parameters:
            return Bound(1, {it.name: 1})
        key = (it.name, len(it.parts), len(it.patterns))
        bodies = self._bodies(key)
        if not bodies:
            if it.patterns or not self._is_declared(it.name, len(it.parts)):
                raise _Unbounded
            # a congruence
            return _sum(Bound(1), [self._strategy(part, parameters) for part in it.parts])
        found = self._called(key)
        given = {}
        for name, part in zip(bodies[0].strategies, it.parts):
            is_handed_on = part.kind == "call" and part.name in parameters
            given[name] = Bound(0, {part.name: 1}) if is_handed_on else self._strategy(part, parameters)
        return found.with_parameters(given)


def _sum(first: Bound, others: Iterable[Bound]) -> Bound:
    for it in others:
        first = first.plus(it)
    return first
