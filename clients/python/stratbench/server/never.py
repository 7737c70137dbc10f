"""Rules that never match, since one that is tried before them takes all that they match: bodies of a definition, and alternatives of `<+`.

A rule counts as one that takes all that its left side matches where it has no condition, its right side has only variables of the left
one, and the left one has each of them once, no annotations, and no integer or list with a tail.

    >>> from .reading import read
    >>> text = "rules R : F(x,G(y)) -> x  R : F(x,y) -> y  R : F(G(x),y) -> x  A : G(x) -> x  B : G(H(y)) -> y strategies f = A <+ R <+ B"
    >>> module = read(text)
    >>> [(text[it.begin : it.end], it.earlier) for it in never(module, module.by_key.get)]
    [('R', 'F(x,y)'), ('B', 'A')]
"""

from __future__ import annotations

from collections.abc import Callable, Iterator, Sequence
from typing import NamedTuple, Optional

from ..strategies import TAIL, Pattern, Strategy
from .reading import Definition, Module

_Bodies = Callable[[tuple[str, int, int]], Optional[Sequence[Definition]]]


class Never(NamedTuple):
    """Where a rule is that never matches, and the earlier one that takes all that it could: its name, or its left side."""

    begin: int
    end: int
    earlier: str


def never(module: Module, bodies: _Bodies) -> Iterator[Never]:
    """Yields the rules of a module that never match. Definitions are looked up by their names and numbers of parameters."""
    for every in module.by_key.values():
        for number, it in enumerate(every):
            left = _left(it.body)
            first = next((one for one in every[:number] if left and _takes(one.body, left, one.terms)), None)
            if first and first.body:
                yield Never(it.at, it.at + len(it.name), repr(first.body.patterns[0]))
    # the calls that are none of a parameter or a `rec`
    uses = {it.begin for it in module.names if it.kind == "use"}
    for definition in module.definitions:
        for chain in _chains(definition.body):
            before: list[tuple[Strategy, list[Strategy]]] = []
            for one in chain:
                place = module.place_of(one)
                rules = _rules(one, bodies) if place and (one.kind == "closure" or place[0] in uses) else []
                earlier = next((it for it, all_of_it in before if rules and _takes_all(all_of_it, rules)), None)
                if earlier and place:
                    yield Never(*place, earlier.name or repr(earlier.patterns[0]))
                before.append((one, rules))


# The alternatives of each choice in a strategy.
def _chains(it: Optional[Strategy]) -> Iterator[list[Strategy]]:
    if it is None:
        return
    waiting = [it]
    while waiting:
        one = waiting.pop()
        if one.kind == "choice":
            chain = []
            while one.kind == "choice":
                chain.append(one.parts[0])
                one = one.parts[1]
            chain.append(one)
            waiting += [part for it in chain for part in it.parts]
            yield chain
        else:
            waiting += one.parts


def _left(it: Optional[Strategy]) -> Optional[Pattern]:
    return it.patterns[0] if it is not None and it.kind in ("rule", "closure") else None


# The rules that an alternative is: a closure, or the bodies of a definition without parameters, all of which are rules.
def _rules(it: Strategy, bodies: _Bodies) -> list[Strategy]:
    if it.kind == "closure":
        return [it]
    found = [one.body for one in bodies((it.name, 0, 0)) or ()] if it.kind == "call" and not it.parts and not it.patterns else []
    return [one for one in found if one is not None] if all(one is not None and one.kind == "rule" for one in found) else []


# Whether rules succeed with all that some others match.
def _takes_all(rules: list[Strategy], others: list[Strategy]) -> bool:
    return all(any(_takes(one, it.patterns[0], ()) for one in rules) for it in others)


# Whether a rule succeeds with all that a pattern matches. These variables are bound before it.
def _takes(rule: Optional[Strategy], left: Pattern, bound: tuple[str, ...]) -> bool:
    if rule is None or rule.kind not in ("rule", "closure") or rule.parts:
        return False
    own, built = list(_variables(rule.patterns[0])), set(_variables(rule.patterns[1]))
    if len(set(own)) < len(own) or set(own) & set(bound) or not built <= set(own) or not _is_built(rule.patterns[1]):
        return False
    # the program itself warns of what comes after a rule for all terms
    return rule.patterns[0].kind in ("constructor", "string") and _covers(rule.patterns[0], left)


# Whether a pattern matches all that another one does.
def _covers(wide: Pattern, narrow: Pattern) -> bool:
    if wide.kind == "variable" or wide == Pattern("other", "_"):
        return True
    if wide.kind == "string":
        return narrow == wide
    if wide.kind != "constructor" or wide.name == TAIL or narrow.kind != "constructor":
        return False
    parts = zip(wide.parts, narrow.parts)
    return wide.name == narrow.name and len(wide.parts) == len(narrow.parts) and all(_covers(one, other) for one, other in parts)


def _variables(it: Pattern) -> Iterator[str]:
    if it.kind == "variable":
        yield str(it.name)
    for part in it.parts:
        yield from _variables(part)


# Whether an instance of a pattern can be built where its variables are bound: a tail may be no list.
def _is_built(it: Pattern) -> bool:
    return it.kind != "other" and it.name != TAIL and all(map(_is_built, it.parts))
