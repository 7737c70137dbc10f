"""What a strategy needs of a tree: where the tree lacks it, nothing would change, and the workbench needn't be asked.

    >>> def named(pattern, strings):
    ...     return [dict(strings).get(pattern.name, pattern.name), *(name for it in pattern.parts for name in named(it, strings))]
    >>> class Lacking:
    ...     least_terms, most_terms, most_levels = 100, 100, 10
    ...     def __init__(self, *names):
    ...         self.names = names
    ...     def lacks(self, pattern, strings):
    ...         return any(it in self.names for it in named(pattern, strings))
    >>> library = "strategies try(s) = s <+ id  bottomup(s) = all(bottomup(s)); s  repeat(s) = try(s; repeat(s))"
    >>> rules = 'rules A : While(x,Name("a",_)) -> x  B(|n) : With(n,_) -> n'
    >>> for text in ("bottomup(try(A <+ B(|\\"b\\")))", "bottomup(A)", "repeat(A); try(B(|\\"b\\"))", "repeat(id)", "!With(1,2)"):
    ...     needs = Needs([library, rules], text)
    ...     [needs.unmet(Lacking(*it), 1_000_000) for it in (["While", "With"], [b"a", "With"], ["While"], [b"c", "With"])]
    [True, True, False, False]
    [False, False, False, False]
    [True, True, False, False]
    [False, False, False, False]
    [False, False, False, False]

Why this is sound. A strategy is gone over for all subterms of such a tree at once. `_outcomes` has what may come of it at any of them:
that it gives the very same term, or fails. These are the cases of `docs/manual/meaning.md`, with both answers wherever a test may come out
either way. All that isn't known to be one of the two ends the search, and the workbench is asked: what builds a term, a primitive, a rule
whose left side the tree may have. So where a form is gone over, the terms that it is applied to are still those of the tree, and the tree
may be left alone where the only outcome at the root is the same term. Conditions of rules aren't looked at.

Nor may the budget run out, or a run go on for ever. A definition that is met again within itself has to be at a subterm by then, and is
met at one place alone; and no definition of that kind is within another. So each form that is gone over is evaluated at most once for a
subterm, and takes `_STEPS` at most: that times the size has to fit in the budget. The terms that are given to definitions have to be
constants, which are built at every level that a tree may have.
"""

from __future__ import annotations

from collections import Counter
from collections.abc import Iterable, Iterator
from typing import Final, NamedTuple, Protocol, Union

from ..strategies import TAIL, Definition, Definitions, NoStrategy, Pattern, Strategy, definitions, strategy
from ..terms import LIST, TUPLE

# What may come of a strategy: it gives the term that it is applied to, or fails.
_SAME, _FAILS = 1, 2
# The most steps of a form but for those of its parts: a rule whose left side doesn't match takes three.
_STEPS: Final = 3
# The most forms that are gone over, and the most levels of a tree: below them there is room for a constant.
_MOST_FORMS: Final = 5_000
_MOST_LEVELS: Final = 900


class Seen(Protocol):
    """What is seen of a tree before it is a term: bounds of its size and height, and whether it surely lacks what matches an application of
    a constructor, where these variables stand for strings."""

    @property
    def least_terms(self) -> int: ...

    @property
    def most_terms(self) -> int: ...

    @property
    def most_levels(self) -> int: ...

    def lacks(self, pattern: Pattern, strings: tuple[tuple[str, bytes], ...]) -> bool: ...


class _Unknown(Exception):
    """The strategy may do anything else."""


class _Names(NamedTuple):
    """What the names in a definition stand for: strategies, and terms that are strings. No other variable is known."""

    strategies: tuple[tuple[str, Union[_Closure, _Key]], ...] = ()
    terms: tuple[tuple[str, bytes], ...] = ()


class _Closure(NamedTuple):
    """A strategy with what its names stand for."""

    strategy: Strategy
    names: _Names


class _Key(NamedTuple):
    """A call of a definition, or a `rec`, whose bodies are gone over."""

    name: str
    bodies: tuple[_Closure, ...]


class _Open:
    """A definition that is gone over: at which depth below its own subterm that is done, what has come of it so far, how often it was met
    again, and whether another that goes down is in it."""

    def __init__(self, depth: int) -> None:
        self.depth, self.outcomes, self.met, self.others = depth, 0, 0, False


class _Place(NamedTuple):
    """Where a strategy is: in which definition, and in which scopes, from the innermost. Each has the variables that it declares, or none
    where all are its own, and a number."""

    definition: str
    scopes: tuple[tuple[frozenset[str] | None, int], ...]

    def within(self, variables: frozenset[str] | None, scope: Strategy) -> _Place:
        return self._replace(scopes=((variables, id(scope)), *self.scopes))

    def scope_of(self, variable: str) -> int:
        return next(number for names, number in self.scopes if names is None or variable in names)


class Needs:
    """What a strategy needs, with the definitions of these modules."""

    def __init__(self, modules: Iterable[str], text: str) -> None:
        self._definitions: Definitions = {}
        self._strategy: Strategy | None
        try:
            for module in modules:
                for key, found in definitions(module).items():
                    self._definitions.setdefault(key, []).extend(found)
            self._strategy = strategy(text)
        except (NoStrategy, RecursionError):
            self._strategy = None

    def rule(self) -> str | None:
        """Returns the name of the rule by which the strategy changes terms, where there is only one way.

        >>> library, rules = "strategies try(s) = s <+ id", "rules A : B() -> C()  D : B() -> E()"
        >>> [Needs([library, rules], it).rule() for it in ("all(try(A))", "A <+ D", "A; !C()", "all(try(?B()))")]
        ['A', None, None, None]
        """
        found: set[str | None] = set()
        for _, it in self._reached(conditions=False):
            if it.kind in ("build", "applied", "prim", "closure"):
                found.add(None)
            if it.kind == "call":
                found.update(it.name for one in self._bodies(it) if one.body.kind == "rule")
        return found.pop() if len(found) == 1 else None

    def repeated(self) -> list[tuple[str, str]]:
        """Returns the variables that are matched twice, so that terms are compared, each after the name of its definition: that of the
        strategy itself is empty.

        >>> rules = "rules Same : [x,x] -> x  Not : [x,y] -> y where <id> x => x"
        >>> texts = ["all(Same <+ Not)", "?[x,A(x)]", "{x: ?A(x)}; {x: ?B(x)}", "?A(x); {y: ?B(x,y)}", "?x; \\\\ (y,[y]) -> x \\\\"]
        >>> [Needs([rules], it).repeated() for it in texts]
        [[('Not', 'x'), ('Same', 'x')], [('', 'x')], [], [('', 'x')], [('', 'y')]]
        """
        matched: Counter[tuple[str, int, str]] = Counter()
        for place, it in self._reached(conditions=True):
            if it.kind in ("rule", "closure", "match", "then"):
                inside = place.within(None, it) if it.kind == "closure" else place
                matched.update((inside.definition, inside.scope_of(variable), variable) for variable in _variables(it.patterns[0]))
        return sorted({(name, variable) for (name, _, variable), times in matched.items() if times > 1})

    # The strategies that may be evaluated, with their places; those of the conditions of rules where these are asked for.
    def _reached(self, conditions: bool) -> Iterator[tuple[_Place, Strategy]]:
        waiting = [(_Place("", ((None, 0),)), self._strategy)] if self._strategy is not None else []
        seen: set[tuple[str, int, int]] = set()
        while waiting:
            place, it = waiting.pop()
            yield place, it
            inside = place
            if it.kind in ("scope", "closure"):
                inside = place.within(frozenset(str(one.name) for one in it.patterns) if it.kind == "scope" else None, it)
            waiting += [(inside, part) for part in it.parts]
            key = (it.name, len(it.parts), len(it.patterns))
            if it.kind == "call" and key not in seen:
                seen.add(key)
                bodies = [one.body for one in self._bodies(it)]
                waiting += [(_Place(it.name, ((None, id(body)),)), body) for body in bodies if conditions or body.kind != "rule"]

    def _bodies(self, it: Strategy) -> list[Definition]:
        return self._definitions.get((it.name, len(it.parts), len(it.patterns)), [])

    def unmet(self, seen: Seen, budget: int) -> bool:
        """Whether the strategy surely leaves such a tree as it is, in so many steps."""
        if self._strategy is None or seen.most_levels > _MOST_LEVELS:
            return False
        search = _Search(self._definitions, seen)
        try:
            outcomes = search.outcomes(self._strategy, _Names(), 0)
        except (_Unknown, RecursionError):
            return False
        return outcomes == _SAME and search.forms * _STEPS * seen.most_terms <= budget


class _Search:
    def __init__(self, known: Definitions, seen: Seen) -> None:
        self._definitions, self._seen = known, seen
        self._open: dict[_Key, _Open] = {}
        # what was asked of the tree
        self._lacks: dict[tuple[Pattern, tuple[tuple[str, bytes], ...]], bool] = {}
        self._all = 0
        # those that are evaluated at a subterm
        self.forms = 0

    def outcomes(self, it: Strategy, names: _Names, depth: int) -> int:
        """What may come of a strategy at subterms of the tree. The deeper ones are those of a subterm that was gone over before."""
        self.forms += 1
        self._all += 1
        if self._all > _MOST_FORMS:
            raise _Unknown
        kind, parts = it.kind, it.parts
        if kind == "id":
            return _SAME
        if kind == "fail":
            return _FAILS
        if kind == "seq":
            return self._in_turn(parts, names, depth, 0)
        if kind == "choice":
            first = self.outcomes(parts[0], names, depth)
            return first & _SAME | (self.outcomes(parts[1], names, depth) if first & _FAILS else 0)
        if kind == "guard":
            first = self.outcomes(parts[0], names, depth)
            then = self.outcomes(parts[1], names, depth) if first & _SAME else 0
            return then | (self.outcomes(parts[2], names, depth) if first & _FAILS else 0)
        if kind == "not":
            first = self.outcomes(parts[0], names, depth)
            return (_FAILS if first & _SAME else 0) | (_SAME if first & _FAILS else 0)
        if kind == "where":
            return self.outcomes(parts[0], names, depth)
        if kind == "match":
            return _FAILS if self._cannot(it.patterns[0], names) else _SAME | _FAILS
        if kind == "then":
            first = self.outcomes(parts[0], names, depth)
            return first & _FAILS | (self._matched(it.patterns[0], names) if first & _SAME else 0)
        if kind == "scope":
            hidden = {it.name for it in it.patterns}
            return self.outcomes(parts[0], names._replace(terms=tuple(it for it in names.terms if it[0] not in hidden)), depth)
        if kind in ("rule", "closure"):
            # the variables of a closure are its own
            if self._cannot(it.patterns[0], names if kind == "rule" else names._replace(terms=())):
                return _FAILS
            raise _Unknown
        if kind in ("all", "one", "some"):
            below = self.outcomes(parts[0], names, depth + 1)
            # a leaf has no children
            return _SAME | below & _FAILS if kind == "all" else _FAILS | below & _SAME
        if kind == "child":
            return _FAILS | self.outcomes(parts[0], names, depth + 1)
        if kind in ("congruence", "tail"):
            return self._congruence(it.name, parts, names, depth)
        if kind == "call":
            return self._called(it, names, depth)
        if kind == "rec":
            key = _Key(it.name, (_Closure(it, names),))
            inside = names._replace(strategies=((it.name, key), *names.strategies))
            return self._again(key, [(parts[0], inside)], depth)
        # what builds a term
        raise _Unknown

    def _matched(self, pattern: Pattern, names: _Names) -> int:
        return _FAILS if self._cannot(pattern, names) else _SAME | _FAILS

    # One after the other, at the same term or at children, as long as each may give a term.
    def _in_turn(self, parts: Iterable[Strategy], names: _Names, depth: int, down: int) -> int:
        fails = 0
        for it in parts:
            found = self.outcomes(it, names, depth + down)
            fails |= found & _FAILS
            if not found & _SAME:
                return fails
        return _SAME | fails

    def _congruence(self, name: str, parts: tuple[Strategy, ...], names: _Names, depth: int) -> int:
        if name not in (LIST, TUPLE) and self._cannot(Pattern("constructor", name, (Pattern("other"),) * len(parts)), _Names()):
            return _FAILS
        return _FAILS | self._in_turn(parts, names, depth, 1)

    def _called(self, it: Strategy, names: _Names, depth: int) -> int:
        bound = dict(reversed(names.strategies)).get(it.name)
        if bound is not None:
            if it.parts or it.patterns:
                raise _Unknown
            return self._met(bound, depth) if isinstance(bound, _Key) else self.outcomes(bound.strategy, bound.names, depth)
        found = self._definitions.get((it.name, len(it.parts), len(it.patterns)))
        if found is None:
            if it.patterns:
                raise _Unknown
            return self._congruence(it.name, it.parts, names, depth)
        given = [self._argument(part, names) for part in it.parts]
        terms = [_constant(term, names) for term in it.patterns]
        bodies = [(one.body, _Names(tuple(zip(one.strategies, given)), _strings(one, terms))) for one in found]
        key = _Key(it.name, tuple(_Closure(*body) for body in bodies))
        return self._met(key, depth) if key in self._open else self._again(key, bodies, depth)

    # What an argument stands for: one that is a name alone is what that stands for.
    def _argument(self, it: Strategy, names: _Names) -> _Closure | _Key:
        bound = dict(reversed(names.strategies)).get(it.name) if it.kind == "call" and not it.parts and not it.patterns else None
        return bound or _Closure(it, names)

    # A definition that is met within itself: what it was found to do so far, at a subterm.
    def _met(self, key: _Key, depth: int) -> int:
        it = self._open.get(key)
        if it is None or depth <= it.depth:
            raise _Unknown
        it.met += 1
        if it.met > 1:
            raise _Unknown
        return it.outcomes

    # Goes over the bodies of a definition until no more is found to come of it.
    def _again(self, key: _Key, bodies: list[tuple[Strategy, _Names]], depth: int) -> int:
        it = _Open(depth)
        forms, met = self.forms, {other: other.met for other in self._open.values()}
        self._open[key] = it
        while True:
            # what was counted in the last turn doesn't come twice
            self.forms, it.met, found = forms + len(bodies), 0, 0
            for other, count in met.items():
                other.met = count
            for at, (body, names) in enumerate(bodies):
                now = self.outcomes(body, names, depth)
                found = found & ~_FAILS | now if at else now
                if not now & _FAILS:
                    break
            if found | it.outcomes == it.outcomes:
                break
            it.outcomes |= found
        del self._open[key]
        if it.met:
            if it.others:
                raise _Unknown
            for other in self._open.values():
                other.others = True
        return it.outcomes

    # Whether no subterm matches.
    def _cannot(self, pattern: Pattern, names: _Names) -> bool:
        if pattern.kind == "constructor" and pattern.name not in (LIST, TAIL, TUPLE):
            asked = pattern, names.terms
            if asked not in self._lacks:
                self._lacks[asked] = self._seen.lacks(*asked)
            return self._lacks[asked]
        return any(self._cannot(it, names) for it in pattern.parts)


# The variables of a pattern, each as often as it stands there.
def _variables(it: Pattern) -> Iterator[str]:
    if it.kind == "variable":
        yield str(it.name)
    for part in it.parts:
        yield from _variables(part)


# The string that a term is which is given to a definition; nothing for an integer.
def _constant(term: Pattern, names: _Names) -> bytes | None:
    if term.kind == "string" and isinstance(term.name, bytes):
        return term.name
    if term.kind == "variable" and term.name in dict(names.terms):
        return dict(names.terms)[str(term.name)]
    if term.kind == "integer":
        return None
    raise _Unknown


def _strings(it: Definition, terms: list[bytes | None]) -> tuple[tuple[str, bytes], ...]:
    return tuple((name, term) for name, term in zip(it.terms, terms) if term is not None)
