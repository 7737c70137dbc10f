"""Modules and strategies with quotations: patterns in a language's own syntax between backquotes, wherever a pattern may stand.

    rules
      NegatedTest : `not $x in $y` -> `$x not in $y`
      FirstArgument : `$f($x, $*xs)` -> ${Pair(f,x)} where <?`$_.$m`> f
    strategies
      is-print = ?`print($*_)`
      under-if(s) = ~`if $_: $*s`

A quotation of a text that has backquotes stands between more of them. `$x` in a quotation is the strategy's variable x. What a pattern can't
say becomes a condition: of a rule in its `where`, of `?p`, `!p`, `<s> p`, `s => p` and of a call beside it. After `~` a quotation is a
congruence, whose holes are strategies.
"""

from __future__ import annotations

import re
from collections.abc import Callable, Iterable, Iterator, Mapping
from itertools import count
from typing import Final, NamedTuple, Optional, TypeVar

from ..strategies import QUOTATION, Definition, NoStrategy, Pattern as Given, Reader, Strategy
from .adapter import Adapter
from .pattern import At, Hole, Items, Pattern, Raw, children, is_rest, settled
from .text import Fault, Made, Source, Span, put
from .writing import Bound, Building, Condition, Form, Matching, Search, congruence, conjunction, variable

_PLAIN: Final = r'\s+|//[^\n]*|/\*.*?\*/|(?P<string>"(?:\\.|[^"\\])*")'
_TOKEN: Final = re.compile(
    rf"{_PLAIN}|{QUOTATION}|(?P<word>(?:\$[*?]{{0,2}})?[A-Za-z_](?:[A-Za-z0-9_']|-(?!>))*)|(?P<number>-?[0-9]+)"
    r"|(?P<sign>=>|->|<\+|[()\[\]{},;:|=<>+*?!@\\~])",
    re.DOTALL,
)
WORD: Final = re.compile(r"[A-Za-z_](?:[A-Za-z0-9_']|-(?!>))*")
_ANY: Final = Given("other")
# Where the user's condition is among those that are made.
_WHERE: Final = "\0"
_Found = TypeVar("_Found")


def has_quotations(text: str) -> bool:
    """Whether a module or a strategy has quotations, or what looks like one."""
    return "`" in re.sub(r'"(?:\\.|[^"\\])*"|//[^\n]*|/\*.*?\*/', "", text, flags=re.DOTALL)


def kind_of_both(left: Mapping[str, Pattern], right: Mapping[str, Pattern], adapter: Adapter, of_right: Span) -> tuple[Pattern, Pattern]:
    """Returns both sides of a rule in the first kind that both can be. Raises `Fault`. A side of several elements is the beginning of a
    list, and what comes after it stays."""
    kind = next((it for it in left if it in right), None)
    if kind is None:
        raise of_right.fault(f"the left side is {' or '.join(left)}, the right one {' or '.join(right)}")
    one, two = left[kind], right[kind]
    if isinstance(one, Items) and isinstance(two, Items):
        if one.parts and not is_rest(one):
            rest = Hole("rest'", At(of_right.source, of_right.first), "the rest", many=True)
            one, two = Items((*one.parts, rest)), Items((*two.parts, rest))
        return one, two
    return adapter.rooted(one, two)


class Read(NamedTuple):
    """A strategy without quotations, and the names that patterns in it bind."""

    made: Made
    matched: frozenset[str]


def in_module(source: Source, adapter: Adapter) -> Made:
    """Returns a module without quotations. Raises `Fault`."""
    return _Reader(Span(source, 0, len(source.text)), adapter).module()


def in_strategy(span: Span, adapter: Adapter, bound: Optional[Bound] = None) -> Read:
    """Returns a strategy without quotations, and without the `$` of its variables. `bound` are the metavariables around it. Raises
    `Fault`."""
    return _Reader(span, adapter, bound).alone()


class _Reader(Reader):
    """A text that is read by the grammar of strategies as far as it takes to know where each form begins and ends."""

    def __init__(self, span: Span, adapter: Adapter, outer: Optional[Bound] = None) -> None:
        try:
            super().__init__(span.text, _TOKEN)
        except NoStrategy as error:
            raise span.fault(str(error), span.first + error.place) from None
        self._span, self._adapter, self._outer = span, adapter, outer
        self._edits: list[tuple[int, int, Made]] = []
        # the tokens that are quotations and variables of the form that is being read
        self._quotes: list[int] = []
        self._variables: list[int] = []
        # a definition is read twice: at first to know its quotations, and what it binds
        self._first = True
        self._patterns: dict[int, Mapping[str, Pattern]] = {}
        self._matched: set[str] = set()
        self._matched_quotes: set[int] = set()
        self._built: list[int] = []
        self._parameters: tuple[str, ...] = ()
        # what the left side of the rule around binds
        self._around: Mapping[str, list[Form]] = {}
        self._words = frozenset(WORD.findall(span.source.text))
        self._numbers = outer.numbers if outer is not None else count(1)

    # -- a text

    def module(self) -> Made:
        try:
            self.definitions()
        except NoStrategy as error:
            raise self._span.fault(str(error), self._span.first + error.place) from None
        return self._edited()

    def alone(self) -> Read:
        def read() -> Strategy:
            found = self.strategy()
            self.take("")
            return found

        try:
            self._twice(read, lambda _: ())
        except NoStrategy as error:
            if not self._patterns and "`" not in self._span.text:
                # the workbench says what is wrong
                return Read(self._without_dollars(), frozenset(self._words))
            raise self._span.fault(str(error), self._span.first + error.place) from None
        self._check_built()
        for at, (kind, text) in enumerate(self._tokens):
            if kind == "word" and text.startswith("$"):
                (first, last), name = self._spans[at], self._name(at)
                begins = last - len(name)
                self._edits.append((first, begins, Made()))
                # the variable of a name that is a word of strategies is another
                self._edits.append((last, last, Made.of(variable(name)[len(name) :])))
        return Read(self._edited(), frozenset(self._matched))

    def _without_dollars(self) -> Made:
        self._edits = [(it.start(), it.end(), Made()) for it in re.finditer(r"\$[*?]{0,2}(?=[A-Za-z_])", self._span.text)]
        return self._edited()

    # A variable that is built has to be bound, by what is around or by a pattern.
    def _check_built(self) -> None:
        if self._outer is None:
            return
        known = {it.variable for forms in self._outer.variables.values() for it in forms}
        known |= self._outer.variables.keys() | self._outer.others | self._matched
        for at in self._built:
            name = self._name(at)
            if name not in known:
                raise self._fault(at, f"`{self._tokens[at][1]}` isn't bound: it doesn't stand on the left, and no pattern before binds it")

    def _definition(self) -> tuple[str, Definition]:
        def terms(found: tuple[str, Definition]) -> tuple[str, ...]:
            return found[1].terms

        return self._twice(super()._definition, terms)

    # Reads something twice, and compiles the quotations of it the second time.
    def _twice(self, read: Callable[[], _Found], parameters: Callable[[_Found], tuple[str, ...]]) -> _Found:
        begun = self._at
        self._first, self._matched, self._matched_quotes, self._built = True, set(), set(), []
        found = read()
        self._parameters = parameters(found)
        self._settle(begun, self._at)
        self._at, self._first, self._built = begun, False, []
        return read()

    # A metavariable's form in one quotation says what it is in another.
    def _settle(self, first: int, last: int) -> None:
        found: list[tuple[int, str, Pattern]] = []
        for at in range(first, last):
            if self._tokens[at][0] == "quote":
                parsed = self._adapter.parse(self._quoted(at))
                self._patterns[at] = parsed
                found += [(at, kind, pattern) for kind, pattern in parsed.items()]
        outer = [(it, "") for it in self._parameters]
        if self._outer is not None:
            outer += [(name, it.form) for name, forms in self._outer.variables.items() for it in forms]
        for (at, kind, old), new in zip(found, settled([it for _, _, it in found], self._adapter.settle, outer)):
            self._patterns[at] = {**self._patterns[at], kind: new}
            if at in self._matched_quotes:
                self._matched |= set(_names(old))

    def _edited(self) -> Made:
        made, end, source, begin = Made(), 0, self._span.source, self._span.first
        # at one place what ends a form comes before what begins one
        for first, last, new in sorted(self._edits, key=lambda it: (it[0], it[1])):
            made = made + Made.own(source, begin + end, begin + first) + new
            end = last
        return made + Made.own(source, begin + end, self._span.last)

    # -- tokens

    def _quoted(self, at: int) -> Span:
        first, last = self._spans[at]
        fence = len(self._tokens[at][1]) - len(self._tokens[at][1].lstrip("`"))
        return Span(self._span.source, self._span.first + first + fence, self._span.first + last - fence)

    def _name(self, at: int) -> str:
        return self._tokens[at][1].lstrip("$*?")

    def _fault(self, at: int, message: str) -> Fault:
        return self._span.fault(message, self._span.first + self._spans[at][0])

    @property
    def _end(self) -> int:
        return self._spans[self._at - 1][1]

    # -- patterns

    def _pattern(self) -> Given:
        if self._kind == "quote":
            self._quotes.append(self._at)
            self.take()
            return _ANY
        if self._kind == "word" and self._tokens[self._at + 1][1] != "(" and self._next != "_":
            self._variables.append(self._at)
        return super()._pattern()

    # The quotations and the variables of patterns that were read since there were so many.
    def _taken_since(self, quotes: int, variables: int) -> tuple[list[int], list[int]]:
        found = self._quotes[quotes:], self._variables[variables:]
        del self._quotes[quotes:], self._variables[variables:]
        return found

    def _new_bound(self) -> Bound:
        outer = {it: [Form(it, "", True)] for it in self._parameters}
        if self._outer is not None:
            outer.update({name: [forms[0]._replace(is_outside=True)] for name, forms in self._outer.variables.items() if forms})
        outer.update({name: [forms[0]._replace(is_outside=True)] for name, forms in self._around.items() if forms})
        words = self._words | (self._outer.words if self._outer else frozenset())
        return Bound(outer, others=frozenset(self._matched), words=words, numbers=self._numbers)

    def _replace(self, at: int, write: Callable[[Pattern], Made], pattern: Optional[Pattern] = None) -> None:
        patterns = self._patterns[at]
        new = write(patterns[next(iter(patterns))] if pattern is None else pattern)
        first, last = self._spans[at]
        lines = "\n" * self._tokens[at][1].count("\n")
        quoted = self._quoted(at)
        # what is made of nothing else belongs to where the quotation begins
        self._edits.append((first, last, _placed(new, quoted) + lines))

    def _match(self, quotes: Iterable[int]) -> Made:
        found: list[Condition] = []
        for at in quotes:
            one = Matching(self._new_bound(), self._adapter)
            self._replace(at, one.text)
            found += one.conditions
        return conjunction(found)

    def _build(self, quotes: Iterable[int]) -> Made:
        found: list[Condition] = []
        for at in quotes:
            one = Building(self._new_bound(), self._adapter)
            self._replace(at, one.text)
            found += one.conditions
        return conjunction(found)

    # -- strategies

    def _primary(self) -> Strategy:
        begun, quotes, variables = self._at, len(self._quotes), len(self._variables)
        if self._kind == "quote":
            raise self._fault(self._at, "a quotation is a pattern: `?` or `!` belongs before it, or `~` for a congruence")
        if self._next == "~" and self._kind == "sign":
            return self._congruence()
        found = super()._primary()
        mine, names = self._taken_since(quotes, variables)
        if found.kind in ("match", "scope"):
            self._matched |= {self._name(it) for it in names}
            self._matched_quotes.update(mine)
            if not self._first and mine:
                self._beside(begun, Made(), self._match(mine))
        elif found.kind in ("build", "applied", "prim", "call"):
            self._built += names
            if not self._first and mine:
                self._beside(begun, self._build(mine), Made())
        return found

    # Puts conditions before a form that ends here, or after it.
    def _beside(self, begun: int, before: Made, after: Made) -> None:
        first, last = self._spans[begun][0], self._end
        if before:
            self._edits += [(first, first, put("({}; ", before)), (last, last, Made.of(")"))]
        if after:
            self._edits += [(first, first, Made.of("(")), (last, last, put("; {})", after))]

    def _congruence(self) -> Strategy:
        sign = self._at
        self.take()
        if self._kind != "quote":
            raise self._fault(self._at, "a quotation is expected after `~`")
        quote = self._at
        self.take()
        if not self._first:
            self._edits.append((self._spans[sign][0], self._spans[quote][0], Made()))
            self._replace(quote, congruence)
        return Strategy("call", "congruence")

    def _step(self) -> Strategy:
        first = self._primary()
        while self._taken("=>"):
            quotes, variables = len(self._quotes), len(self._variables)
            first = Strategy("then", "", (first,), (self._pattern(),))
            mine, names = self._taken_since(quotes, variables)
            self._matched |= {self._name(it) for it in names}
            self._matched_quotes.update(mine)
            conditions = self._match(mine) if not self._first and mine else Made()
            if conditions:
                self._edits.append((self._end, self._end, put("; where({})", conditions)))
        return first

    def _rule(self) -> Strategy:
        quotes, variables, left_at = len(self._quotes), len(self._variables), self._at
        left = self._pattern()
        lefts, names = self._taken_since(quotes, variables)
        self._matched |= {self._name(it) for it in names}
        self._matched_quotes.update(lefts)
        self.take("->")
        right_at = self._at
        right = self._pattern()
        rights, names = self._taken_since(quotes, variables)
        self._built += names
        end = self._end
        bound = self._new_bound()
        matching, building = Matching(bound, self._adapter), Building(bound, self._adapter)
        one = two = None
        if not self._first:
            if lefts == [left_at] and rights == [right_at]:
                one, two = kind_of_both(self._patterns[left_at], self._patterns[right_at], self._adapter, self._quoted(right_at))
            for at in lefts:
                self._replace(at, matching.text, one)
        where = self._spans[self._at + 1][0] if self._next == "where" and self._kind == "word" else None
        inner: tuple[Strategy, ...] = ()
        if self._taken("where"):
            around, self._around = self._around, {**self._around, **bound.variables}
            inner = (self.strategy(),)
            self._around = around
        if not self._first:
            for at in rights:
                self._replace(at, building.text, two)
            self._put_conditions(left_at, end, where, matching.conditions, building.conditions)
        return Strategy("rule", "", inner, (left, right))

    def _put_conditions(self, left: int, end: int, where: Optional[int], before: list[Condition], after: list[Condition]) -> None:
        if not before and not after:
            return
        if where is None:
            self._edits.append((end, end, put(" where {}", conjunction([*before, *after]))))
            return
        conditions: list[Condition] = [*before, Made.of(_WHERE), *after]
        first, _, last = str(conjunction(conditions)).partition(_WHERE)
        opens, closes = _parted(conjunction(conditions), len(first), len(last))
        if any(isinstance(it, Search) for it in before):
            begin = self._spans[left][0]
            self._edits.append((begin, begin, Made.of("whole'@")))
            opens, closes = opens + "<", put("> whole'{}", closes)
        self._edits += [(where, where, opens), (self._end, self._end, closes)]


def _parted(made: Made, first: int, last: int) -> tuple[Made, Made]:
    """Returns the first so many characters of a text, and the last."""
    size = len(str(made))
    return _cut(made, 0, first), _cut(made, size - last, size)


def _cut(made: Made, first: int, last: int) -> Made:
    found, at = Made(), 0
    for it in made.pieces:
        begin, end = max(first - at, 0), min(last - at, len(it.text))
        if begin < end:
            place = it.place + begin if it.own else it.place
            found = Made((*found.pieces, it._replace(text=it.text[begin:end], place=place)))
        at += len(it.text)
    return found


# A text whose first piece comes from somewhere.
def _placed(made: Made, span: Span) -> Made:
    return Made(it if it.source is not None or at else it._replace(source=span.source, place=span.first) for at, it in enumerate(made.pieces))


# The names that a pattern binds: its holes, and those in patterns of Stratego.
def _names(pattern: Pattern) -> Iterator[str]:
    if isinstance(pattern, Hole):
        yield variable(pattern.name)
    yield from raw_names(pattern)
    for it in children(pattern):
        yield from _names(it)


def raw_names(pattern: Pattern) -> Iterator[str]:
    """Yields the names in patterns of Stratego in a pattern."""
    if isinstance(pattern, Raw):
        yield from WORD.findall(pattern.at.source.text[pattern.at.place : pattern.last])
    for it in children(pattern):
        yield from raw_names(it)
