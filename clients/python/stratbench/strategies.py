"""The texts of strategies and modules, as `docs/manual/strategies.md` has them, as far as that takes to say what a strategy needs.

    >>> definitions("rules R : Name(x,_) -> x where <f> x strategies g(s|y) = s <+ id")
    {('R', 0, 0): [Definition(strategies=(), terms=(), body=rule)], ('g', 1, 1): [Definition(strategies=('s',), terms=('y',), body=choice)]}
    >>> it = strategy("try(?Name(x,_)); all(fail)")
    >>> it, it.parts, it.parts[0].parts[0].patterns
    (seq, (call, all), (Name(x,_),))
    >>> strategy('!"\\\\q"')
    Traceback (most recent call last):
    stratbench.strategies.NoStrategy: a wrong escape in a string
"""

from __future__ import annotations

import re
from typing import Final, Literal, NamedTuple

from .terms import LIST, TUPLE, NoTerm, read

# The groups of a pattern that say what a token is.
WORDS: Final = r"(?P<word>[A-Za-z_](?:[A-Za-z0-9_']|-(?!>))*)|(?P<number>-?[0-9]+)|(?P<sign>=>|->|<\+|[()\[\]{},;:|=<>+*?!@\\])"
_TOKEN: Final = re.compile(rf"""\s+|//[^\n]*|/\*.*?\*/|(?P<string>"(?:\\.|[^"\\])*")|{WORDS}""", re.DOTALL)
# A text in a language's own syntax, between backquotes, which `concrete.quotations` knows; its lastgroup is `quote`.
QUOTATION: Final = r"(?P<fence>`+)(?P<quote>.*?)(?<!`)(?P=fence)(?!`)"
# The words that are no names.
RESERVED: Final = frozenset(
    "module signature sorts constructors rules strategies id fail all one some not where test if then else end rec prim".split()
)
# The name of a list with a tail.
TAIL: Final = "[|]"
_SECTIONS: Final = ("signature", "rules", "strategies")
_OF_ONE: Final = {"not": "not", "where": "where", "test": "where", "all": "all", "one": "one", "some": "some"}


class NoStrategy(ValueError):
    """A text that isn't understood here, from this place on. The workbench says what is wrong with it, if anything is."""

    def __init__(self, message: str, place: int = 0) -> None:
        super().__init__(message)
        self.place = place


class Pattern(NamedTuple):
    """A pattern: a constructor's (or LIST, TAIL for a list with a tail, or TUPLE), with its parts, a string, an integer, a variable, or
    another, which matches no more than its parts do: `_` has none, `x@p` has p, and one with annotations what is before these. A tail is
    no part."""

    kind: Literal["constructor", "string", "integer", "variable", "other"]
    name: str | bytes = ""
    parts: tuple[Pattern, ...] = ()

    def __repr__(self) -> str:
        name = str(self.name) or "_"
        return f"{name}({','.join(map(repr, self.parts))})" if self.parts else name


class Strategy(NamedTuple):
    """A strategy: the kind of its form, its name if it has one, and its parts. A rule has its condition, or none, as part, and its sides as
    patterns; a scope has its variables as patterns."""

    kind: str
    name: str = ""
    parts: tuple[Strategy, ...] = ()
    patterns: tuple[Pattern, ...] = ()

    def __repr__(self) -> str:
        return self.kind


class Definition(NamedTuple):
    """A definition, with the names of its parameters for strategies and for terms."""

    strategies: tuple[str, ...]
    terms: tuple[str, ...]
    body: Strategy


# Definitions by their name and the numbers of their parameters.
Definitions = dict[tuple[str, int, int], list[Definition]]


def strategy(text: str) -> Strategy:
    """Returns the strategy of a text. Raises `NoStrategy`."""
    reader = Reader(text)
    found = reader.strategy()
    reader.take("")
    return found


def pattern(text: str) -> Pattern:
    """Returns the pattern of a text. Raises `NoStrategy`."""
    return strategy(f"?{text}").patterns[0]


def definitions(text: str) -> Definitions:
    """Returns the definitions of a module. Raises `NoStrategy`."""
    return Reader(text).definitions()


class Reader:
    """The tokens of a text, which are taken one after the other. The end is an empty one. `_spans` are their places. A method for each form
    reads it after its first token, so that another reader can know of it."""

    def __init__(self, text: str, token: re.Pattern[str] = _TOKEN) -> None:
        self._tokens: list[tuple[str, str]] = []
        self._spans: list[tuple[int, int]] = []
        at = 0
        while at < len(text):
            found = token.match(text, at)
            if found is None:
                raise NoStrategy(f"no token: {text[at : at + 20]}", at)
            if found.lastgroup:
                self._scanned(found)
            at = found.end()
        self._tokens.append(("end", ""))
        self._spans.append((at, at))
        self._at = 0

    def _scanned(self, found: re.Match[str]) -> None:
        self._tokens.append((found.lastgroup or "", found.group()))
        self._spans.append(found.span())

    @property
    def _next(self) -> str:
        return self._tokens[self._at][1]

    @property
    def _kind(self) -> str:
        return self._tokens[self._at][0]

    # What is wrong at the next token, or so many before it.
    def _wrong(self, message: str, before: int = 0) -> NoStrategy:
        return NoStrategy(message, self._spans[max(self._at - before, 0)][0])

    def take(self, *wanted: str) -> str:
        """Takes a token, one of these if any are given."""
        token = self._next
        if wanted and token not in wanted or not wanted and self._kind == "end":
            raise self._wrong(f"`{token}` isn't expected here" if token else "the text ends too early")
        self._at = min(self._at + 1, len(self._tokens) - 1)
        return token

    def _taken(self, sign: str) -> bool:
        if self._next != sign or self._kind in ("string", "end"):
            return False
        self._at += 1
        return True

    def _word(self) -> str:
        if self._kind != "word" or self._next in RESERVED:
            raise self._wrong(f"no name: {self._next}")
        return self.take()

    def definitions(self) -> Definitions:
        found: Definitions = {}
        if self._taken("module"):
            self.take()
        section = ""
        while self._kind != "end":
            if self._next in _SECTIONS:
                section = self.take()
            elif section == "signature":
                # constructors are known by their use
                self.take()
            else:
                name, it = self._definition()
                found.setdefault((name, len(it.strategies), len(it.terms)), []).append(it)
        return found

    def _definition(self) -> tuple[str, Definition]:
        name = self._word()
        strategies, terms = (tuple(self._tokens[at][1] for at in found) for found in self._header())
        return name, Definition(strategies, terms, self._body())

    # The tokens of the parameters for strategies and for terms.
    def _header(self) -> tuple[list[int], list[int]]:
        strategies: list[int] = []
        terms: list[int] = []
        if self._taken("("):
            found = strategies
            while not self._taken(")"):
                if self._taken("|"):
                    found = terms
                elif not self._taken(","):
                    found.append(self._at)
                    self._word()
        return strategies, terms

    def _body(self) -> Strategy:
        return self.strategy() if self.take("=", ":") == "=" else self._rule()

    def _rule(self) -> Strategy:
        left = self._pattern()
        self.take("->")
        right = self._pattern()
        return Strategy("rule", "", (self.strategy(),) if self._taken("where") else (), (left, right))

    def strategy(self) -> Strategy:
        before: list[tuple[str, tuple[Strategy, ...]]] = []
        while True:
            last = self._sequence()
            if self._taken("<+"):
                before.append(("choice", (last,)))
            elif self._taken("<"):
                then = self._sequence()
                self.take("+")
                before.append(("guard", (last, then)))
            else:
                break
        for kind, parts in reversed(before):
            last = Strategy(kind, "", (*parts, last))
        return last

    def _sequence(self) -> Strategy:
        steps = [self._step()]
        while self._taken(";"):
            steps.append(self._step())
        last = steps.pop()
        for it in reversed(steps):
            last = Strategy("seq", "", (it, last))
        return last

    def _step(self) -> Strategy:
        first = self._primary()
        while self._taken("=>"):
            first = Strategy("then", "", (first,), (self._pattern(),))
        return first

    def _primary(self) -> Strategy:
        kind = self._kind
        token = self.take()
        if kind == "number":
            return Strategy("child", token, (self._in_brackets(),))
        if token == "?":
            return Strategy("match", "", (), (self._pattern(),))
        if token == "!":
            return Strategy("build", "", (), (self._pattern(),))
        if token == "<":
            inner = self.strategy()
            self.take(">")
            return Strategy("applied", "", (inner,), (self._pattern(),))
        if token == "\\":
            return self._closure()
        if token == "{":
            return self._scope()
        if token == "[":
            return self._list()
        if token == "(":
            parts = self._strategies(")")
            return parts[0] if len(parts) == 1 else Strategy("congruence", TUPLE, parts)
        if kind == "word":
            return self._named(token)
        raise self._wrong(f"no strategy begins with {token}", 1)

    def _closure(self) -> Strategy:
        rule = self._rule()
        self.take("\\")
        return rule._replace(kind="closure")

    def _scope(self) -> Strategy:
        variables = self._listed()
        inner = self.strategy()
        self.take("}")
        return Strategy("scope", "", (inner,), variables)

    # The variables of a scope.
    def _listed(self) -> tuple[Pattern, ...]:
        return self._terms(":")

    def _rec(self) -> Strategy:
        return Strategy("rec", self._word(), (self._in_brackets(),))

    def _prim(self) -> Strategy:
        self.take("(")
        name = self.take()
        return Strategy("prim", name, (), self._terms())

    def _in_brackets(self) -> Strategy:
        self.take("(")
        found = self.strategy()
        self.take(")")
        return found

    def _strategies(self, end: str) -> tuple[Strategy, ...]:
        found: list[Strategy] = []
        while not self._taken(end):
            found.append(self.strategy())
            if self._next != end:
                self.take(",")
        return tuple(found)

    def _list(self) -> Strategy:
        found: list[Strategy] = []
        while not self._taken("]"):
            if self._taken("|"):
                tail = self.strategy()
                self.take("]")
                return Strategy("tail", LIST, (*found, tail))
            found.append(self.strategy())
            if self._next not in ("]", "|"):
                self.take(",")
        return Strategy("congruence", LIST, tuple(found))

    def _named(self, name: str) -> Strategy:
        if name in ("id", "fail"):
            return Strategy(name)
        if name in _OF_ONE:
            return Strategy(_OF_ONE[name], "", (self._in_brackets(),))
        if name == "if":
            first = self.strategy()
            self.take("then")
            then = self.strategy()
            other = self.strategy() if self._taken("else") else Strategy("id")
            self.take("end")
            return Strategy("guard", "", (Strategy("where", "", (first,)), then, other))
        if name == "rec":
            return self._rec()
        if name == "prim":
            return self._prim()
        if name in RESERVED:
            raise self._wrong(f"no strategy begins with {name}", 1)
        parts: list[Strategy] = []
        terms: tuple[Pattern, ...] = ()
        if self._taken("("):
            while not self._taken(")"):
                if self._taken("|"):
                    terms = self._terms()
                    break
                parts.append(self.strategy())
                if self._next not in (")", "|"):
                    self.take(",")
        return Strategy("call", name, tuple(parts), terms)

    # Terms up to the bracket that closes them.
    def _terms(self, end: str = ")") -> tuple[Pattern, ...]:
        found: list[Pattern] = []
        while not self._taken(end):
            if not self._taken(",") and not self._taken("|"):
                found.append(self._pattern())
        return tuple(found)

    def _pattern(self) -> Pattern:
        kind = self._kind
        token = self.take()
        if kind == "string":
            found = Pattern("string", self._content(token))
        elif kind == "number":
            found = Pattern("integer")
        elif token == "(":
            found = Pattern("constructor", TUPLE, self._terms())
        elif token == "[":
            found = self._list_pattern()
        elif kind != "word" or token in RESERVED:
            raise self._wrong(f"no pattern begins with {token}", 1)
        elif self._taken("("):
            found = Pattern("constructor", token, self._terms())
        elif self._taken("@"):
            return Pattern("other", "", (self._pattern(),))
        else:
            found = Pattern("other" if token == "_" else "variable", token)
        if self._taken("{"):
            self._terms("}")
            # a variable is bound to the term without its annotations
            return Pattern("other") if found.kind == "variable" else Pattern("other", "", (found,))
        return found

    # What a string is, which was just taken.
    def _content(self, token: str) -> bytes:
        try:
            head = read(token).head
        except NoTerm as error:
            raise self._wrong(str(error), 1) from None
        return head if isinstance(head, bytes) else b""

    def _list_pattern(self) -> Pattern:
        found: list[Pattern] = []
        while not self._taken("]"):
            if self._taken("|"):
                self._pattern()
                self.take("]")
                return Pattern("constructor", TAIL, tuple(found))
            if not self._taken(","):
                found.append(self._pattern())
        return Pattern("constructor", LIST, tuple(found))
