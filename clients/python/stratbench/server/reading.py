"""What stands in the text of a module: its definitions and constructors, and what each name in it stands for.

A text that is being written is seldom whole. Where it doesn't go on, the rest of that definition is left out, up to the next one; the
program itself says what is wrong.

    >>> module = read("module m rules R : F(x) -> x strategies f(s|t) = {x: ?x; s; !(x,t)}")
    >>> [(it.name, it.strategies, it.terms) for it in module.definitions]
    [('R', (), ()), ('f', ('s',), ('t',))]
    >>> [(it.name, it.kind) for it in module.names if it.name in ("x", "s", "t")][:4]
    [('x', 'variable'), ('x', 'variable'), ('s', 'strategy'), ('t', 'term')]
    >>> len({it.stands_for for it in module.names if it.name == "x"})
    2
"""

from __future__ import annotations

import bisect
import itertools
import re
from collections.abc import Iterable, Iterator
from dataclasses import dataclass
from functools import cached_property
from typing import Final, NamedTuple, Optional, TypeVar

from ..strategies import QUOTATION, RESERVED, WORDS, NoStrategy, Pattern, Reader, Strategy
from ..strategies import Definition as Read

SECTIONS: Final = ("signature", "sorts", "constructors", "rules", "strategies")
# Any text has these tokens. A string that isn't closed ends with its line, and a comment with the text.
_TOKEN: Final = re.compile(
    rf"""\s+|{QUOTATION}|(?P<comment>//[^\n]*|/\*.*?(?:\*/|\Z))|(?P<string>"(?:\\.|[^"\\\n])*"?)|{WORDS}|(?P<bad>\S)""", re.DOTALL
)


# A metavariable of a quotation.
_VARIABLE: Final = re.compile(r"(?<![\w$])\${1,2}[*?]{0,2}([A-Za-z_]\w*)")


class Token(NamedTuple):
    """A token, from a place to one after it. Its kind is `reserved`, or the group of the pattern that it matches: `comment`, `string`, `word`,
    `number`, `sign`, `quote` or `bad`."""

    kind: str
    text: str
    begin: int
    end: int


class Name(NamedTuple):
    """A name where it stands. `kind` is `definition`, `use` (of a definition, or else of a constructor, by its numbers of arguments),
    `constructor`, `strategy` and `term` (parameters), `rec`, `variable`, `sort`, `primitive` or `module`. Names that stand for the same have
    equal `stands_for`. `is_binding` where it is introduced. A variable that is a part of a constructor in a pattern has that as `part`: its
    name, its number of terms, and which of these it is."""

    name: str
    begin: int
    end: int
    kind: str
    stands_for: tuple[str, ...]
    strategies: int = 0
    terms: int = 0
    is_binding: bool = False
    part: Optional[tuple[str, int, int]] = None

    @property
    def key(self) -> tuple[str, int, int]:
        """What tells the definition that it may be a use of from others."""
        return self.name, self.strategies, self.terms


class Definition(NamedTuple):
    """A definition: its parameters, the places of its name and of the whole, the comment before it, and its body, where the text has all of
    that."""

    name: str
    strategies: tuple[str, ...]
    terms: tuple[str, ...]
    is_rule: bool
    at: int
    begin: int
    end: int
    comment: str
    body: Optional[Strategy] = None

    @property
    def key(self) -> tuple[str, int, int]:
        """What tells it from others."""
        return self.name, len(self.strategies), len(self.terms)

    @property
    def head(self) -> str:
        """Its name with its parameters."""
        inside = ",".join(self.strategies) + ("|" + ",".join(self.terms) if self.terms else "")
        return f"{self.name}({inside})" if inside else self.name


class Constructor(NamedTuple):
    """A constructor as it is declared, and the comment after it in its line."""

    name: str
    sorts: tuple[str, ...]
    own: str
    at: int
    end: int
    comment: str

    @property
    def key(self) -> tuple[str, int]:
        """What tells it from others."""
        return self.name, len(self.sorts)


class Section(NamedTuple):
    """A section, or a part of a signature, from its word on."""

    word: str
    begin: int
    end: int


@dataclass(frozen=True)
class Module:
    """What stands in a text."""

    name: str | None
    tokens: tuple[Token, ...]
    definitions: tuple[Definition, ...]
    constructors: tuple[Constructor, ...]
    sections: tuple[Section, ...]
    names: tuple[Name, ...]
    # where calls and closures are, each with what was read
    steps: tuple[tuple[Strategy, int, int], ...]

    def name_at(self, place: int) -> Name | None:
        """Returns the name at a place, or one that ends there."""
        return next((it for it in self.names if it.begin <= place <= it.end), None)

    @cached_property
    def _places(self) -> dict[int, tuple[int, int]]:
        return {id(one): (begin, end) for one, begin, end in self.steps}

    def place_of(self, it: Strategy) -> tuple[int, int] | None:
        """Returns where a call or a closure of this module is."""
        return self._places.get(id(it))

    def definition_at(self, place: int) -> Definition | None:
        """Returns the definition at a place."""
        return next((it for it in self.definitions if it.begin <= place < it.end), None)

    def within(self, it: Definition) -> Iterator[Name]:
        """Yields the names in a definition."""
        first = bisect.bisect_left(self._begins, it.begin)
        return itertools.takewhile(lambda name: name.begin < it.end, itertools.islice(self.names, first, None))

    @cached_property
    def by_key(self) -> dict[tuple[str, int, int], list[Definition]]:
        """The definitions by what tells them from others."""
        return _grouped((it.key, it) for it in self.definitions)

    @cached_property
    def declared(self) -> dict[tuple[str, int], list[Constructor]]:
        """The declarations by what they declare."""
        return _grouped((it.key, it) for it in self.constructors)

    @cached_property
    def by_name(self) -> dict[str, list[Name]]:
        """The places of each name."""
        return _grouped((it.name, it) for it in self.names)

    @cached_property
    def calls(self) -> dict[tuple[str, int, int], set[tuple[str, int, int]]]:
        """What each definition uses, by its name and its numbers of arguments."""
        found: dict[tuple[str, int, int], set[tuple[str, int, int]]] = {}
        for it in self.definitions:
            found.setdefault(it.key, set()).update(use.key for use in self.within(it) if use.kind == "use")
        return found

    @cached_property
    def _begins(self) -> list[int]:
        return [it.begin for it in self.names]


_Key = TypeVar("_Key")
_Value = TypeVar("_Value")


def _grouped(pairs: Iterable[tuple[_Key, _Value]]) -> dict[_Key, list[_Value]]:
    found: dict[_Key, list[_Value]] = {}
    for key, it in pairs:
        found.setdefault(key, []).append(it)
    return found


def tokens_of(text: str) -> list[Token]:
    """Returns the tokens of a text, and its comments.

    >>> [it.text for it in tokens_of("f-x-->y // c")]
    ['f-x-', '->', 'y', '// c']
    """
    return [_token(found) for found in _TOKEN.finditer(text) if found.lastgroup]


def _token(found: re.Match[str]) -> Token:
    kind = found.lastgroup or ""
    return Token("reserved" if kind == "word" and found[0] in RESERVED else kind, found[0], found.start(), found.end())


def _without_signs(comment: str) -> str:
    return re.sub(r"^//\s?|^/\*+\s?|\s?\*+/$", "", comment)


def name_of(text: str) -> str | None:
    """Returns the name that a module gives itself.

    >>> name_of("// of lists\\nmodule lists strategies f = id"), name_of("rules")
    ('lists', None)
    """
    first = [it for it, _ in zip((it for it in _TOKEN.finditer(text) if it.lastgroup not in (None, "comment")), range(2))]
    return first[1][0] if len(first) == 2 and first[0][0] == "module" and first[1].lastgroup == "word" else None


def read(text: str) -> Module:
    """Reads the text of a module."""
    reader = _Reader(text)
    reader.read_module()
    return Module(
        reader.name, tuple(reader.every), tuple(reader.found), tuple(reader.constructors), tuple(reader.sections),
        tuple(sorted(reader.names, key=lambda it: it.begin)), tuple(reader.steps),
    )  # fmt: skip


class _Variable(NamedTuple):
    """A variable of a pattern: its place, and in which pattern, by the constructor's token, which part it is."""

    name: str
    begin: int
    inside: Optional[tuple[int, int]]


class _Scope(NamedTuple):
    """Variables that a scope, a closure or a definition makes new; that of a definition takes all others, too."""

    number: int
    listed: frozenset[str]


class _Reader(Reader):
    """Takes note of each name as it is read, so that those of a definition are known up to where it doesn't go on."""

    def __init__(self, text: str) -> None:
        self.text = text
        # All tokens, and where those are among them that aren't comments.
        self.every: list[Token] = []
        self.places: list[int] = []
        self.name: str | None = None
        self.found: list[Definition] = []
        self.constructors: list[Constructor] = []
        self.sections: list[Section] = []
        self.names: list[Name] = []
        self.steps: list[tuple[Strategy, int, int]] = []
        # The scopes around this place: none for that of a closure, until its left side was read.
        self.scopes: list[Optional[_Scope]] = []
        # The strategies that names may stand for here, and the term parameters, with what tells them apart.
        self.reach: list[tuple[str, tuple[str, ...]]] = []
        self.terms: dict[str, tuple[str, ...]] = {}
        self.count = 0
        # The variables of the pattern that is being read, and the patterns that are open: each with the constructor's token, if it is one's,
        # and how many parts were begun; and the constructors that were read, by their tokens.
        self.variables: list[_Variable] = []
        self.around: list[tuple[int, int]] = []
        self.parts: dict[int, tuple[str, int]] = {}
        super().__init__(text, _TOKEN)

    # ---- tokens

    def _scanned(self, found: re.Match[str]) -> None:
        if found.lastgroup != "comment":
            self.places.append(len(self.every))
            super()._scanned(found)
        self.every.append(_token(found))

    def add(self, at: int, kind: str, stands_for: tuple[str, ...], strategies: int = 0, terms: int = 0, binding: bool = False) -> None:
        """Takes note of the name that is the token of this number."""
        begin, end = self._spans[at]
        self.names.append(Name(self._tokens[at][1], begin, end, kind, stands_for, strategies, terms, binding))

    def new_number(self) -> int:
        self.count += 1
        return self.count

    @property
    def is_section(self) -> bool:
        return self._kind == "word" and self._next in SECTIONS

    # ---- modules

    def read_module(self) -> None:
        if self._taken("module") and self._kind == "word" and self._next not in RESERVED:
            self.name = self._next
            self.add(self._at, "module", ("module", self.name), binding=True)
            self.take()
        word = ""
        while self._kind != "end":
            if self.is_section:
                word = self.begin_section()
                continue
            before = self._at
            try:
                self.read_item(word)
            except (NoStrategy, RecursionError):
                self.skip(before)
        self.end_section(len(self.text))

    def begin_section(self) -> str:
        begin = self._spans[self._at][0]
        self.end_section(begin)
        self.sections.append(Section(self._next, begin, len(self.text)))
        return self.take()

    def end_section(self, end: int) -> None:
        if self.sections:
            self.sections[-1] = self.sections[-1]._replace(end=len(self.text[:end].rstrip()))

    def read_item(self, word: str) -> None:
        if word == "sorts":
            self.read_sort()
        elif word == "constructors":
            self.read_constructor()
        elif word in ("rules", "strategies"):
            self._definition()
        else:
            raise self._wrong("no section is open")

    def skip(self, before: int) -> None:
        """Goes on at the next section, or at the next token that begins its line and a definition."""
        self._at = max(self._at, before + 1)
        while self._kind != "end" and not (self.begins_line() and (self.is_section or self.begins_header())):
            self._at += 1

    def begins_line(self) -> bool:
        begin = self._spans[self._at][0]
        return not self.text[self.text.rfind("\n", 0, begin) + 1 : begin].strip()

    def begins_header(self) -> bool:
        if self._kind != "word" or self._next in RESERVED:
            return False
        ahead = self._at + 1
        if self._tokens[ahead][1] == "(":
            while self._tokens[ahead][1] not in (")", ""):
                ahead += 1
            ahead = min(ahead + 1, len(self._tokens) - 1)
        return self._tokens[ahead][1] in ("=", ":")

    # ---- signatures

    def read_sort(self) -> str:
        begin = self._at
        self.add(begin, "sort", ("sort", self._word()))
        if self._taken("("):
            while not self._taken(")"):
                self.read_sort()
                self._taken(",")
        return self.text[self._spans[begin][0] : self.end]

    def read_constructor(self) -> None:
        if self._taken(":"):  # a sort whose terms are another's, too
            self.read_sort()
            self.take("->")
            self.read_sort()
            return
        at, name = self._at, self._word()
        self.take(":")
        sorts = [self.read_sort()]
        while self._taken("*"):
            sorts.append(self.read_sort())
        if self._taken("->"):
            own = self.read_sort()
        else:
            sorts, own = [], sorts[0]
        self.add(at, "constructor", ("constructor", name, str(len(sorts))), len(sorts), binding=True)
        self.constructors.append(Constructor(name, tuple(sorts), own, self._spans[at][0], self.end, self.comment_after()))

    # ---- definitions

    @property
    def end(self) -> int:
        """Where the token before this one ends."""
        return self._spans[self._at - 1][1]

    def _definition(self) -> tuple[str, Read]:
        at, name = self._at, self._word()
        strategies, terms = ([(self._tokens[it][1], it) for it in found] for found in self._header())
        self.add(at, "definition", ("definition", name, str(len(strategies)), str(len(terms))), len(strategies), len(terms), True)
        number = str(self.new_number())
        self.reach = [(it, ("strategy", number, it)) for it, _ in strategies]
        self.terms = {it: ("term", number, it) for it, _ in terms}
        for it, place in strategies:
            self.add(place, "strategy", ("strategy", number, it), binding=True)
        for it, place in terms:
            self.add(place, "term", self.terms[it], binding=True)
        self.scopes = [_Scope(self.new_number(), frozenset())]
        self.variables, self.around, self.parts = [], [], {}
        begin, end = self._spans[at]
        own, others = tuple(it for it, _ in strategies), tuple(it for it, _ in terms)
        self.found.append(Definition(name, own, others, self._next == ":", begin, begin, end, self.comment_before(at)))
        try:
            body = self._body()
            self.found[-1] = self.found[-1]._replace(body=body)
            return name, Read(own, others, body)
        finally:
            self.found[-1] = self.found[-1]._replace(end=self.end)

    def comment_after(self) -> str:
        """The comment after the token before this one, in its line."""
        place = self.places[self._at - 1] + 1
        token = self.every[place] if place < len(self.every) else None
        is_there = token is not None and token.kind == "comment" and "\n" not in self.text[self.end : token.begin]
        return _without_signs(token.text) if token is not None and is_there else ""

    def comment_before(self, at: int) -> str:
        """The comments before the token of this number, of lines that follow one another."""
        place, begin = self.places[at], self._spans[at][0]
        lines: list[str] = []
        while place > 0 and self.every[place - 1].kind == "comment":
            place -= 1
            token = self.every[place]
            before = self.text[self.text.rfind("\n", 0, token.begin) + 1 : token.begin]
            if self.text.count("\n", token.end, begin) > 1 or before.strip():
                break
            lines.insert(0, _without_signs(token.text))
            begin = token.begin
        return "\n".join(lines)

    # ---- strategies

    def _closure(self) -> Strategy:
        self.scopes.append(None)
        found = super()._closure()
        self.scopes.pop()
        return found

    def _scope(self) -> Strategy:
        found = super()._scope()
        self.scopes.pop()
        return found

    def _listed(self) -> tuple[Pattern, ...]:
        found: list[int] = []
        while not self._taken(":"):
            found.append(self._at)
            self._word()
            self._taken(",")
        scope = _Scope(self.new_number(), frozenset(self._tokens[it][1] for it in found))
        self.scopes.append(scope)
        for it in found:
            self.add(it, "variable", ("variable", str(scope.number), self._tokens[it][1]), binding=True)
        return ()

    def _rec(self) -> Strategy:
        key = ("rec", str(self.new_number()), self._next)
        if self._kind == "word":
            self.add(self._at, "rec", key, binding=True)
        self.reach.append((self._next, key))
        found = super()._rec()
        self.reach.pop()
        return found

    def _prim(self) -> Strategy:
        at = self._at + 1
        found = super()._prim()
        name, count = found.name.strip('"'), len(found.patterns)
        self.names.append(Name(name, *self._spans[at], "primitive", ("primitive", name, str(count)), 0, count))
        return found

    def _named(self, name: str) -> Strategy:
        at = self._at - 1
        found = super()._named(name)
        if found.kind == "call":
            strategies, terms = len(found.parts), len(found.patterns)
            key = self.reached(name) or ("use", name, str(strategies), str(terms))
            self.add(at, key[0], key, strategies, terms)
        return found

    def reached(self, name: str) -> tuple[str, ...] | None:
        """What tells the parameter or the `rec` from others that a name stands for, if it is one's."""
        return next((key for it, key in reversed(self.reach) if it == name), None)

    def _primary(self) -> Strategy:
        if self._next != "~":
            begin = self._spans[self._at][0]
            found = super()._primary()
            if found.kind in ("call", "closure"):
                self.steps.append((found, begin, self.end))
            return found
        # a congruence, whose metavariables are strategies
        self.take()
        if self._kind != "quote":
            raise self._wrong("no quotation")
        for name, begin in self.quoted():
            key = self.reached(name) or ("use", name, "0", "0")
            self.names.append(Name(name, begin, begin + len(name), key[0], key))
        return Strategy("congruence")

    # ---- patterns

    def _pattern(self) -> Pattern:
        at, is_name = self._at, self._kind == "word"
        is_constructor = is_name and self._tokens[at + 1][1] == "("
        inside = self.around.pop() if self.around else None
        if inside:
            self.around.append((inside[0], inside[1] + 1))
        if is_name and not is_constructor and self._next != "_":
            self.variables.append(_Variable(self._next, self._spans[at][0], inside))
        self.around.append((at if is_constructor else -1, 0))
        if self._kind == "quote":
            self.variables += [_Variable(name, begin, None) for name, begin in self.quoted()]
            found = Pattern("other")
        else:
            found = super()._pattern()
        self.around.pop()
        if is_constructor:
            # with annotations it is a part of what was read
            count = len((found.parts[0] if found.kind == "other" else found).parts)
            self.parts[at] = self._tokens[at][1], count
            self.add(at, "constructor", ("constructor", self._tokens[at][1], str(count)), count)
        if not self.around:
            self.resolve(self.variables)
            self.variables = []
        return found

    def quoted(self) -> list[tuple[str, int]]:
        """Takes a quotation. Returns its metavariables, each with its place."""
        begin = self._spans[self._at][0]
        return [(it[1], begin + it.start(1)) for it in _VARIABLE.finditer(self.take()) if it[1] != "_"]

    def resolve(self, variables: list[_Variable]) -> None:
        """Takes note of what the variables of a pattern stand for. Those of the left side of a closure are its own."""
        if self.scopes[-1] is None:
            self.scopes[-1] = _Scope(self.new_number(), frozenset(it.name for it in variables))
        for name, begin, inside in variables:
            scope = next((it for it in reversed(self.scopes) if it is not None and name in it.listed), None)
            if scope is None and name in self.terms:
                kind, key = "term", self.terms[name]
            else:
                first = scope or self.scopes[0]
                kind, key = "variable", ("variable", str(first.number if first else 0), name)
            part = (*self.parts[inside[0]], inside[1]) if inside and inside[0] in self.parts else None
            # what comes after the parts are annotations
            part = part if part and part[2] < part[1] else None
            self.names.append(Name(name, begin, begin + len(name), kind, key, part=part))
