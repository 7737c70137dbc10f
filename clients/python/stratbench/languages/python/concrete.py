"""Rules in Python's syntax."""

from __future__ import annotations

import ast
import re
from collections.abc import Mapping
from dataclasses import replace
from functools import lru_cache
from typing import Final, Optional

from ...concrete.holes import Hidden, Way
from ...concrete.pattern import Apply, Hole, Items, Leaf, Pattern, Unseen, is_rest
from ...concrete.text import Fault, Span
from ...concrete.trees import PRESENT, Field, Reading, Tables, carriers
from ...terms import Term
from ..by_grammar import resource
from .constructors import CONSTRUCTORS
from .source import parse, to_term

_QUOTES: Final = r'"""(?:\\.|.)*?"""' + r"|'''(?:\\.|.)*?'''" + r'|"(?:\\.|[^"\\\n])*"' + r"|'(?:\\.|[^'\\\n])*'"
# In the braces of strings with fields it is as outside.
_FIELDS: Final = ((r"(?i)r?fr?['\"]", r"\{[^{}]*\}"),)
_WAY: Final = Way(rf"\#[^\n]*|(?:\b[rRbBuUfF]{{1,2}})?(?:{_QUOTES})", _FIELDS, lambda mark, word, *_: f"**{word}" if mark.stars == "**" else word)

# The kinds of texts.
EXPRESSION, STATEMENT, STATEMENTS = "an expression", "a statement", "statements"
_NONE: Final = Apply("None")
# The forms of expressions: what is read, assigned to, and deleted. `+=` doesn't assign to tuples.
_CONTEXTS: Final = {"an expression": "Load", "a target": "Store", "one target": "Store", "a deleted target": "Del"}
_STRINGS: Final = frozenset(("a name", "a text"))
# The lists in which a starred expression may stand, so that one expression there isn't any element.
_STARRED: Final = {("Call", "args"), ("ClassDef", "bases"), ("List", "elts"), ("Tuple", "elts"), ("Set", "elts")}
_CARRIERS: Final = carriers(
    "Name(x,Load()) : an expression",
    "Name(x,Store()) : a target",
    "Name(x,Del()) : a deleted target",
    "Expr(Name(x,_)) : a statement",
    "MatchAs(None(),x) : a pattern of a case",
    # where Python has no other place for a name
    "keyword(None(),Name(x,_)) : keywords, many",
    "alias(x,None()) : imported names, many",
    "arguments([],[arg(x,None(),_)],None(),[],[],None(),[]) : all parameters, all",
    "arg(x,None(),_) : parameters, many",
    "withitem(Name(x,_),None()) : items of `with`, many",
    "comprehension(_,Name(x,_),_,_) : clauses of a comprehension, many",
    "ExceptHandler(Name(x,_),_,_) : handlers, many",
)


@lru_cache(maxsize=None)
def _fields(constructor: str) -> tuple[Field, ...]:
    known = CONSTRUCTORS.get(constructor)
    # a constant that isn't a string has its text, if anything
    return tuple(Field(it.name, it.number) for it in known.fields) if known is not None else (Field("value"),)


def _guards(constructor: str, field: Field) -> tuple[str, ...]:
    if field.number == "?":
        return (PRESENT,)
    if (constructor, field.name) in _STARRED:
        return ("unstarred'",)
    return ("no-slice'",) if (constructor, field.name) == ("Subscript", "slice") else ()


def _string(constructor: str, field: str) -> tuple[str, tuple[str, ...]]:
    return ("a text", ("text'",)) if constructor == "Constant" else ("a name", ())


# `{$**items}`: keys and values are two lists, which a hole for many is in both of. What is built of `and` and `or` may have one operand, and
# `+=` has one target.
def _special(reading: Reading, term: Term) -> Optional[Pattern]:
    if term.head == "Dict":
        return _dict(reading, term)
    if term.head == "BoolOp":
        found = Apply("BoolOp", (reading.node(term.children[0]), reading.node(term.children[1])))
        values = found.parts[1]
        many = isinstance(values, Items) and any(isinstance(it, Hole) and it.many for it in values.parts)
        return replace(found, finish="bool-op'") if many else found
    if term.head in ("AugAssign", "AnnAssign"):
        parts = [reading.field(term, field, child) for field, child in zip(_fields(str(term.head)), term.children)]
        if isinstance(parts[0], Hole):
            parts[0] = parts[0]._replace(form="one target")
        return Apply(str(term.head), tuple(parts))
    return None


def _dict(reading: Reading, term: Term) -> Pattern:
    keys: list[Pattern] = []
    values: list[Pattern] = []
    for key, value in zip(term.children[0].children, term.children[1].children):
        hole = reading.node(value)
        if key.head == "None" and isinstance(hole, Hole) and hole.many:
            keys.append(hole._replace(name=hole.name + "'keys" if hole.name != "_" else "_", form="keys"))
            values.append(hole._replace(form="values"))
        else:
            keys.append(_NONE if key.head == "None" else reading.node(key, (PRESENT,)))
            values.append(hole)
    many = [it for it in values if isinstance(it, Hole) and it.many]
    if len(many) > 1:
        raise Fault("a dictionary has one `$**` at most", *many[1].at)
    return Apply("Dict", (Items(tuple(keys)), Items(tuple(values))))


_TABLES: Final = Tables(
    _CARRIERS,
    _fields,
    _guards,
    _string,
    frozenset(["Load", "Store", "Del"]),
    {(name, field): _NONE for name in CONSTRUCTORS for field in ("type_comment", "kind")},
    {**{form: EXPRESSION for form in _CONTEXTS}, "a statement": STATEMENT},
    _special,
)


class _Python:
    """The adapter."""

    title: Final = "Python"

    @property
    def helpers(self) -> str:
        return resource(__package__, "concrete.str")

    def parse(self, span: Span) -> Mapping[str, Pattern]:
        fault: Optional[Fault] = None
        # a text begins in the column where it stands, or it is as if that were the first
        for column in dict.fromkeys((span.source.column(span.first), 0)):
            hidden = Hidden(span, _WAY)
            hidden.dedented(column)
            try:
                return self._parsed(hidden)
            except SyntaxError as error:
                fault = fault or hidden.fault(f"no Python: {error.msg}", _place(hidden.text, error))
        assert fault is not None
        raise fault

    def _parsed(self, hidden: Hidden) -> dict[str, Pattern]:
        reading = Reading(hidden, _TABLES, self.parse, _WAY)
        try:
            body = parse(hidden.text).body
        except SyntaxError:
            try:
                # one over several lines, without brackets of its own
                return {EXPRESSION: reading.node(to_term(ast.parse(f"(\n{hidden.text}\n)", mode="eval").body))}
            except SyntaxError:
                pass
            raise
        found: dict[str, Pattern] = {}
        one = body[0] if len(body) == 1 else None
        if isinstance(one, ast.Expr) and not hidden.text.rstrip().endswith(";"):
            found[EXPRESSION] = reading.node(to_term(one.value))
        statements = Items(tuple(reading.node(to_term(it)) for it in body))
        if one is not None and not is_rest(statements):
            found[STATEMENT] = statements.parts[0]
        return {**found, STATEMENTS: statements}

    # A name that is also an expression is a variable of this name; an expression that is also a statement is a statement of it.
    def settle(self, hole: Hole, forms: frozenset[str]) -> Pattern:
        if hole.form in _CONTEXTS and forms & _STRINGS:
            return Apply("Name", (hole._replace(form="a name", guards=()), Unseen(Apply(_CONTEXTS[hole.form]))))
        if hole.form == "a statement" and not hole.many and forms & _CONTEXTS.keys():
            return Apply("Expr", (hole._replace(form="an expression"),))
        return hole

    # `$x.a -> $x.b` holds wherever `$x.a` stands, and keeps whether that is assigned to; `$x.a -> f($x)` only where it is read.
    def rooted(self, left: Pattern, right: Pattern) -> tuple[Pattern, Pattern]:
        if not _has_context(left):
            return left, right
        if not _has_context(right):
            return _with_context(left, Apply("Load")), right
        return _with_context(left, _CONTEXT), _with_context(right, _CONTEXT)

    def same(self, have: str, want: str) -> Optional[str]:
        if {have, want} <= _STRINGS:
            return ""
        if {have, want} <= _CONTEXTS.keys():
            return "same'" if _CONTEXTS[have] == _CONTEXTS[want] else "same-but-contexts'"
        return "same'" if have == want else None

    def conversion(self, have: str, want: str) -> Optional[str]:
        if have == want or (have, want) == ("a name", "a text"):
            return ""
        if (have, want) == ("a text", "a name"):
            return "identifier'"
        if {have, want} <= _CONTEXTS.keys():
            return "to-one-target'" if want == "one target" else f"to-{_CONTEXTS[want].lower()}'"
        return None

    def adding(self, needed: str) -> Optional[str]:
        found = re.fullmatch(r"import ([\w.]+)|from ([\w.]+) import (\w+)", needed)
        if found is None:
            return None
        return f'try(add-import(|"{found[1]}"))' if found[1] else f'try(add-import-from(|"{found[2]}","{found[3]}"))'


# The place of an error in a text, which isn't always in it.
def _place(text: str, error: SyntaxError) -> int:
    lines = text.split("\n")
    line = min(max(error.lineno or 1, 1), len(lines))
    return sum(len(it) + 1 for it in lines[: line - 1]) + min(max((error.offset or 1) - 1, 0), len(lines[line - 1]))


# The variable of a context that both sides of a rule have.
_CONTEXT: Final = Leaf("context'")


# Whether a pattern is an expression that may also be assigned to, with that as its last field.
def _has_context(pattern: Pattern) -> bool:
    last = pattern.parts[-1] if isinstance(pattern, Apply) and pattern.parts else None
    return isinstance(last, Unseen) and isinstance(last.built, Apply) and last.built.name in _CONTEXTS.values()


def _with_context(pattern: Pattern, context: Pattern) -> Pattern:
    assert isinstance(pattern, Apply)
    return replace(pattern, parts=(*pattern.parts[:-1], context))


ADAPTER: Final = _Python()
