"""What is seen of a syntax tree without making its term: the text of that, bounds of its size and height, and what it lacks."""

from __future__ import annotations

import ast
import re
import sys
from collections import Counter
from collections.abc import Callable
from functools import lru_cache
from operator import attrgetter
from typing import Final, NamedTuple

from ...patch.edits import Lines
from ...strategies import TAIL, Pattern
from ...terms import LIST, TUPLE, write
from .constructors import CONSTANTS, CONSTRUCTORS, Constructor, Field, constant, leaf

# Nodes whose fields have no positions, since Python before 3.12 gets those in f-strings wrong.
WITHOUT_PLACES: Final = ("JoinedStr", "TemplateStr")

# What is in a field: a node, a node without fields, a list, a constant of Python's, or a name, a number or nothing.
_NODE, _BARE, _LIST, _CONSTANT, _LEAF = range(5)
_BARE_SORTS: Final = frozenset("expr_context boolop operator unaryop cmpop".split())


def _kind(field: Field) -> int:
    if field.number == "*":
        return _LIST
    if field.sort in _BARE_SORTS:
        return _BARE
    return _CONSTANT if field.sort == "constant" else _LEAF if field.sort in ("identifier", "string", "int") else _NODE


_KINDS: Final = {it.name: tuple((field.name, _kind(field)) for field in it.fields) for it in CONSTRUCTORS.values()}


class TreeText:
    """The text of a syntax tree's term with positions, and its size. The term itself isn't made: of most files nothing else is
    wanted, and it would take longer than parsing."""

    def __init__(self, tree: ast.AST, lines: Lines) -> None:
        self.size = 0
        self._leaves: dict[object, str] = {}
        self.text = self._node(tree, lines.starts)

    def _node(self, node: ast.AST, starts: list[int] | None) -> str:
        name = node.__class__.__name__
        values, size = node.__dict__, 1
        parts: list[str] = []
        inside = None if name in WITHOUT_PLACES else starts
        for field, kind in _KINDS[name]:
            value = values.get(field)
            if kind == _NODE and value is not None:
                parts.append(self._node(value, inside))
                continue
            size += 1
            if kind == _BARE:
                parts.append(value.__class__.__name__)
            elif kind == _LIST:
                parts.append(f"[{','.join([self._element(it, inside) for it in value])}]" if value else "[]")
            elif kind == _CONSTANT and value.__class__ is not str:
                it = constant(value)
                size += len(it.children)
                parts.append(write(it))
            else:
                parts.append(self._leaves.get(value) or self._leaf(value))
        self.size += size
        text = f"{name}({','.join(parts)})" if parts else name
        if starts is None or "end_col_offset" not in values:
            return text
        self.size += 3
        first = starts[values["lineno"] - 1] + values["col_offset"]
        return f"{text}{{({first},{starts[values['end_lineno'] - 1] + values['end_col_offset']})}}"

    def _element(self, value: object, starts: list[int] | None) -> str:
        if isinstance(value, ast.AST):
            return self._node(value, starts)
        self.size += 1
        return self._leaves.get(value) or self._leaf(value)

    def _leaf(self, value: object) -> str:
        text = self._leaves[value] = write(leaf(value))
        return text


class Survey(NamedTuple):
    """What is seen of a syntax tree at a glance: its nodes but for contexts, level by level, the constructors of these, and bounds of the
    size and the height of its term."""

    levels: list[list[object]]
    constructors: frozenset[str]
    least_terms: int
    most_terms: int
    most_levels: int


class _Class(NamedTuple):
    """A class of nodes: how what is in a node is got, by its one field with a node, or several, its one list, or several; its terms
    beside these, the least and the most."""

    one: str | None
    several: Callable[[ast.AST], tuple[object, ...]] | None
    many: str | None
    lists: Callable[[ast.AST], tuple[list[object] | None, ...]] | None
    least: int
    most: int


def _class(it: Constructor, kind: type[ast.AST]) -> _Class:
    fields = [(field, _kind(field)) for field in it.fields if field.name in kind._fields]
    one = [field.name for field, what in fields if what == _NODE or what == _BARE and field.sort != "expr_context"]
    many = [field.name for field, what in fields if what == _LIST]
    # itself and what is in other fields; a position is three terms, and a constant may have a string in it
    least = 1 + len(it.fields) - len(one)
    most = least + 3 * ("end_col_offset" in kind._attributes) + sum(what == _CONSTANT for _, what in fields)
    return _Class(
        one[0] if len(one) == 1 else None,
        attrgetter(*one) if len(one) > 1 else None,
        many[0] if len(many) == 1 else None,
        attrgetter(*many) if len(many) > 1 else None,
        least,
        most,
    )


_CLASSES: Final = {getattr(ast, it.name): _class(it, getattr(ast, it.name)) for it in CONSTRUCTORS.values() if hasattr(ast, it.name)}
_WITH_OTHERS: Final = {kind: it[:4] for kind, it in _CLASSES.items() if any(it[:4])}


def survey(tree: ast.AST) -> Survey:
    """Returns the survey of a syntax tree. It goes over the nodes level by level, which takes a fifth of the time of parsing."""
    level: list[object] = [tree]
    found: Counter[type] = Counter()
    levels: list[list[object]] = []
    known = _WITH_OTHERS.get
    while level:
        levels.append(level)
        kinds = list(map(type, level))
        found.update(kinds)
        below: list[object] = []
        add = below.append
        for node, fields in zip(level, map(known, kinds)):
            if fields is not None:
                one, several, many, lists = fields
                if one is not None:
                    add(getattr(node, one))
                elif several is not None:
                    below += several(node)  # type: ignore
                if many is not None:
                    below += getattr(node, many)
                elif lists is not None:
                    for it in lists(node):  # type: ignore
                        if it:
                            below += it
        level = below
    # what is no node is a name, or nothing
    others = sum(count for kind, count in found.items() if kind not in _CLASSES)
    least = others + sum(count * _CLASSES[kind].least for kind, count in found.items() if kind in _CLASSES)
    most = others + sum(count * _CLASSES[kind].most for kind, count in found.items() if kind in _CLASSES)
    # a level of nodes is two of terms, with the list between; below the last are a constant's string, or a position
    return Survey(levels, frozenset(it.__name__ for it in found if it in _CLASSES), least, most, 2 * len(levels) + 2)


# Constructors that a survey doesn't have.
_UNSEEN: Final = frozenset([*CONSTANTS, "None", *(it.name for it in CONSTRUCTORS.values() if it.sort == "expr_context")])
_IDENTIFIER: Final = re.compile(rb"[A-Za-z_][A-Za-z0-9_]*")


# The string that a part of a pattern matches alone.
def _string(pattern: Pattern, strings: tuple[tuple[str, bytes], ...]) -> bytes | None:
    if pattern.kind == "variable":
        return dict(strings).get(str(pattern.name))
    return pattern.name if pattern.kind == "string" and isinstance(pattern.name, bytes) else None


# Says whether what is in a field may match a pattern: a node, a list, or a constant, a name or a number of Python's.
@lru_cache(1_000)
def _matcher(pattern: Pattern, strings: tuple[tuple[str, bytes], ...]) -> Callable[[object], bool]:
    name = pattern.name
    string_ = _string(pattern, strings)
    if string_ is not None:
        return lambda value: isinstance(value, str) and value.encode(errors="surrogatepass") == string_
    if pattern.kind == "constructor" and name == "None":
        return lambda value: value is None
    if pattern.kind == "other" and pattern.parts:
        return _matcher(pattern.parts[0], strings)
    if pattern.kind != "constructor" or name in _UNSEEN or name == TUPLE:
        return lambda value: True
    parts = [_matcher(it, strings) for it in pattern.parts]
    # parts that match all needn't be looked at
    asked = [(at, it) for at, (it, part) in enumerate(zip(parts, pattern.parts)) if part.parts or part.name]
    if name in (LIST, TAIL):
        least, most = len(parts), len(parts) if name == LIST else sys.maxsize
        return lambda value: isinstance(value, list) and least <= len(value) <= most and all(it(value[at]) for at, it in asked)
    known, kind = CONSTRUCTORS.get(str(name)), getattr(ast, str(name), None)
    if known is None or kind is None or len(known.fields) != len(parts):
        return lambda value: False
    # a field that this version of Python doesn't have is empty, or absent
    fields: list[tuple[Callable[[object], bool], str, list[object] | None]]
    fields = [(it, known.fields[at].name, [] if known.fields[at].number == "*" else None) for at, it in asked]
    return lambda value: value.__class__ is kind and all(it(getattr(value, field, absent)) for it, field, absent in fields)


def lacks(seen: Survey, text: bytes, pattern: Pattern, strings: tuple[tuple[str, bytes], ...]) -> bool:
    """Whether no subterm of a term matches an application of a constructor, where these variables stand for strings. True is sure, and
    false isn't."""
    name = str(pattern.name)
    if name in _UNSEEN:
        return False
    if name not in seen.constructors or _lacks_names(text, pattern, strings):
        return True
    matches, kind = _matcher(pattern, strings), getattr(ast, name)
    return not any(matches(it) for level in seen.levels for it in level if it.__class__ is kind)


# Whether an identifier in the pattern isn't in the text, of which it is a part letter by letter, if there is nothing but ASCII: other
# letters may stand for one.
def _lacks_names(text: bytes, pattern: Pattern, strings: tuple[tuple[str, bytes], ...]) -> bool:
    for field, part in zip(CONSTRUCTORS[str(pattern.name)].fields, pattern.parts):
        name = _string(part, strings)
        if name is not None and field.sort == "identifier" and field.number != "*" and _IDENTIFIER.fullmatch(name):
            if text.isascii() and name not in text:
                return True
    return False
