"""JSON as terms, and syntax trees in JSON.

Any JSON goes to a term and back without loss, but for blanks:

    >>> term = read('{"a": [1, 2.50, null], "b": "x"}')
    >>> term
    Object([Member("a",[1,Number("2.50"),Null]),Member("b","x")])
    >>> write(term)
    '{"a": [1, 2.50, null], "b": "x"}'

Of a syntax tree, as parsers for JavaScript give one, an object with a `type` is an application of that type. Its fields have
the order that a schema gives, which may be read off the trees; `start` and `end` are the annotation:

    >>> text = '{"type": "Binary", "start": 0, "end": 3, "op": "+", "left": {"type": "Id", "name": "a"}}'
    >>> schema = schema_of(text)
    >>> schema
    {'Binary': ('op', 'left'), 'Id': ('name',)}
    >>> tree = read_tree(text, schema)
    >>> tree
    Binary("+",Id("a")){(0,3)}
    >>> write_tree(tree, schema) == text
    True
    >>> print(signature(schema, "js"), end="")
    module js
    signature
      constructors
        Binary : json * json -> json  // op, left
        Id : json -> json  // name
        Absent : json
        False : json
        Member : string * json -> member
        Null : json
        Number : string -> json
        Object : List(member) -> json
        True : json
"""

from __future__ import annotations

import json
import re
from collections.abc import Iterable, Mapping
from typing import Dict, Final, List, NoReturn, Tuple, Union

from .terms import LIST, TUPLE, NoTerm, Term, string

# The fields of each type, in order.
Schema = Mapping[str, Tuple[str, ...]]

_ARITIES: Final = {"Absent": 0, "False": 0, "Member": 2, "Null": 0, "Number": 1, "Object": 1, "True": 0}
_WORD: Final = re.compile(r"[A-Za-z_][A-Za-z0-9_\-+*$.']*")
_INTEGER: Final = re.compile(r"0|-?[1-9][0-9]*")
_NUMBER: Final = re.compile(r"-?(0|[1-9][0-9]*)(\.[0-9]+)?([eE][-+]?[0-9]+)?")
_SIMPLE: Final = {"True": "true", "False": "false", "Null": "null"}


class _Number(str):
    """The text of a number."""


class _Members:
    """The members of an object in order, of which several may have one name."""

    def __init__(self, pairs: List[Tuple[str, _Value]]) -> None:
        self.pairs = pairs


_Value = Union[None, bool, str, _Number, List["_Value"], _Members]


def _parsed(text: str) -> _Value:
    def refused(text: str) -> NoReturn:
        raise NoTerm(f"no JSON: {text}")

    try:
        value: _Value = json.loads(
            text, object_pairs_hook=_Members, parse_int=_Number, parse_float=_Number, parse_constant=refused
        )
    except (json.JSONDecodeError, RecursionError) as error:
        raise NoTerm(f"no JSON: {error}") from None
    return value


def _leaf(value: None | bool | str) -> Term:
    if isinstance(value, _Number):
        if _INTEGER.fullmatch(value) and len(value) < 21 and -(2**63) <= int(value) < 2**63:
            return Term(int(value))
        return Term("Number", (string(str(value)),))
    if isinstance(value, str):
        return Term(value.encode(errors="surrogatepass"))
    return Term("Null" if value is None else str(value))


def read(text: str) -> Term:
    """Returns the term of any JSON. Raises `NoTerm` where the text is none."""
    return _deep_term(text, {})


def read_tree(text: str, schema: Schema | None = None) -> Term:
    """Returns the term of a syntax tree. The schema is read off the text where none is given. An object that has no type,
    or fields that the schema doesn't know, is an `Object`; a field that is missing is `Absent()`."""
    return _deep_term(text, schema_of(text) if schema is None else schema)


def _deep_term(text: str, schema: Schema) -> Term:
    try:
        return _term(_parsed(text), schema)
    except RecursionError:
        raise NoTerm("no JSON: too deep") from None


def _term(value: _Value, schema: Schema) -> Term:
    if isinstance(value, _Members):
        return _node(value, schema) or Term(
            "Object", (Term(LIST, tuple(Term("Member", (_leaf(name), _term(it, schema))) for name, it in value.pairs)),)
        )
    if isinstance(value, list):
        return Term(LIST, tuple(_term(it, schema) for it in value))
    return _leaf(value)


def _place(members: Mapping[str, _Value]) -> tuple[Term, Term] | None:
    first, last = members.get("start"), members.get("end")
    if isinstance(first, _Number) and isinstance(last, _Number):
        one, two = _leaf(first), _leaf(last)
        return (one, two) if isinstance(one.head, int) and isinstance(two.head, int) else None
    return None


def _node(value: _Members, schema: Schema) -> Term | None:
    members: Dict[str, _Value] = dict(value.pairs)
    kind = members.pop("type", None)
    if not isinstance(kind, str) or isinstance(kind, _Number) or kind not in schema or len(members) + 1 != len(value.pairs):
        return None
    place = _place(members)
    if place is not None:
        del members["start"], members["end"]
    if not members.keys() <= set(schema[kind]):
        return None
    children = tuple(_term(members[it], schema) if it in members else Term("Absent") for it in schema[kind])
    return Term(kind, children, (Term(TUPLE, place),) if place is not None else ())


def schema_of(*texts: str) -> Dict[str, Tuple[str, ...]]:
    """Returns the schema of trees: for each type its fields, in the order in which they come first."""
    found: Dict[str, Dict[str, None]] = {}
    waiting: List[_Value] = [_parsed(text) for text in reversed(texts)]
    while waiting:
        it = waiting.pop()
        if isinstance(it, _Members):
            members = dict(it.pairs)
            kind = members.get("type")
            if isinstance(kind, str) and not isinstance(kind, _Number) and _WORD.fullmatch(kind) and kind not in _ARITIES:
                left_out = {"type", "start", "end"} if _place(members) is not None else {"type"}
                found.setdefault(kind, {}).update(dict.fromkeys(name for name, _ in it.pairs if name not in left_out))
            waiting.extend(value for _, value in reversed(it.pairs))
        elif isinstance(it, list):
            waiting.extend(reversed(it))
    return {kind: tuple(fields) for kind, fields in found.items()}


def write(term: Term) -> str:
    """Returns the JSON of a term. Raises `NoTerm` where it is of none."""
    return _text(term, {})


def write_tree(term: Term, schema: Schema) -> str:
    """Returns the JSON of a syntax tree's term: `type`, then `start` and `end`, then the fields in order."""
    return _text(term, schema)


def _text(term: Term, schema: Schema) -> str:
    head, children, annotations = term
    if head == LIST:
        return "[" + ", ".join(_text(it, schema) for it in children) + "]"
    if isinstance(head, int):
        return str(head)
    if isinstance(head, bytes) and not children:
        return json.dumps(_decoded(head))
    if head in schema and len(schema[str(head)]) == len(children):
        members = [f'"type": {json.dumps(head)}', *_place_texts(annotations)]
        for name, it in zip(schema[str(head)], children):
            if not it.is_a("Absent", 0):
                members.append(f"{json.dumps(name)}: {_text(it, schema)}")
        return "{" + ", ".join(members) + "}"
    if head in _SIMPLE and not children:
        return _SIMPLE[str(head)]
    if head == "Number" and len(children) == 1 and isinstance(children[0].head, bytes) and _NUMBER.fullmatch(children[0].text):
        return children[0].text
    if head == "Object" and len(children) == 1 and children[0].head == LIST:
        return "{" + ", ".join(_member(it, schema) for it in children[0].children) + "}"
    raise NoTerm(f"no JSON: {term!r:.100}")


def _place_texts(annotations: Iterable[Term]) -> List[str]:
    for it in annotations:
        if it.head == TUPLE and len(it.children) == 2 and all(isinstance(place.head, int) for place in it.children):
            return [f'"{name}": {place.head!s}' for name, place in zip(("start", "end"), it.children)]
    return []


def _member(term: Term, schema: Schema) -> str:
    if not term.is_a("Member", 2) or not isinstance(term.children[0].head, bytes):
        raise NoTerm(f"no member of an object: {term!r:.100}")
    return f"{json.dumps(_decoded(term.children[0].head))}: {_text(term.children[1], schema)}"


def _decoded(name: bytes) -> str:
    try:
        return name.decode(errors="surrogatepass")
    except UnicodeDecodeError:
        raise NoTerm(f"no text in UTF-8: {name!r}") from None


def signature(schema: Schema, name: str) -> str:
    """Returns the module of strategies that declares the constructors of a schema, and those of any JSON."""
    lines = [f"module {name}", "signature", "  constructors"]
    for kind, fields in sorted(schema.items()):
        arrow = " * ".join(["json"] * len(fields)) + " -> " if fields else ""
        lines.append(f"    {kind} : {arrow}json" + (f"  // {', '.join(fields)}" if fields else ""))
    sorts = {"Member": "string * json -> member", "Number": "string -> json", "Object": "List(member) -> json"}
    lines += [f"    {kind} : {sorts.get(kind, 'json')}" for kind in sorted(_ARITIES)]
    return "\n".join(lines) + "\n"
