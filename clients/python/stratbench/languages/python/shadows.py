"""Names of new imports that a scope binds to something else.

A strategy says nothing of scopes when it adds an import: where a function has a parameter of the name, or the module a variable, a new use
of the name there isn't the import.
"""

from __future__ import annotations

from collections.abc import Iterable, Iterator
from typing import NamedTuple

from ...terms import LIST, Term, position
from .patch.edits import DEFINITIONS, IMPORTS, field_of

_COMPREHENSIONS = ("ListComp", "SetComp", "GeneratorExp", "DictComp")
_SCOPES = (*DEFINITIONS, "Lambda", *_COMPREHENSIONS)


def shadowed(old: Term, new: Term) -> list[tuple[str, int]]:
    """Returns the names of the imports that are new at the top of a module, each with where another binding of it is: in the module, or in
    a scope inside in which it is used anew. A new use has no position."""
    there, body = set(_imports(field_of(old, "body").children)), field_of(new, "body").children
    found: list[tuple[str, int]] = []
    for it in dict.fromkeys(_imports(body)):
        if it not in there and it.name != "*":
            found += [(it.name, place) for place in _others(body, it)]
    return found


class _Import(NamedTuple):
    """What an import binds a name to."""

    name: str
    module: str
    member: str


def _imports(statements: Iterable[Term]) -> Iterator[_Import]:
    for it in statements:
        if it.head in IMPORTS:
            module = it.children[0] if it.head == "ImportFrom" else None
            for alias in field_of(it, "names").children:
                name, other = alias.children
                bound = other.text if isinstance(other.head, bytes) else name.text.partition(".")[0]
                # `import a.b` binds a
                what = name.text if isinstance(other.head, bytes) else bound
                yield _Import(bound, what, "") if module is None else _Import(bound, repr(module), name.text)


# Where others bind the name of an import in a module.
def _others(body: tuple[Term, ...], it: _Import) -> Iterator[int]:
    for node, place in _placed(body):
        if it.name in _bound(node) and it not in _imports([node]):
            yield place
        if node.head in _SCOPES:
            yield from _inside(node, it.name, place)


# Where a scope binds a name that is used anew in it, or one inside does.
def _inside(scope: Term, name: str, place: int) -> Iterator[int]:
    parts = _parts(scope)
    own = list(_placed(parts, place))
    first = None if any(name in _names(it, "Global") for it, _ in own) else next((at for it, at in own if name in _bound(it)), None)
    # what a class binds isn't seen in the functions inside
    seen = (it for it, _ in own) if scope.head == "ClassDef" else _all(parts)
    if first is not None and any(_is_new_use(it, name) for it in seen):
        yield first
    if first is None or scope.head == "ClassDef":
        for it, at in own:
            if it.head in _SCOPES:
                yield from _inside(it, name, at)


# What is of a scope itself: not what is evaluated around it.
def _parts(scope: Term) -> tuple[Term, ...]:
    if scope.head in ("FunctionDef", "AsyncFunctionDef", "Lambda"):
        return (*_parameters(field_of(scope, "args")), *_listed(field_of(scope, "body")))
    return _listed(field_of(scope, "body")) if scope.head == "ClassDef" else scope.children


# What is evaluated in the scope around another.
def _outside(scope: Term) -> Iterator[Term]:
    if scope.head == "ClassDef":
        yield from (field_of(scope, name) for name in ("bases", "keywords", "decorator_list"))
    elif scope.head in _COMPREHENSIONS:
        yield field_of(field_of(scope, "generators").children[0], "iter")
    else:
        arguments = field_of(scope, "args")
        yield from (field_of(arguments, name) for name in ("defaults", "kw_defaults"))
        if scope.head != "Lambda":
            yield from (field_of(it, "annotation") for it in _parameters(arguments))
            yield from (field_of(scope, name) for name in ("decorator_list", "returns"))


def _listed(body: Term) -> tuple[Term, ...]:
    return body.children if body.head == LIST else (body,)


def _parameters(arguments: Term) -> list[Term]:
    return [it for child in arguments.children for it in (child, *child.children) if it.head == "arg"]


# The nodes of a scope, but for those in scopes inside, each with where it is, or what is around it.
def _placed(terms: Iterable[Term], place: int = 0) -> Iterator[tuple[Term, int]]:
    waiting = [(it, place) for it in terms][::-1]
    while waiting:
        it, around = waiting.pop()
        found = position(it)
        here = found[0] if found else around
        yield it, here
        inside = it.children if it.head not in _SCOPES else tuple(_outside(it))
        waiting += [(child, here) for child in reversed(inside)]


def _all(terms: Iterable[Term]) -> Iterator[Term]:
    waiting = list(terms)
    while waiting:
        it = waiting.pop()
        yield it
        waiting.extend(it.children)


def _is_new_use(term: Term, name: str) -> bool:
    return term.head == "Name" and position(term) is None and term.children[1].head == "Load" and term.children[0].text == name


# The names that a node itself binds in the scope that it is in.
def _bound(term: Term) -> tuple[str, ...]:
    if term.head == "Name":
        return (term.children[0].text,) if term.children[1].head != "Load" else ()
    if term.head == "arg":
        return (term.children[0].text,)
    if term.head in IMPORTS:
        return tuple(it.name for it in _imports([term]))
    field = {"ExceptHandler": "name", "MatchAs": "name", "MatchStar": "name", "MatchMapping": "rest"}.get(str(term.head), "")
    if term.head in DEFINITIONS:
        field = "name"
    found = field_of(term, field) if field else None
    return (found.text,) if found is not None and isinstance(found.head, bytes) else ()


def _names(term: Term, head: str) -> list[str]:
    return [it.text for it in term.children[0].children] if term.head == head else []
