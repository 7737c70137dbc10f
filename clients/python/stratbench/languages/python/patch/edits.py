"""Edits of a text, and what is said of trees on the way to them."""

from __future__ import annotations

from collections.abc import Iterator
from typing import Final

from ....patch.edits import Cannot as Cannot
from ....patch.edits import Edit as Edit
from ....patch.edits import Unwritable as Unwritable
from ....patch.edits import aligned as aligned
from ....patch.edits import apply_edits as apply_edits
from ....patch.edits import gaps as gaps
from ....patch.layout import span as span
from ....terms import LIST, Term, string
from ..source import CONSTRUCTORS

PASS: Final = Term("Pass")
LOAD: Final = Term("Load")
NONE: Final = Term("None")
CONTEXTS: Final = ("Load", "Store", "Del")
OPERATORS: Final = {
    "Add": "+", "Sub": "-", "Mult": "*", "MatMult": "@", "Div": "/", "Mod": "%", "LShift": "<<", "RShift": ">>", "BitOr": "|",
    "BitXor": "^", "BitAnd": "&", "FloorDiv": "//", "Pow": "**", "And": "and", "Or": "or", "Invert": "~", "Not": "not",
    "UAdd": "+", "USub": "-", "Eq": "==", "NotEq": "!=", "Lt": "<", "LtE": "<=", "Gt": ">", "GtE": ">=", "Is": "is",
    "IsNot": "is not", "In": "in", "NotIn": "not in",
}  # fmt: skip
# Where the operators of an operation are.
OPERATIONS: Final = {"BinOp": 1, "BoolOp": 0, "UnaryOp": 0, "Compare": 1}
# Statements with blocks, handlers and cases, and the names of the fields that are blocks.
BLOCKS: Final = {
    it.name: tuple(field.name for field in it.fields if field.sort == "stmt")
    for it in CONSTRUCTORS.values()
    if it.sort != "mod" and any(field.sort in ("stmt", "match_case") for field in it.fields)
}
DEFINITIONS: Final = ("FunctionDef", "AsyncFunctionDef", "ClassDef")
IMPORTS: Final = ("Import", "ImportFrom")
STATEMENTS: Final = frozenset(it.name for it in CONSTRUCTORS.values() if it.sort == "stmt")
EXPRESSIONS: Final = frozenset(it.name for it in CONSTRUCTORS.values() if it.sort == "expr")
PATTERNS: Final = frozenset(it.name for it in CONSTRUCTORS.values() if it.sort == "pattern")
# Literals that are elements in brackets.
DISPLAYS: Final = {"List": (b"[", b"]"), "Tuple": (b"(", b")"), "Set": (b"{", b"}")}
# The same of comprehensions.
COMPREHENSIONS: Final = {"ListComp": (b"[", b"]"), "GeneratorExp": (b"(", b")"), "SetComp": (b"{", b"}")}
# Expressions that go on as far as they can.
OPEN: Final = ("Lambda", "IfExp", "NamedExpr", "Yield", "YieldFrom")
PLACES: Final = {it.name: {field.name: at for at, field in enumerate(it.fields)} for it in CONSTRUCTORS.values()}
# Lists with commas between their elements, and the fewest elements with which they stay of this form.
COMMAS: Final = {
    ("List", "elts"): 0, ("Set", "elts"): 1, ("Tuple", "elts"): 2, ("Delete", "targets"): 1, ("Import", "names"): 1,
    ("ImportFrom", "names"): 1, ("With", "items"): 1, ("AsyncWith", "items"): 1, ("MatchSequence", "patterns"): 2,
}  # fmt: skip


def field_of(term: Term, name: str) -> Term:
    """Returns the field of a node."""
    return term.children[PLACES[str(term.head)][name]]


def blocks_of(statement: Term) -> Iterator[tuple[str, Term]]:
    """Yields the blocks of a statement in the order of the text, each with the name of the field that it is in."""
    for name, at in PLACES[str(statement.head)].items():
        if name in ("handlers", "cases"):
            yield from ((name, field_of(it, "body")) for it in statement.children[at].children)
        elif name in BLOCKS[str(statement.head)]:
            yield name, statement.children[at]


def with_field(term: Term, name: str, value: Term) -> Term:
    at = PLACES[str(term.head)][name]
    return Term(term.head, (*term.children[:at], value, *term.children[at + 1 :]), term.annotations)


def parts_of(term: Term) -> tuple[Term, ...]:
    """Returns the nodes by which a literal, or a comprehension, is known: the elements, or what comes first in it."""
    if term.head in DISPLAYS:
        return term.children[0].children
    return (term.children[0], *(field_of(it, "iter") for it in term.children[1].children[:1]))


def same_tree(one: Term, two: Term) -> bool:
    """Whether two trees are the same but for their annotations, and for whether names are loaded or stored, which the place
    says."""
    waiting = [(one, two)]
    while waiting:
        it, other = waiting.pop()
        if it is other or (it.head in CONTEXTS and other.head in CONTEXTS):
            continue
        if it.head == "JoinedStr" and other.head == "JoinedStr":
            # some versions of Python have empty texts in it
            it, other = normal(it), normal(other)
        if type(it.head) is not type(other.head) or it.head != other.head or len(it.children) != len(other.children):
            return False
        waiting.extend(zip(it.children, other.children))
    return True


def normal(term: Term) -> Term:
    """The node as Python's parser gives it: a block has a statement, a number no sign, texts in an f-string aren't neighbours."""
    head, children, annotations = term
    if head in BLOCKS or head in DEFINITIONS:
        body = PLACES[str(head)].get("body")
        if body is not None and children[body] == Term(LIST):
            return with_field(term, "body", Term(LIST, (PASS,)))
    elif head == "Constant" and len(children) == 2:
        value = children[0]
        if isinstance(value.head, int) and value.head < 0:
            plain = Term(-value.head) if value.head > -(2**63) else Term("BigInt", (string(str(2**63)),))
        elif value.head in ("Float", "BigInt") and value.children and value.children[0].text.startswith("-"):
            plain = Term(value.head, (string(value.children[0].text[1:]),))
        else:
            return term
        return Term("UnaryOp", (Term("USub"), Term("Constant", (plain, children[1]))), annotations)
    elif head == "JoinedStr" and len(children) == 1:
        parts: list[Term] = []
        for part in children[0].children:
            text = part.children[0].head if part.head == "Constant" and part.children else None
            last = parts[-1].children[0].head if parts and parts[-1].head == "Constant" else None
            if text == b"":
                continue
            if isinstance(text, bytes) and isinstance(last, bytes):
                parts[-1] = Term("Constant", (Term(last + text), NONE))
            else:
                parts.append(part)
        if len(parts) != len(children[0].children):
            return Term(head, (Term(LIST, tuple(parts)),), annotations)
    return term


# Whether nothing changed: the same node, or an equal one of no parts.
def is_same(one: Term, two: Term) -> bool:
    return one is two or (not one.children and not one.annotations and one == two)


def operands(old: Term) -> list[Term]:
    """Returns the operands of an operation."""
    at = OPERATIONS[str(old.head)]
    return [it for place, child in enumerate(old.children) if place != at for it in (child.children if child.head == LIST else (child,))]
