"""The constructors of Python's syntax trees, constants as terms, and the lines of a text."""

from __future__ import annotations

import ast
import re
from typing import Final, NamedTuple

from ...terms import LIST, NoTerm, Term, cut, string

# What versions of Python after 3.9 added. A tree of an older one has the empty list, or nothing, in a field that it lacks, so
# that a strategy holds for trees of all versions.
_LATER: Final = """
stmt: FunctionDef(identifier name, arguments args, stmt* body, expr* decorator_list, expr? returns, string? type_comment, type_param* type_params)
stmt: AsyncFunctionDef(identifier name, arguments args, stmt* body, expr* decorator_list, expr? returns, string? type_comment, type_param* type_params)
stmt: ClassDef(identifier name, expr* bases, keyword* keywords, stmt* body, expr* decorator_list, type_param* type_params)
expr: FormattedValue(expr value, int conversion, expr? format_spec)
stmt: TypeAlias(expr name, type_param* type_params, expr value)
stmt: Match(expr subject, match_case* cases)
stmt: TryStar(stmt* body, excepthandler* handlers, stmt* orelse, stmt* finalbody)
match_case: match_case(pattern pattern, expr? guard, stmt* body)
pattern: MatchValue(expr value)
pattern: MatchSingleton(constant value)
pattern: MatchSequence(pattern* patterns)
pattern: MatchMapping(expr* keys, pattern* patterns, identifier? rest)
pattern: MatchClass(expr cls, pattern* patterns, identifier* kwd_attrs, pattern* kwd_patterns)
pattern: MatchStar(identifier? name)
pattern: MatchAs(pattern? pattern, identifier? name)
pattern: MatchOr(pattern* patterns)
type_param: TypeVar(identifier name, expr? bound, expr? default_value)
type_param: ParamSpec(identifier name, expr? default_value)
type_param: TypeVarTuple(identifier name, expr? default_value)
"""

# The constructors of constants, which `ast` has as values of Python.
CONSTANTS: Final = {"BigInt": 1, "Float": 1, "Complex": 1, "Bytes": 1, "True": 0, "False": 0, "Ellipsis": 0}

_SORTS: Final = (
    "mod stmt expr expr_context boolop operator unaryop cmpop comprehension excepthandler arguments arg keyword alias "
    "withitem match_case pattern type_ignore type_param"
).split()


# The lists in which an element may be absent: of `**x` in a dictionary there is no key.
_LOOSE: Final = {("Dict", "keys"), ("arguments", "kw_defaults")}


class Field(NamedTuple):
    """A field of a constructor: its name, the sort of what is in it, and `*` for a list, `?` for one that may be absent."""

    name: str
    sort: str
    number: str


class Constructor(NamedTuple):
    """A constructor: its name, its sort, and its fields in order."""

    name: str
    sort: str
    fields: tuple[Field, ...]


def _constructor(sort: str, text: str) -> Constructor:
    name, _, rest = text.partition("(")
    found = re.findall(r"(\w+)([*?]?) (\w+)", rest)
    return Constructor(name, sort, tuple(Field(field, kind, number) for kind, number, field in found))


def _constructors() -> dict[str, Constructor]:
    found: dict[str, Constructor] = {}
    for sort in _SORTS:
        base = getattr(ast, sort, None)
        for it in [base, *base.__subclasses__()] if base else []:
            doc = " ".join((it.__doc__ or "").split())
            # a sort of one constructor has its name; classes of the past have another text
            if (doc == it.__name__ or doc.startswith(it.__name__ + "(")) and it.__module__ in ("ast", "_ast"):
                found[it.__name__] = _constructor(sort, doc)
    for line in _LATER.strip().splitlines():
        sort, _, text = line.partition(": ")
        later = _constructor(sort, text)
        if later.name not in found or len(found[later.name].fields) <= len(later.fields):
            found[later.name] = later
    for other in ("Interactive", "Expression", "FunctionType"):
        found.pop(other, None)
    return found


# All constructors by their names.
CONSTRUCTORS: Final = _constructors()


def _sort_of(constructor: Constructor, field: Field) -> str:
    """The sort of a field, as the signature has it."""
    if field.number == "*":
        return f"List(Option({field.sort}))" if (constructor.name, field.name) in _LOOSE else f"List({field.sort})"
    return f"Option({field.sort})" if field.number else field.sort


def signature() -> str:
    """Returns the module of strategies that declares the constructors."""
    lines = ["module python", "", "// Python's syntax trees. Written by `python -m stratbench.python` of the client for Python.", "// Needs: nothing.", ""]
    lines += ["signature", "  sorts", "    " + " ".join(_SORTS), "    identifier string int constant none List(stmt) Option(expr)", "  constructors"]
    for sort in _SORTS:
        for it in sorted(CONSTRUCTORS.values()):
            if it.sort == sort:
                arguments = " * ".join(_sort_of(it, field) for field in it.fields)
                names = ", ".join(field.name for field in it.fields)
                lines.append(f"    {it.name} : {arguments + ' -> ' if arguments else ''}{sort}" + (f"  // {names}" if names else ""))
    lines.append("    // constants, and the field that is absent")
    lines += [f"    {name} : {'string -> ' * arity}constant" for name, arity in sorted(CONSTANTS.items())]
    lines.append("    None : none")
    lines.append("    // what is a constant or a name as it is, and what may be absent")
    lines += [f"    : {it} -> constant" for it in ("int", "string", "none")] + ["    : string -> identifier"]
    may_miss = {field.sort for it in CONSTRUCTORS.values() for field in it.fields if field.number == "?"}
    lines += [f"    : {it} -> Option({sort})" for sort in sorted(may_miss) for it in (sort, "none")]
    return "\n".join(lines) + "\n"


NONE: Final = Term("None")
EMPTY: Final = Term(LIST)


def constant(value: object) -> Term:
    """Returns the term of a constant.

    >>> [constant(it) for it in (7, 2**64, 1.5, 2j, "a", b"a", True, None, ...)]
    [7, BigInt("18446744073709551616"), Float("1.5"), Complex("2j"), "a", Bytes("a"), True, None, Ellipsis]
    """
    if isinstance(value, bool) or value is None:
        return Term(str(value))
    if isinstance(value, int):
        return Term(value) if -(2**63) <= value < 2**63 else Term("BigInt", (string(_decimal(value)),))
    if isinstance(value, str):
        return Term(value.encode(errors="surrogatepass"))
    if isinstance(value, bytes):
        return Term("Bytes", (Term(value),))
    if isinstance(value, (float, complex)):
        return Term("Float" if isinstance(value, float) else "Complex", (string(repr(value)),))
    return Term("Ellipsis")


# Python refuses to print integers of many digits at once.
def _decimal(value: int) -> str:
    if value.bit_length() < 4000:
        return str(value)
    high, low = divmod(abs(value), 10**1000)
    return ("-" if value < 0 else "") + _decimal(high) + str(low).zfill(1000)


def _whole(text: str) -> int:
    digits = text.lstrip("-")
    value = 0
    for begin in range(0, len(digits), 1000):
        part = digits[begin : begin + 1000]
        value = value * 10 ** len(part) + int(part)
    return -value if text.startswith("-") else value


def value_of(term: Term) -> object:
    """Returns the value of a constant's term."""
    head, children, _ = term
    if isinstance(head, int):
        return head
    if isinstance(head, bytes) and not children:
        return text_of(head)
    if head in ("True", "False", "None", "Ellipsis") and not children:
        return {"True": True, "False": False, "None": None, "Ellipsis": ...}[str(head)]
    if head in CONSTANTS and len(children) == 1 and isinstance(children[0].head, bytes):
        if head == "Bytes":
            return children[0].head
        text = children[0].text
        try:
            return _whole(text) if head == "BigInt" else float(text) if head == "Float" else complex(text)
        except ValueError:
            pass
    raise NoTerm(f"no constant: {cut(term)}")


def text_of(name: bytes) -> str:
    try:
        return name.decode(errors="surrogatepass")
    except UnicodeDecodeError:
        raise NoTerm(f"no text in UTF-8: {name!r}") from None


def leaf(value: object) -> Term:
    if value is None:
        return NONE
    if isinstance(value, str):
        return Term(value.encode(errors="surrogatepass"))
    if isinstance(value, int):
        return Term(value)
    raise NoTerm(f"no field of a tree: {value!r}")
