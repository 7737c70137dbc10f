"""Rules in the syntax of JavaScript and TypeScript. `$` is a letter there: `$$` is written for it, as in `$$(x)` and `$$el`."""

from __future__ import annotations

from typing import Final

from ...concrete.by_grammar import EXPRESSION, NAME, STATEMENT, STATEMENTS, TEXT, GrammarAdapter, Reads, fields_of, guards_of
from ...concrete.holes import Way
from ...concrete.trees import Tables, carriers
from ...terms import Term
from ..by_grammar import resource
from . import LANGUAGE, _grammar

# A regular expression comes after a sign that no operand ends with.
_SIGNS: Final = r"(?:(?<=[(,=:\[!&|?{};])|(?<=[(,=:\[!&|?{};] ))"
_REGEX: Final = _SIGNS + r"/(?![/*])(?:\\.|\[(?:\\.|[^\]\\\n])*\]|[^/\\\n\[])+/[a-z]*"
_STRINGS: Final = r"\"(?:\\.|[^\"\\\n])*\"|'(?:\\.|[^'\\\n])*'|`(?:\\.|[^`\\])*`"
# A name with `$` inside is none that a metavariable is a part of.
_NAME: Final = r"[A-Za-z_]\w*\$[\w$]*"
_WAY: Final = Way(rf"//[^\n]*|/\*.*?\*/|{_STRINGS}|{_REGEX}|{_NAME}", (("`", r"\$\{[^{}]*\}"),), dollars=True)

_CARRIERS: Final = carriers(
    f"ExpressionStatement(Identifier(x)) : {STATEMENT}",
    f"Identifier(x) : {EXPRESSION}",
    "TSTypeReference(Identifier(x),Absent()) : a type",
    "Shorthand(Identifier(x)) : properties, many",
    "PropertyDefinition(False(),False(),Identifier(x),Absent()) : members, many",
    "ImportSpecifier(Identifier(x),_) : imported names, many",
    "ExportSpecifier(Identifier(x),_) : exported names, many",
    "JSXAttribute(JSXIdentifier(x),Absent()) : attributes, many",
    "SwitchCase(Identifier(x),[]) : cases, many",
)
# Where a name is no variable.
_WORDS: Final = frozenset(
    [
        ("MemberExpression", "property"), ("Property", "key"), ("PatternProperty", "key"), ("PropertyDefinition", "key"), ("Method", "key"),
        ("LabeledStatement", "label"), ("BreakStatement", "label"), ("ContinueStatement", "label"), ("ImportSpecifier", "imported"),
        ("ExportSpecifier", "exported"), ("MetaProperty", "meta"), ("MetaProperty", "property"),
    ]
)  # fmt: skip
# The lists in which `...x` may stand, or an element may be missing.
_STARRED: Final = (
    ("CallExpression", "arguments"), ("NewExpression", "arguments"), ("ArrayExpression", "elements"), ("ArrayPattern", "elements"),
    ("FunctionDeclaration", "params"), ("FunctionExpression", "params"), ("ArrowFunction", "params"), ("Method", "params"),
)  # fmt: skip
_GUARDS: Final = {**dict.fromkeys(_STARRED, "unstarred'"), ("ArrowFunction", "body"): "no-block'"}


def _is_word(parent: Term, field: str) -> bool:
    computed = next((child for it, child in zip(_FIELDS(str(parent.head)), parent.children) if it.name == "computed"), None)
    return (str(parent.head), field) in _WORDS and (computed is None or computed.head != "True")


def _string(constructor: str, field: str) -> tuple[str, tuple[str, ...]]:
    return (TEXT, ("text'",)) if constructor == "StringLiteral" else (NAME, ())


_FIELDS: Final = fields_of(_grammar)
_TABLES: Final = Tables(
    _CARRIERS, _FIELDS, guards_of(_GUARDS), _string, kinds={EXPRESSION: EXPRESSION, STATEMENT: STATEMENT}, is_word=_is_word
)

ADAPTER: Final = GrammarAdapter(
    LANGUAGE,
    (
        Reads((EXPRESSION,), "(", "\n)", (0, 0, 0)),
        Reads((STATEMENT, STATEMENTS), "", "", (0,)),
        Reads(("a member", "members"), "class A {", "\n}", (0, 0, 2, 0)),
    ),
    _TABLES,
    _WAY,
    lambda: resource(__package__, "concrete.str"),
    ("script", "module", "typescript"),
    "Identifier",
    "ExpressionStatement",
    ((r"const (\w+) = require\([\"']([^\"']+)[\"']\);?", r'try(add-require(|"\1","\2"))'),),
)
