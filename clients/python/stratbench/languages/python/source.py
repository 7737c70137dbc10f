"""Python's syntax trees as terms, and back.

    >>> source = Source(b"x = f(1)\\n")
    >>> source.term
    Module([Assign([Name("x",Store){(0,1)}],Call(Name("f",Load){(4,5)},[Constant(1,None){(6,7)}],[]){(4,8)},None){(0,8)}],[])
    >>> unparse(source.term)
    'x = f(1)'

The constructors are the classes of `ast` with their fields in order, as `strategies/python.str` has them. Lists are lists,
and a field that is absent is `None()`. A constant is an integer, a string, `BigInt`, `Float` or `Complex` of a string,
`Bytes` of one, `True()`, `False()`, `None()` or `Ellipsis()`. A node that has a position has it as its one annotation, the
bytes in the source from which and to which it goes. Nodes in f-strings have none, since Python before 3.12 gets it wrong.
"""

from __future__ import annotations

import ast
import io
import tokenize
import warnings
from collections.abc import Iterator, Mapping, Sequence
from functools import cached_property
from typing import Final

from ...patch.edits import Lines, Patch
from ...strategies import Pattern
from ...terms import LIST, TUPLE, NoTerm, Shown, Term, cut
from ...terms import deep as deep
from ...terms import position as position
from ..language import Language, Part, Path
from . import glance
from .constructors import CONSTRUCTORS as CONSTRUCTORS
from .constructors import EMPTY, Constructor, Field, constant, leaf, text_of, value_of


def to_term(tree: ast.AST, lines: Lines | None = None) -> Term:
    """Returns the term of a syntax tree, with positions where the lines of its source are given."""
    return _to_term(tree, lines.starts if lines else None)


_PLANS: dict[type, tuple[str, tuple[Field, ...]]] = {}


def _to_term(node: ast.AST, starts: list[int] | None) -> Term:
    kind = type(node)
    plan = _PLANS.get(kind)
    if plan is None:
        if kind.__name__ not in CONSTRUCTORS:
            raise NoTerm(f"no constructor for {kind.__name__}")
        plan = _PLANS[kind] = (kind.__name__, CONSTRUCTORS[kind.__name__].fields)
    name, fields = plan
    children: list[Term] = []
    inside = None if name in glance.WITHOUT_PLACES else starts
    for field, sort, number in fields:
        value = getattr(node, field, None)
        if isinstance(value, ast.AST):
            children.append(_to_term(value, inside))
        elif sort == "constant":
            children.append(constant(value))
        elif number == "*":
            children.append(
                Term(LIST, tuple([_to_term(it, inside) if isinstance(it, ast.AST) else leaf(it) for it in value])) if value else EMPTY
            )
        else:
            children.append(leaf(value))
    column = getattr(node, "end_col_offset", None)
    if starts is None or column is None:
        return Term(name, tuple(children))
    first: int = starts[getattr(node, "lineno") - 1] + getattr(node, "col_offset")
    last: int = starts[getattr(node, "end_lineno") - 1] + column
    return Term(name, tuple(children), (Term(TUPLE, (Term(first), Term(last))),))


def from_term(term: Term) -> ast.AST:
    """Returns the syntax tree of a term, without positions. Raises `NoTerm` where it is none.

    >>> from stratbench.terms import read
    >>> ast.dump(from_term(read('Return(Name("x",Load))')))
    "Return(value=Name(id='x', ctx=Load()))"
    >>> from_term(read('Return(7)'))
    Traceback (most recent call last):
    stratbench.terms.NoTerm: no expr in the field value of Return: 7
    >>> from_term(read('Call(Name("f",Load),[],[keyword("a",Constant(1,None)),keyword("a",Constant(2,None))])'))
    Traceback (most recent call last):
    stratbench.terms.NoTerm: a Call has the keyword argument a twice
    """
    try:
        return _from_term(term)
    except NoTerm as error:
        error.place = error.place or position(term)
        raise


def _from_term(term: Term) -> ast.AST:
    name = term.head
    known = CONSTRUCTORS.get(name) if isinstance(name, str) else None
    if known is None or len(known.fields) != len(term.children):
        raise NoTerm(f"no constructor of {len(term.children)} terms: {cut(term)}")
    kind = getattr(ast, known.name, None)
    if kind is None:
        raise NoTerm(f"{known.name} isn't in this version of Python")
    values: dict[str, object] = {}
    for field, child in zip(known.fields, term.children):
        if field.number == "*":
            if child.head != LIST:
                raise NoTerm(f"no list in the field {field.name} of {known.name}: {cut(child)}")
            values[field.name] = [_value(known, field, it) for it in child.children]
        else:
            values[field.name] = _value(known, field, child)
        if field.name not in kind._fields:
            if values.pop(field.name):
                raise NoTerm(f"{known.name} has no {field.name} in this version of Python")
    if "keywords" in values:
        _no_repetition(known, term)
    made = kind(**values)
    assert isinstance(made, ast.AST)
    return made


# Python's compiler refuses a keyword argument that comes twice; its parser doesn't.
def _no_repetition(known: Constructor, term: Term) -> None:
    keywords = term.children[[field.name for field in known.fields].index("keywords")].children
    names = [it.children[0].head for it in keywords if isinstance(it.children[0].head, bytes)]
    for at, name in enumerate(names):
        if name in names[:at]:
            raise NoTerm(f"a {known.name} has the keyword argument {name.decode(errors='replace')} twice")


# The lists in which an element may be absent.
_HOLES: Final = {("Dict", "keys"), ("arguments", "kw_defaults")}


def _value(of: Constructor, field: Field, term: Term) -> object:
    if field.sort == "constant":
        return value_of(term)
    if term.head == "None" and not term.children and (field.number == "?" or (of.name, field.name) in _HOLES):
        return None
    if field.sort in ("identifier", "string") and isinstance(term.head, bytes) and not term.children:
        return text_of(term.head)
    if field.sort == "int" and isinstance(term.head, int):
        return term.head
    known = CONSTRUCTORS.get(term.head) if isinstance(term.head, str) else None
    if known is None or known.sort != field.sort:
        if term.head == LIST and field.number == "*":
            raise NoTerm(
                f"no {field.sort} in the field {field.name} of {of.name}, but a list, whose elements belong there: {cut(term)}"
            )
        raise NoTerm(f"no {field.sort} in the field {field.name} of {of.name}: {cut(term)}")
    return from_term(term)


def unparse(term: Term) -> str:
    """Returns the text of a tree by `ast.unparse`, without comments and layout."""
    return ast.unparse(ast.fix_missing_locations(from_term(term)))


def parse(text: str) -> ast.Module:
    """Returns the syntax tree of a text. Raises `SyntaxError`, also where Python's parser gives up on it otherwise."""
    with warnings.catch_warnings():
        warnings.simplefilter("ignore")
        try:
            return ast.parse(text)
        except ValueError as error:
            raise SyntaxError(str(error)) from None
        except (MemoryError, RecursionError):
            raise SyntaxError("too deeply nested for Python's parser") from None


class Source:
    """A file of Python: its bytes, its text as Python reads it, its syntax tree, and that as a term.

    `text` is in UTF-8, whatever the file's encoding is, without a byte order mark, with the line ends of the file; positions
    are places in it. `encoded` gives the bytes of a file for another text. `shown` is the text of the term; each is made when it is
    asked for. Raises `SyntaxError`; a tree that is too deep for a term raises `NoTerm` then.
    """

    def __init__(self, contents: bytes) -> None:
        self.contents = contents
        self.encoding, _ = tokenize.detect_encoding(io.BytesIO(contents).readline)
        try:
            text = contents.decode(self.encoding)
        except (UnicodeDecodeError, LookupError) as error:
            raise SyntaxError(str(error)) from None
        self.text = text.encode()
        with deep():
            self.tree = parse(text)

    @cached_property
    def lines(self) -> Lines:
        return Lines(self.text)

    @cached_property
    def survey(self) -> glance.Survey:
        return glance.survey(self.tree)

    @property
    def least_terms(self) -> int:
        """A bound of the size of the term."""
        return self.survey.least_terms

    @property
    def most_terms(self) -> int:
        """Another bound of the size of the term."""
        return self.survey.most_terms

    @property
    def most_levels(self) -> int:
        """A bound of the height of the term."""
        return self.survey.most_levels

    def lacks(self, pattern: Pattern, strings: tuple[tuple[str, bytes], ...] = ()) -> bool:
        """Whether no subterm of the term matches an application of a constructor, where these variables stand for strings. True is
        sure, and false isn't.

        >>> from stratbench.strategies import pattern
        >>> source = Source(b"while x.y: pass")
        >>> [source.lacks(pattern(it)) for it in ("While(_,[],_)", "While(_,_,[])", "Attribute(_,\\"y\\",_)", "For()")]
        [True, False, False, True]
        """
        return glance.lacks(self.survey, self.text, pattern, strings)

    @cached_property
    def shown(self) -> Shown:
        with deep():
            try:
                found = glance.TreeText(self.tree, self.lines)
            except RecursionError:
                raise NoTerm("too deeply nested") from None
        return Shown(found.text, found.size)

    @cached_property
    def term(self) -> Term:
        with deep():
            try:
                return to_term(self.tree, self.lines)
            except RecursionError:
                raise NoTerm("too deeply nested") from None

    @property
    def language(self) -> Language:
        from . import LANGUAGE

        return LANGUAGE

    # Where nothing changes, nothing of patches is loaded: that takes as long as parsing a hundred thousand bytes.
    def patch(self, new: Term) -> Patch:
        from .patch import patch_of

        return patch_of(self, new)

    def parts(self, replaced: Mapping[Path, Term]) -> Sequence[Part] | None:
        from . import narrow

        return narrow.parts(self, replaced)

    def remarks(self, new: Term) -> Sequence[tuple[int, str]]:
        """Returns which new imports are bound to something else, too, with the lines of the source."""
        from .shadows import shadowed

        return [(self.lines.number(place), f"the new import of {name} is shadowed here") for name, place in shadowed(self.term, new)]

    def encoded(self, text: bytes) -> bytes:
        """Returns the bytes of a file of this text, in the encoding of this one and with its byte order mark."""
        return text.decode().encode(self.encoding)

    def __repr__(self) -> str:
        return f"<a source of {len(self.contents)} bytes>"


def walk(term: Term) -> Iterator[Term]:
    """Yields the nodes of a tree, parents before children."""
    waiting = [term]
    while waiting:
        it = waiting.pop()
        if it.head in CONSTRUCTORS:
            yield it
        waiting.extend(reversed(it.children))
