"""The grammar file of a language: its constructors, their fields in order, and the text of a new node of each.

    >>> grammar = Grammar("sort statement\\nReturn return[[ @argument]]~;\\nCall @callee(@arguments{, })\\n")
    >>> grammar.constructors["Call"].fields, grammar.constructors["Return"].sort
    (('callee', 'arguments'), 'statement')
    >>> print(grammar.signature("toy"), end="")
    module toy
    <BLANKLINE>
    signature
      constructors
        Return : optional(tree) -> statement  // argument
        Call : tree * list(tree) -> statement  // callee, arguments
        True : flag
        False : flag
        Absent : absent
        : int -> text
        : str -> text
        : statement -> tree
        : text -> tree
        : tree -> optional(tree)
        : absent -> optional(tree)

A line is a constructor and its template. In a template

    @name           a field: the text of a node, or of a name or a number
    @name{, }       a list, with what is between its elements
    @name{!} {!, }  the same where no brackets may be, as around a name that is bound; {!!} is a list with nothing between
    @name{>}        a field whose further lines are one level deeper, with no brackets
    @name{?a|b}     a flag: a where it is true, b (or nothing) where it is false
    @name{x=a;y=b}  a word: a where it is x
    [[ @name]]      what is left out where the field is absent, or the list empty; [[..||x]] gives x then
    ~;              a sign that may be missing in a text
    \\n \\t @@ ~~     a new line, one more level of indentation, @, ~

and these lines are about constructors of a kind:

    sort NAME                    the sort of the constructors after it
    brackets SORT ( ) [NAME]     nodes of the sort may have these around them; NAME is the constructor that such brackets are, where they are one
    atoms NAME..                 constructors whose text is one word or literal, in which nothing is changed
    text NAME..                  atoms in which blanks mean something, also those around
    indented NAME..              atoms of which further lines are indented with the line in which they begin
    holes NAME..                 constructors in whose lists an element may be absent
    apart NAME..                 constructors that have blank lines around them in lists over lines
    absent NAME                  what stands for a field that is absent, else Absent
    words NAME..                 further constructors that are no nodes
"""

from __future__ import annotations

import re
from collections.abc import Iterator, Sequence
from typing import Final, Literal, NamedTuple, Optional, Union

from ..terms import LIST, NoTerm, Term, cut


class Field(NamedTuple):
    """A field in a template: its kind, the separator of a list, the texts of a flag or of words, at how many levels of indentation it is,
    and whether it never has brackets."""

    name: str
    kind: Literal["node", "list", "flag", "word"] = "node"
    given: tuple[str, ...] = ()
    level: int = 0
    plain: bool = False

    def word(self, term: Term) -> Optional[bytes]:
        """Returns the text of what is no node: a flag, a word, a name or a number."""
        if self.kind == "flag":
            return self.given[term.head == "False"].encode() if term.head in ("True", "False") else None
        if term.children or term.head == LIST:
            return None
        if isinstance(term.head, bytes):
            if self.kind == "word":
                return dict(it.split("=", 1) for it in self.given).get(term.text, "").encode()
            return term.head
        return str(term.head).encode() if isinstance(term.head, int) else None


class Sign(NamedTuple):
    """A text of a template. `may_miss` is whether a source may do without it."""

    text: str
    may_miss: bool = False


class Group(NamedTuple):
    """What is left out where a field is absent, and what is there then."""

    field: str
    parts: tuple[Part, ...]
    otherwise: str


Part = Union[Sign, Field, Group]


class Constructor(NamedTuple):
    """A constructor: its name and sort, the names of its fields in order, and its template."""

    name: str
    sort: str
    fields: tuple[str, ...]
    parts: tuple[Part, ...]
    by_name: dict[str, Field]
    groups: dict[str, Group]


class Brackets(NamedTuple):
    """What may be around nodes of a sort, and the constructor that it is, if it is one."""

    opens: bytes
    closes: bytes
    constructor: Optional[str]


def _flat(parts: Sequence[Part]) -> Iterator[Field]:
    for it in parts:
        if isinstance(it, Group):
            yield from _flat(it.parts)
        elif isinstance(it, Field):
            yield it


_TOKEN: Final = re.compile(r"@@|~~|@(\w+)(?:\{([^}]*)\})?|(\[\[)|(\|\|)|(\]\])|~(\S)|((?:(?!@|~|\[\[|\|\||\]\]).|\n)+)")


def _field(name: str, given: Optional[str], level: int) -> Field:
    if given == "!!":
        return Field(name, "list", ("",), level, True)
    if given == ">":
        return Field(name, level=level + 1, plain=True)
    if given is None or given == "!":
        return Field(name, level=level, plain=given == "!")
    if given.startswith("?"):
        yes, _, no = given[1:].partition("|")
        return Field(name, "flag", (yes, no), level)
    if "=" in given:
        return Field(name, "word", tuple(given.split(";")), level)
    return Field(name, "list", (given[given.startswith("!") :],), level, given.startswith("!"))


def _parts(text: str) -> tuple[Part, ...]:
    stack: list[tuple[list[Part], list[str]]] = [([], [])]
    otherwise = False
    level = 0
    for found in _TOKEN.finditer(text):
        name, given, opens, bar, closes, loose, plain = found.groups()
        parts, others = stack[-1]
        if name:
            parts.append(_field(name, given, level))
        elif opens:
            stack.append(([], []))
        elif bar:
            otherwise = True
        elif closes:
            stack.pop()
            stack[-1][0].append(Group(next(_flat(parts)).name, tuple(parts), "".join(others)))
            otherwise = False
        elif otherwise:
            others.append(plain or found.group()[0])
        elif loose:
            parts.append(Sign(loose, True))
        else:
            plain = plain or found.group()[0]
            if "\n" in plain:
                last = plain.rpartition("\n")[2]
                level = len(last) - len(last.lstrip("\t"))
            parts.append(Sign(plain))
    return tuple(stack[0][0])


def _groups(parts: Sequence[Part]) -> Iterator[Group]:
    for it in parts:
        if isinstance(it, Group):
            yield it
            yield from _groups(it.parts)


class Grammar:
    """The constructors of a language by their names, and what kinds of them there are."""

    def __init__(self, text: str) -> None:
        self.constructors: dict[str, Constructor] = {}
        self.brackets: dict[str, Brackets] = {}
        self.atoms: frozenset[str] = frozenset()
        self.text: frozenset[str] = frozenset()
        self.indented: frozenset[str] = frozenset()
        self.apart: frozenset[str] = frozenset()
        self.holes: frozenset[str] = frozenset()
        self.words: frozenset[str] = frozenset(["True", "False"])
        self.absent = "Absent"
        sort = ""
        for line in text.splitlines():
            name, _, rest = line.partition(" ")
            rest = rest.strip()
            if not line.strip() or name.startswith("#"):
                continue
            if name == "sort":
                sort = rest
            elif name == "brackets":
                of, opens, closes, *constructor = rest.split()
                blank = " " * len(constructor)
                self.brackets[of] = Brackets(f"{opens}{blank}".encode(), f"{blank}{closes}".encode(), constructor[0] if constructor else None)
            elif name in ("atoms", "text", "indented", "apart", "holes", "words"):
                setattr(self, name, getattr(self, name) | frozenset(rest.split()))
            elif name == "absent":
                self.absent = rest
            else:
                self.constructors[name] = _constructor(name, sort, rest)

    def is_node(self, term: Term) -> bool:
        return isinstance(term.head, str) and term.head in self.constructors

    def sort(self, term: Term) -> str:
        found = self.constructors.get(term.head) if isinstance(term.head, str) else None
        return found.sort if found is not None else ""

    def has_brackets(self, term: Term) -> bool:
        """Whether a node may have brackets around it. What is one itself needs none."""
        found = self.brackets.get(self.sort(term))
        return found is not None and found.constructor != term.head

    def is_absent(self, term: Term) -> bool:
        return term.head == self.absent or term.head == LIST and not term.children

    def check(self, term: Term) -> None:
        """Raises `NoTerm` where an application is none of the grammar's."""
        head = term.head
        if isinstance(head, str) and head != LIST and head not in self.words and head != self.absent:
            found = self.constructors.get(head)
            if found is None or len(found.fields) != len(term.children):
                raise NoTerm(f"no constructor of {len(term.children)} terms: {cut(term)}")

    def signature(self, module: str, said: Sequence[str] = ()) -> str:
        """Returns the module of strategies that declares the constructors, with comments after its name. What is no list, flag or text may
        be any node, or a name: a grammar says no more of it."""
        lines = [f"module {module}", "", *(f"// {it}" for it in said), *([""] if said else []), "signature", "  constructors"]
        for it in self.constructors.values():
            arguments = " * ".join(self._sort_of(it, name) for name in it.fields) + (" -> " if it.fields else "")
            lines.append(f"    {it.name} : {arguments}{it.sort}" + (f"  // {', '.join(it.fields)}" if it.fields else ""))
        sorts = dict.fromkeys(it.sort for it in self.constructors.values())
        lines += [f"    {it} : flag" for it in ("True", "False")] + [f"    {self.absent} : absent"]
        lines += [f"    : {it} -> text" for it in ("int", "str")] + [f"    : {it} -> tree" for it in (*sorts, "text")]
        used = "".join(lines)
        for sort in ("tree", "list(tree)", "text"):
            if f"optional({sort})" in used:
                lines += [f"    : {it} -> optional({sort})" for it in (sort, "absent")]
        return "\n".join(lines) + "\n"

    def _sort_of(self, constructor: Constructor, name: str) -> str:
        """The sort of a field, as the signature has it."""
        field = constructor.by_name[name]
        if field.kind == "flag":
            return "flag"
        is_text = field.kind == "word" or constructor.name in self.atoms | self.text or constructor.parts == (field,) and not field.plain
        element = "optional(tree)" if constructor.name in self.holes else "tree"
        sort = f"list({element})" if field.kind == "list" else "text" if is_text else "tree"
        return f"optional({sort})" if name in constructor.groups else sort


def _constructor(name: str, sort: str, template: str) -> Constructor:
    parts = _parts(template.replace("\\n", "\n").replace("\\t", "\t"))
    by_name: dict[str, Field] = {}
    for it in _flat(parts):
        by_name.setdefault(it.name, it)
    groups = {it.field: it for it in reversed(list(_groups(parts)))}
    return Constructor(name, sort, tuple(by_name), parts, by_name, groups)
