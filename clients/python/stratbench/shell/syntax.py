"""The syntax of commands: their forms, where one ends, the kinds of their tokens, and what modules define."""

from __future__ import annotations

import re
from collections.abc import Iterable, Iterator
from typing import Final, Literal, NamedTuple

from ..strategies import RESERVED

# The commands of the workbench with their forms.
FORMS: Final = {
    "tree": "N T", "copy": "N C", "drop": "N", "put": "N P T", "annotate": "N P {..}", "module": "N M", "unload": "N",
    "apply": "N [at P] [within K] do S", "preview": "N [at P] [within K] do S", "undo": "[K]", "redo": "[K]", "begin": "", "commit": "",
    "abandon": "", "show": "N [at P]", "pretty": "N [at P]", "diff": "[N]", "trees": "", "modules": "", "text": "N", "history": "",
    "dump": "",
}  # fmt: skip
# Those that end in a text, and so may go on over lines.
_LONG: Final = ("tree", "put", "annotate", "module", "apply", "preview")
_SECTIONS: Final = ("module", "signature", "sorts", "constructors", "rules", "strategies")
_OUTER: Final = ("signature", "rules", "strategies")

_WORD: Final = r"[A-Za-z_][A-Za-z0-9_'-]*"
_STRING: Final = r'"(?:\\.|[^"\\])*"?'
_COMMENT: Final = r"//[^\n]*|/\*.*?(?:\*/|\Z)"
_TOKEN: Final = re.compile(
    rf"(?P<string>{_STRING})|(?P<comment>{_COMMENT})|(?P<path>(?<!\S)/[0-9/]*(?!\S))|(?P<number>-?\b[0-9]+\b)|(?P<word>{_WORD})"
    r"|(?P<bracket>[()\[\]{}])|(?P<sign><\+|->|=>|[^\s\w])",
    re.DOTALL,
)
_CLOSES: Final = {")": "(", "]": "[", "}": "{"}
# A line that begins a command, whatever is before it: in a text it would be part of no strategy and no term.
_BEGINS: Final = re.compile(
    r"(?:tree|copy|drop|put|annotate|module|unload|apply|preview|show|pretty|text)[ \t]+[A-Za-z_]|(?:undo|redo)(?:[ \t]+\d+)?[ \t]*$"
    r"|diff[ \t]+[A-Za-z_][^ \t]*[ \t]*$|(?:begin|commit|abandon|trees|modules|history|dump)[ \t]*$|:[a-z]+\b"
)
# What no strategy and no term ends with.
_GOES_ON: Final = re.compile(r"(?:;|<\+|[-=]>|[<+,=|@?!:]|\b(?:do|where|then|else|if))\s*\Z")

Kind = Literal["command", "keyword", "name", "constructor", "string", "number", "path", "comment", "bracket", "wrong", "sign"]
_PLAIN: Final[tuple[Kind, ...]] = ("string", "comment", "path", "number", "sign")


class Token(NamedTuple):
    """A token of a command, from a place to one after it."""

    kind: Kind
    begin: int
    end: int


def tokens(text: str) -> Iterator[Token]:
    """Yields the tokens of a command, wrong ones where a bracket closes none.

    >>> for it in tokens('apply e at /0 do F(x]'):
    ...     print(it.kind, 'apply e at /0 do F(x]'[it.begin:it.end])
    command apply
    name e
    keyword at
    path /0
    keyword do
    constructor F
    bracket (
    name x
    wrong ]
    """
    if text.startswith("#"):
        yield Token("comment", 0, len(text))
        return
    command = re.match(r"\s*(:?[a-z]*)", text)
    first = command[1] if command else ""
    opened: list[str] = []
    head = first in ("apply", "preview", "show", "pretty", "put", "annotate")
    for found in _TOKEN.finditer(text):
        word, begin, end = found.group(), found.start(), found.end()
        kind: Kind = "sign"
        if begin < len(first) + text.index(first):
            kind = "command"
        elif found["word"]:
            kind = "constructor" if word[0].isupper() else "name"
            if head and word in ("at", "within", "do"):
                kind, head = "keyword", word != "do"
            elif word in RESERVED and first in ("module", "apply", "preview") and not head:
                kind = "keyword"
        elif found["bracket"]:
            kind = "bracket"
            if word not in _CLOSES:
                opened.append(word)
            elif not opened or opened.pop() != _CLOSES[word]:
                kind = "wrong"
        else:
            kind = next(it for it in _PLAIN if found[it])
            kind = "sign" if kind == "path" and not head else kind
        yield Token(kind, begin, end)


def commands(text: str) -> list[str]:
    """Returns the commands of a text of one or more lines.

    A command goes on with lines that are indented, and with others that don't look like a command while a bracket is open or the
    text of a module is to come:

    >>> commands("module m\\n\\n  rules\\n    R : x -> 1\\ntree t f(\\na)\\nshow t")
    ['module m\\n\\n  rules\\n    R : x -> 1', 'tree t f(\\na)', 'show t']
    >>> commands("module m\\nrules\\n R : x -> 1")
    ['module m\\nrules\\n R : x -> 1']

    A line `diff` may be a strategy of that name, so it is a command only where nothing goes on.

    >>> commands("apply t do\\ndiff\\ndiff\\ndiff t"), commands("apply t do a;\\ndiff\\nshow t")
    (['apply t do\\ndiff', 'diff', 'diff t'], ['apply t do a;\\ndiff', 'show t'])

    Of lines that begin with `#` nothing is left.

    >>> commands("# a tree\\ntree t [1,\\n# one\\n 2]")
    ['tree t [1,\\n\\n 2]']
    """
    found: list[list[str]] = []
    opened, indented = 0, True
    for line, more in _with_brackets(re.sub("^#.*$", "", text, flags=re.MULTILINE)):
        if not found or not found[-1][0].strip() or line[:1] not in ("", " ", "\t") and _ends_before(found[-1], opened, indented, line):
            if found and not found[-1][0].strip():
                found.pop()
            found.append([line])
            opened, indented = 0, True
        else:
            found[-1].append(line)
            indented = indented and line[:1] in ("", " ", "\t")
        opened += more
    return ["\n".join(it).rstrip() for it in found]


# The lines of a text, each with how many brackets more it opens than it closes.
def _with_brackets(text: str) -> Iterator[tuple[str, int]]:
    places = [(it.start(), 1 if it[0] in "([{" else -1) for it in _TOKEN.finditer(text) if it["bracket"]]
    begin, at = 0, 0
    for line in text.split("\n"):
        more = 0
        while at < len(places) and places[at][0] <= begin + len(line):
            more += places[at][1]
            at += 1
        yield line, more
        begin += len(line) + 1


def of_script(lines: Iterable[str]) -> Iterator[str]:
    """Yields the commands of a script: a line in the first column begins one, others go on with it.

    >>> list(of_script(["# two trees", "tree t f(", "  a)", "", "tree u b"]))
    ['tree t f(\\n  a)', 'tree u b']
    """
    command: list[str] = []
    for line in lines:
        line = line.rstrip("\r\n")
        if line.startswith("#"):
            continue
        if line[:1] in ("", " ", "\t"):
            command += [line] * bool(command)
            continue
        if command:
            yield "\n".join(command).rstrip()
        command = [line]
    if command:
        yield "\n".join(command).rstrip()


# Whether the line, in the first column, isn't part of the command before it.
def _ends_before(command: list[str], opened: int, indented: bool, line: str) -> bool:
    if indented and _BEGINS.match(line):
        return True
    text_to_come = command[0].startswith("module") and (len(command) > 1 or len(command[0].split()) == 2)
    return not text_to_come and not _goes_on(command, opened)


# Whether a command with so many open brackets goes on with another line.
def _goes_on(command: list[str], opened: int) -> bool:
    if command[0].split(None, 1)[0] not in _LONG:
        return False
    last = next(it for it in reversed(command) if it.strip())
    return opened > 0 or bool(_GOES_ON.search(re.sub(rf"({_STRING})|{_COMMENT}", r"\1", last)))


def is_complete(text: str) -> bool:
    """Whether a text ends with a complete command. One goes on while brackets are open, after a sign or a word that ends none, and
    `module` and `tree` where there is no text yet.

    >>> [is_complete(it) for it in ("tree t f(", "tree t", "apply t do a;", "apply t do", "tree t f(a)", "show t", "")]
    [False, False, False, False, True, True, True]

    An empty line ends it, and a module that began over lines is ended by nothing else.

    >>> is_complete("module m\\n  strategies f = id"), is_complete("module m\\n  strategies f = id\\n")
    (False, True)
    """
    if "\n" in text and not text.rpartition("\n")[2].strip():
        return True
    last = commands(text)[-1]
    words = last.split(None, 2)
    if not words:
        return True
    if words[0] in ("module", "tree") and len(words) == 2 or words[0] == "module" and "\n" in last:
        return False
    return not _goes_on(last.split("\n"), sum(more for _, more in _with_brackets(last)))


def indentation(text: str) -> str:
    """Returns what the line after the last one of a text begins with.

    >>> indentation("module m"), indentation("module m\\n  rules"), indentation("module m\\n    R : x -> y")
    ('  ', '    ', '    ')
    """
    *before, line = text.split("\n")
    blanks = line[: len(line) - len(line.lstrip())]
    ends = line.strip()
    section = ends in (*_SECTIONS[1:], "signature constructors")
    deeper = not before or section or ends.endswith(("(", "[", "{", "=", "->", "where"))
    return blanks + "  " * deeper


def outdent(text: str) -> int:
    """Returns how many blanks the last line of a text has too many: a section of a module begins where those before it do.

    >>> outdent("module m\\n  signature constructors\\n    A : t\\n    rules"), outdent("module m\\n  rules")
    (2, 0)
    """
    *before, line = text.split("\n")
    sections = [it for it in before[1:] if it.split()[:1] and it.split()[0] in _OUTER]
    if not sections or line.split() not in ([it] for it in _OUTER):
        return 0
    blanks = [len(it) - len(it.lstrip()) for it in (sections[-1], line)]
    return max(0, blanks[1] - blanks[0])


class Definition(NamedTuple):
    """A strategy, rule or constructor that a module defines, with its arguments as they are written there."""

    name: str
    arguments: str
    kind: Literal["strategy", "rule", "constructor"]


def definitions(text: str) -> list[Definition]:
    """Returns what a text of a module defines.

    >>> for it in definitions('signature constructors F : a * a -> b  C : b rules R(s|x) : F(y,z) -> y strategies f = id g(s) = s'):
    ...     print(*it)
    F (a,a) constructor
    C  constructor
    R (s|x) rule
    f  strategy
    g (s) strategy
    """
    bare = re.sub(rf"{_STRING}|{_COMMENT}", lambda it: '""' if it[0].startswith('"') else " ", text, flags=re.DOTALL)
    pieces = re.split(rf"\b({'|'.join(_SECTIONS)})\b(?!['-])", bare)
    found: list[Definition] = []
    for section, piece in zip(pieces[1::2], pieces[2::2]):
        if section == "constructors":
            parts = re.split(rf"({_WORD})\s*:", piece)
            for name, sorts in zip(parts[1::2], parts[2::2]):
                given, arrow, _ = sorts.partition("->")
                found.append(Definition(name, f"({','.join(it.strip() for it in given.split('*'))})" if arrow else "", "constructor"))
        elif section in ("rules", "strategies"):
            sign = ":" if section == "rules" else "=(?!>)"
            for it in re.finditer(rf"({_WORD})\s*(\([^()]*\))?\s*{sign}", piece):
                found.append(Definition(it[1], it[2] or "", "rule" if section == "rules" else "strategy"))
    return found
