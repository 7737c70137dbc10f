"""Java, by the parser of the JDK's own compiler."""

from __future__ import annotations

import os
import re
import tempfile
import weakref
from functools import lru_cache
from typing import Final, Optional

from ...patch.dialect import Alone, Dialect, Style, unit_of
from ...patch.grammar import Grammar
from ...patch.layout import Layout
from ...terms import Term
from ..by_grammar import ByGrammar, resource
from ..front import Front
from ..language import Kinds

_MISSING: Final = "Java needs a JDK of 17 or later: apt install default-jdk-headless, or set JAVA_HOME to one"
_SPECIAL: Final = {"\\": "\\\\", '"': '\\"', "\n": "\\n", "\r": "\\r", "\t": "\\t"}


@lru_cache
def _grammar() -> Grammar:
    return Grammar(resource(__name__, "java.grammar"))


class _File:
    """The front end's source in a file, which Java wants to have; it is gone with this process."""

    def __init__(self) -> None:
        self._folder = tempfile.TemporaryDirectory(prefix="stratbench-")
        self.name = f"{self._folder.name}/Front.java"
        with open(self.name, "w", encoding="utf-8") as it:
            it.write(resource(__name__, "Front.java"))
        weakref.finalize(self, self._folder.cleanup)


@lru_cache
def _file() -> _File:
    return _File()


def _words() -> list[str]:
    home = os.environ.get("JAVA_HOME")
    fields = ";".join(f"{it.name}:{','.join(it.fields)}" for it in _grammar().constructors.values())
    exports = [f"--add-exports=jdk.compiler/com.sun.tools.javac.{it}=ALL-UNNAMED" for it in ("tree", "code")]
    # what starts soon is worth more than what is fast later
    return [f"{home}/bin/java" if home else "java", "-XX:+UseSerialGC", "-Xss16m", *exports, _file().name, fields]


def _literal(term: Term, like: bytes, style: Style) -> Optional[bytes]:
    if term.head != "StringLiteral" or not isinstance(term.children[0].head, bytes):
        return None
    text = re.sub(r'[\\"\n\r\t]', lambda it: _SPECIAL[it[0]], term.children[0].text)
    return f'"{text}"'.encode(errors="surrogateescape")


def _style(layout: Layout) -> Style:
    return Style(unit=unit_of(layout.text, b"    "))


_CALL: Final = (b"f(", b");")
_ALONE: Final = Alone(
    "statement",
    b"class A { void f() { while (true) { ",
    b" } } }",
    (2, 0, 6, 0, 7, 0, 0, 1, 0, 0),
    {"statement": (b"", b""), "expression": _CALL, "primary": _CALL},
)


@lru_cache
def _dialect(kind: str) -> Dialect:
    return Dialect(_grammar(), re.compile(rb"//[^\n\r]*|/\*.*?\*/", re.DOTALL), (b"//",), _style, _literal, _ALONE)


_STATEMENTS: Final = frozenset(it.name for it in _grammar().constructors.values() if it.sort == "statement")

LANGUAGE: Final = ByGrammar("java", "Java", (".java",), Kinds(_STATEMENTS, frozenset(["Import"])), _dialect, Front(_words, _MISSING), lambda name: "java")
