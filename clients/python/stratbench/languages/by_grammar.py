"""Languages that are a grammar file and a front end: their sources, and these with another tree."""

from __future__ import annotations

import codecs
import importlib.resources
from collections.abc import Callable, Mapping, Sequence
from functools import cached_property
from typing import Optional, Protocol, Union

from ..patch.dialect import Dialect, Wrong
from ..patch.edits import Lines, Patch
from ..strategies import Pattern
from ..terms import LIST, TUPLE, Shown, Term, deep, read
from .front import Parsed
from .language import Fault, Kinds, Part, Path


class FrontEnd(Protocol):
    """What parses sources of a kind, with positions or without."""

    def parsed(self, kind: str, sources: Sequence[bytes], places: bool) -> list[Union[Parsed, Wrong]]: ...


def resource(package: str, name: str) -> str:
    """Returns the text of a file beside a module."""
    return importlib.resources.files(package).joinpath(name).read_text(encoding="utf-8")


class ByGrammar:
    """A language with a grammar. `kind` says what its front end is told of a file of this name."""

    def __init__(
        self, name: str, title: str, suffixes: tuple[str, ...], kinds: Kinds, dialect: Callable[[str], Dialect], front: FrontEnd, kind: Callable[[str], str]
    ) -> None:
        self.name, self.title, self.suffixes, self.kinds = name, title, suffixes, kinds
        self.dialect, self.front, self.kind = dialect, front, kind

    def sources(self, work: Sequence[tuple[str, bytes]]) -> Sequence[Union[ReadSource, Fault]]:
        """Reads files, those of a kind at a time."""
        found: dict[int, Union[ReadSource, Fault]] = {}
        texts = [_decoded(contents) for _, contents in work]
        kinds = [self.kind(name) for name, _ in work]
        for kind in dict.fromkeys(kinds):
            places = [at for at, it in enumerate(kinds) if it == kind]
            for at, it in zip(places, self.front.parsed(kind, [texts[at][0] for at in places], True)):
                if isinstance(it, Wrong):
                    found[at] = Fault(Lines(texts[at][0]).number(it.place), it.message)
                else:
                    found[at] = ReadSource(self, kind, *texts[at], it)
        return [found[at] for at in range(len(work))]

    def signature(self) -> str:
        said = f"{self.title}'s syntax trees. Written by `python -m stratbench.languages --signature {self.name}` of the client for Python."
        return self.dialect("").grammar.signature(self.name, [said, "Needs: nothing."])


# The text of a file in UTF-8, and its encoding. What isn't in UTF-8 has a character for each byte.
def _decoded(contents: bytes) -> tuple[bytes, str]:
    if contents.startswith(codecs.BOM_UTF8):
        return contents[len(codecs.BOM_UTF8) :], "utf-8-sig"
    for mark, encoding in ((codecs.BOM_UTF16_LE, "utf-16-le"), (codecs.BOM_UTF16_BE, "utf-16-be")):
        if contents.startswith(mark):
            try:
                return contents.decode(encoding).encode(), encoding
            except UnicodeDecodeError:
                break
    try:
        contents.decode()
        return contents, "utf-8"
    except UnicodeDecodeError:
        return contents.decode("latin-1").encode(), "latin-1"


class ReadSource:
    """A file as the front end reads it."""

    def __init__(self, language: ByGrammar, kind: str, text: bytes, encoding: str, parsed: Parsed) -> None:
        self.language, self.kind, self.text, self.encoding = language, kind, text, encoding
        self._parsed = parsed

    @cached_property
    def lines(self) -> Lines:
        return Lines(self.text)

    @cached_property
    def term(self) -> Term:
        return read(self._parsed.text)

    @property
    def shown(self) -> Shown:
        return Shown(self._parsed.text.decode(), self._parsed.terms)

    @property
    def least_terms(self) -> int:
        return self._parsed.terms

    @property
    def most_terms(self) -> int:
        return self._parsed.terms

    @property
    def most_levels(self) -> int:
        return self._parsed.levels

    def lacks(self, pattern: Pattern, strings: tuple[tuple[str, bytes], ...] = ()) -> bool:
        """Whether surely no subterm matches: a constructor, or a string, that the pattern needs isn't in the text of the term."""
        return any(it not in self._parsed.text for it in _needed(pattern, dict(strings)))

    def patch(self, new: Term) -> Patch:
        from ..patch.patcher import patch_of

        with deep():
            return patch_of(self.language.dialect(self.kind), self.text, self.term, new, self._again)

    def _again(self, texts: Sequence[bytes], places: bool) -> list[Union[bytes, Wrong]]:
        found = self.language.front.parsed(self.kind, texts, places)
        return [it.text if isinstance(it, Parsed) else it for it in found]

    def parts(self, replaced: Mapping[Path, Term]) -> Optional[Sequence[Part]]:
        return None

    def remarks(self, new: Term) -> Sequence[tuple[int, str]]:
        return ()

    def encoded(self, text: bytes) -> bytes:
        return text.decode().encode(self.encoding)


# Texts that the text of a term has in which the pattern matches.
def _needed(pattern: Pattern, strings: Mapping[str, bytes]) -> list[bytes]:
    found: list[bytes] = []
    waiting = [pattern]
    while waiting:
        it = waiting.pop()
        if it.kind == "constructor" and it.name not in (LIST, TUPLE) and isinstance(it.name, str) and it.name.isidentifier():
            found.append(it.name.encode() + b"(" * bool(it.parts))
        name = it.name if it.kind == "string" else strings.get(str(it.name)) if it.kind == "variable" else None
        if isinstance(name, bytes) and name.isalnum():
            found.append(b'"%s"' % name)
        waiting.extend(it.parts)
    return found
