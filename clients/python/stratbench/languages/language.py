"""What the command asks of a language, and of a file in it. All else that knows a language is in that language's folder."""

from __future__ import annotations

from collections.abc import Mapping, Sequence
from typing import NamedTuple, Optional, Protocol, Union

from ..patch.edits import Lines, Patch
from ..strategies import Pattern
from ..terms import Shown, Term

Path = tuple[int, ...]


class Fault(NamedTuple):
    """Why a file is no program of its language. The line is 0 where it isn't known."""

    line: int
    message: str


class Missing(OSError):
    """What a language needs isn't on this machine; the message says what to install."""


class Kinds(NamedTuple):
    """What constructors are: statements, imports, which may come alone, and those whose lists go together, element by element."""

    statements: frozenset[str] = frozenset()
    imports: frozenset[str] = frozenset()
    parallel: frozenset[str] = frozenset()


class Part(NamedTuple):
    """Some lines of a source, which begin at this byte, as a source, with the terms that come in it at these paths."""

    first: int
    source: Source
    replaced: Mapping[Path, Term]


class Source(Protocol):
    """A file as its language reads it.

    `text` is in UTF-8, whatever the file's encoding is, without a byte order mark, with the line ends of the file; positions are places
    in it. `shown` is the text of the term. Both are made when they are asked for.
    """

    @property
    def language(self) -> Language: ...

    @property
    def text(self) -> bytes: ...

    @property
    def encoding(self) -> str: ...

    @property
    def lines(self) -> Lines: ...

    @property
    def term(self) -> Term: ...

    @property
    def shown(self) -> Shown: ...

    @property
    def least_terms(self) -> int:
        """A bound of the size of the term."""

    @property
    def most_terms(self) -> int:
        """Another bound of the size of the term."""

    @property
    def most_levels(self) -> int:
        """A bound of the height of the term."""

    def lacks(self, pattern: Pattern, strings: tuple[tuple[str, bytes], ...] = ()) -> bool:
        """Whether surely no subterm matches an application of a constructor, where these variables stand for strings."""

    def patch(self, new: Term) -> Patch:
        """Returns the edits that make the text spell a new tree. Raises `NoTerm` where it is no tree of the language, and `Unwritable`
        where no text spells it."""

    def parts(self, replaced: Mapping[Path, Term]) -> Optional[Sequence[Part]]:
        """Returns the parts of the text that can be changed alone, or nothing where the whole has to be taken."""

    def remarks(self, new: Term) -> Sequence[tuple[int, str]]:
        """Returns what is to be said of a new tree, with the lines."""

    def encoded(self, text: bytes) -> bytes:
        """Returns the bytes of a file of this text, in the encoding of this one and with its byte order mark."""


class Language(Protocol):
    """A language: its name, as `--language` has it, and in sentences; the suffixes of its files, and what kinds of constructors it has."""

    @property
    def name(self) -> str: ...

    @property
    def title(self) -> str: ...

    @property
    def suffixes(self) -> tuple[str, ...]: ...

    @property
    def kinds(self) -> Kinds: ...

    def sources(self, work: Sequence[tuple[str, bytes]]) -> Sequence[Union[Source, Fault]]:
        """Reads files of these names and contents. Raises `Missing`."""

    def signature(self) -> str:
        """Returns the module of strategies that declares the constructors."""
