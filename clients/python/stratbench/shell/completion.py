"""What the last word of a text may become: commands, names of trees and modules, paths, definitions with their arguments, files."""

from __future__ import annotations

import contextlib
import os
import re
from collections.abc import Callable, Iterator, Sequence
from typing import NamedTuple

from .. import Refused
from ..strategies import RESERVED
from .session import Session
from .syntax import FORMS, commands, definitions
from .view import brief


_SETTINGS = ("depth", "pager", "timing", "bytes")


class Candidate(NamedTuple):
    """A word that may stand there, as it is shown, and what is said of it."""

    text: str
    shown: str
    about: str = ""


def word_before(text: str) -> str:
    """The word that is being typed at the end of a text.

    >>> [word_before(it) for it in ("apply e do bottomup(Un", "show e at /0/", ":load src/a-b.st", "show ")]
    ['Un', '/0/', 'src/a-b.st', '']
    """
    found = re.search(r"(?:\\.|[^\s=])*$" if text.lstrip().startswith(":") else r"(?:(?<!\S)/[0-9/]*|:?[A-Za-z0-9_.'*$+-]*)$", text)
    return found[0] if found else ""


class Completer:
    """Candidates in a session. `own` are the shell's own commands with their forms, `steps` gives what the steps were, and `files` the
    names of what was loaded from files."""

    def __init__(
        self, session: Session, own: dict[str, str], steps: Callable[[], Sequence[str]], files: Callable[[], Sequence[str]]
    ) -> None:
        self._session, self._own, self._steps, self._files = session, own, steps, files

    def candidates(self, text: str) -> list[Candidate]:
        """Returns what the last word of a text may become."""
        blanks = len(text) - len(text.rstrip(" \t"))
        command = commands(text)[-1] + " " * blanks
        word = word_before(command)
        # a name or a path that isn't there has nothing that could follow
        with contextlib.suppress(Refused):
            return [it for it in self._any(command[: len(command) - len(word)], word) if it.text.startswith(word)]
        return []

    def _any(self, before: str, word: str) -> Iterator[Candidate]:
        first, *rest = before.split(None, 3) or [""]
        if not first:
            forms = self._own if word.startswith(":") else FORMS
            yield from (Candidate(it, f"{it} {form}".rstrip()) for it, form in forms.items())
        elif first == ":profile":
            yield from self._any(before.replace(first, "preview", 1), word)
        elif first.startswith(":"):
            yield from self._for_own(first, len(rest), word)
        elif first in ("drop", "copy", "tree", "put", "annotate", "show", "pretty", "apply", "preview") and not rest:
            yield from self._names("tree")
        elif first in ("text", "unload", "module") and not rest or first == "copy":
            yield from self._names("module" if first != "copy" else "tree")
        elif first == "diff" and not rest:
            yield from self._names("tree")
            yield from self._names("module")
        elif first in ("put", "annotate") and len(rest) == 1:
            yield from self._paths(rest[0], word)
        elif first in ("tree", "put"):
            yield from (it for it in self._definitions("") if it.about == "constructor")
        elif first in ("show", "pretty", "apply", "preview"):
            yield from self._after_name(first, before, word)
        elif first == "module":
            yield from self._definitions(before.split(None, 2)[2] if len(rest) > 1 else "")

    # After the name of a tree: where, within how many steps, and what.
    def _after_name(self, first: str, before: str, word: str) -> Iterator[Candidate]:
        name, *words = re.split(r"\s+", before.strip())[1:]
        if "do" in words:
            yield from self._definitions("")
        elif words[-1:] == ["at"]:
            yield from self._paths(name, word)
        elif words[-1:] != ["within"]:
            forms = (("at", "at P", "a path"), ("within", "within K", "steps"), ("do", "do S", "a strategy"))
            yield from (Candidate(*it) for it in forms if it[0] not in words and (first not in ("show", "pretty") or it[0] == "at"))

    def _for_own(self, first: str, given: int, word: str) -> Iterator[Candidate]:
        if first == ":undo":
            yield from (Candidate(str(at), str(at), what) for at, what in enumerate(self._steps()))
        elif first == ":reload":
            yield from (Candidate(it, it) for it in self._files())
        elif first in (":save", ":edit") and not given:
            yield from self._names("tree")
            yield from self._names("module")
        elif first == ":browse":
            yield from self._names("module")
        elif first == ":info":
            yield from self._names("tree")
            yield from self._names("module")
            yield from (Candidate(it.text.rstrip("("), it.shown, it.about) for it in self._definitions("") if it.about != "reserved")
        elif first == ":set":
            yield from (Candidate(it, it) for it in (("on", "off") if given else _SETTINGS))
        elif first in (":load", ":run", ":save"):
            yield from _files(word)

    def _names(self, kind: str) -> Iterator[Candidate]:
        names = self._session.ask(lambda it: it.trees() if kind == "tree" else it.modules())
        yield from (Candidate(it, it, kind) for it in names)

    # The paths of the children of the place that a path leads to, as far as its last `/`.
    def _paths(self, name: str, word: str) -> Iterator[Candidate]:
        above = word.rpartition("/")[0]
        term = self._session.ask(lambda it: it.term(name, at=above or "/"))
        if not above:
            yield Candidate("/", "/", brief(term))
        yield from (Candidate(f"{above}/{at}", f"{above}/{at}", brief(it)) for at, it in enumerate(term.children))

    # What modules define, and the text so far of another one.
    def _definitions(self, text: str) -> Iterator[Candidate]:
        texts = self._session.ask(lambda it: {name: it.text(name) for name in it.modules()})
        found: dict[str, Candidate] = {}
        for name, it in [*texts.items(), ("", text)]:
            for defined in definitions(it):
                kind = "constructor" if defined.kind == "constructor" else name or "here"
                word = defined.name + ("(" if defined.arguments else "")
                found[defined.name] = Candidate(word, defined.name + defined.arguments, kind)
        yield from (found[it] for it in sorted(found))
        yield from (Candidate(it, it, "reserved") for it in sorted(RESERVED))


def _files(word: str) -> Iterator[Candidate]:
    folder, slash, _ = word.replace("\\ ", " ").rpartition("/")
    where = os.path.expanduser(folder + slash) or "."
    try:
        names = sorted(os.listdir(where))
    except OSError:
        return
    for it in names:
        end = "/" if os.path.isdir(os.path.join(where, it)) else ""
        yield Candidate((folder + slash + it).replace(" ", "\\ ") + end, it + end)
