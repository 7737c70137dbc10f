"""The modules of a folder, as the program loads them together."""

from __future__ import annotations

import os
import subprocess
from collections.abc import Iterable, Iterator
from typing import TYPE_CHECKING

from ..settings import Settings, settings_of
from .checking import Sent, Session
from .reading import Constructor, Definition, Name
from .texts import Text

if TYPE_CHECKING:
    # what it takes is loaded where there are quotations
    from .quoted import WrongQuotation

class Folder:
    """The modules that are loaded with those of a folder. Open buffers count, saved or not."""

    def __init__(self, folder: str, buffers: dict[str, Text], program: str) -> None:
        self.folder = folder
        self.buffers = buffers
        self.program = program
        self._read: dict[str, tuple[float, Text]] = {}
        self._library: Text | None = None
        self._declared: dict[str, Text] = {}
        # what was made of modules with quotations, or what is wrong with these, and the last that was made of each
        self._made: dict[str, tuple[Text, str, Sent | WrongQuotation]] = {}
        self._last: dict[str, Sent] = {}
        self._session: Session | None = None

    @property
    def session(self) -> Session:
        """The program with these modules."""
        has_library = self.settings().library
        if self._session is None or self._session.has_library != has_library:
            self.end()
            self._session = Session(self.program, has_library)
        return self._session

    def end(self) -> None:
        """Ends the program."""
        if self._session is not None:
            self._session.end()

    def settings(self) -> Settings:
        """Returns the settings as they are now. Raises `BadSettings`."""
        return settings_of(self.folder)

    def paths(self) -> list[str]:
        """Returns the files of the modules, in order. Where they aren't named, buffers that have no file yet are among them."""
        settings = self.settings()
        more = self.buffers if settings.modules is None else {}
        return sorted({*settings.files(self.folder), *(it for it in more if os.path.dirname(it) == self.folder and it.endswith(".str"))})

    def text(self, path: str) -> Text:
        """Returns the text of a file, as its buffer has it."""
        if path in self.buffers:
            return self.buffers[path]
        try:
            changed = os.stat(path).st_mtime
            if path not in self._read or self._read[path][0] != changed:
                with open(path, encoding="utf-8", errors="replace", newline="") as it:
                    self._read[path] = changed, Text(it.read())
        except OSError:
            return Text("")
        return self._read[path][1]

    def library(self) -> Text:
        """Returns the text of the library."""
        if self._library is None:
            ran = subprocess.run([self.program, "--library"], input=b"text library\n", stdout=subprocess.PIPE, stderr=subprocess.DEVNULL)
            self._library = Text(ran.stdout.decode(errors="replace"))
        return self._library

    def declared(self, paths: Iterable[str]) -> dict[str, Text]:
        """Returns the modules of the client that these files need, by their names: the constructors that the settings want, and what is
        called by what is made of quotations."""
        wanted = dict(self.settings().declared())
        for language in {it for it in map(self.language, paths) if it is not None}:
            from . import quoted

            wanted.update(quoted.needed(language))
        for name, text in wanted.items():
            if name not in self._declared or self._declared[name].text != text:
                self._declared[name] = Text(text)
        return {name: self._declared[name] for name in wanted}

    def sent(self, path: str) -> Sent | WrongQuotation:
        """Returns what is sent of a file: of one with quotations what is made of it, or what is wrong with them."""
        text = self.text(path)
        language = self.language(path)
        if language is None:
            return text.sent
        before = self._made.get(path)
        if before is None or before[0] is not text or before[1] != language:
            from . import quoted

            made: Sent | WrongQuotation
            try:
                made = self._last[path] = quoted.made_of(text.text, language)
            except quoted.WrongQuotation as why:
                made = why
            self._made[path] = text, language, made
        return self._made[path][2]

    def sent_last(self, path: str) -> Sent | None:
        """Returns what was sent of a file when its quotations were right, if they ever were."""
        return self._last.get(path)

    def language(self, path: str) -> str | None:
        """Returns the language of the quotations in a file, if it has some, and it is known."""
        if "`" not in self.text(path).text:
            return None
        from . import quoted

        language = self.settings().language or quoted.own_language(path)
        return language if quoted.has_quotations(self.text(path).text) else None

    def modules(self, own: str) -> Modules:
        """Returns the modules as they are now, that of a file first; those without a file come last."""
        paths = [own, *(it for it in self.paths() if it != own)]
        others = [*self.declared(paths).values(), *[self.library()] * self.settings().library]
        return Modules(own, [*((it, self.text(it)) for it in paths), *(("", it) for it in others)])


class Modules:
    """Modules, each with its file; the library has none, nor has a language's signature. What a name stands for in each of them is found once for its text."""

    def __init__(self, own: str, texts: list[tuple[str, Text]]) -> None:
        self.own = own
        self.texts = texts

    def definitions(self) -> Iterator[tuple[str, Text, Definition]]:
        """Yields all definitions."""
        return ((path, text, it) for path, text in self.texts for it in text.module.definitions)

    def constructors(self) -> Iterator[tuple[str, Text, Constructor]]:
        """Yields all declarations of constructors."""
        return ((path, text, it) for path, text in self.texts for it in text.module.constructors)

    def defining(self, key: tuple[str, int, int]) -> list[tuple[str, Text, Definition]]:
        """Returns the definitions of a name with these numbers of parameters."""
        return [(path, text, it) for path, text in self.texts for it in text.module.by_key.get(key, ())]

    def declaring(self, name: str, terms: int) -> list[tuple[str, Text, Constructor]]:
        """Returns the declarations of a constructor with so many terms."""
        return [(path, text, it) for path, text in self.texts for it in text.module.declared.get((name, terms), ())]

    def named(self, name: str) -> Iterator[tuple[str, Text, Name]]:
        """Yields all places of a name."""
        return ((path, text, it) for path, text in self.texts for it in text.module.by_name.get(name, ()))
