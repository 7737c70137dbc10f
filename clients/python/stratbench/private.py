r"""Definitions that a module keeps to itself.

All loaded modules see one another, so two of them can't have a definition of one name. What a module keeps to itself is sent under another
name, which nobody would write: `is-atom` of the module `phase` as `is-atom'phase`. What the program says of it is told with the name that
it has in the caller's text.

    >>> text = Hidden("phase", "strategies\n  f = g; x\n  g = ?g; g(|1)", public=["f"])
    >>> print(text.sent)
    strategies
      f = g'phase; x
      g'phase = ?g; g(|1)
    >>> text.own[text.own_at(text.sent.index("x"))]
    'x'
    >>> names = Names()
    >>> names.add(text)
    >>> names.own("`g'phase` fails, in `f`")
    '`g` fails, in `f`'
"""

from __future__ import annotations

import re
from bisect import bisect_left
from collections.abc import Collection

from .diagnostics import Diagnostic, Sentence
from .places import Text


class Hidden(Text):
    """The text of a module, in which all definitions but those of the public names have other ones."""

    def __init__(self, module: str, own: str, public: Collection[str]) -> None:
        # few need it, and it takes long to import
        from .server.reading import read

        found = read(own)
        keys = {it.key for it in found.definitions if it.name not in public}
        # where a name ends that is hidden
        self._ends = [it.end for it in found.names if it.kind in ("definition", "use") and it.key in keys]
        ending = "'" + re.sub(r"[+*$.]", "_", module)
        begin, parts = 0, []
        for end in self._ends:
            parts.append(own[begin:end])
            begin = end
        super().__init__(ending.join([*parts, own[begin:]]))
        self.module, self.own, self._longer = module, own, len(ending)
        self.names = {name + ending: name for name, _, _ in keys}

    def own_at(self, at: int) -> int:
        renamed = super().own_at(at)
        # names that end before it are so much longer, and what is in one's ending is at its end
        before = bisect_left([end + self._longer * (i + 1) for i, end in enumerate(self._ends)], renamed + 1)
        ended = self._ends[before] if before < len(self._ends) else len(self.own)
        return min(renamed - self._longer * before, ended)

    def own_place(self, line: int, column: int) -> tuple[int, int]:
        """Returns the line and the column in the caller's text of those in the text that is kept, all from 1."""
        # blanks before it aren't kept
        start = len(self.sent) - len(self.sent.lstrip())
        for _ in range(1, line):
            start = self.sent.find("\n", start) + 1
        at = self.own_at(start + column - 1)
        return self.own.count("\n", 0, at) + 1, at - self.own.rfind("\n", 0, at)


class Names:
    """The names that hidden definitions have in the caller's texts, by those that were sent."""

    def __init__(self) -> None:
        self._own: dict[str, str] = {}
        self._texts: dict[tuple[str, str], Hidden] = {}
        self._sent: re.Pattern[str] | None = None

    def add(self, text: Hidden) -> None:
        """Knows those of a text, too."""
        self._texts[text.module, text.sent.strip()] = text
        self._own.update(text.names)
        sent = "|".join(map(re.escape, sorted(self._own, key=len, reverse=True)))
        self._sent = re.compile(rf"(?<![\w'-])(?:{sent})(?![\w'-])") if sent else None

    def __bool__(self) -> bool:
        return self._sent is not None

    def text(self, module: str, sent: str) -> Hidden | None:
        """Returns the text of a module that is kept so, if it has hidden definitions."""
        return self._texts.get((module, sent))

    def own(self, said: str) -> str:
        """Returns what was said, with the caller's names."""
        return self._sent.sub(lambda it: self._own[it[0]], said) if self._sent else said

    def of(self, it: Diagnostic) -> Diagnostic:
        """Returns the diagnostic with the caller's names."""
        if not self:
            return it
        return it._replace(
            definition=it.definition and self.own(it.definition),
            message=self._sentence(it.message),
            excerpt=self._excerpt(it.excerpt),
            notes=tuple(map(self._sentence, it.notes)),
            steps=tuple((name and self.own(name), steps) for name, steps in it.steps),
        )

    def _excerpt(self, lines: tuple[str, ...]) -> tuple[str, ...]:
        if not lines:
            return lines
        line, sign = lines
        return self.own(line), " " * len(self.own(line[: len(sign) - 1])) + "^"

    def _sentence(self, it: Sentence) -> Sentence:
        text = it.text.encode()

        def place(at: int) -> int:
            return len(self.own(text[:at].decode()).encode())

        labels = tuple(label._replace(said=(place(label.said[0]), place(label.said[1]))) for label in it.labels)
        return it._replace(text=self.own(it.text), labels=labels)
