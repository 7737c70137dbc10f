"""Texts, and places in them: bytes, characters, and lines with columns in UTF-16, by which editors count."""

from __future__ import annotations

import bisect
import os
import urllib.parse
import urllib.request
from functools import cached_property
from typing import Any

from . import reading
from .checking import Sent


def path_of(uri: str) -> str:
    """Returns the file that a URI names."""
    return urllib.request.url2pathname(urllib.parse.urlparse(uri).path)


def uri_of(path: str) -> str:
    """Returns the URI of a file.

    >>> path_of(uri_of("/a b/ü.str")), uri_of("/a b/c.str")
    ('/a b/ü.str', 'file:///a%20b/c.str')
    """
    return "file://" + urllib.request.pathname2url(os.path.abspath(path))


class Text:
    """A text with its lines, and as a module."""

    def __init__(self, text: str) -> None:
        self.text = text
        self.lines = text.split("\n")
        self.starts = [0]
        for line in self.lines[:-1]:
            self.starts.append(self.starts[-1] + len(line) + 1)

    @cached_property
    def module(self) -> reading.Module:
        """What stands in it."""
        return reading.read(self.text)

    @cached_property
    def name(self) -> str | None:
        """The name that the module gives itself."""
        return reading.name_of(self.text)

    @cached_property
    def sent(self) -> Sent:
        """What the program is sent."""
        return Sent(self.text)

    def position(self, place: int) -> dict[str, int]:
        """Returns the position of a character.

        >>> Text("a\\n𝄞b").position(3)
        {'line': 1, 'character': 2}
        """
        line = bisect.bisect_right(self.starts, place) - 1
        return {"line": line, "character": _units(self.text[self.starts[line] : place])}

    def line_and_column(self, place: int) -> tuple[int, int]:
        """Returns the line and the column of a character, both counted from 1."""
        line = bisect.bisect_right(self.starts, place)
        return line, place - self.starts[line - 1] + 1

    def place(self, position: dict[str, int]) -> int:
        """Returns the character at a position; one outside of the text is the nearest.

        >>> Text("a\\n𝄞b").place({"line": 1, "character": 2}), Text("a").place({"line": 4, "character": 0})
        (3, 1)
        """
        number = position["line"]
        if number >= len(self.lines):
            return len(self.text)
        line, units = self.lines[number], 0
        for count, character in enumerate(line):
            if units >= position["character"]:
                return self.starts[number] + count
            units += _units(character)
        return self.starts[number] + len(line)

    def range(self, begin: int, end: int) -> dict[str, Any]:
        """Returns a range of characters."""
        return {"start": self.position(begin), "end": self.position(end)}

    def changed(self, change: dict[str, Any]) -> Text:
        """Returns the text after a change, as an editor tells it."""
        if "range" not in change:
            return Text(change["text"])
        begin, end = self.place(change["range"]["start"]), self.place(change["range"]["end"])
        return Text(self.text[:begin] + change["text"] + self.text[end:])


def _units(text: str) -> int:
    return len(text.encode("utf-16-le", "surrogatepass")) // 2
