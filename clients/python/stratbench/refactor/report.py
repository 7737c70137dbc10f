"""What is said of a run: a line of progress, a summary, where steps and time went, and a report as JSON."""

from __future__ import annotations

import json
import sys
import time
from collections import Counter
from collections.abc import Sequence
from typing import Final, NamedTuple, TextIO

from .task import Comment, Outcome

# The version of the report's form.
VERSION: Final = 1
# A line of progress is shown at most so often, in seconds.
_OFTEN: Final = 0.1


class Progress:
    """A line that says how many files are done, where the stream is a terminal. It goes before anything else is shown."""

    def __init__(self, files: int, stream: TextIO | None = None) -> None:
        self._files, self._stream = files, stream or sys.stderr
        self._shown, self._last = self._stream.isatty(), 0.0
        self._length = 0

    def done(self, files: int) -> None:
        """Shows that so many are done."""
        now = time.monotonic()
        if self._shown and now > self._last + _OFTEN:
            text = f"{files:,} of {counted(self._files, 'file')}"
            self._write(f"\r{text}{' ' * (self._length - len(text))}")
            self._last, self._length = now, len(text)

    def clear(self) -> None:
        """Takes the line away."""
        if self._length:
            self._write(f"\r{' ' * self._length}\r")
            self._length = 0

    def _write(self, text: str) -> None:
        self._stream.write(text)
        self._stream.flush()


def counted(number: int, what: str) -> str:
    """Returns the number with the word.

    >>> counted(1, "file"), counted(2030, "file")
    ('1 file', '2,030 files')
    """
    return f"{number:,} {what}{'s' * (number != 1)}"


class Left(NamedTuple):
    """A file that is left as it is, and why."""

    file: str
    why: str


class Tally:
    """What came of all files. `unread` are those that couldn't be read. `rule` is the one that the strategy has, where it has one."""

    def __init__(self, unread: Sequence[Left], rule: str | None = None) -> None:
        self.outcomes: list[Outcome] = []
        self.unread, self.rule = list(unread), rule

    @property
    def changed(self) -> list[Outcome]:
        return [it for it in self.outcomes if it.contents is not None]

    @property
    def left(self) -> list[Left]:
        """The files that are left as they are."""
        return [*self.unread, *(Left(it.name, it.left) for it in self.outcomes if it.left)]

    def comments(self, left: bool) -> list[Comment]:
        """The comments that are lost, or those for which places are left."""
        return [comment for it in self.outcomes for comment in it.comments if comment.left == left]

    def summary(self, written: bool) -> str:
        """Returns a line that says what was done.

        >>> tally = Tally([Left("a.py", "No such file")])
        >>> tally.outcomes += [Outcome("b.py", b"x", places=(1, 3), comments=(Comment(1, "# why", False),)), Outcome("c.py")]
        >>> tally.summary(True)
        '1 of 3 files changed, 2 places; 1 comment lost; 1 file left'
        """
        files = len(self.outcomes) + len(self.unread)
        parts = [f"{len(self.changed):,} of {counted(files, 'file')} {'changed' if written else 'would change'}"]
        parts[0] += f", {counted(sum(len(it.places) for it in self.changed), 'place')}" * bool(self.changed)
        lost, kept = self.comments(False), self.comments(True)
        parts += [f"{counted(len(lost), 'comment')} {'lost' if written else 'would be lost'}"] * bool(lost)
        parts += [f"places left for {counted(len(kept), 'comment')}"] * bool(kept)
        parts += [f"{counted(len(self.left), 'file')} left"] * bool(self.left)
        return "; ".join(parts)

    def profile(self) -> str:
        """Returns lines that say where the steps and the time went."""
        steps: Counter[str] = Counter()
        seconds: dict[str, float] = {}
        for it in self.outcomes:
            for name, number in it.steps:
                steps[name] += number
            for name, took in it.seconds:
                seconds[name] = seconds.get(name, 0) + took
        shown = ", ".join(f"`{name}` {number:,}" if name != "the command" else f"`--do` {number:,}" for name, number in steps.most_common())
        return f"steps: {shown or 'none'}\nseconds: {', '.join(f'{name} {took:.2f}' for name, took in seconds.items())}"

    def report(self, status: int, written: bool) -> str:
        """Returns the report as JSON. The manual has its form."""
        files = [self._file(it) for it in self.outcomes if it.contents is not None or it.comments or it.left]
        files += [{"file": it.file, "changed": False, "places": [], "lost": [], "kept": [], "left": it.why} for it in self.unread]
        counts = {
            "files": len(self.outcomes) + len(self.unread),
            "changed": len(self.changed),
            "places": sum(len(it.places) for it in self.changed),
            "lost": len(self.comments(False)),
            "kept": len(self.comments(True)),
            "left": len(self.left),
        }
        return json.dumps({"version": VERSION, "status": status, "written": written, "counts": counts, "files": files}, indent=1) + "\n"

    def _file(self, it: Outcome) -> dict[str, object]:
        return {
            "file": it.name,
            "changed": it.contents is not None,
            "places": [{"line": line, "rule": self.rule} for line in it.places],
            "lost": [{"line": one.line, "comment": one.text} for one in it.comments if not one.left],
            "kept": [{"line": one.line, "comment": one.text} for one in it.comments if one.left],
            "left": it.left or None,
        }


def said(outcome: Outcome) -> list[str]:
    """Returns the lines that are said of a file."""
    what = {False: "comment lost", True: "left, since a comment would be lost"}
    lines = [f"{outcome.name}:{it.line}: {what[it.left]}: {it.text}" for it in outcome.comments]
    return [*lines, *outcome.said, *[outcome.left] * bool(outcome.left)]
