"""Where what a command shows goes: to the terminal, through a pager where it is longer, to a file, or to another program."""

from __future__ import annotations

import os
import re
import shlex
import shutil
import signal
import subprocess
import sys
import threading
import time
from types import TracebackType
from typing import Final, Literal, NamedTuple

# The commands after which a file or a program may be named: no text follows them in which the signs mean something else.
_ENDING: Final = (
    *("show", "pretty", "text", "dump", "trees", "modules", "history", "diff"),
    *(":history", ":diff", ":why", ":help", ":info", ":browse", ":set"),
)  # fmt: skip
# After so many seconds it is said how long a command has run.
_LONG: Final = 2.0


class Target(NamedTuple):
    """A file that is written, or goes on, or a program that reads what is shown."""

    kind: Literal[">", ">>", "|"]
    what: str


def split_target(command: str) -> tuple[str, Target | None]:
    """Splits what follows `>`, `>>` or `|` off a command that shows something.

    >>> split_target("show t at /0 > 'a file'")
    ('show t at /0', Target(kind='>', what='a file'))
    >>> split_target(":browse | grep '|'")
    (':browse', Target(kind='|', what="grep '|'"))
    >>> split_target("apply t do f(|x)")
    ('apply t do f(|x)', None)
    """
    words = command.split(None, 1)
    found = re.search(r"\s(>>?|\|)\s*(\S.*)", command, re.DOTALL) if words and words[0] in _ENDING else None
    if found is None:
        return command, None
    kind: Literal[">", ">>", "|"] = "|" if found[1] == "|" else ">" if found[1] == ">" else ">>"
    what = found[2].strip()
    if kind != "|":
        what = os.path.expanduser(" ".join(shlex.split(what)))
    return command[: found.start()], Target(kind, what)


def deliver(text: str, target: Target) -> str:
    """Writes a text where it belongs. Returns what there is to say of that."""
    content = f"{text}\n".encode(errors="surrogateescape")
    if target.kind == "|":
        status = _given(target.what, content)
        return f"`{target.what}` ended with the status {status}" if status else ""
    with open(target.what, "ab" if target.kind == ">>" else "wb") as it:
        it.write(content)
    return f"{len(content)} bytes"


def page(text: str) -> bool:
    """Shows a text by the pager that the environment's PAGER names, else `less`. Returns whether there is one."""
    pager = os.environ.get("PAGER") or "less"
    if not shutil.which(shlex.split(pager)[0]):
        return False
    # so `less` shows colours, and ends at once where all fits
    os.environ.setdefault("LESS", "-FRX")
    _given(pager, f"{text}\n".encode(errors="surrogateescape"))
    return True


def is_long(text: str) -> bool:
    """Whether a text doesn't fit on the terminal's screen."""
    screen = shutil.get_terminal_size()
    rows = (max(1, -(-len(line) // max(1, screen.columns))) for line in text.split("\n"))
    return sum(rows) >= screen.lines


# Gives bytes to a program of the system's shell, to which Ctrl-C belongs while it runs. Returns its status.
def _given(program: str, content: bytes) -> int:
    sys.stdout.flush()
    before = signal.signal(signal.SIGINT, lambda number, frame: None)
    try:
        return subprocess.run(program, shell=True, input=content, check=False).returncode
    finally:
        signal.signal(signal.SIGINT, before)


class Clock:
    """Says in a line of the terminal how long a command has run, once that is long, and how long it took."""

    def __init__(self, shows: bool) -> None:
        self._shows, self._ended, self._lock = shows, threading.Event(), threading.Lock()
        self._begun, self._shown = time.monotonic(), False
        self.seconds = 0.0

    def __enter__(self) -> Clock:
        if self._shows:
            threading.Thread(target=self._run, daemon=True).start()
        return self

    def __exit__(self, kind: type[BaseException] | None, error: BaseException | None, trace: TracebackType | None) -> None:
        self._ended.set()
        self.seconds = time.monotonic() - self._begun
        self.clear()

    def clear(self) -> None:
        """Takes the line away."""
        with self._lock:
            if self._shown:
                self._shown = False
                sys.stdout.write("\r\x1b[K")
                sys.stdout.flush()

    def _run(self) -> None:
        wait = _LONG
        while not self._ended.wait(wait):
            wait = 1.0
            with self._lock:
                if not self._ended.is_set():
                    sys.stdout.write(f"\r{time.monotonic() - self._begun:.0f} s; Ctrl-C stops it\x1b[K")
                    sys.stdout.flush()
                    self._shown = True
