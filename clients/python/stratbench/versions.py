"""The client's version, and those of the program and of the library for C that it speaks to."""

from __future__ import annotations

import errno
import re
import subprocess
from functools import lru_cache
from typing import Final

CLIENT: Final = "1.3.0"
# The first version that the client speaks to, and the first one after it that it doesn't.
FROM: Final = (1, 3, 0)
BELOW: Final = (2, 0, 0)
# How long a program may take to say its version.
_SECONDS: Final = 10


class Misfit(OSError):
    """A program or a library of a version that the client doesn't speak to."""

    def __str__(self) -> str:
        return f"{self.filename}: {self.strerror}"


def check(file: str, said: str) -> None:
    """Raises `Misfit` where the version that a file says isn't one that the client speaks to.

    >>> check("stratbench", "stratbench 1.9.3")
    >>> check("stratbench", "stratbench 2.0.0")
    Traceback (most recent call last):
    stratbench.versions.Misfit: stratbench: it is version 2.0.0, and this client is for versions from 1.3.0 to below 2.0.0
    """
    found = re.match(r"(?:stratbench )?((\d+)\.(\d+)\.(\d+))", said)
    if found and FROM <= tuple(map(int, found.groups()[1:])) < BELOW:
        return
    what = f"is version {found[1]}" if found else "says no version"
    raise Misfit(errno.ENOEXEC, f"it {what}, and this client is for versions from {_text(FROM)} to below {_text(BELOW)}", file)


@lru_cache(maxsize=None)
def check_program(program: str) -> None:
    """Raises `Misfit` where the program is of a version that the client doesn't speak to, and another `OSError` where it can't be run."""
    try:
        ran = subprocess.run([program, "--version"], stdin=subprocess.DEVNULL, stdout=subprocess.PIPE, stderr=subprocess.DEVNULL, timeout=_SECONDS)
    except subprocess.TimeoutExpired:
        return check(program, "")
    check(program, ran.stdout.decode(errors="replace"))


def _text(version: tuple[int, ...]) -> str:
    return ".".join(map(str, version))
