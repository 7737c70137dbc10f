"""Which files are done, in which language, and their contents."""

from __future__ import annotations

import os
import subprocess
import sys
from collections.abc import Iterable, Iterator
from typing import Final, Optional, Union

from .. import languages

# The name of standard input.
STANDARD: Final = "-"


def found(names: Iterable[str], language: Optional[str] = None) -> Iterator[str]:
    """Yields the files of these names, and of folders all files of a language, or of any, but for those that Git ignores there."""
    for name in names:
        if name == STANDARD or not os.path.isdir(name):
            yield name
        else:
            yield from _in_folder(name, language)


def _in_folder(name: str, language: Optional[str]) -> Iterator[str]:
    listed = _listed(name)
    for folder, folders, files in os.walk(name):
        if listed is not None:
            folders[:] = [it for it in folders if os.path.join(folder, it) in listed]
        folders.sort()
        for it in sorted(files):
            own = languages.name_of(it)
            file = os.path.join(folder, it)
            if own is not None and language in (None, own) and (listed is None or file in listed):
                yield file


# The files of a folder that Git doesn't ignore, and the folders that they are in; nothing where Git has no answer.
def _listed(name: str) -> Optional[set[str]]:
    ignored = _git(name, "check-ignore", "-q", ".")
    if ignored is None or ignored.returncode != 1:
        # no repository, or who names an ignored folder wants what is in it
        return None
    listed = _git(name, "ls-files", "-z", "--cached", "--others", "--exclude-standard")
    if listed is None or listed.returncode:
        return None
    found: set[str] = set()
    for it in listed.stdout.split(b"\0"):
        file = os.fsdecode(it)
        while file:
            found.add(os.path.join(name, file))
            file = os.path.dirname(file)
    return found


def _git(folder: str, *words: str) -> Union[subprocess.CompletedProcess[bytes], None]:
    try:
        return subprocess.run(["git", *words], cwd=folder, stdin=subprocess.DEVNULL, capture_output=True)
    except OSError:
        return None


def read(names: Iterable[str]) -> Iterator[tuple[str, bytes | str]]:
    """Yields files with their contents, or why they can't be read."""
    for name in names:
        try:
            if name == STANDARD:
                yield name, sys.stdin.buffer.read()
                continue
            with open(name, "rb") as it:
                yield name, it.read()
        except OSError as error:
            yield name, error.strerror or str(error)


def by_language(work: Iterable[tuple[str, bytes]], language: Optional[str]) -> dict[Optional[str], list[tuple[str, bytes]]]:
    """Returns files by their languages, under nothing those of which it isn't known."""
    found: dict[Optional[str], list[tuple[str, bytes]]] = {}
    for name, contents in work:
        found.setdefault(language or languages.name_of(name), []).append((name, contents))
    return found
