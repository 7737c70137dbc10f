"""A front end: a process that is sent sources and answers with their terms, one after the other, as long as the command runs.

    parse KIND PLACES LENGTH\\n<source>  ->  ok TERMS LEVELS LENGTH\\n<term>\\n  or  no OFFSET LENGTH\\n<message>\\n

KIND is what the front end has to know of the file, PLACES is 1 where nodes have positions, and LENGTH counts bytes.
"""

from __future__ import annotations

import os
import subprocess
import tempfile
import threading
import weakref
from collections.abc import Callable, Sequence
from typing import IO, NamedTuple, Optional, Union

from ..patch.dialect import Wrong
from .language import Missing


class Parsed(NamedTuple):
    """A term as text, which is read only where something changes, with its size and its height."""

    text: bytes
    terms: int
    levels: int


class Front:
    """A front end, which is started when it is needed, by these words. `missing` says what to install where it can't be."""

    def __init__(self, words: Callable[[], Sequence[str]], missing: str) -> None:
        self._words, self._missing = words, missing
        self._process: Optional[subprocess.Popen[bytes]] = None
        self._said: Optional[IO[bytes]] = None
        self._owner = 0

    def parsed(self, kind: str, sources: Sequence[bytes], places: bool) -> list[Union[Parsed, Wrong]]:
        """Returns the terms of sources, in order, or what is wrong with them. Raises `Missing`."""
        process = self._running()
        assert process.stdin and process.stdout
        # a thread, so that neither of the two pipes waits for the other
        sender = threading.Thread(target=_send, args=(process.stdin, kind, sources, places))
        sender.start()
        try:
            return [self._answer(process.stdout) for _ in sources]
        finally:
            sender.join()

    def _running(self) -> subprocess.Popen[bytes]:
        # one that was started before a fork is the other process's
        if self._process is None or self._owner != os.getpid():
            # what it says goes to a file, so that nobody has to read it for the process to go on
            self._said = tempfile.TemporaryFile()
            try:
                self._process = subprocess.Popen(self._words(), stdin=subprocess.PIPE, stdout=subprocess.PIPE, stderr=self._said)
            except OSError as error:
                raise Missing(f"{self._missing} ({error})") from None
            self._owner = os.getpid()
            weakref.finalize(self, _end, self._owner, self._process)
        return self._process

    def _answer(self, answers: IO[bytes]) -> Union[Parsed, Wrong]:
        words = answers.readline().split()
        if not words:
            raise self._ended()
        said = answers.read(int(words[-1]) + 1)[:-1]
        if words[0] == b"ok":
            return Parsed(said, int(words[1]), int(words[2]))
        return Wrong(int(words[1]), said.decode(errors="replace"))

    def _ended(self) -> Missing:
        process, self._process = self._process, None
        assert process is not None and self._said is not None
        status = process.wait()
        self._said.seek(0)
        said = self._said.read().decode(errors="replace").strip().splitlines()
        why = next((it for it in said if "Error" in it or "error" in it), said[-1] if said else f"status {status}")
        return Missing(f"{self._missing} ({why})")


def _send(out: IO[bytes], kind: str, sources: Sequence[bytes], places: bool) -> None:
    try:
        for it in sources:
            out.write(b"parse %s %d %d\n%s" % (kind.encode(), places, len(it), it))
        out.flush()
    except BrokenPipeError:
        # who waits for the answers sees that it ended
        pass


def _end(owner: int, process: subprocess.Popen[bytes]) -> None:
    if os.getpid() == owner and process.stdin:
        process.stdin.close()
        process.wait()
