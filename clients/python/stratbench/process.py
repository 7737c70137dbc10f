"""A process of the program, which is sent scripts and read line by line."""

from __future__ import annotations

import contextlib
import os
import re
import select
import subprocess
import tempfile
import time
import weakref
from collections.abc import Sequence
from typing import IO, Final


class Process:
    """The program, run with these words. What it says on standard error goes to a file, so that nobody has to read it for
    the program to go on. It is in a session of its own, so that Ctrl-C doesn't end it. It ends with this value at the latest."""

    # All that is sent is one script.
    goes_on: Final = True

    def __init__(self, words: Sequence[str]) -> None:
        self._said: IO[bytes] = tempfile.TemporaryFile()
        try:
            self._ran = subprocess.Popen(
                words, stdin=subprocess.PIPE, stdout=subprocess.PIPE, stderr=self._said, start_new_session=True
            )
        except OSError:
            self._said.close()
            raise
        self._got = bytearray()
        self._heard = 0
        self._last = ""
        weakref.finalize(self, _finish, os.getpid(), self._ran, self._said)

    @property
    def status(self) -> int | None:
        """The exit status, once the program has ended."""
        return self._ran.returncode

    def write(self, script: str) -> None:
        """Sends a text. Raises `EOFError` where the program has ended."""
        if self._ran.returncode is not None:
            raise EOFError
        assert self._ran.stdin
        try:
            self._ran.stdin.write(script.encode(errors="surrogateescape"))
            self._ran.stdin.flush()
        except BrokenPipeError:
            raise EOFError from None

    def line(self, until: float | None) -> str:
        """Returns the next line. Raises `EOFError` where none comes, and `TimeoutError` where none has come by that time."""
        assert self._ran.stdout
        while (end := self._got.find(b"\n")) < 0:
            if until is not None:
                waiting = select.poll()
                waiting.register(self._ran.stdout, select.POLLIN)
                if not waiting.poll(max(0, until - time.monotonic()) * 1_000):
                    raise TimeoutError
            more = os.read(self._ran.stdout.fileno(), 1 << 16)
            if not more:
                raise EOFError
            self._got += more
        line = self._got[:end].decode(errors="surrogateescape")
        del self._got[: end + 1]
        return line

    def said(self) -> str:
        """Returns what the program has said since the last time; once it has ended, what it said last."""
        if self._said.closed:
            return self._last
        length = os.fstat(self._said.fileno()).st_size - self._heard
        if not length:
            return ""
        said = os.pread(self._said.fileno(), length, self._heard)
        self._heard += len(said)
        return said.decode(errors="replace")

    def end(self, kill: bool = False) -> int:
        """Closes the pipes, waits for the end, and returns the exit status."""
        if kill and self._ran.returncode is None:
            self._ran.kill()
        _close(self._ran)
        if not self._said.closed:
            self._last = self.said()
            self._said.close()
        return int(self._ran.returncode)


def _close(ran: subprocess.Popen[bytes]) -> None:
    assert ran.stdin and ran.stdout
    with contextlib.suppress(OSError):
        ran.stdin.close()
    while not ran.stdout.closed and os.read(ran.stdout.fileno(), 1 << 16):
        pass
    ran.stdout.close()
    ran.wait()


def _finish(owner: int, ran: subprocess.Popen[bytes], said: IO[bytes]) -> None:
    # a process that was forked off has the pipes, too
    if os.getpid() == owner:
        _close(ran)
        said.close()
