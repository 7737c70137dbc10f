"""A session in this process: the shared object of the library for C, in place of a process of the program."""

from __future__ import annotations

import ctypes
import os
import threading
import weakref
from collections.abc import Callable
from typing import Final

from . import versions

# What the calls return, as clients/c/stratbench.h says.
_REFUSED: Final = 1
_NO_BUDGET: Final = 4
_NO_LIMITS: Final = 5
_STOPPED: Final = 6
# The greatest number that a call takes.
_MOST: Final = (1 << 32) - 1
# Explanations are wanted as JSON.
_AS_JSON: Final = 2


class Stopped(Exception):
    """A command that `Stratbench.stop` stopped, and that changed nothing."""

    def __str__(self) -> str:
        return "another thread stopped it"


class _Room:
    # Bytes, aligned as a handle is.
    def __init__(self, size: int) -> None:
        self._bytes = ctypes.create_string_buffer(size + 15)
        self.handle = ctypes.addressof(self._bytes) + -ctypes.addressof(self._bytes) % 16


class Embedded:
    """A session of the shared object at this path, read and written as a `Process` is. It is used by one thread at a time, but for
    `stop`."""

    # Each text that is sent is a script of its own.
    goes_on: Final = False

    def __init__(self, path: str, library: bool, steps: int, limits: tuple[int, int]) -> None:
        self._calls = _calls_of(path)
        session, stopper = _Room(self._calls.stratbench_size()), _Room(self._calls.stratbench_stopper_size())
        self._handle, self._stopper = session.handle, stopper.handle
        # held where the stopper is used; a handler of a signal may stop what its own thread is at
        self._stops = threading.RLock()
        self._is_running = self._is_asked = False
        self._steps = steps
        self._room = ctypes.create_string_buffer(1 << 16)
        self._got = bytearray()
        self._lock = threading.Lock()
        self._worst = 0
        self.status: int | None = None
        """The exit status, once the session has ended."""
        self._calls.stratbench_new(self._handle)
        self._calls.stratbench_stopper_new(self._handle, self._stopper)
        self._drop = weakref.finalize(self, _drop, os.getpid(), self._calls, session, stopper)
        # a number that C can't have is out of range, too
        limited = self._calls.stratbench_limits(self._handle, *(max(0, min(it, _MOST)) for it in limits))
        if limited == _NO_LIMITS:
            self._drop()
            raise ValueError("the limits are too low or too high")
        if limited or self._calls.stratbench_explain(self._handle, _AS_JSON) or library and self._calls.stratbench_library(self._handle):
            self._drop()
            raise MemoryError("no memory for a session")

    def write(self, script: str) -> None:
        """Runs a text. Raises `EOFError` where the session has ended, `MemoryError` where not all of it is answered for want of memory, and
        `Stopped` where it was stopped: then none of its answers is kept."""
        if self.status is not None:
            raise EOFError
        # the start of a next command belongs to none here
        text = script.removesuffix("\r ").encode(errors="surrogateescape")
        with self._lock:
            status = self._run(text)
            if status == _STOPPED:
                raise Stopped
            self._got += self._copied(self._calls.stratbench_copy)
        self._worst = max(self._worst, status)
        if status == _NO_BUDGET:
            raise ValueError("the steps are not from 1 to the greatest budget")
        if status > _REFUSED:
            raise MemoryError("no memory for an answer")

    def stop(self) -> None:
        """Stops the text that is being run; where there is none, nothing happens. Any thread may call this. Raises `MemoryError` where
        there was no memory to be able to."""
        with self._stops:
            if self._is_running:
                self._is_asked = True
                if self._calls.stratbench_stop(self._stopper):
                    raise MemoryError("no memory for a stopper")

    def line(self, until: float | None) -> str:
        """Returns the next line. Raises `EOFError` where there is none."""
        end = self._got.find(b"\n")
        if end < 0:
            raise EOFError
        line = self._got[:end].decode(errors="surrogateescape")
        del self._got[: end + 1]
        return line

    def said(self) -> str:
        """Returns what was said of the last text."""
        if self.status is not None:
            return ""
        with self._lock:
            said = self._copied(self._calls.stratbench_hints)
        return said.decode(errors="replace")

    def end(self, kill: bool = False) -> int:
        """Ends the session, and returns the greatest status of its texts: 1 if a command was refused, as of the program."""
        self._drop()
        self.status = self._worst
        return self.status

    # Runs a text, which may be stopped meanwhile. A stop stays, so the next text has a stopper that nobody has used.
    def _run(self, text: bytes) -> int:
        with self._stops:
            self._is_running = True
        try:
            return int(self._calls.stratbench_run(self._handle, text, len(text), self._steps))
        finally:
            with self._stops:
                self._is_running = False
                if self._is_asked:
                    self._is_asked = False
                    self._calls.stratbench_stopper_drop(self._stopper)
                    self._calls.stratbench_stopper_new(self._handle, self._stopper)

    # What a call copies.
    def _copied(self, copy: Callable[[int, object, int], int]) -> bytes:
        length = copy(self._handle, self._room, len(self._room))
        if length > len(self._room):
            self._room = ctypes.create_string_buffer(2 * length)
            length = copy(self._handle, self._room, len(self._room))
        return ctypes.string_at(self._room, length)


def _drop(owner: int, calls: ctypes.CDLL, session: _Room, stopper: _Room) -> None:
    # in a process that was forked off the session may be in the middle of a call
    if os.getpid() == owner:
        calls.stratbench_stopper_drop(stopper.handle)
        calls.stratbench_drop(session.handle)


def _calls_of(path: str) -> ctypes.CDLL:
    calls = ctypes.CDLL(path)
    version = getattr(calls, "stratbench_version", None)
    if version is not None:
        version.restype = ctypes.c_char_p
    versions.check(path, version().decode() if version else "")
    pointer, length, number = ctypes.c_void_p, ctypes.c_size_t, ctypes.c_uint32
    for name, given, result in (
        ("size", (), length),
        ("new", (pointer,), None),
        ("limits", (pointer, number, number), number),
        ("library", (pointer,), number),
        ("explain", (pointer, number), number),
        ("run", (pointer, ctypes.c_char_p, length, number), number),
        ("copy", (pointer, pointer, length), length),
        ("hints", (pointer, pointer, length), length),
        ("stopper_size", (), length),
        ("stopper_new", (pointer, pointer), None),
        ("stop", (pointer,), number),
        ("stopper_drop", (pointer,), None),
        ("drop", (pointer,), None),
    ):
        call = getattr(calls, f"stratbench_{name}")
        call.argtypes, call.restype = given, result
    return calls
