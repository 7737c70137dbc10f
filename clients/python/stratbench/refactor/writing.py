"""Files are changed all or none: also where that is stopped by a signal, or cut off.

A new file is made beside each, and the old one gets a second name there. Then the new ones are moved to their places, one after the
other. Until the last move is done, what was moved can be put back: by the writer itself where a file can't be moved or a signal comes,
and by the next run where the writer was killed. For that a journal names all files before the first is made. It is locked as long as its
writer lives.

    >>> import tempfile
    >>> with tempfile.TemporaryDirectory() as room:
    ...     name = f"{room}/a.py"
    ...     for text in (b"old", b"new"):
    ...         with open(name, "wb") as it:
    ...             _ = it.write(text)
    ...         try:
    ...             write_all([(name, b"old", b"newer")], state=f"{room}/state")
    ...         except WriteFault as error:
    ...             print(str(error).replace(room, ""))
    ...         else:
    ...             print(open(name).read())
    newer
    /a.py: it was changed meanwhile
"""

from __future__ import annotations

import contextlib
import errno
import fcntl
import hashlib
import json
import os
import secrets
import signal
import socket
import stat
from collections.abc import Iterator, Sequence
from types import FrameType
from typing import Final, NamedTuple

# The signals that stop a run. What they stop is put back.
STOPPING: Final = (signal.SIGINT, signal.SIGTERM, signal.SIGHUP)
# The last line of the journal of a writer that moved all its files.
_DONE: Final = b"done\n"
# How the name of a journal ends, and what comes after that until it is complete.
_JOURNAL, _BEGUN = ".journal", ".begun"
# Attributes of a file that belong to its user.
_ATTRIBUTES: Final = ("user.", "system.posix_acl_access")


class WriteFault(Exception):
    """A file that couldn't be written. All are as they were, but for those that it names."""


class Stopped(BaseException):
    """A signal that stopped a run. All files are as they were."""

    def __init__(self, number: int) -> None:
        super().__init__(f"stopped by {signal.Signals(number).name}")
        self.number = number


class _Entry(NamedTuple):
    """A file that is written: its place, the names of the new file and of the old one beside it, and what both have, as digests."""

    real: str
    new: str
    old: str
    before: str
    after: str


def write_all(files: Sequence[tuple[str, bytes, bytes]], state: str | None = None) -> None:
    """Writes files, all or none: each with its name, what it has, and what it is to have. The journal is kept in the folder `state`."""
    named = {os.path.realpath(name): (name, before, after) for name, before, after in files}
    token = secrets.token_hex(6)
    entries = [_entry(real, f".stratbench-{token}-{at}", before, after) for at, (real, (_, before, after)) in enumerate(named.items())]
    if not entries:
        return
    with _signals():
        journal = _Journal(state or state_folder(), f"{socket.gethostname()}-{token}{_JOURNAL}")
        try:
            journal.begin(entries)
            for entry, (name, before, after) in zip(entries, named.values()):
                _prepare(entry, name, before, after)
            _sync_folders(entries)
            for entry, (name, before, _) in zip(entries, named.values()):
                _move(entry, name, before)
            _sync_folders(entries)
            checkpoint()
            journal.write(_DONE)
        except BaseException as error:
            changed = _put_back(entries).left
            journal.end()
            if changed or isinstance(error, OSError):
                raise WriteFault("; ".join([str(error), *changed])) from None
            raise
        _clean(entries)
        journal.end()


# The number of the signal that came, while files are written.
_came: list[int] = []


def checkpoint() -> None:
    """Is called between any two steps that change something. Raises `Stopped` where a signal has come."""
    if _came:
        raise Stopped(_came[0])


# Lets signals wait for the next step. They are those of the main thread.
@contextlib.contextmanager
def _signals() -> Iterator[None]:
    def note(number: int, frame: FrameType | None) -> None:
        _came.append(number)

    before = {}
    with contextlib.suppress(ValueError):
        for it in STOPPING:
            before[it] = signal.signal(it, note)
    try:
        yield
    finally:
        for number, handler in before.items():
            signal.signal(number, handler)
        _came.clear()


def _digest(contents: bytes) -> str:
    return hashlib.sha256(contents).hexdigest()


def _entry(real: str, begin: str, before: bytes, after: bytes) -> _Entry:
    beside = os.path.join(os.path.dirname(real), begin)
    return _Entry(real, f"{beside}.new", f"{beside}.old", _digest(before), _digest(after))


# Looks at a file, makes the new one beside it, and gives the old one a second name.
def _prepare(entry: _Entry, name: str, before: bytes, after: bytes) -> None:
    there = os.stat(entry.real)
    if _contents(entry.real) != before:
        raise WriteFault(f"{name}: it was changed meanwhile")
    if not stat.S_IMODE(there.st_mode) & 0o222 or not os.access(entry.real, os.W_OK):
        raise WriteFault(f"{name}: it may not be written")
    if there.st_nlink > 1:
        raise WriteFault(f"{name}: it has {there.st_nlink} names, as hard links, and would keep its text under the others")
    _make(entry.new, after, entry.real, there, name)
    checkpoint()
    try:
        os.link(entry.real, entry.old)
    except OSError as error:
        if error.errno not in (errno.EPERM, errno.ENOTSUP, errno.EOPNOTSUPP, errno.EMLINK, errno.ENOSYS):
            raise
        # a file system without hard links
        _make(entry.old, before, entry.real, there, name)
    checkpoint()


def _contents(name: str) -> bytes:
    with open(name, "rb") as it:
        return it.read()


# Makes a file with these contents, and the owner, group, permissions and attributes of another.
def _make(name: str, contents: bytes, like: str, there: os.stat_result, shown: str) -> None:
    checkpoint()
    handle = os.open(name, os.O_WRONLY | os.O_CREAT | os.O_EXCL | os.O_CLOEXEC, 0o600)
    try:
        checkpoint()
        with open(handle, "wb", closefd=False) as it:
            it.write(contents)
        _like(handle, like, there, shown)
        checkpoint()
        os.fsync(handle)
    finally:
        os.close(handle)


def _like(handle: int, like: str, there: os.stat_result, shown: str) -> None:
    made = os.fstat(handle)
    wanted = there.st_uid, there.st_gid, stat.S_IMODE(there.st_mode)
    try:
        if (made.st_uid, made.st_gid) != wanted[:2]:
            os.fchown(handle, *wanted[:2])
        if hasattr(os, "listxattr"):
            for it in os.listxattr(like):
                if it.startswith(_ATTRIBUTES):
                    os.setxattr(handle, it, os.getxattr(like, it))
        # after the owner, since a change of that takes the bits of setuid and setgid away
        os.fchmod(handle, wanted[2])
    except OSError as error:
        if error.errno not in (errno.EPERM, errno.EACCES, errno.ENOTSUP):
            raise
    made = os.fstat(handle)
    if (made.st_uid, made.st_gid, stat.S_IMODE(made.st_mode)) != wanted:
        raise WriteFault(f"{shown}: its owner, group and permissions can't be kept")


# Looks at a file once more, and moves the new one to its place.
def _move(entry: _Entry, name: str, before: bytes) -> None:
    checkpoint()
    if _contents(entry.real) != before:
        raise WriteFault(f"{name}: it was changed meanwhile")
    os.replace(entry.new, entry.real)


class Recovered(NamedTuple):
    """The files that were put back, those whose writing was finished, and why others were left."""

    back: list[str]
    finished: list[str]
    left: list[str]


# Puts back what was moved, but for what somebody else has changed since. The old text of that is kept.
def _put_back(entries: Sequence[_Entry]) -> Recovered:
    found = Recovered([], [], [])
    kept = []
    for entry in entries:
        _seen()
        # what isn't moved yet is beside its file
        if os.path.lexists(entry.new) or not os.path.lexists(entry.old):
            continue
        now = _digest(_contents(entry.real)) if os.path.exists(entry.real) else entry.after
        if now == entry.after:
            os.replace(entry.old, entry.real)
            found.back.append(entry.real)
        elif now != entry.before:
            found.left.append(f"{entry.real}: it was changed since it was written, and its old text is in {entry.old}")
            kept.append(entry)
    _sync_folders(entries)
    _clean([it._replace(old=it.new) if it in kept else it for it in entries])
    return found


# Takes away what is beside the files.
def _clean(entries: Sequence[_Entry]) -> None:
    for entry in entries:
        # the new one last, since it says that nothing was moved
        for name in (entry.old, entry.new):
            _seen()
            with contextlib.suppress(FileNotFoundError):
                os.unlink(name)


# Is called between the steps that take back or clean up, which no signal stops.
def _seen() -> None:
    with contextlib.suppress(Stopped):
        checkpoint()


def _sync_folders(entries: Sequence[_Entry]) -> None:
    for folder in sorted({os.path.dirname(it.real) for it in entries}):
        _seen()
        _sync(folder)


def _sync(folder: str) -> None:
    handle = os.open(folder, os.O_RDONLY | os.O_DIRECTORY)
    try:
        os.fsync(handle)
    except OSError as error:
        # some file systems have nothing of the kind
        if error.errno not in (errno.EINVAL, errno.ENOTSUP):
            raise
    finally:
        os.close(handle)


def state_folder() -> str:
    """Returns the folder of the user's journals."""
    return os.path.join(os.environ.get("XDG_STATE_HOME") or os.path.expanduser("~/.local/state"), "stratbench")


class _Journal:
    """A journal in a folder, which is open and locked from `begin` to `end`."""

    def __init__(self, folder: str, name: str) -> None:
        self._folder, self._name = folder, os.path.join(folder, name)
        self._handle = -1

    def begin(self, entries: Sequence[_Entry]) -> None:
        try:
            os.makedirs(self._folder, mode=0o700, exist_ok=True)
            checkpoint()
            self._handle = os.open(f"{self._name}{_BEGUN}", os.O_RDWR | os.O_CREAT | os.O_EXCL | os.O_CLOEXEC, 0o600)
            checkpoint()
            fcntl.flock(self._handle, fcntl.LOCK_EX | fcntl.LOCK_NB)
            self.write(json.dumps([list(it) for it in entries]).encode() + b"\n")
            checkpoint()
            os.rename(f"{self._name}{_BEGUN}", self._name)
            _sync(self._folder)
        except OSError as error:
            raise WriteFault(f"no journal can be kept in {self._folder}: {error.strerror}") from None
        checkpoint()

    def write(self, line: bytes) -> None:
        os.write(self._handle, line)
        os.fsync(self._handle)

    def end(self) -> None:
        for name in (f"{self._name}{_BEGUN}", self._name):
            _seen()
            with contextlib.suppress(OSError):
                os.unlink(name)
        if self._handle >= 0:
            os.close(self._handle)


def recover(state: str | None = None) -> Recovered:
    """Puts back, or finishes, what writers of this user on this machine left that were killed."""
    found = Recovered([], [], [])
    folder = state or state_folder()
    names = sorted(os.listdir(folder)) if os.path.isdir(folder) else []
    with _signals():
        for it in names:
            if it.startswith(f"{socket.gethostname()}-") and it.endswith((_JOURNAL, _JOURNAL + _BEGUN)):
                for all_of, more in zip(found, _recovered(os.path.join(folder, it))):
                    all_of.extend(more)
    return found


def _recovered(name: str) -> Recovered:
    nothing = Recovered([], [], [])
    try:
        handle = os.open(name, os.O_RDWR | os.O_CLOEXEC)
    except FileNotFoundError:
        return nothing
    try:
        fcntl.flock(handle, fcntl.LOCK_EX | fcntl.LOCK_NB)
        # where one was only begun, nothing else was made
        entries, done = ([], False) if name.endswith(_BEGUN) else _read(name)
        if done:
            found = Recovered([], [it.real for it in entries], [])
            _clean(entries)
        else:
            found = _put_back(entries)
        _seen()
        with contextlib.suppress(FileNotFoundError):
            os.unlink(name)
        return found
    except BlockingIOError:
        # its writer lives
        return nothing
    except OSError as error:
        return nothing._replace(left=[f"{error.filename or name}: {error.strerror}; {name} says what is to be put back"])
    finally:
        os.close(handle)


# The entries of a journal, and whether all files were moved.
def _read(name: str) -> tuple[list[_Entry], bool]:
    first, *rest = _contents(name).splitlines(keepends=True)
    return [_Entry(*it) for it in json.loads(first)], _DONE in rest
