"""How files are written: all or none, whatever stops the writer at whichever of its steps, with owner, permissions and links, and nothing
left beside them. Each writer is a process of its own that sends itself a signal at one of its checkpoints."""

import contextlib
import os
import shutil
import signal
import subprocess
import sys
import tempfile

from stratbench.refactor import command, writing
from stratbench.refactor.writing import Recovered, Stopped, WriteFault

# The files that are written: the name, what it has, and what it is to have. Two are in one folder, and one is reached by a link.
FILES = [("a.py", b"old a\n", b"new a\n"), ("sub/b.py", b"", b"new b\n"), ("link.py", b"old c\n", b"")]
# How the process of a writer ends.
WRITTEN, STOPPED, REFUSED = 0, 10, 11

# A folder of memory, where there is one: there it takes no time to have a file on the disk.
MEMORY = "/dev/shm" if os.access("/dev/shm", os.W_OK) else None

# What runs the command with a signal that it sends itself at a checkpoint, once a file has changed.
DRIVER = """
import os, sys
from stratbench.refactor import command, writing
file, number = sys.argv[1], int(sys.argv[2])
checkpoint, before, sent = writing.checkpoint, os.stat(file).st_ino, []
def stopping():
    if os.stat(file).st_ino != before and not sent:
        sent.append(number)
        os.kill(os.getpid(), number)
    checkpoint()
writing.checkpoint = stopping
sys.exit(command.main(sys.argv[3:]))
"""


class Room:
    """A folder with the files, and one for journals."""

    def __init__(self):
        self.folder = tempfile.mkdtemp(prefix="stratbench-", dir=MEMORY)
        self.state = f"{self.folder}/state"
        os.makedirs(f"{self.folder}/files/sub")
        os.symlink("sub/c.py", f"{self.folder}/files/link.py")
        for name, before, _ in FILES:
            with open(self.path(name), "wb") as it:
                it.write(before)
        os.chmod(self.path("a.py"), 0o4751)
        self.before = self.now()

    def path(self, name):
        return f"{self.folder}/files/{name}"

    def work(self, count=len(FILES)):
        return [(self.path(name), before, after) for name, before, after in FILES[:count]]

    def now(self):
        """All that is there: of each file contents, permissions, owner, group and number of names, and what links lead to."""
        found = {}
        for folder, _, names in os.walk(f"{self.folder}/files"):
            for name in names:
                path = f"{folder}/{name}"
                it = os.lstat(path)
                with open(path, "rb") as file:
                    contents = os.readlink(path) if os.path.islink(path) else file.read()
                found[os.path.relpath(path, f"{self.folder}/files")] = contents, it.st_mode, it.st_uid, it.st_gid, it.st_nlink
        return found

    def after(self, count=len(FILES)):
        """The same, once so many files are written."""
        new = {os.path.relpath(os.path.realpath(self.path(name)), f"{self.folder}/files"): after for name, _, after in FILES[:count]}
        return {name: (new.get(name, it[0]), *it[1:]) for name, it in self.before.items()}

    def has(self, name, contents):
        """Whether a file has these contents now."""
        with open(self.path(name), "rb") as it:
            return it.read() == contents

    def unmoved(self):
        """Whether all is beside the files, and none is written."""
        return self.has("a.py", b"old a\n") and sum(name.endswith(".old") for name in self.now()) == 2

    def moved(self):
        """Whether the first file is written, and not the others."""
        return self.has("a.py", b"new a\n") and self.has("sub/b.py", b"")

    def written(self):
        """Whether the first two files are written."""
        return self.has("a.py", b"new a\n") and self.has("sub/b.py", b"new b\n")

    def journals(self):
        return os.listdir(self.state) if os.path.isdir(self.state) else []

    def wrong(self, wanted):
        """What is wrong with what is there, or nothing."""
        return "" if self.now() == wanted and not self.journals() else f"{self.now()} {self.journals()}"

    def close(self):
        shutil.rmtree(self.folder)


@contextlib.contextmanager
def room():
    it = Room()
    try:
        yield it
    finally:
        it.close()


@contextlib.contextmanager
def once(condition, action):
    """Has an action done at the first checkpoint at which the condition holds, and gives a list that has an element by then."""
    checkpoint, done = writing.checkpoint, []

    def acting():
        if not done and condition():
            done.append(True)
            action()
        checkpoint()

    writing.checkpoint = acting
    try:
        yield done
    finally:
        writing.checkpoint = checkpoint


def step(number):
    """The condition of the checkpoint of this number, from 1."""
    seen = []
    return lambda: seen.append(True) or len(seen) == number


def in_process(work):
    """Does some work in a process of its own, and returns how that ended: the status, or the signal below 0."""
    child = os.fork()
    if child == 0:
        status = 99
        try:
            with command._stopping():
                work()
            status = WRITTEN
        except Stopped:
            status = STOPPED
        except WriteFault:
            status = REFUSED
        finally:
            os._exit(status)
    return os.waitstatus_to_exitcode(os.waitpid(child, 0)[1])


def stopped(condition, number, work):
    """Does some work in a process that sends itself the signal once the condition holds."""

    def stopping():
        with once(condition, lambda: os.kill(os.getpid(), number)):
            work()

    return in_process(stopping)


def tests(top, everything):
    yield from signals()
    yield from killed()
    yield from faults()
    yield from kept()
    yield from journals()
    yield from commands(top)


def signals():
    """A signal at each step: all is as it was, and what sent the signal is told; or all is written."""
    for number in (signal.SIGINT, signal.SIGTERM, signal.SIGHUP):
        ends, wrong = [], []
        while ends[-2:] != [WRITTEN, WRITTEN]:
            with room() as it:
                ends.append(stopped(step(len(ends) + 1), number, lambda: writing.write_all(it.work(), it.state)))
                fault = it.wrong(it.before if ends[-1] == STOPPED else it.after())
                wrong += [f"step {len(ends)}: {fault}"] * bool(fault or ends[-1] not in (WRITTEN, STOPPED))
        yield f"{number.name} at each of {len(ends)} steps", "\n".join(wrong) or ("" if ends.count(STOPPED) > 20 else f"{ends}")


def killed():
    """The writer is killed at each step: the next run puts all back, or finishes."""
    ends, wrong = [], []
    while not ends or ends[-1] == -signal.SIGKILL:
        with room() as it:
            ends.append(stopped(step(len(ends) + 1), signal.SIGKILL, lambda: writing.write_all(it.work(), it.state)))
            found = writing.recover(it.state)
            fault = it.wrong(it.after() if ends[-1] == WRITTEN or found.finished else it.before) or "\n".join(found.left)
            wrong += [f"step {len(ends)}: {fault}"] * bool(fault)
    yield f"SIGKILL at each of {len(ends)} steps", "\n".join(wrong) or ("" if len(ends) > 25 else f"{ends}")
    # the run that puts that back is killed, too, at each of its steps; one file more is enough to have something done and something to do
    wrong, tried = [], 0
    for condition in (Room.unmoved, Room.moved, Room.written):
        at, last = 0, -signal.SIGKILL
        while last == -signal.SIGKILL:
            at, tried = at + 1, tried + 1
            with room() as it:
                stopped(lambda: condition(it), signal.SIGKILL, lambda: writing.write_all(it.work(2), it.state))
                last = stopped(step(at), signal.SIGKILL, lambda: writing.recover(it.state))
                found = writing.recover(it.state)
                fault = it.wrong(it.before) or "\n".join(found.left)
                wrong += [f"{condition.__name__}, step {at}: {fault}"] * bool(fault)
    yield f"SIGKILL, and once more at each step of what puts that back, {tried} times", "\n".join(wrong) or ("" if tried > 25 else f"{tried}")


def refused(it, wanted):
    """What is wrong where the files can't be written: the reason, or what is there."""
    try:
        writing.write_all(it.work(), it.state)
        return "they were written"
    except WriteFault as error:
        return "" if wanted in str(error) else f"{error}"


def faults():
    replace = os.replace
    with room() as it:

        def failing(source, target, calls=[]):
            calls.append(target)
            if len(calls) == 2:
                raise OSError(5, "no disk")
            replace(source, target)

        os.replace = failing
        fault = refused(it, "no disk")
        os.replace = replace
        yield "a fault while files are moved", fault or it.wrong(it.before)
    wrong = []
    for at in range(1, 60):
        with room() as it:
            with once(step(at), lambda: edited(it.path("sub/c.py"))) as done:
                try:
                    writing.write_all(it.work(), it.state)
                    # after it was moved, or before anything was looked at
                    want = {**it.after(), "sub/c.py": it.now()["sub/c.py"]}
                except WriteFault as error:
                    wrong += [f"step {at}: {error}"] * ("link.py: it was changed meanwhile" not in str(error))
                    want = {**it.before, "sub/c.py": it.now()["sub/c.py"]}
                fault = it.wrong(want) or ("" if it.has("sub/c.py", b"other\n" if done else b"") else "the change is lost")
                wrong += [f"step {at}: {fault}"] * bool(fault)
    yield "a file that is changed meanwhile", "\n".join(wrong)
    with room() as it:
        ended = ""
        with once(it.moved, lambda: edited(it.path("a.py")) or os.kill(os.getpid(), signal.SIGTERM)):
            try:
                with command._stopping():
                    writing.write_all(it.work(), it.state)
            except WriteFault as error:
                ended = str(error)
        [old] = [name for name in it.now() if name.endswith(".old")]
        file = os.path.realpath(it.path("a.py"))
        right = f"{file}: it was changed since it was written, and its old text is in {os.path.dirname(file)}/{old}" in ended
        right = right and it.has(old, b"old a\n") and it.has("a.py", b"other\n") and it.has("sub/b.py", b"") and len(it.now()) == 5
        yield "a file that is changed once it is written, before the rest is put back", "" if right else f"{ended} {it.now()}"
    with room() as it:
        os.chmod(it.path("sub/b.py"), 0o444)
        before = it.now()
        yield "a file that may not be written", refused(it, "sub/b.py: it may not be written") or it.wrong(before)


def edited(path):
    """Somebody else changes a file, as an editor does."""
    with open(f"{path}.other", "wb") as out:
        out.write(b"other\n")
    os.rename(f"{path}.other", path)


def kept():
    with room() as it:
        os.chmod(it.path("a.py"), 0o6755)
        if os.geteuid() == 0:
            os.chown(it.path("a.py"), 1234, 4321)
            os.chmod(it.path("a.py"), 0o6755)
            os.chown(it.path("sub/b.py"), 0, 4321)
        it.before = it.now()
        writing.write_all(it.work(), it.state)
        yield "owner, group and permissions are kept, and a link stays a link", it.wrong(it.after())
    with room() as it:
        os.link(it.path("sub/b.py"), it.path("other.py"))
        before = it.now()
        yield "a file with hard links is refused", refused(it, "sub/b.py: it has 2 names, as hard links") or it.wrong(before)
    with room() as it:
        twice = [*it.work(), (it.path("sub/c.py"), b"old c\n", b"")]
        writing.write_all(twice, it.state)
        yield "a file that is given by two names", it.wrong(it.after())
    for what, number in (("the owner", 1), ("the permissions", 13)):
        with room() as it:
            changed = os.fchown, os.fchmod, os.fstat

            def denied(*words):
                raise OSError(number, "denied")

            os.fchmod = denied
            fault = refused(it, "a.py: its owner, group and permissions can't be kept")
            os.fchown, os.fchmod, os.fstat = changed
            yield f"{what} that can't be kept", fault or it.wrong(it.before)
    link = os.link

    def none(*words):
        raise OSError(1, "no hard links")

    os.link = none
    try:
        with room() as it:
            writing.write_all(it.work(), it.state)
            yield "a file system without hard links", it.wrong(it.after())
        with room() as it:
            ended = stopped(it.moved, signal.SIGKILL, lambda: writing.write_all(it.work(), it.state))
            found = writing.recover(it.state)
            yield "and a writer that is killed there", it.wrong(it.before) or ("" if ended == -signal.SIGKILL and found.back else f"{ended} {found}")
    finally:
        os.link = link


def journals():
    with room() as it:
        # the writer waits at a step, where a byte tells that it is there, and another has it go on
        there, says = os.pipe()
        waits, goes = os.pipe()

        def waiting():
            os.write(says, b"x")
            os.read(waits, 1)

        child = os.fork()
        if child == 0:
            with once(it.moved, waiting):
                writing.write_all(it.work(), it.state)
            os._exit(0)
        os.read(there, 1)
        found = writing.recover(it.state)
        os.write(goes, b"x")
        status = os.waitstatus_to_exitcode(os.waitpid(child, 0)[1])
        right = found == Recovered([], [], []) and status == 0
        yield "the journal of a writer that lives is left alone", "" if right and not it.wrong(it.after()) else f"{found} {status} {it.now()}"
        for end in (there, says, waits, goes):
            os.close(end)
    with room() as it:
        with open(it.state, "w"):
            pass
        yield "no journal, no writing", refused(it, f"no journal can be kept in {it.state}: ") or ("" if it.now() == it.before else f"{it.now()}")
    with room() as it:
        stopped(it.moved, signal.SIGKILL, lambda: writing.write_all(it.work(), it.state))
        os.rename(f"{it.folder}/files", f"{it.folder}/away")
        found = writing.recover(it.state)
        os.rename(f"{it.folder}/away", f"{it.folder}/files")
        again = writing.recover(it.state)
        yield "a folder that isn't there is waited for", it.wrong(it.before) or ("" if found.left and again.back else f"{found} {again}")


def commands(top):
    """The command itself, as somebody runs it."""
    for number, status in ((signal.SIGTERM, -signal.SIGTERM), (signal.SIGINT, -signal.SIGINT), (signal.SIGKILL, -signal.SIGKILL)):
        with room() as it:
            for name in ("a.py", "sub/b.py"):
                with open(it.path(name), "w") as out:
                    out.write("old\n")
            before = it.now()
            environment = {**os.environ, "PYTHONPATH": f"{top}/clients/python", "XDG_STATE_HOME": f"{it.folder}/state"}
            words = ["--module", f"python={top}/strategies/python.str", "--do", 'topdown(try(\\ Name("old",c) -> Name("new",c) \\))', "--write"]
            run = lambda *words: subprocess.run([sys.executable, *words], cwd=f"{it.folder}/files", env=environment, capture_output=True, text=True)
            it.state = f"{it.folder}/state/stratbench"
            ran = run("-c", DRIVER, "a.py", str(int(number)), *words, "a.py", "sub/b.py")
            fault = "" if ran.returncode == status else f"{ran}"
            if number == signal.SIGKILL:
                fault = fault or ("" if it.journals() else "there is no journal")
                ran = run("-m", "stratbench.refactor", "--recover")
                said = f"a run was killed while it wrote: 1 file put back: {os.path.realpath(it.path('a.py'))}\n"
                fault = fault or ("" if ran.stderr == said and ran.returncode == 0 else f"{ran}")
            else:
                fault = fault or ("" if ran.stderr.endswith(f"nothing was written: stopped by {number.name}\n") else f"{ran}")
            yield f"{number.name} while the command writes", fault or it.wrong(before)
