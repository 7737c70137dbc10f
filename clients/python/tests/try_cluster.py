"""`--cluster` on this machine, over the loopback: two workers, of which one is ended in the middle, and what can go wrong.

The interpreter is one that has `distributed`: the one that runs this, or that of Debian's packages, into which it is installed where
that can be done. Where it can't be had, the tests are left out, except in a run with CI=true, which fails.
"""

import contextlib
import json
import os
import pickle
import shutil
import subprocess
import sys
import tempfile
import time
import zlib

import try_languages
import try_mixed
from packages import interpreter, untried
from stratbench import cluster
from try_commands import Room, wanted

# It changes what it made before, so a file that is changed twice shows.
RULES = """module next
rules
  Next : Constant(n,k) -> Constant(m,k) where !n; ?x; prim("addi",x,1) => m
"""
# The program of the workers: it notes that a batch was begun, takes its time, and ends the process of the first batch where it is told to.
SLOW = """#!/bin/sh
echo begun >>"$BEGUN"
sleep "$SLEEP"
if [ -n "$ENDS" ] && mkdir "$BEGUN.ended" 2>/dev/null; then kill -9 $PPID; fi
exec "$REAL" "$@"
"""
COUNT = 40


class Workers:
    """A scheduler and workers, each a process; all are ended with it."""

    def __init__(self, python):
        self.python, self.folder, self.ran = python, tempfile.mkdtemp(prefix="stratbench-"), []
        file = f"{self.folder}/scheduler"
        self.scheduler = self.start("scheduler", "--port", "0", "--no-show", "--scheduler-file", file)
        until(lambda: os.path.exists(file) and os.path.getsize(file))
        with open(file) as it:
            self.address = json.load(it)["address"]
        self.program = f"{self.folder}/slow"
        with open(self.program, "w") as it:
            it.write(SLOW)
        os.chmod(self.program, 0o755)

    def start(self, kind, *words, **environment):
        loopback = ["--host", "127.0.0.1", "--no-dashboard", "--dashboard-address", "127.0.0.1:0"]
        command = [self.python, "-m", f"distributed.cli.dask_{kind}", *loopback, *words]
        environment = {**os.environ, "TMPDIR": self.folder, **environment}
        with open(f"{self.folder}/log", "a") as log:
            self.ran.append(subprocess.Popen(command, cwd=self.folder, env=environment, stdout=log, stderr=log))
        return self.ran[-1]

    def worker(self, name, program=None, sleep="0", ends="", **more):
        """Starts a worker, whose program notes each batch in the file of this name."""
        environment = {"REAL": os.environ["STRATBENCH"], "BEGUN": f"{self.folder}/{name}", "SLEEP": sleep, "ENDS": ends, **more}
        words = ["--no-nanny", "--nthreads", "1", "--local-directory", self.folder, "--name", name, self.address]
        return self.start("worker", *words, STRATBENCH=program or self.program, **environment)

    def wait(self, workers):
        """Waits until there are so many workers."""
        script = f"import distributed; distributed.Client({self.address!r}).wait_for_workers({workers}, timeout=600)"
        subprocess.run([self.python, "-c", script], check=True, capture_output=True)

    def begun(self, name):
        return os.path.exists(f"{self.folder}/{name}")

    def __enter__(self):
        return self

    def __exit__(self, *_):
        for it in self.ran:
            it.kill()
            it.wait()
        # a process of a worker that was ended may still write here
        shutil.rmtree(self.folder, ignore_errors=True)


def until(holds, seconds=600):
    """Waits until something holds."""
    end = time.monotonic() + seconds
    while not holds():
        if time.monotonic() > end:
            raise TimeoutError(f"it didn't come about within {seconds} seconds")
        time.sleep(0.01)


class Front:
    """Runs of the command in a room with files, by this interpreter."""

    def __init__(self, top, python):
        self.top, self.python = top, python
        self.room = Room(top, **{f"f{at:02}": f"# {at}\nx = {at}\n" for at in range(COUNT)}, broken="def\n", same="x\n")
        self.room.put("next.str", RULES)

    def start(self, *words, **environment):
        modules = ["--module", f"python={self.top}/strategies/python.str", "--module", "next=next.str"]
        command = [self.python, "-m", "stratbench.refactor", *modules, "--do", "bottomup(try(Next))", *words, "."]
        environment = {**os.environ, "PYTHONPATH": f"{self.top}/clients/python", "XDG_STATE_HOME": f"{self.room.folder}/state", **environment}
        return subprocess.Popen(command, cwd=self.room.folder, env=environment, stdout=subprocess.PIPE, stderr=subprocess.PIPE, text=True)

    def run(self, *words, **environment):
        ran = self.start(*words, **environment)
        out, said = ran.communicate(timeout=600)
        return ran.returncode, out, said

    def numbers(self):
        """How far each file was counted on, each of which once, or not at all."""
        return {int(self.room.has(f"f{at:02}.py").split()[-1]) - at for at in range(COUNT)}


def tests(top, everything):
    work = zlib.compress(pickle.dumps(((3, 0), b"", ("", ""), b"")))
    ran = subprocess.run([sys.executable, "-c", cluster._PROCESS], input=work, capture_output=True)
    yield "another version of Python", "" if ran.returncode == 3 and b", and not 3.0 as here" in ran.stderr else f"{ran.stderr}"
    python, _ = interpreter("distributed", "python3-distributed")
    if python is None:
        yield from untried("the cluster", "no Python here has Debian's python3-distributed")
        return
    yield from spread(top, python)
    yield from mixed(top, python)
    yield from faults(top, python)


def spread(top, python):
    front = Front(top, python)
    alone = front.run()
    with Workers(python) as workers, contextlib.closing(front.room):
        one = workers.worker("one", sleep="2")
        workers.worker("two", ends="once")
        workers.wait(2)
        ran = front.start("--write", "--cluster", workers.address)
        until(lambda: workers.begun("one"))
        one.kill()
        one.wait()
        out, said = ran.communicate(timeout=600)
        # the one that ran alone didn't write
        same = alone[0] == 3 and (ran.returncode, out, said.replace(" changed, ", " would change, ")) == alone
        yield "one of two workers is ended in the middle", "" if same else f"{said}{out}, wanted {alone}"
        yield "a process of the other was ended too", "" if workers.begun("two.ended") else "it wasn't"
        yield "each file was written once", "" if front.numbers() == {1} else f"{front.numbers()}"
        workers.worker("three", program="/none/stratbench")
        workers.wait(2)
        status, out, said = front.run("--write", "--cluster", workers.address)
        left_out = [line for line in said.splitlines() if "is left out: " in line]
        rest = "".join(f"{line}\n" for line in said.splitlines() if line not in left_out)
        yield "a worker without the program is named once", wanted((status, out, "\n".join(left_out)), 3, None, "/none/stratbench") or ("" if len(left_out) == 1 else said)
        yield "the other does its files", "" if front.numbers() == {2} and rest == alone[2].replace(" would change, ", " changed, ") else f"{front.numbers()} {rest}"
        with Workers(python) as others:
            others.worker("four", program="/none/stratbench")
            others.wait(1)
            got = front.run("--write", "--cluster", others.address)
        yield "no worker has the program", wanted(got, 3, "", "nothing was written: ") or ("" if front.numbers() == {2} else "a file changed")


# Says whether what a language needs is there.
THERE = "import sys; from stratbench import languages; languages.named(sys.argv[1]).sources([('a' + sys.argv[2], sys.argv[3].encode())])"


def mixed(top, python):
    """Files of other languages: each worker starts what they need, and what comes of them is what comes of them here."""
    environment = {**os.environ, "PYTHONPATH": f"{top}/clients/python"}
    with Workers(python) as workers:
        for it in ("one", "two"):
            workers.worker(it)
        workers.wait(2)
        for name, small in try_mixed.RULES.items():
            # it is installed where that can be done
            try_languages.missing(name)
            ran = subprocess.run([python, "-c", THERE, name, small.suffix, small.text], env=environment, capture_output=True, text=True)
            if ran.returncode != 0:
                yield from untried(f"{name} on two workers", ran.stderr.splitlines()[-1])
                continue
            # few, since a batch is a process of its own, which starts what the language needs
            texts = {f"{at}{small.suffix}": small.text for at in range(2)}
            others = {f"loses{small.suffix}": small.loses, f"broken{small.suffix}": small.broken}
            room = try_mixed.Room(top, {"mine.str": small.rules, **texts, **others}, python)
            strategy = "oncetd(Rename) < topdown(try(Rename)) + topdown(try(Drop))"
            words = ("--module", f"{small.rules.split()[1]}=mine.str", "--do", strategy, "--keep-comments", "--language", name, ".")
            alone, got = room.run(*words), room.run(*words, "--cluster", workers.address)
            whole = alone[0] == 3 and alone[1].count(b"+++") == len(texts) and "comment would be lost" in alone[2] and "broken" in alone[2]
            yield f"{name} on two workers", "" if whole and got == alone else f"{got}\nwanted\n{alone}"
    with Workers(python) as workers:
        workers.worker("one", NODE="/nowhere/node")
        workers.wait(1)
        room = try_mixed.Room(top, {"mine.str": try_mixed.SCRIPT, "a.js": "old(1);\n"}, python)
        status, out, said = room.run("--module", "script=mine.str", "--do", "topdown(try(Rename))", "--write", "--cluster", workers.address, "a.js")
        right = (status, out, room.has("a.js")) == (3, b"", b"old(1);\n") and "JavaScript needs node" in said and "nothing was written" in said
        yield "a worker without what a language needs", "" if right else f"{status} {out} {said}"


# So many seconds a run gets to find the scheduler: few, and more where the machine is slow.
PATIENCE = (1, 4, 16, 64)


def soon(seconds):
    return {"DASK_DISTRIBUTED__COMM__TIMEOUTS__CONNECT": f"{seconds}s"}


def faults(top, python):
    front = Front(top, python)
    with Workers(python) as workers, contextlib.closing(front.room):
        for seconds in PATIENCE:
            got = front.run("--write", "--cluster", workers.address, **soon(seconds))
            if "no scheduler answers" not in got[2]:
                break
        yield "no worker", wanted(got, 3, "", f"has had no worker for {seconds} seconds")
        worker = workers.worker("one", sleep="5")
        workers.wait(1)
        for seconds in PATIENCE:
            ran = front.start("--write", "--cluster", workers.address, **soon(seconds))
            until(lambda ran=ran: workers.begun("one") or ran.poll() is not None)
            if workers.begun("one"):
                break
            ran.communicate()
        workers.scheduler.kill()
        got = ran.communicate(timeout=600)
        said = f"not all files were done, and nothing was written: the scheduler at {workers.address} was lost\n"
        yield "the scheduler is ended in the middle", "" if (ran.returncode, *got) == (3, "", said) else f"{got}"
        yield "no file was written", "" if front.numbers() == {0} else f"{front.numbers()}"
        worker.kill()
        yield "no scheduler", wanted(front.run("--cluster", workers.address, **soon(1)), 2, "", f"--cluster {workers.address}: no scheduler answers")
        yield "no address", wanted(front.run("--cluster", "tcp://nowhere.invalid:1", **soon(1)), 2, "", "no scheduler answers")
        yield "--cluster beside --jobs", wanted(front.run("--cluster", workers.address, "--jobs", "2"), 2, "", "not allowed with argument")
        front.room.put("distributed.py", "raise ImportError('none here')\n")
        yield "no distributed", wanted(front.run("--cluster", workers.address), 2, "", "Debian's python3-distributed")
