"""What the trials want of this machine: libraries of Python, of the one that runs them or of Debian's, and Debian's packages, which are
installed where that can be done. And how a trial says what it leaves out."""

import fcntl
import os
import shutil
import subprocess
import sys
import tempfile
import time

DEBIAN = "/usr/bin/python3"
# How each line begins that says what is left out. `trials/try` repeats these lines at its end.
LEFT_OUT = "left out: "


def left_out(what, why):
    """Prints what is left out, and why. Returns whether that is a failure, as in a run with `CI=true` it is where the trial has to be made."""
    print(f"{LEFT_OUT}{what}: {why}", flush=True)
    return os.environ.get("CI") == "true"


def untried(what, why):
    """The tests in place of one that is left out and has to be made: one that fails in a run with `CI=true`, and else none."""
    if left_out(what, why):
        yield what, f"{why}"


def found(module):
    """A Python that has the module, or nothing."""
    for program in (sys.executable, DEBIAN):
        if os.path.exists(program) and subprocess.run([program, "-c", f"import {module}"], capture_output=True).returncode == 0:
            return program
    return None


def interpreter(module, package):
    """A Python that has the module, into which the package is installed where there is none; and what kept that from being done."""
    python = found(module)
    why = "" if python else installed(package)
    return python or found(module), why


def installed(*names):
    """What kept packages of Debian from being installed, or nothing. It is printed, too, for who runs the trials."""
    why = _installed(*names)
    if why:
        left_out(f"what needs Debian's {', '.join(names)}", why.strip().splitlines()[-1])
    return why


def _installed(*names):
    if os.geteuid() != 0 or shutil.which("apt-get") is None:
        return "only root installs it, by apt-get"
    # others who ask for packages here wait for one another
    with open(f"{tempfile.gettempdir()}/stratbench-tests.lock", "w") as lock:
        fcntl.flock(lock, fcntl.LOCK_EX)
        install = ["install", "--yes", "--no-install-recommends", *names]
        return _done(install) and (_done(["update"]) or _done(install))


# What is wrong with a run of apt-get, if anything is. Where somebody else installs, it waits until that is done.
def _done(words):
    command = ["apt-get", "-o", "DPkg::Lock::Timeout=600", "-o", "Acquire::Retries=3", *words]
    until = time.monotonic() + 600
    while True:
        ran = subprocess.run(command, env={**os.environ, "LC_ALL": "C", "DEBIAN_FRONTEND": "noninteractive"}, capture_output=True, text=True)
        # apt-get itself waits for the lock of the packages alone, and not for that of the lists
        if "Could not get lock" not in ran.stderr or time.monotonic() > until:
            return ran.stderr if ran.returncode else ""
        time.sleep(1)
