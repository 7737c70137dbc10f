"""A shell in a pseudo-terminal, typed at as people do."""

import fcntl
import os
import pty
import re
import select
import subprocess
import termios
import time

# How many seconds are waited for what has to come: as many as no machine stalls, however busy it is.
MOST = 300
CONTROL = re.compile(r"\x1b(?:\[[0-9;?]*[a-zA-Z]|[=>78]|\][^\x07]*\x07)|[\x00\x07\x08]")


class Unlike(Exception):
    """What is on the screen isn't what was wanted."""


def surroundings(top, folder, hidden=(), **more):
    """The environment of a shell that has its home in the folder, with some modules of Python hidden from it."""
    os.makedirs(f"{folder}/hidden", exist_ok=True)
    for module in hidden:
        with open(f"{folder}/hidden/{module}.py", "w") as it:
            it.write("raise ImportError\n")
    return {
        **os.environ, "PYTHONPATH": f"{folder}/hidden:{top}/clients/python", "HOME": folder, "XDG_STATE_HOME": f"{folder}/state",
        "PROMPT_TOOLKIT_NO_CPR": "1", "TERM": "xterm", "COLUMNS": "100", "LINES": "40", "EDITOR": "sed -i 's/B()/f(B())/'", "PAGER": "sed 's/^/paged: /'", **more,
    }  # fmt: skip


class Terminal:
    """A shell at a terminal, in a folder of its own."""

    def __init__(self, top, python, folder, hidden=(), **more):
        self.seen, self.at = "", 0
        self.file, end = pty.openpty()
        self.ran = subprocess.Popen(
            [python, "-m", "stratbench"], cwd=folder, env=surroundings(top, folder, hidden, **more), stdin=end, stdout=end, stderr=end,
            start_new_session=True, preexec_fn=lambda: fcntl.ioctl(0, termios.TIOCSCTTY, 0),
        )  # fmt: skip
        os.close(end)

    def type(self, text):
        """Types a text. A line ends with Enter."""
        for at in range(0, len(text), 1_000):
            os.write(self.file, text[at : at + 1_000].replace("\n", "\r").encode())
            self._take(0.002)

    def complete(self):
        """Types Tab, and waits until what comes of it is shown: keys that come before aren't what a person would type."""
        self.settle()
        before, resting, end = len(self.seen), self._resting(), time.monotonic() + MOST
        self.type("\t")
        # something is shown, or the shell took it and shows nothing
        while len(self.seen) == before and self._resting() in (None, resting) and self.ran.poll() is None and time.monotonic() < end:
            self._take(0.02)
        self.settle()

    def settle(self):
        """Waits until the shell shows nothing more, and waits for keys itself."""
        resting, end = None, time.monotonic() + MOST
        while self.ran.poll() is None and time.monotonic() < end:
            shows = self._take(0.02)
            before, resting = resting, None if shows else self._resting()
            if resting is not None and resting == before:
                return

    def _resting(self):
        """How often each thread of the shell and of its program has given up its processor, where all of them sleep or are stopped."""
        counts = []
        try:
            with open(f"/proc/{self.ran.pid}/task/{self.ran.pid}/children") as it:
                processes = [self.ran.pid, *it.read().split()]
            for thread in (f"/proc/{it}/task/{one}" for it in processes for one in os.listdir(f"/proc/{it}/task")):
                with open(f"{thread}/status") as it:
                    status = it.read()
                if not re.search(r"^State:\s+[ST]", status, re.MULTILINE):
                    return None
                counts.append((thread, *re.findall(r"ctxt_switches:\s+(\d+)", status)))
        except OSError:
            return None
        return counts

    def paste(self, text):
        """Pastes a text, with the signs for it where they are asked for."""
        asked = self.seen.rpartition("\x1b[?2004")[2][:1] == "h"
        self.type(f"\x1b[200~{text}\x1b[201~" if asked else text)

    def _take(self, seconds):
        if not select.select([self.file], [], [], seconds)[0]:
            return False
        try:
            more = os.read(self.file, 1 << 16)
        except OSError:
            return False
        self.seen += more.decode(errors="replace")
        return bool(more)

    def see(self, wanted, seconds=MOST):
        """Waits until the screen shows what matches, after what was seen last."""
        end = time.monotonic() + seconds
        while True:
            text = CONTROL.sub("", self.seen[self.at :]).replace("\r", "")
            found = re.search(wanted, text, re.MULTILINE)
            if found:
                return found
            if time.monotonic() > end or self.ran.poll() is not None and not self._take(0):
                raise Unlike(f"{text[-1500:]!r} has no {wanted!r}")
            self._take(0.05)

    def do(self, line, wanted):
        """Types a line, and waits for what it gives, and for the prompt after it."""
        self.at = len(self.seen)
        (self.type if len(line) < 200 else self.paste)(line)
        self.type("\n")
        return self.see(rf"(?s:{wanted}.*)\n>>? ?$")

    def interrupt(self, wanted):
        """Types Ctrl-C until what is wanted is seen. Python misses one that comes while it shows the key before, and so would a person
        type it again."""
        for _ in range(10):
            self.settle()
            self.type("\x03")
            try:
                self.see(wanted, seconds=15)
                return
            except Unlike:
                pass
        raise Unlike(f"Ctrl-C doesn't give {wanted!r}: {self.seen[self.at :]!r}")

    def cancel(self):
        self.interrupt(r"\n> ?$")

    def program(self):
        """The process of the program."""
        with open(f"/proc/{self.ran.pid}/task/{self.ran.pid}/children") as it:
            return int(it.read().split()[0])

    def end(self):
        self.at = len(self.seen)
        self.type("\x04")
        end = time.monotonic() + MOST
        while self.ran.poll() is None and time.monotonic() < end:
            # the terminal is closed before the process has ended
            if not self._take(0.05):
                time.sleep(0.01)
        if self.ran.poll() is None:
            self.ran.kill()
        os.close(self.file)
        return self.ran.wait()
