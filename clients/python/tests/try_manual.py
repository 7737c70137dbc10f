"""What the manual shows of the client's commands: each command of the pages on refactoring prints what the page says, and each session
of docs/manual/shell.md, typed at the shell, shows what is on the page: with `readline`, and with `prompt_toolkit` on the screen of
tmux, where this machine has both."""

import contextlib
import os
import re
import shutil
import subprocess
import sys
import tempfile
import time

import try_languages
from packages import found as python_with
from packages import left_out, untried
from stratbench.shell.commands import OWN
from terminals import CONTROL, MOST, Terminal, Unlike, surroundings


def tests(top, everything):
    yield from commands(top, "python.md")
    yield from commands(top, "another-language.md")
    yield from commands(top, "rules.md")
    lacks = try_languages.missing("javascript")
    if lacks:
        yield from untried("docs/manual/languages.md and coming-from.md", lacks)
    else:
        yield from commands(top, "languages.md")
        yield from commands(top, "coming-from.md")
    with open(f"{top}/docs/manual/shell.md") as it:
        page = it.read()
    sessions = re.findall(r"^```\n(> .*?)^```$", page, re.MULTILINE | re.DOTALL)
    files = re.findall(r"^```stratego (\S+)\n(.*?)^```$", page, re.MULTILINE | re.DOTALL)
    own = [f":{word} {form}".rstrip() for word, (form, _) in OWN.items()]
    yield "the shell's commands are those of the page", "" if re.findall(r"^\| `(:[^`]*)` \|", page, re.MULTILINE) == own else f"{own}"
    yield from typed(top, sessions, files)
    python = python_with("prompt_toolkit")
    if python is None or shutil.which("tmux") is None:
        left_out("the shell's sessions with prompt_toolkit", "no Python here has it, or there is no tmux")
    else:
        yield from on_screen(top, python, sessions, files)


@contextlib.contextmanager
def folder_with(files):
    with tempfile.TemporaryDirectory() as folder:
        for name, text in files:
            with open(f"{folder}/{name}", "w") as it:
                it.write(text)
        yield folder


def lines(session):
    """The lines that are typed in a session, without the indentation that the shell puts in."""
    return [it[2:].strip() for it in session.split("\n") if it[:2] in ("> ", ". ") or it == "."]


def bare(text):
    """What a terminal showed, without blanks at the ends of lines."""
    return "\n".join(it.rstrip() for it in CONTROL.sub("", text).replace("\r", "").rstrip().split("\n"))


def compared(sessions, shown):
    """Yields each session with the line in which what was shown for it differs, if one does."""
    for at, (session, got) in enumerate(zip(sessions, shown), 1):
        differ = [f"{one}\nwanted\n{two}" for one, two in zip((got + "\n" * 99).split("\n"), bare(session).split("\n")) if one != two]
        yield f"docs/manual/shell.md, session {at}", differ[0] if differ else ""


def typed(top, sessions, files):
    with folder_with(files) as folder:
        it = Terminal(top, sys.executable, folder, ("prompt_toolkit",))
        shown = []
        # what is shown next begins after the whole prompt, and its blank may come later than its sign
        it.see(r"^> +$")
        with contextlib.suppress(Unlike):
            for session in sessions:
                begun = len(it.seen)
                for line in lines(session):
                    it.at = len(it.seen)
                    it.type(f"{line}\n")
                    it.see(r"\n(>|\.) +$")
                shown.append(bare("> " + it.seen[begun:]))
        it.end()
    shown += [""] * (len(sessions) - len(shown))
    for name, fault in compared(sessions, shown):
        yield f"{name}, with readline", fault


def on_screen(top, python, sessions, files):
    with folder_with(files) as folder:
        tmux = ["tmux", "-S", f"{folder}/socket", "-f", "/dev/null"]
        start = [*tmux, "new-session", "-d", "-x", "140", "-y", "300", f"{python} -m stratbench"]
        subprocess.run(start, cwd=folder, env=surroundings(top, folder), check=True)
        try:
            shown = []
            screen = ready(tmux, "")
            for session in sessions:
                begun = len(screen)
                for line in lines(session):
                    subprocess.run([*tmux, "send-keys", "-l", line], check=True)
                    subprocess.run([*tmux, "send-keys", "Enter"], check=True)
                    screen = ready(tmux, screen)
                shown.append(screen[begun - 1 :])
        finally:
            subprocess.run([*tmux, "kill-server"], check=False)
    for name, fault in compared(sessions, shown):
        yield f"{name}, with prompt_toolkit on the screen of tmux", fault


def ready(tmux, before):
    """The screen, once it has more than before and waits for another line."""
    end = time.monotonic() + MOST
    while time.monotonic() < end:
        screen = bare(subprocess.run([*tmux, "capture-pane", "-p"], capture_output=True, text=True).stdout)
        if screen.count("\n") > before.count("\n") and screen.endswith(("\n>", "\n.")):
            return screen
        time.sleep(0.02)
    raise Unlike(screen[-1_500:])


def commands(top, name):
    with open(f"{top}/docs/manual/{name}") as it:
        page = it.read()
    with tempfile.TemporaryDirectory() as room:
        os.symlink(f"{top}/strategies", f"{room}/strategies")
        os.mkdir(f"{room}/bin")
        os.symlink(sys.executable, f"{room}/bin/python")
        environment = {**os.environ, "PYTHONPATH": f"{top}/clients/python", "PATH": f"{room}/bin:{os.environ['PATH']}", "XDG_STATE_HOME": f"{room}/state"}
        for found in re.finditer(r"^```(?:console\n\$ (?P<command>[^\n]*)\n(?P<wanted>.*?)|\w+ (?P<file>\S+)\n(?P<text>.*?))^```$", page, re.MULTILINE | re.DOTALL):
            if found["file"]:
                with open(f"{room}/{found['file']}", "w") as it:
                    it.write(found["text"])
                continue
            # in the order in which a terminal shows it
            ran = subprocess.run(["bash", "-c", found["command"]], cwd=room, env=environment, stdout=subprocess.PIPE, stderr=subprocess.STDOUT, text=True)
            yield found["command"], "" if ran.stdout == found["wanted"] else ran.stdout
        if name != "python.md":
            return
        with open(f"{room}/shop.py") as it:
            yield "--write wrote the file", "" if "few\n    @staticmethod\n" in it.read() else "it didn't"
