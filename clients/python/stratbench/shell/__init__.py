"""The shell: a session of the workbench at a terminal.

    python -m stratbench [--no-library] [--steps N] [--max-steps N] [--max-terms N] [--max-tokens N]
                         [--program FILE] [FILES..]

A line is a command of the workbench, or one of the shell's own, which begins with a colon; `:help` lists these.
`docs/manual/shell.md` is the manual.
"""

from __future__ import annotations

import argparse
import os
import shlex
import signal
import sys
from collections.abc import Sequence

from .. import Ended
from ..installed import command, version
from ..settings import BadSettings, settings_of
from .commands import Quit, Shell
from .lines import Reader, reader
from .session import Session


def _arguments(words: Sequence[str] | None) -> argparse.Namespace:
    parser = argparse.ArgumentParser(prog=command("stratbench", "stratbench-shell"), description="A shell for the workbench stratbench.")
    parser.add_argument("--no-library", action="store_true", help="don't load the library of traversals")
    parser.add_argument("--steps", type=int, metavar="N", help="the budget of an apply that names none")
    parser.add_argument("--max-steps", type=int, metavar="N", help="the greatest budget, from 1,000,000 to 4,000,000,000")
    parser.add_argument("--max-tokens", type=int, metavar="N", help="the most tokens of a module, from 4,000 to 65,535")
    parser.add_argument("--max-terms", type=int, metavar="N", help="the greatest size of a term, from 100,000 to 1,000,000,000")
    parser.add_argument("--program", metavar="FILE", help="stratbench, where it isn't in PATH or STRATBENCH")
    parser.add_argument("--version", action="store_true", help="say the version, and do nothing else")
    parser.add_argument("files", nargs="*", metavar="FILES", help="modules and trees to load, as :load does, else those of stratbench.json")
    found = parser.parse_args(words)
    if found.version:
        print(version("stratbench-shell"))
        sys.exit()
    return found


# Where the histories are kept, if there can be any.
def _history() -> str | None:
    folder = os.environ.get("XDG_STATE_HOME") or os.path.expanduser("~/.local/state")
    try:
        os.makedirs(f"{folder}/stratbench", exist_ok=True)
    except OSError:
        return None
    return f"{folder}/stratbench/history"


def _serve(shell: Shell, typed: Reader) -> None:
    while True:
        try:
            begin, shell.begun = shell.begun, ""
            commands = typed.read(shell.session.group is not None, begin)
            for it in commands:
                if len(commands) > 1:
                    shell.say(f"> {it}")
                if not shell.do(it):
                    break
        except KeyboardInterrupt:
            # a line that was cancelled
            print()
        except (EOFError, Quit):
            return


def _say(text: str) -> None:
    print(text.encode(errors="surrogateescape").decode(errors="replace"), flush=True)


def main(words: Sequence[str] | None = None) -> int:
    """Runs the shell, and returns its status."""
    given = _arguments(words)
    signal.signal(signal.SIGINT, signal.default_int_handler)
    try:
        settings = settings_of(os.getcwd())
    except BadSettings as error:
        print(error, file=sys.stderr)
        return 2
    limits = {"steps": given.steps, "max_steps": given.max_steps, "max_terms": given.max_terms, "max_tokens": given.max_tokens}
    try:
        session = Session(_say, library=settings.library and not given.no_library, program=given.program, **limits)
    except OSError as error:
        print(f"{error.filename}: {error.strerror}; STRATBENCH or --program names the program", file=sys.stderr)
        return 2
    except Ended as error:
        print(error, file=sys.stderr)
        return 2
    colours = sys.stdout.isatty() and os.environ.get("TERM") != "dumb" and not os.environ.get("NO_COLOR")
    shell = Shell(session, _say, colours, sys.stdout.isatty() and sys.stdin.isatty())
    if sys.stdin.isatty():
        _say("stratbench: a line is a command; :help lists them, Ctrl-D ends")
    if given.files or settings.is_there:
        shell.do(f":load {shlex.join(given.files)}".rstrip())
    typed = reader(shell.completions, _history(), colours)
    shell.edits_here = typed.edits
    _serve(shell, typed)
    session.bench.close()
    for it in session.bench.warnings:
        print(it)
    return 0
