"""Tables of strategies: each row is tried on the built program, by `preview`, `apply`, `undo` and `redo`.

rows/README.md has the form of a table, and trials/rows runs all of them. In a row `{x*N}` stands for N times x, for texts at the
bounds.
"""

import os
import re
import subprocess
from concurrent.futures import ThreadPoolExecutor

# A row has to be answered in this many seconds.
IN_TIME = 60
REFUSALS = {"fails": "refused 12 fails", "spent": "refused 13 spent", "big": "refused 14 big"}


def wide(text):
    """A row in full."""
    return re.sub(r"\{([^{}*]+)\*(\d+)\}", lambda it: it[1] * int(it[2]), text)


def read(path):
    """The options and the commands that load what a table needs, and its rows: the line's number and text, and the levels."""
    options, modules, rows, levels = [], [], [], [0, 2]
    with open(path) as file:
        for number, line in enumerate(file.read().splitlines(), 1):
            if line == "library":
                options = ["--library"]
            elif line.startswith(("module ", " ")):
                modules.append(line)
            elif line.startswith("levels "):
                levels = [int(it) for it in line.split()[1:]]
            elif line and not line.startswith("#"):
                rows.append((number, line, levels))
    return options, modules, rows


def around(term, level):
    """The term as a subterm of a tree, this many levels down, and its path there."""
    return "(0," * level + term + ")" * level, "/1" * level or "/"


def trial(row, level):
    """The commands that try a row at a level, with the answer to each; of a line that ends with ` => ` the front alone counts."""
    strategy, term, steps, outcome = wide(row).split(" ;; ")
    before, path = around(term, level)
    given = re.fullmatch(r"gives (.+) (\d+)", outcome)
    if not given and outcome not in REFUSALS:
        raise ValueError(f"no outcome: {outcome}")
    refusal = REFUSALS.get(outcome)

    def ask(command, within):
        return f"{command} t at {path} within {within} do {strategy}"

    yield f"tree t {before}", ["ok"]
    if int(steps) > 1 and outcome != "spent":
        yield ask("preview", int(steps) - 1), [REFUSALS["spent"]]
        yield ask("apply", int(steps) - 1), [REFUSALS["spent"]]
        yield "show t", [before]
    if given:
        after, _ = around(given[1], level)
        places = int(given[2])
        yield ask("preview", steps), [f"changes {places} steps {steps}", *[f"{path} => "] * places]
        yield "show t", [before]
        yield ask("apply", steps), ["ok"]
        yield "show t", [after]
        yield "undo", ["ok"]
        yield "show t", [before]
        yield "redo", ["ok"]
        yield "show t", [after]
    else:
        yield ask("preview", steps), [refusal]
        yield ask("apply", steps), [refusal]
        yield "show t", [before]
        yield "undo", ["ok"]
        yield "show t", ["refused 5 notree"]


def is_answer(got, kept):
    """Whether a line is the one that has to come."""
    if kept.endswith(" => "):
        return got.startswith(kept[: -len(" => ")]) and " => " in got
    return got == kept


def shown(line):
    return line if len(line) <= 100 else line[:97] + "..."


def differs(program, options, modules, row, level):
    """Says what differs when a row is tried at a level, if anything does."""
    kept, commands = ["ok"] * sum(it.startswith("module ") for it in modules), []
    for command, answers in trial(row, level):
        commands.append(command)
        kept += answers
    script = "\n".join([*modules, *commands, ""]).encode()
    try:
        ran = subprocess.run([program, *options], input=script, capture_output=True, timeout=IN_TIME)
    except subprocess.TimeoutExpired:
        return [f"level {level}: no end after {IN_TIME} seconds"]
    got = ran.stdout.decode(errors="backslashreplace").splitlines()
    for index in range(max(len(got), len(kept))):
        one = got[index] if index < len(got) else "nothing"
        other = kept[index] if index < len(kept) else "nothing"
        if not is_answer(one, other):
            return [f"level {level}, line {index + 1}, {word}: {shown(it)}" for word, it in (("got", one), ("kept", other))]
    status = 1 if any(it.startswith("refused") for it in kept) else 0
    if (ran.returncode, ran.stderr) != (status, b""):
        return [f"level {level}: status {ran.returncode}, and {ran.stderr!r} on standard error"]
    return []


def outcomes(program, path):
    """Tries each row of a table: its name, whether it is well, and the lines that say what differs."""
    options, modules, rows = read(path)

    def tried(row, levels):
        return [line for level in levels for line in differs(program, options, modules, row, level)]

    with ThreadPoolExecutor(os.cpu_count()) as pool:
        told = pool.map(lambda it: tried(*it[1:]), rows)
        for (number, row, _), lines in zip(rows, told):
            yield f"line {number}: {shown(row)}", not lines, lines
