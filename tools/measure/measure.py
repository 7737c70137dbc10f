"""Counts the instructions that reading, printing, cloning and comparing terms take.

Run by hand at the top of the repository, after the program was built (README has the command):

    python3 tools/measure/measure.py

It needs `rt`, `valgrind` and Python. Reading is measured on the built program, by a script of one
command `tree t ..`; the other calls by a small program on the two crates of terms and text (program.txt
beside this file), which is proved and built in a folder of its own. Printed are instructions per byte
of text, less those of an empty run, and per term.
"""

import os
import re
import shutil
import subprocess
import sys
import tempfile

TOP = os.path.dirname(os.path.dirname(os.path.dirname(os.path.abspath(__file__))))
BYTES = 60000
TIMES = 4

SHAPES = {
    "a wide list `[ab,ab,..]`": lambda n: "[" + ",".join(["ab"] * (n // 3)) + "]",
    "deep brackets": lambda n: "[" + ",".join(["[" * 499 + "]" * 499] * (n // 999)) + "]",
    "one long string": lambda n: '"' + ("abcdefghijklmnopqrstuvwxyz" * (n // 26 + 1))[:n] + '"',
    "many annotations `[a{b,c},..]`": lambda n: "[" + ",".join(["a{b,c}"] * (n // 7)) + "]",
    "integers of 7 digits": lambda n: "[" + ",".join(["1234567"] * (n // 8)) + "]",
    "`[f(g(a),b),..]`": lambda n: "[" + ",".join(["f(g(a),b)"] * (n // 10)) + "]",
}


def built_program():
    """The program to measure: the one that the command line names, or that of this checkout."""
    program = os.path.abspath(sys.argv[1]) if len(sys.argv) > 1 else os.path.join(TOP, "crates", "stratbench", "out", "stratbench")
    if not os.path.exists(program):
        sys.exit("build the program first: (cd crates/stratbench && rt run < stdin)")
    return program


def heading(title):
    """Prints a title over a table, with the script, the day and the commit that is measured, as RESULTS.md has them."""
    script = os.path.basename(sys.argv[0])
    if len(sys.argv) > 1:
        print(f"\n## {title}\n\n`{script}`, of the program {sys.argv[1]}\n", flush=True)
        return
    git = ["git", "-C", TOP]
    commit = subprocess.run([*git, "log", "-1", "--format=%cs, commit %h"], check=True, capture_output=True, text=True).stdout.strip()
    changed = subprocess.run([*git, "status", "--porcelain", "crates"], check=True, capture_output=True, text=True).stdout
    print(f"\n## {title}\n\n`{script}`, {commit}{' with changes' if changed else ''}\n", flush=True)


def instructions(program, words, text, status=0):
    """How many instructions a run takes that ends so, and what it writes."""
    with tempfile.NamedTemporaryFile() as out:
        run = subprocess.run(
            ["valgrind", "--tool=callgrind", "--callgrind-out-file=" + out.name, program, *words],
            input=text.encode(),
            capture_output=True,
        )
    assert run.returncode == status, run.stderr.decode()
    count = re.search(rb"Collected : (\d+)", run.stderr)
    return int(count.group(1)), run.stdout.decode().strip()


def with_those_below(uses):
    """The lines of crates.txt of these crates and of those that they stand on, by name."""
    with open(os.path.join(TOP, "crates.txt")) as lines:
        known = {line.split(":")[0]: line for line in lines if ":" in line and not line.startswith("#")}
    needed, left = {}, uses.split()
    while left:
        crate = left.pop()
        if crate in known and crate not in needed:
            needed[crate] = known[crate]
            left += known[crate].split(":")[1].split()
    return needed


def build(folder, program, uses):
    """Proves and builds a small program that uses these crates, on copies of them and of those below, and returns its path."""
    needed = with_those_below(uses)
    for crate in needed:
        shutil.copytree(os.path.join(TOP, "crates", crate), os.path.join(folder, "crates", crate))
    subprocess.run(["rt", "new", "crates/measure", "start_io"], cwd=folder, check=True)
    crate = os.path.join(folder, "crates", "measure")
    for name in os.listdir(crate):
        if name != "src":
            os.remove(os.path.join(crate, name))
    for name in os.listdir(os.path.join(crate, "src")):
        os.remove(os.path.join(crate, "src", name))
    source = os.path.join(TOP, "tools", "measure", program)
    shutil.copy(source, os.path.join(crate, "src", "main.rt"))
    with open(os.path.join(folder, "crates.txt"), "w") as lines:
        lines.writelines([*needed.values(), "measure: " + uses + "\n"])
    subprocess.run(["rt", "run"], cwd=crate, check=True, stdin=subprocess.DEVNULL)
    return os.path.join(crate, "out", "measure")


def main():
    stratbench = built_program()
    empty, _ = instructions(stratbench, [], "")
    with tempfile.TemporaryDirectory() as folder:
        program = build(folder, "program.txt", "term_core aterm_text anyhow")
        heading("Terms: instructions")
        print("| Text | read, a byte | print, a byte | clone and drop, a term | compare, a term |")
        print("|---|---|---|---|---|")
        for name, shape in SHAPES.items():
            text = shape(BYTES)
            read, answer = instructions(stratbench, [], "tree t " + text + "\n")
            assert answer == "ok", answer
            base, size = instructions(program, ["clone", "0"], text)
            times = {}
            for work in ["print", "clone", "equals"]:
                count, _ = instructions(program, [work, str(TIMES)], text)
                times[work] = (count - base) / TIMES
            terms = int(size)
            print(
                f"| {name} | {(read - empty) / len(text):.1f} | {times['print'] / len(text):.1f} "
                f"| {times['clone'] / terms:.0f} | {times['equals'] / terms:.1f} |"
            )


if __name__ == "__main__":
    main()
