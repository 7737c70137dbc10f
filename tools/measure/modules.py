"""Times sessions that load, change and unload modules beside many others.

Run by hand at the top of the repository, after the program was built (README has the command):

    python3 tools/measure/modules.py [PROGRAM]

Each of the modules has 20 rules, and calls a strategy of the module before it. Further commands follow: a module is loaded anew, a strategy
is applied, both are undone, another is applied and undone, the last module is unloaded, and that is undone. The times are the least of
three.
"""

import random
import time

from measure import built_program, heading
from scripts import most_memory

RULES = 20


def module(i, number):
    """The module of this number, with rules that differ by another number."""
    constructors = "   ".join(f"C{i}x{k} : a * a -> a" for k in range(6))
    rules = "\n".join(
        f"    R{i}x{k} : C{i}x{k % 6}(x,C{i}x{(k + 1) % 6}(y,{k + number})) -> C{i}x{(k + 2) % 6}(y,z) where <add{i}> (x,{k}) => z"
        for k in range(RULES)
    )
    choice = " <+ ".join(f"R{i}x{k}" for k in range(RULES))
    text = f"module m{i:03d}\n  signature constructors\n    {constructors}\n  rules\n{rules}\n  strategies\n"
    text += f'    add{i} = ?(x,y); prim("addi",x,y)\n    norm{i} = bottomup(try({choice}))\n'
    return text + (f"    deep{i} = norm{i}; norm{i - 1}\n" if i else "")


def script(modules, rounds):
    random.seed(1)
    lines = [module(i, 0) for i in range(modules)] + ["tree t C0x0(1,C0x1(2,0))\n"]
    for n in range(rounds):
        lines.append(module(random.randrange(modules), n % 7))
        lines.append(f"apply t do try(R{random.randrange(modules)}x1)\nundo\nundo\n")
        lines.append(f"apply t do try(R{random.randrange(modules)}x2)\nundo\nunload m{modules - 1:03d}\nundo\n")
    return lines


def row(program, what, lines):
    best = None
    for _ in range(3):
        start = time.monotonic()
        used = most_memory(program, lines)
        taken = time.monotonic() - start
        best = taken if best is None else min(best, taken)
    size = sum(len(line) for line in lines)
    print(f"| {what} | {best:.2f} s | {used / 1024:.1f} MiB | {size / 1000:,.0f} KB |")


def main():
    program = built_program()
    heading("Modules on the built program: time and memory of a run")
    print("| What | Time | Memory | Script |")
    print("|---|---|---|---|")
    for modules, rounds in [(100, 90), (400, 52)]:
        library = ["module lib strategies try(s) = s <+ id  bottomup(s) = all(bottomup(s)); s\n"]
        loading = library + script(modules, 0)
        row(program, f"{modules} modules of {RULES} rules, loaded", loading)
        row(program, "the same in a group", ["begin\n", *loading, "commit\n"])
        row(program, f"the same and {8 * rounds} commands more", library + script(modules, rounds))
    row(program, "1,000 modules of one definition", [f"module m{i:04d} strategies s{i} = id\n" for i in range(1000)])


if __name__ == "__main__":
    main()
