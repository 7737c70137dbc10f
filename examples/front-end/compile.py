"""Compiles programs of a small functional language, and evaluates each before and after."""

import os
import re
import sys

from parsing import Parser
from stratbench import Stratbench

HERE = os.path.dirname(os.path.realpath(__file__))
LIBRARY = ["lists", "terms", "names", "free-variables", "substitution"]
PHASES = ["language", "desugar", "normal", "closures", "evaluate"]
FILES = [(it, f"{HERE}/../../strategies/{it}.str") for it in LIBRARY] + [(it, f"{HERE}/{it}.str") for it in PHASES]


def value(bench, strategy):
    """What the tree means. It stays."""
    bench.apply("program", strategy)
    found = bench.show("program")
    bench.undo()
    return found


def main():
    modules = [word for name, file in FILES for word in ("--module", f"{name}={file}")]
    with open(f"{HERE}/programs.txt") as it:
        programs = re.findall(r"^# (.*)\n((?:.+\n)+)", it.read(), re.MULTILINE)
    with Stratbench(library=True, steps=1_000_000, options=modules) as bench:
        for title, text in programs:
            bench.tree("program", Parser(text).until("end"))
            bench.apply("program", "desugar")
            values = [value(bench, "evaluate")]
            bench.apply("program", "normalise; where(is-normal)")
            if len(sys.argv) > 1:
                print(bench.pretty("program"))
            values.append(value(bench, "evaluate"))
            bench.apply("program", "convert")
            values.append(value(bench, "evaluate-program"))
            print(f"{title}: {', '.join(values)}")


if __name__ == "__main__":
    main()
