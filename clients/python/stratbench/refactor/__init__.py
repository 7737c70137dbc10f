"""Refactors files of programs by a strategy, with small patches.

    python -m stratbench.refactor [--modules FOLDER] [--module NAME=FILE].. --do STRATEGY FILES..

Each file is read as a term (`stratbench.languages`), the strategy is previewed on it, and the patch of the source
(`stratbench.patch`) is printed as a unified diff. `docs/manual/python.md` and `docs/manual/languages.md` are the manual.

What is done to files and what comes of them is `task`; `files` finds and reads them, `batches` has them done in processes, `runs` asks
the workbench, `needs` tells what it needn't be asked, `outcomes` makes patches, `writing` changes the files, `report` says what was
done, and `command` is the command line.
"""

from ..terms import exchange
from .runs import Bench, NoProgram, Result, transformed
from .sources import refactored
from .task import MOST_LEVELS, MOST_STEPS, MOST_TERMS, Comment, Outcome, Task
from .writing import WriteFault, write_all

# the name by which the tests of patches know it
_Bench = Bench

__all__ = [
    "MOST_LEVELS", "MOST_STEPS", "MOST_TERMS", "Bench", "Comment", "NoProgram", "Outcome", "Result", "Task", "WriteFault", "exchange",
    "refactored", "transformed", "write_all",
]  # fmt: skip
