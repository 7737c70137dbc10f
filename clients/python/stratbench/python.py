"""Python's syntax trees as terms, and back: `languages.python.source` has all of it.

As a command it prints the term of a file, or with no file the module of strategies that declares the constructors:

    python -m stratbench.python [FILE]
"""

from __future__ import annotations

import sys

from .languages.python.constructors import CONSTRUCTORS, Constructor, Field, signature
from .languages.python.source import Source, from_term, parse, to_term, unparse, walk
from .patch.edits import Lines
from .terms import deep, position

__all__ = [
    "CONSTRUCTORS", "Constructor", "Field", "Lines", "Source", "deep", "from_term", "parse", "position", "signature", "to_term", "unparse",
    "walk",
]  # fmt: skip


def _main(words: list[str]) -> None:
    if not words:
        sys.stdout.write(signature())
    for file in words:
        with open(file, "rb") as it:
            print(Source(it.read()).shown.text)


if __name__ == "__main__":
    _main(sys.argv[1:])
