"""Prints the term of a file, or the module of strategies that declares the constructors of a language:

    python -m stratbench.languages [--language NAME] FILE
    python -m stratbench.languages --signature NAME
"""

from __future__ import annotations

import argparse
import sys

from . import NAMES, name_of, named
from .language import Fault, Missing


def _main() -> int:
    parser = argparse.ArgumentParser(prog="python -m stratbench.languages", description="Prints the term of a file, or a language's signature.")
    parser.add_argument("--language", choices=NAMES, help="the language of the file, where its suffix says none")
    parser.add_argument("--signature", choices=NAMES, help="print the module of strategies that declares a language's constructors")
    parser.add_argument("file", nargs="?", metavar="FILE")
    given = parser.parse_args()
    if given.signature is not None:
        sys.stdout.write(named(given.signature).signature())
        return 0
    name = given.language or name_of(given.file or "")
    if given.file is None or name is None:
        parser.error("FILE is missing" if given.file is None else "the suffix of FILE says no language: give --language")
    with open(given.file, "rb") as it:
        contents = it.read()
    try:
        [source] = named(name).sources([(given.file, contents)])
    except Missing as error:
        print(error, file=sys.stderr)
        return 2
    if isinstance(source, Fault):
        print(f"{given.file}:{source.line}: no {named(name).title}: {source.message}", file=sys.stderr)
        return 3
    print(source.shown.text)
    return 0


if __name__ == "__main__":
    sys.exit(_main())
