"""The languages of the command, a folder for each.

A language is what `language.Language` says; its folder has its grammar, its front end and what else knows it. Nothing of a language is
loaded before a file of it is seen.
"""

from __future__ import annotations

import importlib
import os
from typing import Final, Optional

from .language import Language

# The folders, with the suffixes of their files.
_SUFFIXES: Final = {
    "python": (".py",),
    "javascript": (".js", ".mjs", ".cjs", ".jsx", ".ts", ".mts", ".cts", ".tsx"),
    "java": (".java",),
    "json": (".json", ".jsonc"),
    "yaml": (".yaml", ".yml"),
}
NAMES: Final = tuple(_SUFFIXES)
# Those that aren't in a folder here.
_added: dict[str, Language] = {}


def add(language: Language) -> None:
    """Makes another language known in this process, and its suffixes."""
    _added[language.name] = language


def named(name: str) -> Language:
    """Returns the language of this name. Raises `ValueError`."""
    if name in _added:
        return _added[name]
    if name not in _SUFFIXES:
        raise ValueError(f"no language {name}: there are {', '.join(NAMES)}")
    found: Language = importlib.import_module(f"{__name__}.{name}").LANGUAGE
    return found


def name_of(file: str) -> Optional[str]:
    """Returns the name of the language of a file with this name, if its suffix is one's.

    >>> name_of("a/b.py"), name_of("a.txt")
    ('python', None)
    """
    suffix = os.path.splitext(file)[1]
    known = {**_SUFFIXES, **{name: it.suffixes for name, it in _added.items()}}
    return next((name for name, suffixes in known.items() if suffix in suffixes), None)
