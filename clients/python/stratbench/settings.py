"""What belongs to a folder of modules: the file `stratbench.json` in it, or in the nearest folder around it that has one.

The language server reads it, the command that refactors, and the shell; docs/manual/server.md says what its members are.
"""

from __future__ import annotations

import glob
import json
import os
from collections.abc import Callable
from functools import lru_cache
from typing import Any, Final, NamedTuple, Optional

from . import languages

NAME: Final = "stratbench.json"


class BadSettings(ValueError):
    """A file of settings that can't be read, or has something else in it."""


class Settings(NamedTuple):
    """The members of a file of settings, and the folder that it is in. Where there is no file, `is_there` is false."""

    folder: str
    is_there: bool = False
    modules: Optional[tuple[str, ...]] = None
    library: bool = True
    signature: Optional[str] = None
    language: Optional[str] = None
    entries: Optional[tuple[str, ...]] = None

    def files(self, folder: str) -> list[str]:
        """Returns the files of the modules, in order: where they aren't named, those in this folder."""
        within, patterns = (folder, ("*.str",)) if self.modules is None else (self.folder, self.modules)
        return sorted({os.path.abspath(it) for pattern in patterns for it in glob.glob(os.path.join(within, pattern))})

    def declared(self) -> list[tuple[str, str]]:
        """Returns the module that declares the constructors of a language, with its name, where one is wanted."""
        return [] if self.signature is None else [(self.signature, _signature(self.signature))]


@lru_cache(maxsize=None)
def _signature(language: str) -> str:
    return languages.named(language).signature()


def settings_of(folder: str) -> Settings:
    """Returns the settings of a folder. Raises `BadSettings`."""
    at = os.path.abspath(folder)
    while True:
        path = os.path.join(at, NAME)
        if os.path.isfile(path):
            return _read(path)
        above = os.path.dirname(at)
        if above == at:
            return Settings(os.path.abspath(folder))
        at = above


def _read(path: str) -> Settings:
    try:
        with open(path, encoding="utf-8") as it:
            found = json.load(it)
    except (OSError, ValueError) as why:
        raise BadSettings(f"{path}: {why}") from None
    if not isinstance(found, dict):
        raise BadSettings(f"{path}: it isn't an object")
    for name, it in found.items():
        if name not in _MEMBERS:
            raise BadSettings(f"{path}: there is no member `{name}`; there are {', '.join(f'`{one}`' for one in _MEMBERS)}")
        what, fits = _MEMBERS[name]
        if not fits(it):
            raise BadSettings(f"{path}: `{name}` isn't {what}")
    members = {name: tuple(it) if isinstance(it, list) else it for name, it in found.items()}
    return Settings(os.path.dirname(path), True, **members)


def _is_list(it: Any) -> bool:
    return isinstance(it, list) and all(isinstance(one, str) for one in it)


_LANGUAGE: Final = f"one of {', '.join(languages.NAMES)}"
_MEMBERS: Final[dict[str, tuple[str, Callable[[Any], bool]]]] = {
    "modules": ("a list of texts", _is_list),
    "library": ("true or false", lambda it: isinstance(it, bool)),
    "signature": (_LANGUAGE, lambda it: it in languages.NAMES),
    "language": (_LANGUAGE, lambda it: it in languages.NAMES),
    "entries": ("a list of texts", _is_list),
}
