"""What is installed with the client: the program, the library for C, the modules and rules of the folder strategies, and what they were made
of.

The wheel that tools/package makes has them. In a checkout the folder is there as well; the program is looked for in PATH.
"""

from __future__ import annotations

import json
import os
import sys
import sysconfig
from collections.abc import Iterator
from typing import Any, Final, Optional

from .versions import CLIENT

STRATEGIES: Final = "strategies"
_HERE: Final = os.path.dirname(os.path.abspath(__file__))
# The top of a checkout, if this is one.
_TOP: Final = os.path.dirname(os.path.dirname(os.path.dirname(_HERE)))
# The library for C, and what the wheel was made of, which a wheel has here.
_LIBRARY: Final = os.path.join(_HERE, "libstratbench.so")
_BUILD: Final = os.path.join(_HERE, "build.json")


def program(named: Optional[str] = None) -> str:
    """Returns the program: the one that is named, or that of the environment's STRATBENCH, or the one that was installed with the client,
    or else `stratbench`, which is looked for in PATH."""
    mine = (it for it in _programs() if os.access(it, os.X_OK))
    return named or os.environ.get("STRATBENCH") or next(mine, "") or "stratbench"


# Where a wheel's program may be: beside Python, in the user's folder, or beside the packages of another folder.
def _programs() -> Iterator[str]:
    if not os.path.exists(_LIBRARY):
        return
    yield os.path.join(sysconfig.get_path("scripts"), "stratbench")
    yield os.path.join(sysconfig.get_path("scripts", f"{os.name}_user"), "stratbench")
    yield os.path.join(os.path.dirname(_HERE), "bin", "stratbench")


def library(named: Optional[str] = None) -> str:
    """Returns the shared object of the library for C: the one that is named, or that of the environment's STRATBENCH_LIBRARY, or the one
    that was installed with the client, or else `libstratbench.so`, which is looked for where shared objects are."""
    mine = _LIBRARY if os.path.exists(_LIBRARY) else os.path.basename(_LIBRARY)
    return named or os.environ.get("STRATBENCH_LIBRARY") or mine


def command(module: str, name: str) -> str:
    """Returns what a command of the client was called as: by its name, which a wheel installs, or as a module."""
    return name if os.path.basename(sys.argv[0]) == name else f"python -m {module}"


def version(name: str) -> str:
    """Returns what a command of this name says of its version, of the commit that it was made of, and of what is proved."""
    if not os.path.exists(_BUILD):
        return f"{name} {CLIENT} (of a checkout)"
    with open(_BUILD, encoding="utf-8") as it:
        made: dict[str, Any] = json.load(it)
    changed = ", changed" if made["changed"] else ""
    return f"{name} {made['version']} (commit {made['commit'][:12]}{changed}, {'proved' if made['proved']['program'] else 'not proved'})"


def strategies() -> Optional[str]:
    """Returns the folder of the modules and rules that come with the client, if there is one."""
    return next((it for it in (os.path.join(_HERE, STRATEGIES), os.path.join(_TOP, STRATEGIES)) if os.path.isdir(it)), None)


def found(path: str) -> str:
    """Returns a path; in place of `strategies`, or of a file in it, that isn't there, the one that comes with the client."""
    first, _, rest = path.partition("/")
    mine = strategies()
    if first != STRATEGIES or mine is None or os.path.exists(path):
        return path
    return os.path.join(mine, rest) if rest else mine
