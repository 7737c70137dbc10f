"""What is done to files, and what comes of each."""

from __future__ import annotations

from typing import Final, NamedTuple

from ..concrete.text import Made
from .needs import Needs

# The bounds of the workbench: levels, which are fixed, and what it is started with for terms and steps.
MOST_LEVELS: Final = 1_000
MOST_TERMS: Final = 10_000_000
MOST_STEPS: Final = 4_000_000_000


class Task(NamedTuple):
    """What is done to each file: the modules that are loaded, by name and text, the strategy, and its budget, or none for one that goes
    with the file's size. `files` are the names of the modules' files for what is said of them. `keep_comments` leaves places alone where
    a comment would be lost. `profile` asks where the steps go. `needs` is what the strategy needs of a file, where that is known.
    `language` is the name of the language of the files. `traces` say where modules, by their names, and the strategy, by the empty one, come
    from, if they were made of texts in a language's own syntax."""

    modules: tuple[tuple[str, bytes], ...]
    strategy: str
    within: int | None = None
    program: str | None = None
    files: tuple[str, ...] = ()
    keep_comments: bool = False
    profile: bool = False
    needs: Needs | None = None
    language: str = "python"
    traces: tuple[tuple[str, Made], ...] = ()


class Comment(NamedTuple):
    """A comment in a line of a file that is lost; or for which a place is left as it is."""

    line: int
    text: str
    left: bool


class Outcome(NamedTuple):
    """What came of a file. `contents` is what it would be, where it would change, and `diff` shows it; `left` says why it is
    left as it is. A `fault` is why a result can't be written, so that no file is. `of_texts` is whether the modules or the
    strategy may be wrong, whatever the file is. `comments` are those that are lost, or for which places are left, `said` is what
    else there is to say, as the warnings of the modules where they were asked for. `places` are the lines of the places that change.
    `steps` is where the steps went, by definition, where that was asked for, and `seconds` where the time went, by what was done."""

    name: str
    contents: bytes | None = None
    diff: bytes = b""
    left: str = ""
    fault: str = ""
    of_texts: bool = False
    said: tuple[str, ...] = ()
    comments: tuple[Comment, ...] = ()
    places: tuple[int, ...] = ()
    steps: tuple[tuple[str, int], ...] = ()
    seconds: tuple[tuple[str, float], ...] = ()
