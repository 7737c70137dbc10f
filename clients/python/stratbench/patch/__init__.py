"""Small patches of sources: what of a text has to change, so that it spells another tree.

    >>> from stratbench.python import Source
    >>> from stratbench.terms import put, read
    >>> source = Source(b"x = f( 1 )  # one\\ny = 2\\n")
    >>> new = put(source.term, [0, 0, 1, 0], read('Name("g",Load)'))
    >>> patched(source, new)
    b'x = g( 1 )  # one\\ny = 2\\n'

The new tree says by its annotations what it has of the old one. A node that has the position of an old one, and is the same or of the same
constructor, has that one's text, but for what differs inside. So comments and layout stay wherever the tree stays.
"""

from __future__ import annotations

from typing import Protocol

from ..terms import Term
from .edits import Cannot as Cannot
from .edits import Edit, Patch, Unwritable, apply_edits

__all__ = ["Edit", "Patch", "Unwritable", "apply_edits", "patch", "patch_of", "patched"]


class Patchable(Protocol):
    """A source, of whatever language."""

    @property
    def text(self) -> bytes: ...

    def patch(self, new: Term) -> Patch: ...


def patch(source: Patchable, new: Term) -> list[Edit]:
    """Returns the edits that make the source spell the new tree, in order; none where it does.

    Raises `NoTerm` where the new tree is none of the language's, and `Unwritable` where no text spells it.
    """
    return patch_of(source, new).edits


def patch_of(source: Patchable, new: Term) -> Patch:
    """Returns the same edits, and the comments that aren't in the text after them. Each of the others is there once."""
    return source.patch(new)


def patched(source: Patchable, new: Term) -> bytes:
    """Returns the text of the source with the edits of `patch`, in UTF-8."""
    return apply_edits(source.text, 0, len(source.text), patch(source, new))
