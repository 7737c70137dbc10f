"""The owners of comments: each is in the new text once, or is lost.

Where old text is copied, each comment in it gets a mark that says which one it is. So one that stays where it was, or was copied before,
is taken out of later copies, and one that is nowhere is known to be lost.
"""

from __future__ import annotations

import re
from bisect import bisect_right
from collections.abc import Sequence

from ....patch.edits import Edit, Patch
from .tokens import Token


class Marks:
    """Marks for the comments of a text, which are known by their places in it. `offset` is added to these, for a text that is part of
    another."""

    def __init__(self, text: bytes, offset: int = 0, sign: bytes = b"\1") -> None:
        while sign in text:
            sign += b"\1"
        self.sign, self.offset = sign, offset
        self._mark = re.compile(rb"#%s(\d+)%s" % (sign, sign))

    def edits(self, comments: Sequence[Token], edits: Sequence[Edit]) -> list[Edit]:
        """Returns the edits that mark these comments where they stay."""
        return [Edit(it.first + 1, it.first + 1, b"%s%d%s" % (self.sign, it.first + self.offset, self.sign)) for it in staying(comments, edits)]

    def noted(self, edits: Sequence[Edit]) -> set[int]:
        """Returns the comments that are in the texts of edits."""
        return {int(found[1]) for it in edits if self.sign in it.text for found in self._mark.finditer(it.text)}

    def resolved(self, edits: Sequence[Edit], comments: Sequence[Token]) -> Patch:
        """Returns the edits without marks and with each comment once, and which of the comments are lost."""
        there = {it.first for it in staying(comments, edits)}
        found = [it._replace(text=self._once(it.text, there)) if self.sign in it.text else it for it in edits]
        return Patch(found, [it for it in comments if it.first not in there])

    # The text without marks, and without the comments that are there already.
    def _once(self, text: bytes, there: set[int]) -> bytes:
        out: list[bytes] = []
        end = 0
        for found in self._mark.finditer(text):
            out.append(text[end : found.start()])
            end = found.end()
            if int(found[1]) not in there:
                there.add(int(found[1]))
                out.append(b"#")
                continue
            out, end = _without(b"".join(out), text, end)
        return b"".join([*out, text[end:]])


def staying(comments: Sequence[Token], edits: Sequence[Edit]) -> list[Token]:
    """Returns the comments that are in none of the edits, which are in order."""
    firsts = [it.first for it in edits]
    found: list[Token] = []
    for it in comments:
        at = bisect_right(firsts, it.first) - 1
        if at < 0 or it.first >= edits[at].last:
            found.append(it)
    return found


# The text before a comment that goes, and where the text after it begins. Alone in its line, it goes with the line.
def _without(before: bytes, text: bytes, at: int) -> tuple[list[bytes], int]:
    ends = re.compile(rb"[^\r\n]*").match(text, at)
    end = ends.end() if ends else at
    rest = before.rstrip(b" \t\f")
    if rest and not rest.endswith((b"\n", b"\r")):
        return [rest], end
    after = re.compile(rb"\r?\n|\r").match(text, end)
    if after is None:
        return [rest.rstrip(b"\r\n")], end
    if rest:
        return [rest], after.end()
    blanks = re.compile(rb"[ \t\f]*").match(text, after.end())
    return [before], blanks.end() if blanks else after.end()
