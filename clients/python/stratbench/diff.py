"""Unified diffs, from the edits that were made.

    >>> from stratbench.patch import Edit
    >>> print(unified("f.py", b"a\\nb\\nc\\n", [Edit(2, 3, b"x")]).decode(), end="")
    --- f.py
    +++ f.py
    @@ -1,3 +1,3 @@
     a
    -b
    +x
     c

The edits say where something changed. Lines are compared there, and only there.
"""

from __future__ import annotations

import difflib
import os
import re
from bisect import bisect_right
from collections.abc import Iterator, Sequence
from typing import Final

from .patch import Edit

_CONTEXT: Final = 3
# Texts with more lines that differ aren't compared to the last one.
_MOST_DIFFERING: Final = 400
# A run of so many lines isn't compared together with the next: the time would grow with the square of its length.
_MOST_TOGETHER: Final = 400


# What has to be quoted in a name: else a line feed in it would begin another line of the diff.
_CONTROL: Final = re.compile(rb'[\x00-\x1f"\\\x7f]')
_ESCAPES: Final = {b'"': b'\\"', b"\\": b"\\\\", b"\n": b"\\n", b"\t": b"\\t", b"\r": b"\\r"}


# A file's name as git has it in diffs, which patch reads, too.
def _quoted(name: str) -> bytes:
    text = os.fsencode(name)
    if not _CONTROL.search(text):
        return text
    return b'"%s"' % _CONTROL.sub(lambda it: _ESCAPES.get(it[0], b"\\%03o" % it[0][0]), text)


def unified(name: str, text: bytes, edits: Sequence[Edit]) -> bytes:
    """Returns the unified diff of a text and the text with the edits, which are in order and apart; nothing for none."""
    lines = re.findall(rb"[^\n]*\n|[^\n]+", text)
    changes = _changes(text, lines, edits)
    if not changes:
        return b""
    shown = _quoted(name)
    out = [b"--- %s\n+++ %s\n" % (shown, shown)]
    group: list[tuple[int, int, list[bytes]]] = []
    shift = 0
    for change in changes:
        if group and change[0] - group[-1][1] > 2 * _CONTEXT:
            shift = _hunk(out, lines, group, shift)
            group = []
        group.append(change)
    _hunk(out, lines, group, shift)
    return b"".join(out)


# The runs of lines that others take the place of: from which line, up to which, and the others.
def _changes(text: bytes, lines: list[bytes], edits: Sequence[Edit]) -> list[tuple[int, int, list[bytes]]]:
    starts = [0]
    for line in lines:
        starts.append(starts[-1] + len(line))
    found: list[tuple[int, int, list[bytes]]] = []
    # the last line goes on where it has no line end
    open_end = bool(lines) and not lines[-1].endswith(b"\n")
    waiting = list(edits)[::-1]
    while waiting:
        # edits that touch the same lines are one run
        run = [waiting.pop()]
        first = min(bisect_right(starts, run[0].first) - 1, len(lines) - open_end)
        while True:
            end = _line_after(starts, run[-1])
            if not waiting or (waiting[-1].first >= starts[end] and not (open_end and end == len(lines))):
                break
            run.append(waiting.pop())
        new, at = b"", starts[first]
        for edit in run:
            new += text[at : edit.first] + edit.text
            at = edit.last
        new += text[at : starts[end]]
        # a run whose new text ends within a line goes on with the next line
        while new and not new.endswith(b"\n") and end < len(lines):
            new += lines[end]
            end += 1
        others = re.findall(rb"[^\n]*\n|[^\n]+", new)
        if found and first - found[-1][1] <= 2 * _CONTEXT and found[-1][1] - found[-1][0] < _MOST_TOGETHER:
            # what is shown together is compared as one, since lines may have moved from one run to the other
            begin, last, before = found.pop()
            first, others = begin, [*before, *lines[last:first], *others]
        found.append((first, end, others))
    return [change for first, end, others in found for change in _differing(lines, first, end, others)]


# The fewest lines that differ in a run.
def _differing(lines: list[bytes], first: int, end: int, others: list[bytes]) -> Iterator[tuple[int, int, list[bytes]]]:
    old, new = first, 0
    for one, two in [*_common(lines[first:end], others), (end - first, len(others))]:
        if first + one > old or two > new:
            yield old, first + one, others[new:two]
        old, new = first + one + 1, two + 1


# The places of the lines that two texts have in common, as many as there can be.
def _common(one: list[bytes], two: list[bytes]) -> list[tuple[int, int]]:
    begin, ends = 0, 0
    while begin < min(len(one), len(two)) and one[begin] == two[begin]:
        begin += 1
    while ends < min(len(one), len(two)) - begin and one[-1 - ends] == two[-1 - ends]:
        ends += 1
    found = _searched(one[begin : len(one) - ends], two[begin : len(two) - ends])
    pairs = [(it, it) for it in range(begin)] + [(begin + it, begin + other) for it, other in found]
    return pairs + [(len(one) - it, len(two) - it) for it in range(ends, 0, -1)]


# The same by the algorithm of Myers; of texts that differ much, those of the longest runs.
def _searched(one: list[bytes], two: list[bytes]) -> list[tuple[int, int]]:
    if not one or not two:
        return []
    reached = {1: 0}
    before: list[dict[int, int]] = []
    for differing in range(_MOST_DIFFERING):
        before.append(dict(reached))
        for diagonal in range(-differing, differing + 1, 2):
            down = diagonal == -differing or (diagonal != differing and reached[diagonal - 1] < reached[diagonal + 1])
            at = reached[diagonal + 1] if down else reached[diagonal - 1] + 1
            while at < len(one) and at - diagonal < len(two) and one[at] == two[at - diagonal]:
                at += 1
            reached[diagonal] = at
            if at >= len(one) and at - diagonal >= len(two):
                return _way_back(before, len(one), len(two))
    blocks = difflib.SequenceMatcher(None, one, two, autojunk=False).get_matching_blocks()
    return [(block.a + it, block.b + it) for block in blocks for it in range(block.size)]


# The common lines on the way to the end, from what was reached before each differing line.
def _way_back(before: list[dict[int, int]], one: int, two: int) -> list[tuple[int, int]]:
    pairs: list[tuple[int, int]] = []
    for differing in range(len(before) - 1, -1, -1):
        reached, diagonal = before[differing], one - two
        down = diagonal == -differing or (diagonal != differing and reached[diagonal - 1] < reached[diagonal + 1])
        came = diagonal + 1 if down else diagonal - 1
        start = reached[came] if differing else 0
        begin = start if down else start + 1
        while one > (begin if differing else 0) and two > 0 and one > 0:
            one, two = one - 1, two - 1
            pairs.append((one, two))
        if differing:
            one, two = start, start - came
    return pairs[::-1]


# The line after the last one that an edit touches.
def _line_after(starts: list[int], edit: Edit) -> int:
    after = bisect_right(starts, edit.last)
    if edit.first < edit.last == starts[after - 1] and (not edit.text or edit.text.endswith(b"\n")):
        return after - 1
    return min(after, len(starts) - 1)


def _hunk(out: list[bytes], lines: list[bytes], group: list[tuple[int, int, list[bytes]]], shift: int) -> int:
    first = max(0, group[0][0] - _CONTEXT)
    last = min(len(lines), group[-1][1] + _CONTEXT)
    added = sum(len(new) - (end - begin) for begin, end, new in group)
    old, new_length = last - first, last - first + added
    at = first + (1 if old else 0)
    new_at = first + shift + (1 if new_length else 0)
    out.append(f"@@ -{_range(at, old)} +{_range(new_at, new_length)} @@\n".encode())
    for begin, end, new in group:
        out += [_line(b" ", it) for it in lines[first:begin]]
        out += [_line(b"-", it) for it in lines[begin:end]]
        out += [_line(b"+", it) for it in new]
        first = end
    out += [_line(b" ", it) for it in lines[first:last]]
    return shift + added


def _range(first: int, count: int) -> str:
    return str(first) if count == 1 else f"{first},{count}"


def _line(sign: bytes, line: bytes) -> bytes:
    return sign + line if line.endswith(b"\n") else sign + line + b"\n\\ No newline at end of file\n"
