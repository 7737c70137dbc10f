"""The tokens of a source, by their places in it."""

from __future__ import annotations

import re
import tokenize
from bisect import bisect_left, bisect_right
from typing import Final, NamedTuple

from ....patch.edits import Lines


# By how much a token leads into brackets, or out of them.
BRACKETS: Final = {"(": 1, "[": 1, "{": 1, ")": -1, "]": -1, "}": -1}


class Token(NamedTuple):
    kind: int
    text: str
    first: int
    last: int


class Tokens:
    """The tokens of a text but blanks and comments, and apart from them the comments."""

    def __init__(self, text: bytes, lines_of: Lines) -> None:
        starts = lines_of.starts
        lines = [text[first:last] for first, last in zip(starts, [*starts[1:], len(text)])]
        flat = [re.sub(rb"\r\n?\Z", b"\n", line).decode() for line in lines]
        plain = [line.isascii() for line in flat]
        self.tokens: list[Token] = []
        self.comments: list[Token] = []
        self.unit = b""
        waiting = iter(flat)
        for kind, string_, (row, column), (end_row, end_column), _ in tokenize.generate_tokens(lambda: next(waiting, "")):
            if kind == tokenize.INDENT and not self.unit:
                self.unit = string_.encode()
            if kind in (tokenize.INDENT, tokenize.DEDENT, tokenize.NL, tokenize.ENDMARKER):
                continue

            def offset(row: int, column: int) -> int:
                if row > len(flat):
                    return len(text)
                start = starts[row - 1]
                return start + (column if plain[row - 1] else len(flat[row - 1][:column].encode()))

            token = Token(kind, string_, offset(row, column), offset(end_row, end_column))
            (self.comments if kind == tokenize.COMMENT else self.tokens).append(token)
        self.unit = self.unit or b"    "
        self.firsts = [it.first for it in self.tokens]
        self.lasts = [it.last for it in self.tokens]
        ends = [at for at, it in enumerate(self.tokens) if it.kind == tokenize.NEWLINE]
        # where the lines of the grammar begin, which may be several of the text
        self.line_firsts = [0, *(self.tokens[at + 1].first for at in ends if at + 1 < len(self.tokens))]
        self.comment_firsts = [it.first for it in self.comments]
        # those on lines of their own
        lone = (it for it in self.comments if not text[starts[bisect_right(starts, it.first) - 1] : it.first].strip())
        self.comment_lines = {it.first: it for it in lone}

    def after(self, place: int) -> int:
        """The index of the first token that begins at the place or after it."""
        return bisect_left(self.firsts, place)

    def before(self, place: int) -> int:
        """The index of the last token that ends at the place or before it, or -1."""
        return bisect_right(self.lasts, place) - 1

    def logical_line(self, place: int) -> int:
        """Where the line of the grammar begins that a place is in."""
        return self.line_firsts[bisect_right(self.line_firsts, place) - 1]

    def back(self, place: int, *texts: str) -> Token:
        """The last token before a place that has one of these texts."""
        at = self.before(place)
        while self.tokens[at].text not in texts:
            at -= 1
        return self.tokens[at]

    def closing(self, index: int) -> Token:
        """The bracket that closes one."""
        depth = 1
        while depth:
            index += 1
            depth += BRACKETS.get(self.tokens[index].text, 0)
        return self.tokens[index]

    def are_around(self, first: int, last: int) -> bool:
        """Whether round brackets are right before and after a text."""
        return self.text_at(self.before(first)) == "(" and self.text_at(self.after(last)) == ")"

    def last_before(self, place: int) -> Token:
        """The last token that ends at the place or before it."""
        return self.tokens[self.before(place)]

    def first_after(self, place: int) -> Token:
        """The first token that begins at the place or after it."""
        return self.tokens[self.after(place)]

    def between(self, first: int, last: int) -> list[Token]:
        """The tokens from one place to the other."""
        return self.tokens[self.after(first) : self.before(last) + 1]

    def comments_between(self, first: int, last: int) -> list[Token]:
        """The comments from one place to the other."""
        return self.comments[bisect_left(self.comment_firsts, first) : bisect_left(self.comment_firsts, last)]

    def text_at(self, index: int) -> str:
        """The text of a token, or nothing where there is none."""
        return self.tokens[index].text if 0 <= index < len(self.tokens) else ""
