"""The layout of modules, by the rules of docs/manual/server.md, which leave the lines as they are.

    >>> print(laid_out("rules\\n\\n\\nR:F( x ,y)->\\ny // c \\n// d\\nS : x->x;"), end="")
    rules
    <BLANKLINE>
      R: F(x,y) ->
        y // c
      // d
      S : x -> x;

"""

from __future__ import annotations

import re
import sys
from collections.abc import Sequence
from typing import Final

from .reading import Module, Token, read, tokens_of

_OUTER: Final = ("module", "signature", "rules", "strategies")
_AROUND: Final = ("=", "->", "=>", "<+")


def laid_out(text: str) -> str:
    """Returns the text of a module, laid out. A text with something that is no token stays as it is."""
    module = read(text)
    if any(it.kind == "bad" for it in module.tokens):
        return text
    new = _Layout(text, module).written()
    return new if _plain(tokens_of(new)) == _plain(module.tokens) else text


def _plain(tokens: Sequence[Token]) -> list[tuple[str, str]]:
    return [(it.kind, re.sub(r"[ \t]+$", "", it.text, flags=re.MULTILINE) if it.kind == "comment" else it.text) for it in tokens]


class _Layout:
    def __init__(self, text: str, module: Module) -> None:
        self.text = text
        self.tokens = module.tokens
        self.begins = {it.begin for it in module.definitions} | {it.at for it in module.constructors}
        self.sorts = {it.begin for it in module.names if it.kind == "sort"}
        # How far the line is indented, and items in the section that goes on, and how many brackets are open in the item.
        self.line = 0
        self.inside = 0
        self.open = 0
        self.word = ""

    def written(self) -> str:
        lines: list[str] = []
        line = ""
        before: Token | None = None
        for number, token in enumerate(self.tokens):
            gap = self.text[before.end if before else 0 : token.begin]
            if before is None or "\n" in gap:
                if before is not None:
                    lines.append(line.rstrip())
                    lines += [""] * (gap.count("\n") > 1)
                self.line = self.indent(number)
                line = " " * self.line
            elif token.begin in self.begins:
                line += gap or " "
            else:
                line += _between(before, token, gap)
            line += re.sub(r"[ \t]+$", "", token.text, flags=re.MULTILINE) if token.kind == "comment" else token.text
            self.passed(token)
            before = token
        return "".join(f"{it}\n" for it in [*lines, line.rstrip()] if before is not None)

    def indent(self, number: int) -> int:
        """How many blanks come before the token of this number, which begins a line."""
        ahead = number
        while ahead < len(self.tokens) and self.tokens[ahead].kind == "comment":
            ahead += 1
        if ahead == len(self.tokens):
            return self.inside
        token = self.tokens[ahead]
        if token.kind == "reserved" and token.text in _OUTER:
            return 0
        if token.kind == "reserved" and token.text in ("sorts", "constructors"):
            return 2
        if token.begin in self.begins or self.word == "sorts" and token.begin in self.sorts:
            return self.inside
        closes = token.text in (")", "]", "}") or token.kind == "reserved" and token.text in ("then", "else", "end")
        return self.inside + 2 + 2 * max(0, self.open - closes)

    def passed(self, token: Token) -> None:
        """Takes note of a token that was written."""
        if token.kind == "reserved" and token.text in (*_OUTER, "sorts", "constructors"):
            self.word, self.open, self.inside = token.text, 0, self.line + 2
        elif token.begin in self.begins:
            self.open = 0
        elif token.kind == "sign" and token.text in ("(", "[", "{") or token.kind == "reserved" and token.text == "if":
            self.open += 1
        elif token.kind == "sign" and token.text in (")", "]", "}") or token.kind == "reserved" and token.text == "end":
            self.open = max(0, self.open - 1)


def _between(before: Token, token: Token, gap: str) -> str:
    """What stands between two tokens of a line."""
    first, second = (it.text if it.kind == "sign" else "" for it in (before, token))
    if token.kind == "comment":
        return gap or " "
    if second in (";", ",", ")", "]", "}") or first in ("(", "["):
        return ""
    if first in (";", ":") or first in _AROUND or second in _AROUND:
        return " "
    return " " if gap else ""


def main(words: Sequence[str]) -> int:
    """Lays modules out: `python -m stratbench.server.layout [--check] FILE..`. With --check nothing is written, and the status is 1 where
    a file would change."""
    check, files = "--check" in words, [it for it in words if it != "--check"]
    if not files or any(it.startswith("-") for it in files):
        print("usage: python -m stratbench.server.layout [--check] FILE..", file=sys.stderr)
        return 2
    changed = 0
    for file in files:
        try:
            with open(file, encoding="utf-8", newline="") as it:
                text = it.read()
            new = laid_out(text)
            if new != text:
                changed += 1
                print(file)
                if not check:
                    with open(file, "w", encoding="utf-8", newline="") as out:
                        out.write(new)
        except (OSError, UnicodeError) as why:
            print(f"{file}: {why}", file=sys.stderr)
            return 3
    return int(check and changed > 0)


if __name__ == "__main__":
    sys.exit(main(sys.argv[1:]))
