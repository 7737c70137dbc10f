"""Reads programs of a small functional language as terms of its syntax (language.str)."""

import re

from stratbench.terms import Term, items, string

TOKEN = re.compile(r"\s*(\w+|->|<=|&&|\|\||\S)")
# How tight operators bind.
TIGHT = {"||": 1, "&&": 2, "<": 3, "<=": 3, "=": 3, "+": 4, "-": 4, "*": 5}


class Parser:
    def __init__(self, text):
        self.tokens = [*TOKEN.findall(text), "end"]

    def names(self, end):
        """Names up to a token, which is skipped."""
        at = self.tokens.index(end)
        found, self.tokens = self.tokens[:at], self.tokens[at + 1 :]
        return [string(it) for it in found]

    def until(self, end):
        """An expression and the token after it, which is skipped."""
        found = self.expression()
        if (token := self.tokens.pop(0)) != end:
            raise SyntaxError(f"`{token}` in place of `{end}`")
        return found

    def expression(self, tight=0):
        if self.tokens[0] in ("let", "fun", "if"):
            return getattr(self, f"{self.tokens.pop(0)}_")()
        left = self.atom()
        while self.tokens[0] == "(" or self.tokens[0].isalnum() and self.tokens[0] not in ("in", "then", "else", "end"):
            left = Term("App", (left, self.atom()))
        while TIGHT.get(self.tokens[0], 0) > tight:
            sign = self.tokens.pop(0)
            left = Term("Op", (string(sign), left, self.expression(TIGHT[sign])))
        return left

    def let_(self):
        kind = "Rec" if self.tokens[0] == "rec" else "Let"
        name, *parameters = self.names("=")[kind == "Rec" :]
        return Term(kind, (name, Term("Funs", (items(*parameters), self.until("in"))), self.expression()))

    def fun_(self):
        return Term("Funs", (items(*self.names("->")), self.expression()))

    def if_(self):
        return Term("If", (self.until("then"), self.until("else"), self.expression()))

    def atom(self):
        if (token := self.tokens.pop(0)) == "(":
            return self.until(")")
        if token.isdigit():
            return Term("Num", (Term(int(token)),))
        return Term(token.capitalize()) if token in ("true", "false") else Term("Var", (string(token),))
