"""Modules with quotations, patterns in a language's own syntax: the module that is made of one, as the command that refactors makes it."""

from __future__ import annotations

from functools import lru_cache

from ..concrete.adapter import adapter_of
from ..concrete.quotations import has_quotations as has_quotations
from ..concrete.quotations import in_module
from ..concrete.text import Fault, Made, Source
from ..languages.language import Missing
from ..refactor.written import needed as needed_by
from ..refactor.written import own_language as own_language
from .checking import Sent


class WrongQuotation(ValueError):
    """A quotation that can't be read, at this character of the module."""

    def __init__(self, message: str, place: int) -> None:
        super().__init__(message)
        self.place = place


class Quoted(Sent):
    """What is sent of a module with quotations. Its places are those in the module from which it was made."""

    def __init__(self, own: str, made: Made) -> None:
        super().__init__(str(made))
        self._made, self._size = made, len(own)

    def place(self, byte: int) -> int:
        found = self._made.place(super().place(byte))
        return min(found[1], self._size) if found else 0


def made_of(text: str, language: str) -> Sent:
    """Returns what is sent of a module with quotations of this language. Raises `WrongQuotation`."""
    adapter = adapter_of(language)
    first = text.find("`")
    if adapter is None:
        raise WrongQuotation(f"{language} has no quotations", first)
    try:
        return Quoted(text, in_module(Source("", text), adapter))
    except Fault as fault:
        raise WrongQuotation(fault.message, fault.place) from None
    except Missing as why:
        raise WrongQuotation(str(why), first) from None


@lru_cache(maxsize=None)
def needed(language: str) -> dict[str, str]:
    """Returns the modules that what is made of quotations needs, by their names."""
    adapter = adapter_of(language)
    return needed_by(language, adapter) if adapter else {}
