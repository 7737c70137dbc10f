"""What the program says of texts that were made, with the places in the user's texts that these come from."""

from __future__ import annotations

from collections.abc import Iterable, Mapping
from typing import Optional

from ..concrete.text import Made, Source
from ..diagnostics import Diagnostic, Label
from ..places import Command

# A place of a text that a user wrote.
Place = tuple[Source, int]


class Traces:
    """Where the modules and the strategy of a task come from: each by its name, the strategy by the empty one. `files` are the names of the
    modules by those of their files."""

    def __init__(self, traces: Iterable[tuple[str, Made]], files: Mapping[str, str]) -> None:
        self._traces, self._files = dict(traces), files

    def place(self, label: Label, module: Optional[str], command: Optional[Command] = None) -> Optional[Place]:
        """Returns where a place that is spoken of comes from, if it is in what was made. A text that is loaded is the module's."""
        if label.line is None or label.column is None:
            return None
        name = label.module if label.module is not None else module
        if name is not None:
            made = self._traces.get(name)
            return made.place_of(label.line, label.column) if made is not None else None
        own = command.own_place(label.line, label.column) if command is not None else None
        made = self._traces.get("")
        return made.place_of(*own) if made is not None and own is not None else None

    def line(self, label: Label) -> Optional[str]:
        """Returns the line of the user's text that a place of a module comes from, if it is in what was made."""
        there = self.place(label, None) if label.module is not None else None
        return f"line {there[0].line_and_column(there[1])[0]}" if there is not None else None

    def told(self, said: Diagnostic, command: Optional[Command] = None) -> Optional[str]:
        """Returns what was said, if its first place is in what was made, as of the text that this comes from. A text that was loaded has no
        command."""
        module = (said.module or self._files.get(said.file or "")) if command is None else None
        first = said.first()
        here = self.place(first, module, command) if first is not None else None
        if here is None:
            return None
        source, place = here

        def telling(label: Label) -> Optional[str]:
            there = self.place(label, module, command)
            if there is None:
                return None
            return there[0].where(there[1]) + ("" if there[0] == source else f" of {there[0].name}")

        answer = f"{said.answer}: " if said.answer else "warning: " if said.severity == "warning" else ""
        return f"{source.name}: {source.where(place)}: {answer}{said.told(telling, source.excerpt(place), subject=False)}"
