"""The assign section and its reader."""

from typing import Iterable

from .lines import SectionReader, TextLines, forms_by_keyword


class AssignReader(SectionReader):
    """Reads an assign section."""

    name = "assign"
    def __init__(self, lines: TextLines, known: Iterable[str], command: str) -> None:
        super().__init__(lines)
        self.known = dict.fromkeys(known)
        self.command = command
        self.on: dict[str, int] = {}

    def read_on(self, name: str) -> None:
        """Reads a line `on`."""
        if name not in self.known:
            self.lines.refuse(3, "on_unknown", name=name, known=list(self.known), command=self.command)
        if name in self.on:
            self.lines.refuse(4, "on_twice", name=name, at=self.on[name])
        self.on[name] = self.lines.taken

    readers = {"assign": SectionReader.read_line_without_values, "on NAME": read_on,
               "end": SectionReader.read_line_without_values}
    forms = forms_by_keyword(*readers)
