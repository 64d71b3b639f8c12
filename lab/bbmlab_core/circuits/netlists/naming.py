"""Legal names of the formats for the names of a netlist, and for wires that the netlist does not name."""

import re

MAX_NAME_BYTES = 32
ILLEGAL_CHARACTERS = re.compile(r"[^a-z0-9_]+")


class NameBook:
    """Names that are taken. Each new name is legal and differs from all others."""

    def __init__(self) -> None:
        self.taken: set[str] = set()
        self.changed: list[tuple[str, str]] = []
        self.last: dict[str, int] = {}

    def fresh_port_name(self, wanted: str) -> str:
        """Returns the name for a port, and remembers it if it is another one than the netlist has."""
        name = self.fresh_name(legal_name(wanted))
        if name != wanted:
            self.changed.append((wanted, name))
        return name

    def renaming_notes(self) -> list[str]:
        """Returns a sentence on the ports that have other names, or nothing."""
        pairs = ", ".join(f"`{wanted}` is `{name}`" for wanted, name in self.changed)
        return [f"These ports of the netlist have other names in the circuit: {pairs}."] if pairs else []

    def fresh_name(self, stem: str) -> str:
        """Returns `stem`, or `stem` with a number if it is taken."""
        name = stem
        while name in self.taken:
            self.last[stem] = self.last.get(stem, 1) + 1
            ending = f"_{self.last[stem]}"
            name = stem[:MAX_NAME_BYTES - len(ending)] + ending
        self.taken.add(name)
        return name

    def fresh_numbered_name(self, stem: str) -> str:
        """Returns `stem` with the first number from 0 that makes a new name."""
        number = self.last.get(f"{stem} number", -1) + 1
        while f"{stem}{number}" in self.taken:
            number += 1
        self.last[f"{stem} number"] = number
        self.taken.add(f"{stem}{number}")
        return f"{stem}{number}"


def legal_name(wanted: str) -> str:
    """Returns a legal name that looks like `wanted`: lower-case letters, digits and underscores, a letter first, at
    most 32 bytes."""
    name = ILLEGAL_CHARACTERS.sub("_", wanted.lower()).strip("_")
    return (name if name[:1].isalpha() else f"w{name}")[:MAX_NAME_BYTES]
