"""Reads BLIF: one model with `.inputs`, `.outputs`, `.names` and `.latch`."""

import re
from collections import Counter
from typing import Iterator

from .model import MAX_PORTS, Latch, LogicNetlist, NetlistError, TableNode

# Lines that say nothing on the values: attributes of yosys, and timing.
SKIPPED_KEYWORDS = {".attr", ".param", ".cname", ".area", ".delay", ".wire_load_slope", ".wire", ".input_arrival",
                    ".default_input_arrival",
                    ".output_required", ".default_output_required", ".input_drive", ".default_input_drive",
                    ".output_load", ".default_output_load", ".max_input_load", ".default_max_input_load", ".clock"}
# The types of latches that change at an edge of their clock, and those that do not.
EDGE_LATCH_WORDS = {"re": "rising edge", "fe": "falling edge"}
LATCH_LEVELS = {"ah": "while its control is 1", "al": "while its control is 0", "as": "without a clock"}
REFUSED_KEYWORDS = {
    ".mlatch": "a latch of a library. Write it with `.latch`",
    ".gate": "a cell of a library. Write the netlist with `.names` tables",
    ".subckt": "a part of another model or an unknown cell. Flatten the netlist, and write it with `.names` tables",
    ".exdc": "external don't-cares, which are not read",
    ".search": "another file, which is not read",
    ".start_kiss": "a state machine. Write it with `.latch` and `.names`",
}
TABLE_ROW = re.compile(r"[01-]*\Z")

NumberedWords = tuple[int, list[str]]


def numbered_word_lines(text: str) -> Iterator[NumberedWords]:
    """Yields the number and the words of each line that has words. A backslash at its end joins a line to the next one.
    """
    words: list[str] = []
    first = 0
    for number, line in enumerate(text.split("\n"), 1):
        first = first if words else number
        part = line.split("#")[0].rstrip()
        words += part.removesuffix("\\").split()
        if words and not part.endswith("\\"):
            yield first, words
            words = []
    if words:
        yield first, words


class BlifReader:
    """Reads the lines of one model."""

    def __init__(self) -> None:
        self.netlist = LogicNetlist("")
        self.outputs: list[str] = []
        self.table: tuple[int, list[str]] | None = None
        self.rows: list[tuple[str, str]] = []
        self.has_model = False

    def read_line(self, number: int, words: list[str]) -> None:
        """Reads one line."""
        keyword = words[0]
        if not keyword.startswith("."):
            self.read_row(number, words)
            return
        self.end_table()
        if keyword == ".model":
            if self.has_model:
                raise NetlistError(f"Line {number} begins a second model. Flatten the netlist to one model.")
            self.has_model, self.netlist.name = True, words[1] if len(words) > 1 else ""
        elif keyword == ".inputs":
            self.netlist.inputs += words[1:]
        elif keyword == ".outputs":
            self.outputs += words[1:]
        elif keyword == ".names":
            if len(words) < 2:
                raise NetlistError(f"Line {number}: `.names` needs the name of its output.")
            self.table = number, words[1:]
        elif keyword == ".latch":
            self.read_latch(number, words[1:])
        elif keyword == ".conn":
            if len(words) != 3:
                raise NetlistError(f"Line {number}: `.conn` takes two nets.")
            self.netlist.add_node(TableNode(words[2], (words[1],), ("1",), True))
        elif keyword in REFUSED_KEYWORDS:
            raise NetlistError(f"Line {number} (`{keyword}`) is {REFUSED_KEYWORDS[keyword]}.")
        elif keyword not in SKIPPED_KEYWORDS:
            raise NetlistError(f"Line {number}: `{keyword}` is no line of BLIF that is read.")

    def read_latch(self, number: int, words: list[str]) -> None:
        """Reads `.latch INPUT OUTPUT [TYPE CONTROL] [INIT]`. The first values 2 and 3 are none."""
        init = words.pop() if len(words) in (3, 5) else "3"
        if len(words) not in (2, 4) or init not in ("0", "1", "2", "3"):
            raise NetlistError(f"Line {number}: a latch is `.latch INPUT OUTPUT [TYPE CONTROL] [INIT]`, with INIT from "
                               "0 to 3.")
        clock = None
        if len(words) == 4 and words[2] in LATCH_LEVELS:
            raise NetlistError(f"Line {number}: the latch `{words[1]}` changes {LATCH_LEVELS[words[2]]} (`{words[2]}`)."
                               " Those at an edge are read, `re` and `fe`.")
        if len(words) == 4:
            if words[2] not in EDGE_LATCH_WORDS:
                raise NetlistError(f"Line {number}: `{words[2]}` is no type of a latch. They are `re`, `fe`, `ah`, "
                                   "`al` and `as`.")
            clock = None if words[3] == "NIL" else (words[3], EDGE_LATCH_WORDS[words[2]])
        self.netlist.add_latch(Latch(words[1], words[1], words[0], {"0": False, "1": True}.get(init), clock))

    def read_row(self, number: int, words: list[str]) -> None:
        """Reads a row of a table."""
        if self.table is None:
            raise NetlistError(f"Line {number}: `{' '.join(words)[:40]}` is a row, and no `.names` line is before it.")
        count = len(self.table[1]) - 1
        row, value = ("", words[0]) if len(words) == 1 and count == 0 else (words[0], words[-1])
        if len(words) > 2 or len(row) != count or not TABLE_ROW.match(row) or value not in ("0", "1"):
            raise NetlistError(f"Line {number}: a row of this table has {count} of `0`, `1` and `-`, a space, and `0` "
                               "or `1`.")
        self.rows.append((row, value))

    def end_table(self) -> None:
        """Adds the table that was read, if there is one."""
        if self.table is None:
            return
        number, names = self.table
        values = {value for _, value in self.rows}
        if len(values) > 1:
            raise NetlistError(f"Line {number}: the table of `{names[-1]}` has rows for both `0` and `1`.")
        value = "1" in values or not values
        self.netlist.add_node(TableNode(names[-1], tuple(names[:-1]), tuple(dict.fromkeys(row for row, _ in self.rows)),
                                        value))
        self.table, self.rows = None, []

    def finish_netlist(self) -> LogicNetlist:
        """Returns the netlist after its last line."""
        self.end_table()
        inputs = self.netlist.inputs
        for kind, names in (("input", inputs), ("output", self.outputs)):
            if len(names) > MAX_PORTS:
                raise NetlistError(f"The model has {len(names)} {kind}s. A circuit has at most {MAX_PORTS} wires.")
            twice = [name for name, count in Counter(names).items() if count > 1]
            if twice:
                raise NetlistError(f"The {kind} `{twice[0]}` is named twice.")
        driven = next((name for name in inputs if name in self.netlist.nodes), None)
        if driven is not None:
            raise NetlistError(f"The net `{driven}` is an input, and a table drives it.")
        self.netlist.outputs_with_nets = [(name, name) for name in self.outputs]
        return self.netlist


def read_blif(text: str) -> LogicNetlist:
    """Returns the netlist of a BLIF text. Raises NetlistError at the first line that is not read."""
    reader = BlifReader()
    for number, words in numbered_word_lines(text):
        if words[0] == ".end":
            reader.end_table()
            continue
        reader.read_line(number, words)
    return reader.finish_netlist()
