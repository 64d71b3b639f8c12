"""Reads a text of gates that anyone knows, such as `and a b -> c`. A wire may be used any number of times, and nothing
is spilled.

The conservative gates may occur too, but for the inverse ones: those have no values for some of their inputs.
"""

import re

from ...texts.lines import NAME_PATTERN
from ...texts.spelling import words_without_comment
from .model import MAX_PORTS, CellType, CellNode, LogicNetlist, NetlistError, TableNode

# Gates of two or more inputs: the cell that joins two of them, and the last one.
VARIADIC_CELLS = {"and": (CellType.AND, CellType.AND), "or": (CellType.OR, CellType.OR),
                  "xor": (CellType.XOR, CellType.XOR), "nand": (CellType.AND, CellType.NAND),
                  "nor": (CellType.OR, CellType.NOR), "xnor": (CellType.XOR, CellType.XNOR)}
# Gates with a fixed number of inputs and outputs, and for each output its cell and the places of its inputs.
FIXED_SIZE_CELLS: dict[str, tuple[int, list[tuple[CellType, tuple[int, ...]]]]] = {
    "not": (1, [(CellType.NOT, (0,))]), "buf": (1, [(CellType.BUF, (0,))]), "mux": (3, [(CellType.MUX, (2, 1, 0))]),
    "fredkin": (3, [(CellType.BUF, (0,)), (CellType.MUX, (2, 1, 0)), (CellType.MUX, (1, 2, 0))]),
    "cswap": (3, [(CellType.BUF, (0,)), (CellType.MUX, (1, 2, 0)), (CellType.MUX, (2, 1, 0))]),
    "interact": (2, [(CellType.AND, (0, 1)), (CellType.ANDNOT, (1, 0)), (CellType.ANDNOT, (0, 1)),
                     (CellType.AND, (0, 1))]),
    "switch": (2, [(CellType.BUF, (0,)), (CellType.AND, (0, 1)), (CellType.ANDNOT, (1, 0))]),
}
# How much of a text is looked at for its first word.
HEAD_CHARACTERS = 100_000
INVERSE_KINDS = {"unswitch", "uninteract"}
# A line of a gate that a circuit section does not have. It may be wrong: then the reader says how.
LOGIC_GATE_LINE = re.compile(r"^[ \t]*(?:and|or|xor|nand|nor|xnor|not|buf|mux)[ \t][^\n>]*->",
                             re.MULTILINE | re.IGNORECASE)
GATE_TEXT_HEAD = re.compile(r"(?:[ \t\r\n]|#[^\n]*\n)*(circuit|input|source|and|or|xor|nand|nor|xnor|not|buf|mux)(?:[ "
                            r"\t\r\n]|\Z)")


def is_gate_text(text: str) -> bool:
    """Whether a text is a circuit with at least one gate that a circuit section does not have, and no layout."""
    end = text.find("\nend")
    last = len(text) if end < 0 else end
    return (GATE_TEXT_HEAD.match(text[:HEAD_CHARACTERS]) is not None and LOGIC_GATE_LINE.search(text, 0, last) is not
            None and "\nlayout " not in text)


class GateReader:
    """Reads the lines."""

    def __init__(self) -> None:
        self.netlist = LogicNetlist("")
        self.known: set[str] = set()
        self.outputs: set[str] = set()
        self.number = self.made = 0

    def line_error(self, what: str) -> NetlistError:
        """Returns the error of the present line."""
        return NetlistError(f"Line {self.number}: {what}.")

    def read_line(self, number: int, words: list[str]) -> None:
        """Reads one line."""
        self.number = number
        keyword = words[0]
        if keyword == "circuit" and len(words) == 1 and not self.known:
            return
        if keyword in ("input", "output", "spill"):
            self.read_ports(keyword, words[1:])
        elif "->" in words:
            at = words.index("->")
            self.read_gate(keyword, words[1:at], words[at + 1:])
        else:
            raise self.line_error(f"`{' '.join(words)[:40]}` is no line such as `input a`, `and a b -> c` or "
                                  "`output c`")

    def read_ports(self, keyword: str, names: list[str]) -> None:
        """Reads inputs or outputs. A wire that is spilled may be, since each wire may be used or not."""
        for name in names:
            if keyword == "input":
                self.define_wire(name)
                self.netlist.inputs.append(name)
                continue
            self.require_defined(name)
            if keyword == "output":
                if name in self.outputs:
                    raise self.line_error(f"the output `{name}` is named twice")
                self.outputs.add(name)
                self.netlist.outputs_with_nets.append((name, name))
        if not names or max(len(self.netlist.inputs), len(self.netlist.outputs_with_nets)) > MAX_PORTS:
            raise self.line_error(f"`{keyword}` takes names, and a circuit has at most {MAX_PORTS} wires")

    def read_gate(self, keyword: str, ins: list[str], outs: list[str]) -> None:
        """Reads a gate."""
        if keyword == "source":
            self.read_source(ins, outs)
            return
        for name in ins:
            self.require_defined(name)
        if keyword in VARIADIC_CELLS:
            self.require_counts(keyword, (len(ins), len(outs)), (max(2, len(ins)), 1))
            self.define_wire(outs[0])
            self.add_cell_tree(*VARIADIC_CELLS[keyword], ins, outs[0])
        elif keyword in FIXED_SIZE_CELLS:
            count, cells = FIXED_SIZE_CELLS[keyword]
            self.require_counts(keyword, (len(ins), len(outs)), (count, len(cells)))
            for name, (cell, places) in zip(outs, cells):
                self.define_wire(name)
                self.netlist.add_node(CellNode(name, cell, tuple(ins[place] for place in places)))
        elif keyword in INVERSE_KINDS:
            raise self.line_error(f"`{keyword}` has no values for some of its inputs. Write `or` for what it joins")
        else:
            gates = ", ".join([*VARIADIC_CELLS, *FIXED_SIZE_CELLS, "source"])
            raise self.line_error(f"`{keyword[:40]}` is no gate. These are {gates}")

    def read_source(self, ins: list[str], outs: list[str]) -> None:
        """Reads a constant."""
        self.require_counts("source", (len(ins), len(outs)), (1, 1))
        if ins[0] not in ("0", "1"):
            raise self.line_error("`source` takes 0 or 1")
        self.define_wire(outs[0])
        self.netlist.add_node(TableNode(outs[0], (), ("",) if ins[0] == "1" else (), True))

    def add_cell_tree(self, inner: CellType, last: CellType, ins: list[str], out: str) -> None:
        """Adds the cells that join some wires, as a tree of small depth."""
        level = list(ins)
        while len(level) > 2:
            level = [self.join_pair_of_nets(inner, level[at:at + 2]) for at in range(0, len(level), 2)]
        self.netlist.add_node(CellNode(out, last, tuple(level)))

    def join_pair_of_nets(self, cell: CellType, pair: list[str]) -> str:
        """Returns the net of a cell over two wires, or the one that is left."""
        if len(pair) == 1:
            return pair[0]
        self.made += 1
        self.netlist.add_node(CellNode(f" {self.made}", cell, tuple(pair)))
        return f" {self.made}"

    def require_counts(self, keyword: str, found: tuple[int, int], wanted: tuple[int, int]) -> None:
        """Refuses a gate with another number of inputs or outputs."""
        if found != wanted:
            raise self.line_error(f"`{keyword}` takes {wanted[0]} before the arrow and {wanted[1]} behind it, and has "
                                  f"{found[0]} and {found[1]}")

    def define_wire(self, name: str) -> None:
        """Notes a new wire."""
        if not NAME_PATTERN.match(name):
            raise self.line_error(f"`{name[:40]}` is no name: a lower-case letter, then up to 31 of lower-case "
                                  "letters, digits and `_`")
        if name in self.known:
            raise self.line_error(f"`{name}` is defined already")
        self.known.add(name)

    def require_defined(self, name: str) -> None:
        """Refuses a wire that no earlier line defines."""
        if name not in self.known:
            raise self.line_error(f"no earlier line defines `{name[:40]}`")


def read_gates(text: str) -> LogicNetlist:
    """Returns the netlist of a text of gates. Raises NetlistError at the first line that is wrong."""
    reader, has_ended = GateReader(), False
    for number, line in enumerate(text.split("\n"), 1):
        words = words_without_comment(line)
        if words and has_ended:
            raise NetlistError(f"Line {number} follows `end`.")
        has_ended = has_ended or words == ["end"]
        if words and not has_ended:
            reader.read_line(number, words)
    if not reader.netlist.outputs_with_nets:
        raise NetlistError("The text names no output.")
    return reader.netlist
