"""Reads AIGER, ASCII and binary (Biere 2006), with the first values of latches of version 1.9 (Biere, Heljanko and
Wieringa 2011).
"""

import re
from dataclasses import replace

from .model import MAX_NODES, CellType, CellNode, Latch, LogicNetlist, NetlistError, TableNode

HEADER_PATTERN = re.compile(
    r"(aag|aig) ([0-9]{1,9}) ([0-9]{1,9}) ([0-9]{1,9}) ([0-9]{1,9}) ([0-9]{1,9})((?: [0-9]{1,9})*)\n")
SYMBOL_LINE = re.compile(r"^([ilo])([0-9]{1,9}) (.+)$", re.MULTILINE)


class AigerReader:
    """Reads a file, of which each byte is a character."""

    def __init__(self, text: str) -> None:
        head = HEADER_PATTERN.match(text)
        if head is None:
            raise NetlistError("Line 1: the header of AIGER is `aag M I L O A` or `aig M I L O A`.")
        self.is_binary = head[1] == "aig"
        self.most, self.input_count, self.latch_count, self.output_count, self.and_count = (int(head[at])
                                                                                            for at in range(2, 7))
        if head[7].strip(" 0"):
            raise NetlistError("Line 1: properties of model checking are not read.")
        if max(self.and_count, self.input_count, self.output_count, self.latch_count) > MAX_NODES:
            raise NetlistError(f"Line 1: a netlist has at most {MAX_NODES} inputs, latches, outputs and gates.")
        self.text, self.at, self.line = text, head.end(), 2
        self.netlist = LogicNetlist("")
        self.inverted: set[int] = set()

    def next_numbers(self, count: int, most: int = 0) -> list[int]:
        """Returns the numbers of the next line: `count`, or up to `most`."""
        end = self.text.find("\n", self.at)
        words = self.text[self.at:end if end >= 0 else len(self.text)].split()
        if not count <= len(words) <= max(count, most) or not all(word.isdecimal() and len(word) < 10
                                                                  for word in words):
            raise NetlistError(f"Line {self.line}: here are {count} numbers.")
        self.at, self.line = (end + 1 if end >= 0 else len(self.text)), self.line + 1
        return [int(word) for word in words]

    def next_delta(self) -> int:
        """Returns the next number of a binary file."""
        value = shift = 0
        while True:
            if self.at >= len(self.text) or shift > 35:
                raise NetlistError("The binary part of the file ends early, or is wrong.")
            byte = ord(self.text[self.at])
            self.at += 1
            value |= (byte & 127) << shift
            if byte < 128:
                return value
            shift += 7

    def ensure_literal_net(self, literal: int) -> str:
        """Returns the net of a literal, and makes that of an inverted one."""
        variable, name = literal >> 1, f" {literal}"
        if variable > self.most:
            raise NetlistError(f"Line {self.line}: the literal {literal} is above those of the header.")
        if literal < 2 and name not in self.netlist.nodes:
            self.netlist.add_node(TableNode(name, (), ("",) if literal else (), True))
        elif literal & 1 and literal > 1 and literal not in self.inverted:
            self.inverted.add(literal)
            self.netlist.add_node(CellNode(name, CellType.NOT, (f" {literal - 1}",)))
        return name

    def read(self) -> LogicNetlist:
        """Returns the netlist."""
        inputs = [2 * at + 2
                  for at in range(self.input_count)] if self.is_binary else [self.next_numbers(1)[0]
                                                                             for _ in range(self.input_count)]
        latches = [self.next_latch(at) for at in range(self.latch_count)]
        outputs = [self.next_numbers(1)[0] for _ in range(self.output_count)]
        gates = [self.next_numbers(3)
                 for _ in range(self.and_count)] if not self.is_binary else self.binary_gate_literals()
        names = {(found[1], int(found[2])): found[3]
                 for found in SYMBOL_LINE.finditer(self.text[self.at:].split("\nc\n")[0])
                 if int(found[2]) < MAX_NODES}
        stored = [numbers[0] for numbers in latches]
        if any(literal & 1 or literal < 2 for literal in inputs + stored) or len({*inputs,
                                                                                  *stored}) != len(inputs) + len(
                                                                                      stored):
            raise NetlistError("The inputs and latches are distinct even numbers from 2.")
        self.netlist.inputs = [f" {literal}" for literal in inputs]
        for left, one, other in gates:
            if left & 1 or left < 2:
                raise NetlistError(f"An AND gate defines {left}, which is no even number from 2.")
            self.netlist.add_node(CellNode(f" {left}", CellType.AND,
                                           (self.ensure_literal_net(one), self.ensure_literal_net(other))))
        for at, (literal, follower, start) in enumerate(latches):
            first = None if start == literal else bool(start)
            self.netlist.add_latch(Latch(names.get(("l", at), f"l{at}"), f" {literal}",
                                         self.ensure_literal_net(follower), first))
        pairs = [(names.get(("o", at), f"o{at}"), self.ensure_literal_net(literal)) for at,
                 literal in enumerate(outputs)]
        return self.with_port_names(inputs, names, pairs)

    def next_latch(self, at: int) -> tuple[int, int, int]:
        """Returns the literals of a latch, of its next value and of its first value, which is the latch's own if there
        is none."""
        given = [] if not self.is_binary else [2 * (self.input_count + at + 1)]
        literal, follower, *start = given + self.next_numbers(2 - len(given), 3 - len(given))
        if start and start[0] not in (0, 1, literal):
            raise NetlistError(f"Line {self.line - 1}: the first value of a latch is 0, 1 or the latch itself.")
        return literal, follower, start[0] if start else 0

    def binary_gate_literals(self) -> list[list[int]]:
        """Returns the AND gates of a binary file."""
        gates = []
        for at in range(self.and_count):
            left = 2 * (self.input_count + self.latch_count + at + 1)
            one = left - self.next_delta()
            gates.append([left, one, one - self.next_delta()])
            if min(gates[-1]) < 0:
                raise NetlistError("The binary part of the file is wrong.")
        return gates

    def with_port_names(self, inputs: list[int], names: dict[tuple[str, int], str],
                        outputs: list[tuple[str, str]]) -> LogicNetlist:
        """Returns the netlist with the names of its inputs and outputs."""
        own = {f" {literal}": names.get(("i", at), f"i{at}") for at, literal in enumerate(inputs)}
        if len(set(own.values())) != len(own) or len({name for name, _ in outputs}) != len(outputs):
            raise NetlistError("Two inputs or two outputs have one name.")
        netlist = LogicNetlist("", inputs=list(own.values()),
                               outputs_with_nets=[(name, own.get(net, net)) for name, net in outputs])
        netlist.latches = [replace(latch, data=own.get(latch.data, latch.data)) for latch in self.netlist.latches]
        for node in self.netlist.nodes.values():
            ins = tuple(own.get(net, net) for net in node.inputs)
            if node.output in own:
                raise NetlistError(f"The input {node.output.strip()} is driven by a gate.")
            netlist.add_node(CellNode(node.output, node.cell_type, ins) if isinstance(node, CellNode)
                             else TableNode(node.output, ins, node.rows, node.value))
        return netlist


def read_aiger(text: str) -> LogicNetlist:
    """Returns the netlist of an AIGER file. Raises NetlistError if it is wrong."""
    return AigerReader(text).read()
