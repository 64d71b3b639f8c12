"""A circuit as a combinational AIGER file in its binary form (Biere 2006)."""

from typing import Sequence

from ..texts.circuits import Circuit
from .circuit_forms import output_rows

Literal = int


class AndGraph:
    """AND gates over literals: twice a variable, plus 1 if it is inverted. Equal gates are one."""

    def __init__(self, inputs: Sequence[str]) -> None:
        self.literals: dict[str, Literal] = {name: 2 * at + 2 for at, name in enumerate(inputs)}
        self.input_count = len(inputs)
        self.gates: list[tuple[Literal, Literal]] = []
        self.known: dict[tuple[Literal, Literal], Literal] = {}

    def and_(self, one: Literal, other: Literal) -> Literal:
        """Returns the literal of an AND gate, which is made if there is none."""
        high, low = max(one, other), min(one, other)
        if low == 0 or high == low ^ 1:
            return 0
        if low == 1 or high == low:
            return high
        if (high, low) not in self.known:
            self.gates.append((high, low))
            self.known[high, low] = 2 * (self.input_count + len(self.gates))
        return self.known[high, low]

    def literal_of_rows(self, rows: list[str], ins: list[Literal]) -> Literal:
        """Returns the literal of a table that is true if a row fits."""
        none = 1
        for row in rows:
            product = 1
            for sign, literal in zip(row, ins):
                product = product if sign == "-" else self.and_(product, literal ^ (sign == "0"))
            none = self.and_(none, product ^ 1)
        return none ^ 1


def encoded_delta(number: int) -> str:
    """Returns a number as AIGER writes it: seven bits in each byte, and the highest bit where more follow."""
    found = ""
    while number > 127:
        found, number = found + chr(number & 127 | 128), number >> 7
    return found + chr(number)


def aiger_text(circuit: Circuit) -> str:
    """Returns the file, one character for each byte, with the names of inputs and outputs."""
    graph = AndGraph(circuit.inputs)
    for gate in circuit.gates:
        ins = [graph.literals[name] for name in gate.ins]
        graph.literals.update((name, graph.literal_of_rows(rows, ins)) for name, rows in output_rows(gate))
    first, count = graph.input_count, len(graph.gates)
    body = "".join(encoded_delta(2 * (first + at) - high) + encoded_delta(high - low) for at,
                   (high, low) in enumerate(graph.gates, 1))
    head = [f"aig {first + count} {first} 0 {len(circuit.outputs)} {count}",
            *(str(graph.literals[name]) for name in circuit.outputs)]
    names = [f"i{at} {name}" for at, name in enumerate(circuit.inputs)] + [f"o{at} {name}" for at,
                                                                           name in enumerate(circuit.outputs)]
    return "\n".join([*head, body + "\n".join([*names, ""])])
