"""The gates: how many wires each has, and the rule of each on bits or on whole tables of assignments.

Sources: Fredkin and Toffoli 1982 for the gates; the order of outputs is that of docs/FORMATS.md.
"""

from typing import Callable

# The number of inputs and of outputs.
GATE_SIZES = {
    "source": (0, 1), "fredkin": (3, 3), "cswap": (3, 3), "interact": (2, 4), "switch": (2, 3), "delay": (1, 1),
    "unswitch": (3, 2), "uninteract": (4, 2),
}
INVERSE_GATES = {"unswitch": "switch", "uninteract": "interact"}

TruthTable = int
GateTables = tuple[list[TruthTable], TruthTable]


def uninteract_tables(full: TruthTable, a: TruthTable, b: TruthTable, c: TruthTable, d: TruthTable) -> GateTables:
    """Returns the outputs of `uninteract`, and where it has a row."""
    alone = b & ~(a | c | d) | c & ~(a | b | d)
    return [a | c, a | b], full & (~(a | b | c | d) | alone | a & d & ~(b | c))


# The outputs of each gate, and where it has a row.
GATE_RULES: dict[str, Callable[..., GateTables]] = {
    "fredkin": lambda full, c, x, y: ([c, c & x | (full ^ c) & y, c & y | (full ^ c) & x], full),
    "cswap": lambda full, c, x, y: ([c, c & y | (full ^ c) & x, c & x | (full ^ c) & y], full),
    "interact": lambda full, p, q: ([p & q, q & ~p, p & ~q, p & q], full),
    "switch": lambda full, c, x: ([c, c & x, x & ~c], full),
    "delay": lambda full, a: ([a], full),
    "unswitch": lambda full, c, y, z: ([c, y | z], full & ~(c & z | y & ~c)),
    "uninteract": uninteract_tables,
}


def gate_tables(word: str, number: int | None, inputs: list[TruthTable], full: TruthTable) -> GateTables:
    """Returns the tables of a gate's outputs, and the table of the assignments under which the gate has a row.

    A table is a number whose bit A says whether a wire is true under assignment A. `full` has the bits of all
    assignments.
    """
    if word == "source":
        return [full if number == 1 else 0], full
    return GATE_RULES[word](full, *inputs)


def input_tables(count: int) -> list[TruthTable]:
    """Returns a table for each of `count` free wires: bit I of an assignment is the value of wire I."""
    tables = []
    for index in range(count):
        run = 1 << index
        block = ((1 << run) - 1) << run
        width = 2 * run
        while width < 1 << count:
            block |= block << width
            width *= 2
        tables.append(block)
    return tables
