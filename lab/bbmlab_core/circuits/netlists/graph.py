"""A graph of AND, XOR and join nodes with inverted edges, in which equal nodes are one.

A literal is a number: twice the number of its node, plus 1 if it is inverted. Node 0 is the constant 0, so literal 1 is
the constant 1.
"""

from dataclasses import dataclass
from enum import Enum
from typing import Callable

from ...texts.gates import input_tables
from ...texts.limits import SECOND_LIMITS
from .model import CellType, CellNode, LogicNetlist, NetlistError, TableNode

MAX_GRAPH_NODES = 200_000
# Tables of more inputs become sums of products.
MAX_TABLE_INPUTS = 8
# How far a product is followed to find that two products exclude each other.
CONJUNCT_DEPTH = 3

NodeLiteral = int
FALSE: NodeLiteral = 0
TRUE: NodeLiteral = 1


class NodeKind(Enum):
    """The kinds of nodes."""

    CONSTANT = "constant"
    INPUT = "input"
    AND = "and"
    XOR = "xor"
    # `join s y z` is "y or z", where y is true only if s is, and z only if s is not.
    JOIN = "join"


@dataclass(frozen=True)
class GraphNode:
    """A node: its kind and the literals of its inputs. The inputs of a XOR node are not inverted."""

    kind: NodeKind
    inputs: tuple[NodeLiteral, ...]


class LogicGraph:
    """Nodes, each made once. `outputs` are pairs of a name and a literal."""

    def __init__(self, inputs: list[str]) -> None:
        self.input_names = inputs
        self.nodes = [GraphNode(NodeKind.CONSTANT, ())] + [GraphNode(NodeKind.INPUT, ()) for _ in inputs]
        self.numbers: dict[GraphNode, int] = {}
        self.outputs: list[tuple[str, NodeLiteral]] = []

    def make_literal(self, kind: NodeKind, *inputs: NodeLiteral) -> NodeLiteral:
        """Returns the literal of a node, which is made if there is none."""
        node = GraphNode(kind, inputs)
        if node not in self.numbers:
            if len(self.nodes) >= MAX_GRAPH_NODES:
                raise NetlistError(f"The logic has more than {MAX_GRAPH_NODES} nodes. A circuit has at most "
                                   f"{SECOND_LIMITS.max_gates} gates.")
            self.numbers[node] = len(self.nodes)
            self.nodes.append(node)
        return 2 * self.numbers[node]

    def known_and(self, left: NodeLiteral, right: NodeLiteral) -> NodeLiteral | None:
        """Returns the literal of an AND node if there is one."""
        number = self.numbers.get(GraphNode(NodeKind.AND, (min(left, right), max(left, right))))
        return None if number is None else 2 * number

    def has_xor(self, left: NodeLiteral, right: NodeLiteral) -> bool:
        """Whether there is a XOR node over two literals, inverted or not."""
        return GraphNode(NodeKind.XOR, (min(left, right) & ~1, max(left, right) & ~1)) in self.numbers

    def and_factors(self, literal: NodeLiteral) -> tuple[NodeLiteral, NodeLiteral] | None:
        """Returns the two factors of a literal if it is an AND node that is not inverted."""
        node = self.nodes[literal >> 1]
        return (node.inputs[0], node.inputs[1]) if node.kind is NodeKind.AND and not literal & 1 else None

    def and_(self, left: NodeLiteral, right: NodeLiteral) -> NodeLiteral:
        """Returns "left and right"."""
        simpler: tuple[NodeLiteral, NodeLiteral] | None = (left, right)
        while simpler:
            left, right = min(simpler), max(simpler)
            if left == FALSE or left == right ^ 1:
                return FALSE
            if left in (TRUE, right):
                return right
            simpler = self._absorbed_pair(left, right) or self._absorbed_pair(right, left)
        joined = self._join_of_inverses(left, right) if left & 1 and right & 1 else None
        return self.make_literal(NodeKind.AND, left, right) if joined is None else joined ^ 1

    def _absorbed_pair(self, one: NodeLiteral, other: NodeLiteral) -> tuple[NodeLiteral, NodeLiteral] | None:
        """Returns two literals whose AND is a simpler form of "one and other" where `other` depends on the value of
        `one`."""
        factors, inverse_factors = self.and_factors(other), self.and_factors(other ^ 1)
        if factors and one in factors:
            return other, other
        if factors and one ^ 1 in factors:
            return FALSE, FALSE
        if inverse_factors and one ^ 1 in inverse_factors:
            return one, one
        if inverse_factors and one in inverse_factors:
            rest = inverse_factors[1 - inverse_factors.index(one)]
            return one, rest ^ 1
        node = self.nodes[other >> 1]
        if node.kind is NodeKind.XOR and one & ~1 in node.inputs:
            rest = node.inputs[1 - node.inputs.index(one & ~1)]
            return one, rest ^ (other & 1) ^ (~one & 1)
        return None

    def _join_of_inverses(self, left: NodeLiteral, right: NodeLiteral) -> NodeLiteral | None:
        """Returns the literal of the join whose inverse "left and right" is, if the inverses of both exclude each
        other."""
        first, second = self.implied_literals(left ^ 1), self.implied_literals(right ^ 1)
        common = sorted(literal for literal in first if literal ^ 1 in second)
        if not common or not (self.and_factors(left ^ 1) and self.and_factors(right ^ 1)):
            return None
        select = next((literal for literal in common if self.nodes[literal >> 1].kind is NodeKind.XOR), common[0])
        return self._make_join(select, left ^ 1, right ^ 1)

    def _make_join(self, select: NodeLiteral, high: NodeLiteral, low: NodeLiteral) -> NodeLiteral:
        """Returns "high or low", where `high` implies `select` and `low` excludes it."""
        factors = self.and_factors(high), self.and_factors(low)
        if all(factors) and factors[0] and factors[1]:
            firsts, seconds = set(factors[0]) - {select}, set(factors[1]) - {select ^ 1}
            if len(firsts) == len(seconds) == 1 and next(iter(firsts)) == next(iter(seconds)) ^ 1:
                return self.xor(select, next(iter(seconds)))
        if select & 1:
            select, high, low = select ^ 1, low, high
        return self.make_literal(NodeKind.JOIN, select, high, low)

    def implied_literals(self, literal: NodeLiteral) -> set[NodeLiteral]:
        """Returns literals that are true if `literal` is, among them those of XOR nodes over pairs of them."""
        found, level = {literal}, [literal]
        for _ in range(CONJUNCT_DEPTH):
            level = [factor for product in level for factor in self.and_factors(product) or () if factor not in found]
            found.update(level)
        plain = sorted(found)[:16]
        for index, left in enumerate(plain):
            for right in plain[:index]:
                number = self.numbers.get(GraphNode(NodeKind.XOR, (min(left, right) & ~1, max(left, right) & ~1)))
                if number is not None:
                    # Both literals are true, so their XOR is 0, and inversions of the two change it.
                    found.add(2 * number + 1 ^ (left & 1) ^ (right & 1))
        return found

    def or_(self, left: NodeLiteral, right: NodeLiteral) -> NodeLiteral:
        """Returns "left or right"."""
        return self.and_(left ^ 1, right ^ 1) ^ 1

    def xor(self, left: NodeLiteral, right: NodeLiteral) -> NodeLiteral:
        """Returns "left or right, and not both"."""
        inverted, (left, right) = (left ^ right) & 1, sorted((left & ~1, right & ~1))
        if left == right:
            return FALSE ^ inverted
        return (right if left == FALSE else self.make_literal(NodeKind.XOR, left, right)) ^ inverted

    def mux(self, select: NodeLiteral, high: NodeLiteral, low: NodeLiteral) -> NodeLiteral:
        """Returns `high` if `select` is true, else `low`."""
        if high == low:
            return high
        if high == low ^ 1:
            return self.xor(select, low)
        if select in (FALSE, TRUE):
            return high if select else low
        first, second = self.and_(select, high), self.and_(select ^ 1, low)
        if FALSE in (first, second) or first == select or second == select ^ 1:
            return self.or_(first, second)
        return self._make_join(select, first, second)

    def needed_nodes(self) -> list[int]:
        """Returns the nodes on which the outputs depend, each after its inputs."""
        needed = {literal >> 1 for _, literal in self.outputs}
        for number in range(len(self.nodes) - 1, 0, -1):
            if number in needed:
                needed.update(literal >> 1 for literal in self.nodes[number].inputs)
        return sorted(needed)


def table_literal(graph: LogicGraph, table: int, literals: list[NodeLiteral]) -> NodeLiteral:
    """Returns the literal of a table: bit A is its value at the assignment A, in which bit I is the value of literal I.
    """
    count = len(literals)
    if count == 0:
        return TRUE if table & 1 else FALSE
    low_half = (1 << (1 << count - 1)) - 1
    halves = []
    for index in range(count):
        cofactors = cofactor_table(table, index, count, False), cofactor_table(table, index, count, True)
        rest = literals[:index] + literals[index + 1:]
        if cofactors[0] == cofactors[1]:
            return table_literal(graph, cofactors[0], rest)
        halves.append((cofactors, rest))
    for index, (cofactors, rest) in enumerate(halves):
        for is_high, other in ((True, cofactors[0]), (False, cofactors[1])):
            constant, literal = cofactors[is_high], literals[index] ^ (not is_high)
            if constant == 0:
                return graph.and_(literal ^ 1, table_literal(graph, other, rest))
            if constant == low_half:
                return graph.or_(literal, table_literal(graph, other, rest))
    # From the last input, so that a sum of three bits shares a XOR with the majority of the three.
    for index, (cofactors, rest) in reversed(list(enumerate(halves))):
        if cofactors[0] ^ cofactors[1] == low_half:
            return graph.xor(literals[index], table_literal(graph, cofactors[0], rest))
    symmetric = literal_by_symmetric_pair(graph, table, literals)
    return shannon_literal(graph, halves, literals) if symmetric is None else symmetric


def literal_by_symmetric_pair(graph: LogicGraph, table: int, literals: list[NodeLiteral]) -> NodeLiteral | None:
    """Returns the literal of a table that treats two of its inputs alike, by the XOR of the two, as in a majority; else
    None."""
    count = len(literals)
    pairs = [(low, high) for high in range(1, count) for low in range(high)]
    for low, high in sorted(pairs, key=lambda pair: not graph.has_xor(literals[pair[0]], literals[pair[1]])):
        parts = [cofactor_table(cofactor_table(table, high, count, bool(first)), low, count - 1, bool(second))
                 for first in (0, 1)
                 for second in (0, 1)]
        if parts[1] == parts[2]:
            rest = literals[:low] + literals[low + 1:high] + literals[high + 1:]
            unlike, neither, both = (table_literal(graph, parts[number], rest) for number in (1, 0, 3))
            return graph.mux(graph.xor(literals[low], literals[high]), unlike, graph.mux(literals[high], both, neither))
    return None


def shannon_literal(graph: LogicGraph, halves: list[tuple[tuple[int, int], list[NodeLiteral]]],
                    literals: list[NodeLiteral]) -> NodeLiteral:
    """Returns the literal of a table as a choice by the input that leaves the fewest inputs to its two halves."""
    def dependent_input_count(index: int) -> int:
        """Returns on how many inputs the two halves depend."""
        (low, high), rest = halves[index]
        return sum(cofactor_table(half, other, len(rest), False) != cofactor_table(half, other, len(rest), True)
                   for half in (low, high) for other in range(len(rest)))
    best = min(range(len(literals)), key=dependent_input_count)
    (low, high), rest = halves[best]
    return graph.mux(literals[best], table_literal(graph, high, rest), table_literal(graph, low, rest))


def cofactor_table(table: int, index: int, count: int, value: bool) -> int:
    """Returns the table of `count - 1` inputs that is left if input `index` of a table of `count` inputs has a value.
    """
    run, result = 1 << index, 0
    for part in range(1 << count - 1 - index):
        bits = table >> (2 * part + value) * run & (1 << run) - 1
        result |= bits << part * run
    return result


def table_of_rows(rows: tuple[str, ...], count: int) -> int:
    """Returns the table of the assignments that fit one of the rows."""
    full, inputs, table = (1 << (1 << count)) - 1, input_tables(count), 0
    for row in set(rows):
        product = full
        for sign, positive in zip(row, inputs):
            product &= full if sign == "-" else positive if sign == "1" else full ^ positive
        table |= product
    return table


def balanced_tree_literal(graph: LogicGraph, literals: list[NodeLiteral], is_product: bool) -> NodeLiteral:
    """Returns the product or the sum of literals, as a tree of small depth."""
    level = literals or [TRUE if is_product else FALSE]
    make = graph.and_ if is_product else graph.or_
    while len(level) > 1:
        level = [make(*level[at:at + 2]) if at + 1 < len(level) else level[at] for at in range(0, len(level), 2)]
    return level[0]


def table_node_literal(graph: LogicGraph, node: TableNode, inputs: list[NodeLiteral]) -> NodeLiteral:
    """Returns the literal of a table node."""
    inverted = not node.value
    if len(inputs) <= MAX_TABLE_INPUTS:
        return table_literal(graph, table_of_rows(node.rows, len(inputs)), inputs) ^ inverted
    products = []
    for row in node.rows:
        factors = [literal ^ (sign == "0") for sign, literal in zip(row, inputs) if sign != "-"]
        products.append(balanced_tree_literal(graph, factors, True))
    return balanced_tree_literal(graph, products, False) ^ inverted


def cell_literal(graph: LogicGraph, cell: CellType, inputs: list[NodeLiteral]) -> NodeLiteral:
    """Returns the literal of a simple cell, by the rules of the cell library of yosys."""
    first, second, third, fourth = (inputs + [FALSE] * 3)[:4]
    both, one = (graph.and_, graph.or_)
    rules: dict[CellType, Callable[[], NodeLiteral]] = {
        CellType.BUF: lambda: first, CellType.NOT: lambda: first ^ 1,
        CellType.AND: lambda: both(first, second), CellType.NAND: lambda: both(first, second) ^ 1,
        CellType.OR: lambda: one(first, second), CellType.NOR: lambda: one(first, second) ^ 1,
        CellType.XOR: lambda: graph.xor(first, second), CellType.XNOR: lambda: graph.xor(first, second) ^ 1,
        CellType.ANDNOT: lambda: both(first, second ^ 1), CellType.ORNOT: lambda: one(first, second ^ 1),
        CellType.MUX: lambda: graph.mux(third, second, first),
        CellType.NMUX: lambda: graph.mux(third, second, first) ^ 1,
        CellType.AOI3: lambda: one(both(first, second), third) ^ 1,
        CellType.OAI3: lambda: both(one(first, second), third) ^ 1,
        CellType.AOI4: lambda: one(both(first, second), both(third, fourth)) ^ 1,
        CellType.OAI4: lambda: both(one(first, second), one(third, fourth)) ^ 1,
    }
    return rules[cell]()


def graph_of_netlist(netlist: LogicNetlist) -> LogicGraph:
    """Returns the graph of a netlist.

    Raises NetlistError at a loop, at a net without a driver, and where the logic is too large.
    """
    graph = LogicGraph(netlist.inputs)
    literals = {name: 2 * (index + 1) for index, name in enumerate(netlist.inputs)}
    for node in netlist.needed_nodes_in_order():
        inputs = [literals[name] for name in node.inputs]
        literals[node.output] = (cell_literal(graph, node.cell_type, inputs) if isinstance(node, CellNode)
                                 else table_node_literal(graph, node, inputs))
    graph.outputs = [(name, literals[net]) for name, net in netlist.outputs_with_nets]
    return graph
