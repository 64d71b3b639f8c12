"""Maps a graph of logic to gates of conservative logic, with constants and garbage.

A `switch` computes "c and x" and "x without c", and gives c back. With a constant 1 as x it copies c and makes "not c".
An `interact` of p and q followed by an `unswitch` makes their XOR. An `unswitch` merges two wires that exclude each
other. Fredkin and Toffoli 1982.

A gate consumes its wires, so each value has a pool of wires. `search` tries many preferences on the order and the ways.
"""

import random
from dataclasses import dataclass, field
from typing import Callable

from .graph import FALSE, TRUE, LogicGraph, NodeKind, NodeLiteral

# What a gate and a wire cost: a switch cell of 20 by 20 cells is 1.
GATE_COSTS = {"switch": 1.0, "unswitch": 1.0, "interact": 0.8, "fredkin": 4.0, "source": 0.5, "delay": 0.2}
GARBAGE_COST = 0.15
COPY_COST = GATE_COSTS["switch"] + GATE_COSTS["source"]
DEPTH_COST = 0.05

# How much a preference can add to the cost of a way, and the most ways for a node.
MAX_NOISE = 0.8
MAX_WAYS_PER_NODE = 10

WireNumber = int
# The cost of a way to map a node, its name in `MAP_METHODS`, and the literals in the order that it takes.
MappingWay = tuple[float, str, tuple[NodeLiteral, ...]]


@dataclass
class GateWithWireNumbers:
    """A gate with numbers of wires. `joined_node` is the node that an inverse gate joins."""

    gate_kind: str
    parameter: int | None
    ins: list[WireNumber]
    outs: list[WireNumber]
    joined_node: int | None = None


@dataclass
class MappedGates:
    """Gates in order, the wires of the outputs, and the wires that nothing uses."""

    gates: list[GateWithWireNumbers] = field(default_factory=list)
    outputs: list[WireNumber] = field(default_factory=list)
    garbage: list[WireNumber] = field(default_factory=list)

    def cost(self) -> float:
        """Returns the cost of the gates, the garbage and the depth."""
        depths: dict[WireNumber, int] = {}
        for gate in self.gates:
            depth = 1 + max((depths.get(wire, 0) for wire in gate.ins), default=-1)
            depths.update((wire, depth) for wire in gate.outs)
        gates = sum(GATE_COSTS[gate.gate_kind] for gate in self.gates)
        return gates + GARBAGE_COST * len(self.garbage) + DEPTH_COST * max(depths.values(), default=0)


@dataclass
class MappingPreferences:
    """What decides the order of the nodes, and between ways of nearly equal cost: a rank and some noise for each node.
    """

    ranks: dict[int, float]
    noise: dict[int, list[float]]

    @classmethod
    def at_random(cls, graph: LogicGraph, chooser: random.Random) -> "MappingPreferences":
        """Returns random preferences. XOR nodes come rather early, since they make products too."""
        needed = graph.needed_nodes()
        ranks = {number: chooser.random() + (graph.nodes[number].kind is not NodeKind.XOR) * chooser.choice((0, 1))
                 for number in needed}
        return cls(ranks, {number: [chooser.random() for _ in range(MAX_WAYS_PER_NODE)] for number in needed})

    def with_small_change(self, chooser: random.Random) -> "MappingPreferences":
        """Returns preferences that differ for one to three nodes."""
        new = MappingPreferences(dict(self.ranks), dict(self.noise))
        for _ in range(chooser.choice((1, 1, 2, 3))):
            number = chooser.choice(list(new.ranks))
            if chooser.random() < 0.5:
                new.ranks[number] = 2 * chooser.random()
            else:
                # Sometimes more, so that a dear way can be taken.
                scale = chooser.choice((1, 1, 3))
                new.noise[number] = [scale * chooser.random() for _ in range(MAX_WAYS_PER_NODE)]
        return new


class Mapper:
    """One try to map the nodes."""

    def __init__(self, graph: LogicGraph, separate: frozenset[int], preferences: MappingPreferences) -> None:
        self.graph, self.separate, self.preferences = graph, separate, preferences
        self.wiring = MappedGates()
        self.wire_count = len(graph.input_names)
        self.pool: dict[NodeLiteral, list[WireNumber]] = {}
        self.needed = graph.needed_nodes()
        self.mapped = {number for number in range(1, len(graph.input_names) + 1)}
        self.uses: dict[int, int] = {}
        self.true_uses: dict[int, int] = {}
        for number in self.mapped:
            self.pool[2 * number] = [number - 1]
        for literal in [literal for number in self.needed
                        for literal in graph.nodes[number].inputs] + [out for _, out in graph.outputs]:
            self.uses[literal >> 1] = self.uses.get(literal >> 1, 0) + 1
            self.true_uses[literal >> 1] = self.true_uses.get(literal >> 1, 0) + 1 - (literal & 1)

    def map_needed_nodes(self) -> MappedGates:
        """Maps all needed nodes and the outputs."""
        for number in self.node_order():
            if number not in self.mapped:
                self.map_node(number)
        for _, literal in self.graph.outputs:
            self.uses[literal >> 1] -= 1
            self.wiring.outputs.append(self.add_constant(literal) if literal in (FALSE, TRUE)
                                       else self.take_wire(literal))
        self.wiring.garbage += [wire for wires in self.pool.values() for wire in wires]
        return self.wiring

    def node_order(self) -> list[int]:
        """Returns the needed nodes, each after its inputs."""
        nodes, rank = self.graph.nodes, dict(self.preferences.ranks)
        # A node comes as late as the latest of its inputs, plus its own rank.
        for number in self.needed:
            rank[number] += max((rank.get(literal >> 1, 0) for literal in nodes[number].inputs), default=0)
        return sorted((number for number in self.needed if number not in self.mapped and number),
                      key=lambda number: (rank[number], number))

    def map_node(self, number: int) -> None:
        """Maps one node by the cheapest way, or one of nearly the same cost."""
        node = self.graph.nodes[number]
        for literal in node.inputs:
            self.uses[literal >> 1] -= 1
        self.mapped.add(number)
        makers = {NodeKind.AND: self.and_ways, NodeKind.XOR: self.xor_ways, NodeKind.JOIN: self.join_ways}
        ways = makers[node.kind](number, node.inputs)
        noise = self.preferences.noise[number]
        _, index = min((way[0] + MAX_NOISE * noise[index], index) for index, way in enumerate(ways))
        MAP_METHODS[ways[index][1]](self, number, *ways[index][2])

    # ---- pools of wires

    def add_gate(self, word: str, parameter: int | None, ins: list[WireNumber], count: int,
                 node: int | None = None) -> list[WireNumber]:
        """Adds a gate with `count` outputs, and returns these."""
        outs = list(range(self.wire_count, self.wire_count + count))
        self.wire_count += count
        self.wiring.gates.append(GateWithWireNumbers(word, parameter, ins, outs, node))
        return outs

    def add_constant(self, literal: NodeLiteral) -> WireNumber:
        """Adds a constant."""
        return self.add_gate("source", int(literal == TRUE), [], 1)[0]

    def pool_of(self, literal: NodeLiteral) -> list[WireNumber]:
        """Returns the pool of a literal."""
        return self.pool.setdefault(literal, [])

    def node_wire_count(self, literal: NodeLiteral) -> int:
        """Returns how many wires carry a literal or its inverse."""
        return len(self.pool_of(literal)) + len(self.pool_of(literal ^ 1))

    def duplicate_wire(self, literal: NodeLiteral) -> None:
        """Turns a wire of a literal into two, and one of its inverse."""
        first, second, inverse = self.add_gate("switch", None, [self.pool_of(literal).pop(), self.add_constant(TRUE)],
                                               3)
        self.pool[literal] += [first, second]
        self.pool_of(literal ^ 1).append(inverse)

    def take_wire(self, literal: NodeLiteral) -> WireNumber:
        """Takes a wire of a literal out of its pool. One of it or of its inverse stays while there are uses."""
        if not self.pool_of(literal):
            self.duplicate_wire(literal ^ 1)
        elif self.node_wire_count(literal) == 1 and self.uses[literal >> 1] > 0:
            self.duplicate_wire(literal)
        return self.pool[literal].pop()

    def take_cost(self, literal: NodeLiteral, made: int = 0) -> float:
        """Returns what `take` costs if `made` uses of the literal go, since their products are made by the same gate.
        """
        is_free = self.pool_of(literal) and (self.node_wire_count(literal) > 1 or self.uses[literal >> 1] <= made)
        return 0 if is_free else COPY_COST

    def borrow_wire_or_inverse(self, literal: NodeLiteral) -> tuple[NodeLiteral, WireNumber]:
        """Takes a wire of a literal or of its inverse, and says which. The caller gives it back."""
        found = literal if self.pool_of(literal) else literal ^ 1
        return found, self.pool[found].pop()

    def release_wire(self, literal: NodeLiteral | None, wire: WireNumber) -> None:
        """Adds a wire to the pool of a literal, or to the garbage if no node has its value."""
        if literal is None:
            self.wiring.garbage.append(wire)
        else:
            self.pool_of(literal).append(wire)

    def claim_product(self, left: NodeLiteral, right: NodeLiteral) -> NodeLiteral | None:
        """Returns the literal of a product that the next gate makes.

        A needed node is mapped by it, so it no longer uses its inputs.
        """
        literal = self.graph.known_and(left, right)
        if literal is not None and self.needs_mapping(literal):
            self.mapped.add(literal >> 1)
            for used in self.graph.nodes[literal >> 1].inputs:
                self.uses[used >> 1] -= 1
        return literal

    def needs_mapping(self, literal: NodeLiteral | None) -> bool:
        """Whether a literal is that of a needed node that is not mapped yet."""
        return literal is not None and literal >> 1 not in self.mapped and self.uses.get(literal >> 1, 0) > 0

    def product_worth(self, left: NodeLiteral, right: NodeLiteral) -> int:
        """Returns what a product that comes for nothing is worth: the cost of a `switch`, 1, if it is wanted, else 0.
        """
        return int(self.needs_mapping(self.graph.known_and(left, right)))

    # ---- AND

    def and_ways(self, number: int, inputs: tuple[NodeLiteral, ...]) -> list[MappingWay]:
        """Returns the ways to map an AND node."""
        ways: list[MappingWay] = []
        for control, other in (inputs, inputs[::-1]):
            inversion = COPY_COST if not self.true_uses.get(number, 0) else 0.0
            gain = self.product_worth(control ^ 1, other)
            ways.append((1 + inversion + self.take_cost(other, gain) - gain, "product", (control, other)))
            if inversion and number not in self.separate:
                second = 0.0 if self.node_wire_count(control) > 1 else COPY_COST
                ways.append((2 + second + self.take_cost(other ^ 1), "sum", (control ^ 1, other ^ 1)))
        left, right = inputs
        gain = self.product_worth(left ^ 1, right) + self.product_worth(left, right ^ 1)
        saved = gain + (COPY_COST if self.uses[number] > 1 else 0.0)
        if saved:
            takes = self.take_cost(left, gain) + self.take_cost(right, gain)
            ways.append((GATE_COSTS["interact"] + takes - saved, "meeting", inputs))
        return ways

    def map_and_by_switch(self, number: int, control: NodeLiteral, other: NodeLiteral) -> None:
        """Maps "control and other" by a switch. The control may be inverted."""
        second = self.claim_product(control ^ 1, other)
        wire = self.take_wire(other)
        found, select = self.borrow_wire_or_inverse(control)
        again, high, low = self.add_gate("switch", None, [select, wire], 3)
        product, rest = (high, low) if found == control else (low, high)
        self.pool_of(found).append(again)
        self.pool_of(2 * number).append(product)
        self.release_wire(second, rest)

    def map_and_by_interact(self, number: int, left: NodeLiteral, right: NodeLiteral) -> None:
        """Maps "left and right" by an interaction, which makes it twice."""
        second, third = self.claim_product(left ^ 1, right), self.claim_product(left, right ^ 1)
        both, right_alone, left_alone, again = self.add_gate("interact", None,
                                                             [self.take_wire(left), self.take_wire(right)], 4)
        self.pool_of(2 * number).extend((both, again))
        self.release_wire(second, right_alone)
        self.release_wire(third, left_alone)

    def map_or_by_switch(self, number: int, control: NodeLiteral, other: NodeLiteral) -> None:
        """Maps the inverse of an AND node, "control or other", by a switch and a join."""
        product = self.claim_product(control, other)
        if self.node_wire_count(control) < 2 or not self.pool_of(control):
            self.duplicate_wire(control if self.pool_of(control) else control ^ 1)
        wire, first = self.take_wire(other), self.pool[control].pop()
        found, select = self.borrow_wire_or_inverse(control)
        again, high, low = self.add_gate("switch", None, [select, wire], 3)
        rest, without = (high, low) if found == control else (low, high)
        parts = [first, without] if found == control else [without, first]
        again, result = self.add_gate("unswitch", None, [again, *parts], 2, number)
        self.pool_of(found).append(again)
        self.pool_of(2 * number + 1).append(result)
        self.release_wire(product, rest)

    # ---- XOR

    def xor_ways(self, number: int, inputs: tuple[NodeLiteral, ...]) -> list[MappingWay]:
        """Returns the ways to map a XOR node."""
        if number in self.separate:
            return [(0.0, "fredkin", inputs)]
        ways: list[MappingWay] = []
        for first, second in (inputs, inputs[::-1]):
            for one in (first, first ^ 1):
                for two in (second, second ^ 1):
                    if self.pool_of(one) and self.pool_of(two):
                        gain = self.product_worth(one, two)
                        copies = (self.node_wire_count(first) < 2) + (self.node_wire_count(second) < 2
                                                                      and self.uses[second >> 1] > gain)
                        ways.append((1.8 + COPY_COST * copies - gain, "meeting_join", (one, two)))
            spare = self.pool_of(second) and self.pool_of(second ^ 1) and (self.node_wire_count(second) > 2
                                                                           or not self.uses[second >> 1])
            if spare:
                gains = sum(self.product_worth(one, two) for one in (first, first ^ 1) for two in (second, second ^ 1))
                ways.append((3 - gains, "switch_join", (first, second)))
        return ways

    def map_xor_by_interact(self, number: int, left: NodeLiteral, right: NodeLiteral) -> None:
        """Maps a XOR node by an interaction and a join. A wire of `left` is consumed, and another one is the control.
        """
        product = self.claim_product(left, right)
        if self.node_wire_count(left) < 2:
            self.duplicate_wire(left)
        wire, other = self.pool[left].pop(), self.take_wire(right)
        both, right_alone, left_alone, again = self.add_gate("interact", None, [wire, other], 4)
        self.release_wire(product, both)
        self.release_wire(product, again)
        found, select = self.borrow_wire_or_inverse(left)
        parts = [left_alone, right_alone] if found == left else [right_alone, left_alone]
        select, result = self.add_gate("unswitch", None, [select, *parts], 2, number)
        self.pool_of(found).append(select)
        self.pool_of(2 * number ^ (left & 1) ^ (right & 1)).append(result)

    def map_xor_by_switches(self, number: int, left: NodeLiteral, right: NodeLiteral) -> None:
        """Maps a XOR node by two switches, over a wire and its inverse, and a join."""
        found, select = self.borrow_wire_or_inverse(left)
        product, second = self.claim_product(found, right), self.claim_product(found ^ 1, right ^ 1)
        select, both, right_alone = self.add_gate("switch", None, [select, self.pool[right].pop()], 3)
        select, left_alone, neither = self.add_gate("switch", None, [select, self.pool[right ^ 1].pop()], 3)
        select, result = self.add_gate("unswitch", None, [select, left_alone, right_alone], 2, number)
        self.pool_of(found).append(select)
        self.pool_of(2 * number ^ (found & 1)).append(result)
        self.release_wire(product, both)
        self.release_wire(second, neither)

    def map_xor_by_fredkin(self, number: int, left: NodeLiteral, right: NodeLiteral) -> None:
        """Maps a XOR node by a Fredkin gate over a wire and its inverse."""
        while not (self.pool_of(right) and self.pool_of(right ^ 1)
                   and (self.node_wire_count(right) > 2 or not self.uses[right >> 1])):
            self.duplicate_wire(right if self.pool_of(right) else right ^ 1)
        found, select = self.borrow_wire_or_inverse(left)
        ins = [select, self.pool[right ^ 1].pop(), self.pool[right].pop()]
        select, result, inverse = self.add_gate("fredkin", None, ins, 3)
        self.pool_of(found).append(select)
        self.pool_of(2 * number ^ (found & 1)).append(result)
        self.pool_of(2 * number + 1 ^ (found & 1)).append(inverse)

    # ---- join

    def join_ways(self, number: int, inputs: tuple[NodeLiteral, ...]) -> list[MappingWay]:
        """Returns the way to map a join."""
        return [(0.0, "inverse_product" if number in self.separate else "join", inputs)]

    def map_join_by_unswitch(self, number: int, select: NodeLiteral, high: NodeLiteral, low: NodeLiteral) -> None:
        """Maps a join by an `unswitch`. The control may be inverted."""
        # The control can be one of the two parts, so a wire of it must stay.
        self.uses[select >> 1] += 1
        parts = [self.take_wire(high), self.take_wire(low)]
        self.uses[select >> 1] -= 1
        found, control = self.borrow_wire_or_inverse(select)
        control, result = self.add_gate("unswitch", None, [control, *(parts if found == select else parts[::-1])], 2,
                                        number)
        self.pool_of(found).append(control)
        self.pool_of(2 * number).append(result)

    def map_join_as_product(self, number: int, _select: NodeLiteral, high: NodeLiteral, low: NodeLiteral) -> None:
        """Maps a join as "not (not high and not low)"."""
        second = self.claim_product(high, low ^ 1)
        wire = self.take_wire(low ^ 1)
        found, control = self.borrow_wire_or_inverse(high)
        control, one, two = self.add_gate("switch", None, [control, wire], 3)
        product, rest = (two, one) if found == high else (one, two)
        self.pool_of(found).append(control)
        self.pool_of(2 * number + 1).append(product)
        self.release_wire(second, rest)


MAP_METHODS: dict[str, Callable[..., None]] = {
    "product": Mapper.map_and_by_switch, "meeting": Mapper.map_and_by_interact, "sum": Mapper.map_or_by_switch,
    "meeting_join": Mapper.map_xor_by_interact, "switch_join": Mapper.map_xor_by_switches,
    "fredkin": Mapper.map_xor_by_fredkin, "join": Mapper.map_join_by_unswitch,
    "inverse_product": Mapper.map_join_as_product,
}
