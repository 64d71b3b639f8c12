"""Keeps of inverse gates: which wires a module cuts and which gates it uses so that its run shows the gate's row.

More gates never show less. So a gate is necessary if all others before the inverse gate, without it, leave an
assignment without a row. The search begins with the necessary gates. It takes the fewest wires that cut them off, adds
gates, or leaves gates out of all of them.
"""

import random
from typing import Iterable, Iterator

from ..texts.certificates import MAX_CUTS, MAX_USES
from ..texts.circuits import Circuit, evaluate_gates, evaluate_under_tables
from .cones import few_cuts_and_uses, cone_for_inverse_gate

# The assignments that are sampled, the sets of gates of one size that are looked at further, and the gates that are run
# at most to add gates, and to leave gates out: less than a second each.
SAMPLE_COUNT = 1024
BEAM_WIDTH = 4
MAX_GATE_RUNS = 60_000

GateSet = frozenset[int]
Cone = tuple[list[str], list[int]]


def search_keeping_cone(circuit: Circuit, number: int) -> Cone | None:
    """Returns wires to cut and gates to use under which an inverse gate has a row whenever the gates before it have
    theirs, or None."""
    return cone_for_inverse_gate(circuit, number) or KeepSearch(circuit, number).find_cone()


def why_not_kept(circuit: Circuit, number: int) -> str:
    """Returns a clause on why the lab finds no keep for an inverse gate."""
    least = len(KeepSearch(circuit, number).necessary_gates())
    if least >= MAX_USES:
        return (f"cannot be kept: its row follows only from at least {MAX_USES} gates before it, and a module uses at "
                f"most {MAX_USES} with it")
    return f"cannot be kept: the lab finds no {MAX_CUTS} wires and {MAX_USES} gates before it that show its row"


class KeepSearch:
    """A search for the wires and gates by which one inverse gate is kept. It depends on the circuit and the gate alone.
    """

    def __init__(self, circuit: Circuit, number: int) -> None:
        self.circuit, self.number = circuit, number
        self.before = circuit.cone_inputs_and_gates(circuit.gates[number].ins)[1]
        chance = random.Random(1)
        # A sample of assignments for each wire, if it is cut.
        self.samples = {wire: chance.getrandbits(SAMPLE_COUNT) for wire in circuit.wires}
        self.consumer = {wire: gate.number for gate in circuit.gates for wire in gate.ins}
        self.runs = 0

    def find_cone(self) -> Cone | None:
        """Returns wires to cut and gates to use, or None if none were found."""
        necessary = self.necessary_gates()
        if len(necessary) >= MAX_USES:
            return None
        core = frozenset({*necessary, self.number})
        return (self.cone_if_valid(self.gates_inside_minimum_cut(core)) or self.cone_by_growth(core)
                or self.cone_by_removal(core))

    def wires_into(self, gates: Iterable[int]) -> set[str]:
        """Returns the wires that come into some gates from elsewhere."""
        own = [self.circuit.gates[number] for number in gates]
        return {wire for gate in own for wire in gate.ins} - {wire for gate in own for wire in gate.outs}

    def rowless_sample_count(self, gates: GateSet) -> int:
        """Returns under how many of the sampled assignments the inverse gate, the last of some gates, has no row while
        the others have theirs."""
        self.runs += len(gates)
        full, order = (1 << SAMPLE_COUNT) - 1, sorted(gates)
        rows = evaluate_under_tables(self.circuit, {wire: self.samples[wire] for wire in self.wires_into(gates)}, full,
                                     order).defined_columns_by_gate
        return ((rows[order[-2]] if len(order) > 1 else full) & ~rows[self.number]).bit_count()

    def cone_if_valid(self, gates: GateSet) -> Cone | None:
        """Returns the wires that cut gates off, and the gates, if they are few enough and show the row under all
        assignments."""
        cuts, order = sorted(self.wires_into(gates)), sorted(gates)
        if len(cuts) > MAX_CUTS or len(order) > MAX_USES or self.rowless_sample_count(gates):
            return None
        values = evaluate_gates(self.circuit, cuts, order)
        if values.defined_columns_by_gate[self.number] != (values.defined_columns_by_gate[order[-2]] if len(order) > 1
                                                           else values.full):
            return None
        least, uses = few_cuts_and_uses(self.circuit, cuts, order)
        return (cuts, order) if len(least) <= MAX_CUTS and len(uses) <= MAX_USES else None

    def necessary_gates(self) -> list[int]:
        """Returns gates that each module needs that keeps the gate: those nearest to it first, and no more than a
        module can use."""
        every, found = frozenset({*self.before, self.number}), list[int]()
        for number in reversed(self.before):
            if self.rowless_sample_count(every - {number}):
                found.append(number)
            if len(found) >= MAX_USES:
                break
        self.runs = 0
        return found

    def cone_by_growth(self, core: GateSet) -> Cone | None:
        """Returns what is found by adding gates to a core, those first that leave the fewest assignments without a row.
        """
        level, seen = [core], {core}
        while level and self.runs < MAX_GATE_RUNS:
            ranked: list[tuple[int, int, int, GateSet]] = []
            for larger in self.larger_gate_sets(level):
                if larger in seen or len(larger) > MAX_USES:
                    continue
                seen.add(larger)
                lacking = self.rowless_sample_count(larger)
                found = None if lacking else self.cone_if_valid(larger) or self.cone_if_valid(
                    self.gates_inside_minimum_cut(larger))
                if found:
                    return found
                ranked.append((lacking, len(self.wires_into(larger)), len(ranked), larger))
            level = [gates for _, _, _, gates in sorted(ranked, key=lambda own: own[:3])[:BEAM_WIDTH]]
        return None

    def larger_gate_sets(self, level: list[GateSet]) -> Iterator[GateSet]:
        """Yields sets of gates with one more gate that makes a wire of the cut."""
        for gates in level:
            for wire in sorted(self.wires_into(gates)):
                if wire in self.circuit.maker:
                    yield self.with_constant_gates(gates | {self.circuit.maker[wire].number})

    def cone_by_removal(self, core: GateSet) -> Cone | None:
        """Returns what is found by leaving gates out of all before the inverse gate, those first that leave the fewest
        wires to cut."""
        self.runs = 0
        level, seen = [frozenset({*self.before, self.number})], set[GateSet]()
        while level and self.runs < MAX_GATE_RUNS:
            ranked: list[tuple[int, int, GateSet]] = []
            for smaller in (gates - {number} for gates in level for number in sorted(gates - core)):
                if smaller in seen:
                    continue
                seen.add(smaller)
                count = len(self.wires_into(smaller))
                # One wire too many may still be led back to one gate.
                if count > MAX_CUTS + 1 or self.rowless_sample_count(smaller):
                    continue
                found = self.cone_if_valid(smaller)
                if found:
                    return found
                ranked.append((count, len(ranked), smaller))
            level = [gates for _, _, gates in sorted(ranked, key=lambda own: own[:2])[:BEAM_WIDTH]]
        return None

    def with_constant_gates(self, gates: GateSet) -> GateSet:
        """Returns gates with the sources of their wires, which need no wire themselves."""
        makers = [self.circuit.maker.get(wire) for wire in self.wires_into(gates)]
        return gates | {maker.number for maker in makers if maker and not maker.ins}

    def gates_inside_minimum_cut(self, core: GateSet) -> GateSet:
        """Returns the fewest gates with a core that the fewest wires cut off (Ford and Fulkerson 1956: a flow of one
        unit for each wire)."""
        flow: set[str] = set()
        while True:
            reached, wire = self.reachable_gates_and_input(core, flow)
            if wire is None:
                return self.with_constant_gates(frozenset(reached))
            number = self.consumer[wire]
            flow ^= {wire}
            while number not in core:
                number, own = reached[number]
                flow ^= {own}

    def reachable_gates_and_input(self, core: GateSet, flow: set[str]) -> tuple[dict[int, tuple[int, str]], str | None]:
        """Returns the gates from which more can flow to a core, each with the next gate and the wire to it, and an
        input from which it can."""
        reached, todo = {number: (number, "") for number in core}, sorted(core)
        while todo:
            number = todo.pop()
            gate = self.circuit.gates[number]
            ways: list[tuple[int, str]] = []
            for wire in gate.ins:
                if wire not in flow and wire not in self.circuit.maker:
                    return reached, wire
                if wire not in flow:
                    ways.append((self.circuit.maker[wire].number, wire))
            ways += [(self.consumer[wire], wire) for wire in gate.outs if wire in flow]
            for other, wire in ways:
                if other not in reached:
                    reached[other] = number, wire
                    todo.append(other)
        return reached, None
