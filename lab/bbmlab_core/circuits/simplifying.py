"""Makes a circuit smaller: folds constants, removes dead gates and gates that undo another one, and shares copies.
Outputs keep their values.

Each wire gets a literal, by the rules of `netlists.graph`: wires with one literal always have one value.
"""

from ..texts.circuits import Circuit, Gate
from .cones import cone_for_inverse_gate
from .gate_lines import outputs_without_control, reread_circuit
from .inverting import require_row_at_all_inputs
from .netlists.graph import FALSE, TRUE, LogicGraph, NodeLiteral

# The most passes, each of which makes the circuit smaller, and the most inverse gates that are searched for a cone.
MAX_PASSES = 200
MAX_CONE_SEARCHES = 1000


class SimplifyingPass:
    """One pass from the first gate to the last: folds constants, and removes pairs of gates of which the second undoes
    the first."""

    def __init__(self, lines: Circuit) -> None:
        self.before = lines
        self.graph = LogicGraph(list(lines.inputs))
        self.literals: dict[str, NodeLiteral] = {name: 2 * at + 2 for at, name in enumerate(lines.inputs)}
        self.gates: list[Gate | None] = []
        # Wires that became another wire, the place of the gate that makes a wire, and wires that nothing uses.
        self.became: dict[str, str] = {}
        self.place: dict[str, int] = {}
        self.dropped: list[str] = []

    def run(self) -> Circuit:
        """Returns the circuit after the pass."""
        for gate in self.before.gates:
            ins = [self.replacement_of(name) for name in gate.ins]
            if not self.try_fold(gate, ins) and not self.try_cancel_pair(gate, ins):
                self.add_gate(gate.kind, gate.parameter, ins, gate.outs)
        gates = [Gate(gate.kind, tuple(map(self.replacement_of, gate.ins)), gate.outs, gate.parameter)
                 for gate in self.gates
                 if gate is not None]
        outputs, spills = (tuple(map(self.replacement_of, names)) for names in (
            self.before.outputs, (*self.before.spills, *self.dropped)))
        return with_output_names(Circuit(self.before.inputs, tuple(gates), outputs, spills), self.before.outputs)

    def replacement_of(self, name: str) -> str:
        """Returns what a wire became."""
        first = name
        while name in self.became:
            name = self.became[name]
        while first in self.became and self.became[first] != name:
            self.became[first], first = name, self.became[first]
        return name

    def replace_outputs(self, outs: list[str], ins: list[str]) -> None:
        """Replaces outputs of a gate that is left out by inputs with their values."""
        self.became.update(zip(outs, ins))

    def add_constant_gates(self, bit: int, *outs: str) -> None:
        """Makes outputs constants."""
        for name in outs:
            self.add_gate("source", bit, [], (name,))

    def add_gate(self, word: str, parameter: int | None, ins: list[str], outs: tuple[str, ...]) -> None:
        """Adds a gate."""
        self.place.update((name, len(self.gates)) for name in outs)
        self.gates.append(Gate(word, tuple(ins), outs, parameter))
        found = self.gate_output_literals(word, parameter, [self.literals[name] for name in ins])
        self.literals.update(zip(outs, found))

    def gate_output_literals(self, word: str, parameter: int | None, ins: list[NodeLiteral]) -> list[NodeLiteral]:
        """Returns the literals of a gate's outputs."""
        graph = self.graph
        if word == "source":
            return [TRUE if parameter else FALSE]
        if word == "delay":
            return ins
        if word in ("fredkin", "cswap"):
            high, low = graph.mux(ins[0], ins[1], ins[2]), graph.mux(ins[0], ins[2], ins[1])
            return [ins[0], high, low] if word == "fredkin" else [ins[0], low, high]
        if word == "switch":
            return [ins[0], graph.and_(ins[0], ins[1]), graph.and_(ins[0] ^ 1, ins[1])]
        if word == "interact":
            both = graph.and_(ins[0], ins[1])
            return [both, graph.and_(ins[0] ^ 1, ins[1]), graph.and_(ins[0], ins[1] ^ 1), both]
        if word == "unswitch":
            return [ins[0], graph.or_(ins[1], ins[2])]
        return [graph.or_(ins[0], ins[2]), graph.or_(ins[0], ins[1])]

    def try_fold(self, gate: Gate, ins: list[str]) -> bool:
        """Replaces a gate whose inputs are constant, alike or opposite. Returns whether it did."""
        outs, known = list(gate.outs), [self.literals[name] for name in ins]
        if gate.kind == "delay" and known[0] in (FALSE, TRUE):
            self.replace_outputs(outs, ins)
        elif gate.kind == "switch":
            return self.try_fold_switch(outs, ins, known)
        elif gate.kind == "interact":
            return self.try_fold_interact(outs, ins, known)
        elif gate.kind in ("fredkin", "cswap"):
            return self.try_fold_fredkin(outs if gate.kind == "fredkin" else [outs[0], outs[2], outs[1]], ins, known)
        elif gate.kind == "unswitch" and (known[0] in (FALSE, TRUE) or FALSE in known[1:]):
            taken = 1 if known[0] == TRUE or known[0] != FALSE and known[2] == FALSE else 2
            self.dropped.append(ins[3 - taken])
            self.replace_outputs(outs, [ins[0], ins[taken]])
        elif gate.kind == "uninteract" and FALSE in (known[0], known[3]):
            self.dropped += [ins[0], ins[3]]
            self.replace_outputs(outs, [ins[2], ins[1]])
        elif gate.kind == "uninteract" and known[1] == known[2] == FALSE:
            self.dropped += [ins[1], ins[2]]
            self.replace_outputs(outs, [ins[0], ins[3]])
        else:
            return False
        return True

    def try_fold_switch(self, outs: list[str], ins: list[str], known: list[NodeLiteral]) -> bool:
        """Replaces a switch whose control or input is constant, or which are alike or opposite."""
        control, other = known
        if control == TRUE or other == control:
            self.replace_outputs(outs[:2], ins)
            self.add_constant_gates(0, outs[2])
        elif control == FALSE or other in (FALSE, control ^ 1):
            self.replace_outputs([outs[0], outs[2]], ins)
            self.add_constant_gates(0, outs[1])
        else:
            return False
        return True

    def try_fold_interact(self, outs: list[str], ins: list[str], known: list[NodeLiteral]) -> bool:
        """Replaces an interaction of which one input is constant, or whose inputs are alike or opposite."""
        one, other = known
        if FALSE in known or one == other ^ 1:
            self.replace_outputs([outs[2], outs[1]], ins)
            self.add_constant_gates(0, outs[0], outs[3])
        elif one == other:
            self.replace_outputs([outs[0], outs[3]], ins)
            self.add_constant_gates(0, outs[1], outs[2])
        elif one == TRUE:
            self.add_gate("switch", None, ins[::-1], (outs[0], outs[3], outs[2]))
            self.add_constant_gates(0, outs[1])
        elif other == TRUE:
            self.add_gate("switch", None, ins, (outs[0], outs[3], outs[1]))
            self.add_constant_gates(0, outs[2])
        else:
            return False
        return True

    def try_fold_fredkin(self, outs: list[str], ins: list[str], known: list[NodeLiteral]) -> bool:
        """Replaces a Fredkin gate with a constant control or inputs that are alike, and makes it a switch if one of
        these is 0."""
        control, high, low = known
        if control == FALSE:
            self.replace_outputs(outs, [ins[0], ins[2], ins[1]])
        elif control == TRUE or high == low:
            self.replace_outputs(outs, ins)
        elif low == FALSE:
            self.dropped.append(ins[2])
            self.add_gate("switch", None, ins[:2], tuple(outs))
        elif high == FALSE:
            self.dropped.append(ins[1])
            self.add_gate("switch", None, [ins[0], ins[2]], (outs[0], outs[2], outs[1]))
        else:
            return False
        return True

    def try_cancel_pair(self, gate: Gate, ins: list[str]) -> bool:
        """Removes a gate and the earlier one that it undoes. Returns whether it did."""
        parts = ins[1:] if gate.kind in ("switch", "unswitch", "fredkin", "cswap") else ins
        places = {self.place.get(name, -1) for name in parts}
        [place] = places if len(places) == 1 else [-1]
        before = self.gates[place] if place >= 0 else None
        if before is None or not parts:
            return False
        now = [self.replacement_of(name) for name in before.ins]
        wires = [self.replacement_of(name) for name in before.outs]
        control = before.kind in ("switch", "unswitch", "fredkin", "cswap")
        if control and self.literals[now[0]] | 1 != self.literals[ins[0]] | 1:
            return False
        is_opposite = control and self.literals[now[0]] != self.literals[ins[0]]
        found = are_inputs_returned_in_order(before.kind, gate.kind, parts == wires[control:],
                                             parts[::-1] == wires[control:], is_opposite)
        if found is None:
            return False
        back = now[control:] if found else now[control:][::-1]
        if control:
            self.replace_outputs([before.outs[0], gate.outs[0]],
                                 [now[0], ins[0] if ins[0] != before.outs[0] else now[0]])
        self.gates[place] = None
        self.replace_outputs(list(gate.outs[control:]), back)
        return True


def are_inputs_returned_in_order(first: str, second: str, is_same: bool, is_turned: bool,
                                 is_opposite: bool) -> bool | None:
    """Returns whether a gate gives the inputs of an earlier one back in their order, False if in the other one, and
    None if it does not.

    The gate takes the outputs of the earlier one in their order or turned round, under the same control or its
    opposite.
    """
    if {first, second} <= {"fredkin", "cswap"} and (is_same or is_turned):
        return (first == second) ^ is_turned ^ is_opposite
    if (first, second) == ("switch", "unswitch"):
        return True if is_same and not is_opposite or is_turned and is_opposite else None
    if (first, second) == ("unswitch", "switch") and is_same:
        return not is_opposite
    return True if {first, second} == {"interact", "uninteract"} and is_same else None


def with_output_names(lines: Circuit, wanted: tuple[str, ...]) -> Circuit:
    """Returns a circuit whose outputs have the wanted names. A delay names an input that leaves at once."""
    renamed = {found: name for found, name in zip(lines.outputs, wanted) if found != name and found not in lines.inputs}
    delays = [Gate("delay", (found,), (name,), 1) for found,
              name in zip(lines.outputs, wanted) if found != name and found in lines.inputs]

    def new_names_of(old: tuple[str, ...]) -> tuple[str, ...]:
        """Returns the new names of some wires."""
        return tuple(renamed.get(name, name) for name in old)

    gates = [Gate(gate.kind, new_names_of(gate.ins), new_names_of(gate.outs), gate.parameter) for gate in lines.gates]
    return Circuit(lines.inputs, (*gates, *delays), wanted, new_names_of(lines.spills))


def without_dead_gates(lines: Circuit) -> Circuit:
    """Returns a circuit without the gates of which nothing is used but the control that they hand on."""
    spare, became, kept = set(lines.spills), dict[str, str](), list[Gate]()
    order = list(lines.spills)
    for gate in reversed(lines.gates):
        own, unused = outputs_without_control(gate), gate.outs[:len(gate.outs) - len(outputs_without_control(gate))]
        if not all(name in spare for name in own):
            kept.append(gate)
            continue
        # The control goes on; it is spare if what it became is.
        became.update(zip(unused, gate.ins))
        freed = [name for at, name in enumerate(gate.ins) if at >= len(unused) or unused[at] in spare]
        spare.difference_update(gate.outs)
        spare.update(freed)
        order += freed

    def replacement_of(name: str) -> str:
        """Returns what a wire became."""
        while name in became:
            name = became[name]
        return name

    gates = [Gate(gate.kind, tuple(map(replacement_of, gate.ins)), gate.outs, gate.parameter)
             for gate in reversed(kept)]
    spills = tuple(name for name in dict.fromkeys(order) if name in spare)
    outputs = tuple(map(replacement_of, lines.outputs))
    return with_output_names(Circuit(lines.inputs, tuple(gates), outputs, spills), lines.outputs)


def with_shared_garbage(lines: Circuit) -> Circuit:
    """Returns a circuit in which garbage takes the place of wires with its values, if a gate is dead then."""
    folder, spare = SimplifyingPass(lines), list(lines.spills)
    literals = folder.literals
    for gate in lines.gates:
        ins = [literals[name] for name in gate.ins]
        literals.update(zip(gate.outs, folder.gate_output_literals(gate.kind, gate.parameter, ins)))
    born = {name: at for at, gate in enumerate(lines.gates) for name in gate.outs}
    taker = {name: at for at, gate in enumerate(lines.gates) for name in gate.ins}
    pool: dict[NodeLiteral, list[str]] = {}
    for name in spare:
        pool.setdefault(literals[name], []).append(name)
    swaps: dict[str, str] = {}
    for gate in reversed(lines.gates):
        used = [name for name in outputs_without_control(gate) if name not in spare]
        found: dict[str, str] = {}
        for name in used if gate.kind != "source" else []:
            last = taker.get(name, len(lines.gates))
            fits = [other for other in pool.get(literals[name], []) if born.get(other, -1) < last
                    and other not in outputs_without_control(gate) and other not in found.values()
                    and (name in taker or other in born)]
            if fits:
                found[name] = fits[0]
        if used and len(found) == len(used) and gate.kind != "source":
            swaps = {**found, **{other: name for name, other in found.items()}}
            break
    return with_exchanged_uses(lines, swaps)


def with_exchanged_uses(lines: Circuit, swaps: dict[str, str]) -> Circuit:
    """Returns a circuit in which those who use pairs of wires use the other one."""
    gates = [Gate(gate.kind, tuple(swaps.get(name, name) for name in gate.ins), gate.outs, gate.parameter)
             for gate in lines.gates]
    outputs, spills = ([swaps.get(name, name) for name in names] for names in (lines.outputs, lines.spills))
    # An output keeps its name: the two wires of such a pair exchange their names.
    pairs = {found: name for found, name in zip(outputs, lines.outputs) if found != name}
    names = {**pairs, **{name: found for found, name in pairs.items()}}

    def new_names_of(old: tuple[str, ...]) -> tuple[str, ...]:
        """Returns wires under their new names."""
        return tuple(names.get(name, name) for name in old)

    gates = [Gate(gate.kind, new_names_of(gate.ins), new_names_of(gate.outs), gate.parameter) for gate in gates]
    return Circuit(lines.inputs, tuple(gates), lines.outputs, new_names_of(tuple(spills)))


def keepable_inverse_count(circuit: Circuit) -> int:
    """Returns how many inverse gates a cone keeps, or 0 for a circuit with too many of them."""
    inverse = [gate.number for gate in circuit.gates if gate.is_inverse]
    if len(inverse) > MAX_CONE_SEARCHES:
        return 0
    return sum(cone_for_inverse_gate(circuit, number) is not None for number in inverse)


def simplified_by_passes(lines: Circuit, may_share: bool) -> Circuit:
    """Returns a circuit after passes that change it no more."""
    for _ in range(MAX_PASSES):
        before = lines
        lines = without_dead_gates(SimplifyingPass(lines).run())
        lines = without_dead_gates(with_shared_garbage(lines)) if may_share else lines
        if lines == before:
            break
    return lines


def simplify(circuit: Circuit) -> Circuit:
    """Returns a smaller circuit with the same outputs. Copies are not shared if an inverse gate would have no cone that
    keeps it then.

    Raises LabError if the circuit has no values at some inputs.
    """
    require_row_at_all_inputs(circuit, "the circuit")
    lines = circuit
    for may_share in (True, False):
        found = simplified_by_passes(lines, may_share)
        result = reread_circuit(found)
        lost = sum(gate.is_inverse for gate in result.gates) - keepable_inverse_count(result)
        if not lost or lost <= sum(gate.is_inverse for gate in circuit.gates) - keepable_inverse_count(circuit):
            return found
    return lines
