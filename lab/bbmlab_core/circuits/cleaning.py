"""Removes garbage: computes, copies the outputs, and undoes the computation (Bennett 1973; Fredkin and Toffoli 1982,
section 8).

A copy is a `switch` with a constant 1, which makes the bit and its complement: no gate makes balls, so both leave as
outputs. What is left are the inputs, and the constants.
"""

from ..texts.circuits import Circuit, Gate
from .cones import cone_for_inverse_gate
from .gate_lines import reread_circuit, constant_gate
from .inverting import INVERSES, require_row_at_all_inputs
from .netlists.naming import MAX_NAME_BYTES, NameBook

# So many gates at most are undone by inverse gates, each of which is searched for a cone that keeps it. Fredkin gates
# undo those of larger circuits.
MAX_CONE_SEARCHES = 1000
REPLACEABLE_KINDS = ("switch", "interact")


class GarbageFreeMaker:
    """Makes the circuit without garbage.

    `separate` are the gates that Fredkin gates replace, since no cone keeps the inverse of theirs.
    """

    def __init__(self, circuit: Circuit, separate: frozenset[int]) -> None:
        self.circuit, self.separate = circuit, separate
        self.book = NameBook()
        self.book.taken.update(circuit.wires)
        self.gates: list[Gate] = []
        # The number of the gate that each line of the second half undoes.
        self.undone: dict[int, int] = {}
        # The name under which a wire of the first half comes back, if it is another one.
        self.now: dict[str, str] = {}

    def fresh_name(self, name: str, ending: str) -> str:
        """Returns a new name that looks like another one."""
        return self.book.fresh_name(name[:MAX_NAME_BYTES - len(ending)] + ending)

    def run(self) -> Circuit:
        """Returns the lines of the circuit."""
        maker = self.circuit.maker
        copied = [name for name in self.circuit.outputs if name in maker and maker[name].kind != "source"]
        own = {name: self.fresh_name(name, "_own") for name in copied}
        first = [(gate.number, line) for gate in self.circuit.gates for line in self.forward_gates_of(gate.number, own)]
        self.gates = [line for _, line in first]
        complements = [self.add_copy_and_complement(own[name], name) for name in copied]
        for number, line in reversed(first):
            self.add_undoing_gate(number, line)
        ends = [*self.circuit.inputs, *(line.outs[0] for _, line in first if line.kind == "source")]
        spills = tuple(self.now.get(name, name) for name in ends if name not in self.circuit.outputs)
        outputs = (*self.circuit.outputs, *complements)
        return Circuit(tuple(self.circuit.inputs), tuple(self.gates), outputs, spills)

    def forward_gates_of(self, number: int, own: dict[str, str]) -> list[Gate]:
        """Returns the lines of a gate in the first half: its own, or Fredkin gates and constants in its place."""
        gate = self.circuit.gates[number]
        ins, outs = tuple(own.get(name, name) for name in gate.ins), tuple(own.get(name, name) for name in gate.outs)
        if number not in self.separate:
            return [Gate(gate.kind, ins, outs, gate.parameter)]
        zero = self.fresh_name("zero", "")
        if gate.kind == "switch":
            return [constant_gate(0, zero), Gate("fredkin", (*ins, zero), outs)]
        # `interact` is a switch of q by p, and then one of p by "p and q".
        other = self.fresh_name("zero", "")
        control, both = (self.fresh_name(name, "_on") for name in (ins[0], outs[0]))
        return [constant_gate(0, zero), Gate("fredkin", (*ins, zero), (control, both, outs[1])),
                constant_gate(0, other), Gate("fredkin", (both, control, other), (outs[0], outs[3], outs[2]))]

    def add_copy_and_complement(self, wire: str, name: str) -> str:
        """Adds the copy of a wire, which gets the name of the output, and returns the name of its complement."""
        one = self.fresh_name("one", "")
        passed, complement = (self.fresh_name(name, ending) for ending in ("_read", "_not"))
        self.gates += [constant_gate(1, one), Gate("switch", (wire, one), (passed, name, complement))]
        self.now[wire] = passed
        return complement

    def add_undoing_gate(self, number: int, line: Gate) -> None:
        """Adds the gate that undoes a line of the first half.

        A delay is not undone: its wire comes back with the same values.
        """
        if line.kind == "source":
            return
        ins = tuple(self.now.get(name, name) for name in line.outs)
        if line.kind == "delay":
            self.now[line.ins[0]] = ins[0]
            return
        self.now.update((name, self.fresh_name(name, "_back")) for name in line.ins)
        self.undone[len(self.gates)] = number
        self.gates.append(Gate(INVERSES[line.kind], ins, tuple(self.now[name] for name in line.ins)))


def clean(circuit: Circuit) -> Circuit:
    """Returns a circuit with the outputs of another one and their complements, whose garbage are its inputs and
    constants.

    A cone keeps each inverse gate of the second half. Raises LabError if the circuit has no values at some inputs, or
    becomes too large.
    """
    require_row_at_all_inputs(circuit, "the circuit")
    replaceable = frozenset(gate.number for gate in circuit.gates if gate.kind in REPLACEABLE_KINDS)
    separate = replaceable if len(replaceable) > MAX_CONE_SEARCHES else frozenset[int]()
    while True:
        cleaner = GarbageFreeMaker(circuit, separate)
        lines = cleaner.run()
        result = reread_circuit(lines)
        failed = {number for place, number in cleaner.undone.items()
                  if result.gates[place].is_inverse and number not in separate
                  and cone_for_inverse_gate(result, place) is None}
        if not failed:
            return lines
        separate |= failed
