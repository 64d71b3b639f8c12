"""The circuit of a wiring, with names for its wires."""

from collections import Counter
from dataclasses import dataclass

from ...texts.circuits import Circuit, Gate
from .graph import LogicGraph
from .mapping import GARBAGE_COST, GATE_COSTS, GateWithWireNumbers, WireNumber, MappedGates
from .naming import NameBook


@dataclass
class NamedCircuit:
    """A circuit of conservative logic, and notes on its names."""

    circuit: Circuit
    notes: list[str]

    def cost(self) -> float:
        """Returns the cost of the gates and the garbage."""
        counts = Counter(gate.kind for gate in self.circuit.gates)
        return (sum(cost * counts[kind] for kind, cost in GATE_COSTS.items()) + GARBAGE_COST * len(self.circuit.spills))


def named_circuit(graph: LogicGraph, wiring: MappedGates) -> NamedCircuit:
    """Returns the circuit of a wiring, with a name for each wire."""
    book, names, gates = NameBook(), dict[WireNumber, str](), list(wiring.gates)
    inputs = [book.fresh_port_name(name) for name in graph.input_names]
    names.update(enumerate(inputs))
    next_wire = 1 + max([len(inputs) - 1, *(wire for gate in gates for wire in gate.outs)])
    outputs = []
    for (wanted, _), wire in zip(graph.outputs, wiring.outputs):
        if wire < len(inputs):
            # An input that goes straight to an output: a delay gives it the name of the output.
            gates.append(GateWithWireNumbers("delay", 1, [wire], [next_wire]))
            wire, next_wire = next_wire, next_wire + 1
        names[wire] = book.fresh_port_name(wanted)
        outputs.append(names[wire])
    garbage = set(wiring.garbage)
    for gate in gates:
        for wire in gate.outs:
            if wire not in names:
                names[wire] = book.fresh_numbered_name("g" if wire in garbage else "k" if gate.gate_kind == "source"
                                                       else "w")
    # `g2` comes before `g10`.
    spills = sorted((names[wire] for wire in garbage), key=lambda name: (len(name), name))
    lines = (Gate(gate.gate_kind, tuple(names[wire] for wire in gate.ins), tuple(names[wire] for wire in gate.outs),
                  gate.parameter) for gate in gates)
    return NamedCircuit(Circuit(tuple(inputs), tuple(lines), tuple(outputs), tuple(spills)), book.renaming_notes())
