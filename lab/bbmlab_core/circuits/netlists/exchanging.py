"""Maps gates that only exchange lines, one to one: each is a Fredkin gate (Fredkin and Toffoli 1982)."""

from .circuit_text import NamedCircuit, named_circuit
from .graph import LogicGraph
from .mapping import GateWithWireNumbers, WireNumber, MappedGates
from .reversible import ReversibleNetlist


def map_exchanges(netlist: ReversibleNetlist) -> NamedCircuit:
    """Returns the circuit of a netlist whose gates all exchange two lines: a gate `fredkin` for each that has a
    control.

    `fredkin c x y` exchanges x and y if c is false, so the two lines come in exchanged.
    """
    wiring = MappedGates()
    wires: dict[str, WireNumber] = {}
    made = 0
    for line in netlist.lines:
        if line not in netlist.constants:
            wires[line], made = made, made + 1
    for line, bit in netlist.constants.items():
        wiring.gates.append(GateWithWireNumbers("source", int(bit), [], [made]))
        wires[line], made = made, made + 1
    for it in netlist.exchanges_if_all or []:
        if it.control is None:
            wires[it.first], wires[it.second] = wires[it.second], wires[it.first]
            continue
        ins = [wires[line] for line in (it.control, it.second, it.first)]
        wiring.gates.append(GateWithWireNumbers("fredkin", None, ins, [made, made + 1, made + 2]))
        wires.update({it.control: made, it.first: made + 1, it.second: made + 2})
        made += 3
    graph = LogicGraph(netlist.inputs)
    graph.outputs = [(name, 0) for name in netlist.output_names.values() if name is not None]
    wiring.outputs = [wires[line] for line, name in netlist.output_names.items() if name is not None]
    wiring.garbage = [wires[line] for line, name in netlist.output_names.items() if name is None]
    return named_circuit(graph, wiring)
