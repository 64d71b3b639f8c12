"""The inverse of a circuit: its gates turned round, outputs as inputs, and constants and garbage exchanged (Fredkin and
Toffoli 1982).
"""

from ..host.terminal import LabError
from ..texts.circuits import Circuit, Gate, WireTables, evaluate_all_or_samples
from .gate_lines import reread_circuit, constant_gate
from .row_check import first_missing_row_words

# Up to so many inputs all choices are tried, and above them so many samples.
MAX_EXHAUSTIVE_INPUTS = 16
SAMPLE_COUNT = 4096
INVERSES = {"fredkin": "fredkin", "cswap": "cswap", "delay": "delay", "switch": "unswitch", "unswitch": "switch",
            "interact": "uninteract", "uninteract": "interact"}


def wire_values_of(circuit: Circuit) -> WireTables:
    """Returns the values of a circuit's wires, in all choices of up to 16 inputs, or in samples."""
    return evaluate_all_or_samples(circuit, MAX_EXHAUSTIVE_INPUTS, SAMPLE_COUNT)


def bit_if_constant(values: WireTables, name: str) -> int | None:
    """Returns the bit that a wire always is, or None if it changes."""
    return 1 if values.tables[name] == values.full else 0 if values.tables[name] == 0 else None


def example_inputs_words(values: WireTables, name: str, bit: int) -> str:
    """Says with which inputs on a wire is a bit."""
    table = values.tables[name] if bit else values.full ^ values.tables[name]
    on = values.true_free_wires((table & -table).bit_length() - 1)
    return f"with {' '.join(on[:12])}{' and more' if len(on) > 12 else ''} on" if on else "with no input on"


def inverse(circuit: Circuit) -> Circuit:
    """Returns the inverse of a circuit. Its inputs are the outputs, and its constants the garbage, which must not
    change.

    The constants come first, so that the inverse of the inverse is the circuit again, line by line, if its constants
    come first.

    Raises LabError with the reason if a row would lack: at some inputs the inverse would have no values, or a constant
    would not come back.
    """
    require_row_at_all_inputs(circuit, "the circuit")
    values = wire_values_of(circuit)
    gates = []
    for name in circuit.spills:
        bit = bit_if_constant(values, name)
        if bit is None:
            raise LabError(f"there is no inverse: the garbage `{name}` is 1 {example_inputs_words(values, name, 1)} "
                           f"and 0 {example_inputs_words(values, name, 0)}, so no constant can take its place. Make it "
                           "an output", 1)
        gates.append(constant_gate(bit, name))
    gates += [Gate(INVERSES[gate.kind], tuple(gate.outs), tuple(gate.ins), gate.parameter)
              for gate in reversed(circuit.gates) if gate.kind != "source"]
    spills = tuple(gate.outs[0] for gate in circuit.gates if gate.kind == "source")
    back = Circuit(tuple(circuit.outputs), tuple(gates), tuple(circuit.inputs), spills)
    require_constants_returned(circuit, reread_circuit(back))
    return back


def require_row_at_all_inputs(circuit: Circuit, what: str) -> None:
    """Raises LabError if an inverse gate of a circuit has no row at some inputs."""
    why = first_missing_row_words(circuit)
    if why is not None:
        raise LabError(f"{what} has no values at some inputs: {why.partition(': ')[0]}", 1)


def require_constants_returned(circuit: Circuit, back: Circuit) -> None:
    """Raises LabError if the inverse has no values at some inputs, or does not give each constant back."""
    require_row_at_all_inputs(back, "the inverse")
    values = wire_values_of(back)
    for gate in circuit.gates:
        if gate.kind != "source":
            continue
        name, bit = gate.outs[0], gate.parameter or 0
        if bit_if_constant(values, name) != bit:
            raise LabError(f"there is no inverse: {example_inputs_words(values, name, 1 - bit)}, the constant `{name}` "
                           f"comes back as {1 - bit} and not as {bit}. The circuit never has these outputs. Make "
                           f"`{name}` an input", 1)
