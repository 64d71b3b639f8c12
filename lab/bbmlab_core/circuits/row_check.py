"""Whether a circuit has values under its inputs: an inverse gate has none for some values of its inputs, and then no
layout gets a yes.

A circuit of up to 12 inputs is evaluated under all of them, a larger one under samples: the search for a route would
take minutes to fail.
"""

from ..physics.simulation import least_assignment
from ..texts.circuits import Circuit, Gate, WireTables, evaluate_all_or_samples

MAX_EXHAUSTIVE_INPUTS = 12
SAMPLE_COUNT = 256
# How many inputs that are on are named.
MAX_NAMED_INPUTS = 12


def first_missing_row_words(circuit: Circuit) -> str | None:
    """Returns the first gate that has no row, with the values that it gets and inputs that give them.

    None if none was found.
    """
    if not any(gate.is_inverse for gate in circuit.gates):
        return None
    values = evaluate_all_or_samples(circuit, MAX_EXHAUSTIVE_INPUTS, SAMPLE_COUNT)
    before = values.full
    for gate in circuit.gates:
        missing = before & ~values.defined_columns_by_gate[gate.number]
        if missing:
            return missing_row_words(values, gate, least_assignment(missing))
        before = values.defined_columns_by_gate[gate.number]
    return None


def missing_row_words(values: WireTables, gate: Gate, column: int) -> str:
    """Says under which inputs a gate gets which values without a row."""
    given = " ".join(f"{name}={values.tables[name] >> column & 1}" for name in gate.ins)
    on = values.true_free_wires(column)
    more = f" and {len(on) - MAX_NAMED_INPUTS} more" if len(on) > MAX_NAMED_INPUTS else ""
    inputs = f"with {' '.join(on[:MAX_NAMED_INPUTS])}{more} on" if on else "with no input on"
    return (f"gate {gate.number} (`{gate.kind}`, line {gate.line}) has no row for {given}, which it gets {inputs}: the "
            "circuit has no values "
            "there, so no layout computes it")
