"""Which wires a module cuts and which gates it uses, so that it knows given wires."""

from typing import Iterable

from ..texts.certificates import MAX_CUTS, MAX_USES
from ..texts.circuits import Circuit, evaluate_gates


def few_cuts_and_uses(circuit: Circuit, wires: Iterable[str], used: Iterable[int]) -> tuple[set[str], set[int]]:
    """Returns wires to cut and gates to use so that all given wires are local; `used` are gates that must be used.

    A gate with more outputs among the wires than inputs that are not is used in place of cutting its outputs. Delays
    between two local wires are used too.
    """
    gates, local = set(used), set(wires)
    gates |= delay_gates_between(circuit,
                                 local | {wire for number in gates
                                          for wire in circuit.gates[number].ins + circuit.gates[number].outs})
    for number in gates:
        local |= set(circuit.gates[number].ins)
    cuts = local - {wire for number in gates for wire in circuit.gates[number].outs}
    while len(cuts) > 1:
        outs: dict[int, int] = {}
        for wire in cuts:
            gate = circuit.maker.get(wire)
            if gate is not None and not gate.is_inverse:
                outs[gate.number] = outs.get(gate.number, 0) + 1
        defined = cuts | {wire for number in gates for wire in circuit.gates[number].outs}
        gains = [(count - sum(wire not in defined for wire in circuit.gates[number].ins), -number) for number,
                 count in outs.items()]
        gain, number = max(gains, default=(0, 0))
        if gain <= 0:
            break
        gate = circuit.gates[-number]
        gates.add(gate.number)
        cuts = (cuts | {wire for wire in gate.ins if wire not in defined}) - set(gate.outs)
    return cuts, gates


def delay_gates_between(circuit: Circuit, wires: set[str]) -> set[int]:
    """Returns the delays that lead from one of some wires to another one.

    One ball carries both wires in turn. A module that cut both would also run them with different values, which never
    occur.
    """
    found: set[int] = set()
    for wire in wires:
        passed: list[int] = []
        gate = circuit.maker.get(wire)
        while gate is not None and gate.kind == "delay":
            passed.append(gate.number)
            if gate.ins[0] in wires:
                found.update(passed)
                break
            gate = circuit.maker.get(gate.ins[0])
    return found


def cone_for_inverse_gate(circuit: Circuit, number: int) -> tuple[list[str], list[int]] | None:
    """Returns wires to cut and gates to use under which an inverse gate has a row whenever the gates before it have
    theirs."""
    used = {number}
    while len(used) <= MAX_USES:
        defined = {wire for own in used for wire in circuit.gates[own].outs}
        cuts = sorted({wire for own in used for wire in circuit.gates[own].ins} - defined)
        if len(cuts) <= MAX_CUTS:
            order = sorted(used)
            values = evaluate_gates(circuit, cuts, order)
            index = order.index(number)
            before = values.defined_columns_by_gate[order[index - 1]] if index else values.full
            if values.defined_columns_by_gate[number] == before:
                return cuts, order
        makers = [circuit.maker[wire].number for wire in cuts if wire in circuit.maker]
        if not makers:
            return None
        used.add(max(makers))
    return None
