"""Tables of a circuit's values, its figures, and whether two circuits are equal."""

from __future__ import annotations

from collections import Counter
from typing import Iterator

from ..host.terminal import LabError
from ..texts.circuits import (Circuit, WireTables, evaluate_all_or_samples, evaluate_under_tables,
                              values_and_undefined_gate)
from ..texts.documents import Document

# Up to so many inputs a table has all rows, and two circuits are compared in all.
MAX_TABLE_INPUTS = 12
MAX_EXHAUSTIVE_INPUTS = 16
SAMPLE_COUNT = 4096


def table_with_header(circuit: Circuit, on: list[str] | None) -> Iterator[list[str]]:
    """Yields the names of the columns, and then each row: inputs and outputs, or the gate without a row.

    The first input changes last.
    """
    inputs = circuit.inputs
    found = inputs_on_by_row(circuit, on)
    yield [*inputs, *circuit.outputs]
    for chosen in found:
        values, undefined = values_and_undefined_gate(circuit, chosen)
        bits = [str(int(name in chosen)) for name in inputs]
        if undefined is None:
            yield bits + [str(int(values[name])) for name in circuit.outputs]
        else:
            gate = circuit.gates[undefined]
            yield [*bits, f"gate {undefined} ({gate.kind}) has no row"]


def inputs_on_by_row(circuit: Circuit, on: list[str] | None) -> list[set[str]]:
    """Returns which inputs are on in each row of a table: one row, or all.

    Raises LabError for other names, or for too many rows.
    """
    inputs = circuit.inputs
    if on is not None:
        unknown = next((name for name in on if name not in inputs), None)
        if unknown is not None:
            raise LabError(f"{unknown} is no input", 2)
        return [set(on)]
    if len(inputs) > MAX_TABLE_INPUTS:
        raise LabError(
            f"{len(inputs)} inputs have too many rows: at most {MAX_TABLE_INPUTS}, or choose one row by --on", 2)
    last = len(inputs) - 1
    return [{name for at, name in enumerate(inputs) if number >> (last - at) & 1} for number in range(1 << len(inputs))]


def circuit_depth(circuit: Circuit) -> int:
    """Returns the most gates on a way from an input or a constant to an output. A source and a delay count as none."""
    depths: dict[str, int] = {}
    for gate in circuit.gates:
        own = max((depths.get(name, 0) for name in gate.ins), default=0) + (gate.kind not in ("source", "delay"))
        depths.update((name, own) for name in gate.outs)
    return max(depths.values(), default=0)


def peak_wire_count(circuit: Circuit) -> int:
    """Returns the most wires that are there at once, if the gates act in their order."""
    count = most = len(circuit.inputs)
    for gate in circuit.gates:
        count += len(gate.outs) - len(gate.ins)
        most = max(most, count)
    return most


def circuit_figures(circuit: Circuit) -> list[tuple[str, str]]:
    """Returns the figures of a circuit with their names."""
    kinds = Counter(gate.kind for gate in circuit.gates)
    return [("inputs", str(len(circuit.inputs))), ("outputs", str(len(circuit.outputs))),
            ("constants", str(kinds["source"])),
            ("garbage", str(len(circuit.spills))), ("gates", str(len(circuit.gates) - kinds["source"])),
            *((f"  {word}", str(kinds[word])) for word in sorted(kinds) if word != "source"),
            ("depth", str(circuit_depth(circuit))), ("width", str(peak_wire_count(circuit)))]


def document_figures(document: Document) -> list[tuple[str, str]]:
    """Returns the figures of a text's sections."""
    found = circuit_figures(document.circuit) if document.circuit else []
    layout = document.layout
    if layout is not None:
        area = layout.width * layout.height
        found += [("layout", f"{layout.width} by {layout.height}"), ("area", str(area)), ("steps", str(layout.steps)),
                  ("area times steps", str(area * layout.steps)), ("mirrors", str(len(layout.mirrors))),
                  ("mirror cells", str(len(layout.mirror_cells()))),
                  *((f"{kind} cells", str(len(layout.of_kind(kind)))) for kind in ("ball", "in", "out", "waste"))]
    if document.certificate is not None:
        found.append(("modules", str(len(document.certificate.modules))))
    return found


def wire_values_of_both(one: Circuit, other: Circuit) -> tuple[WireTables, WireTables]:
    """Returns the values of two circuits with the same inputs, in all choices of up to 16 inputs, or else in samples.
    """
    values = evaluate_all_or_samples(one, MAX_EXHAUSTIVE_INPUTS, SAMPLE_COUNT)
    free = {name: values.tables[name] for name in one.inputs}
    return values, evaluate_under_tables(other, free, values.full, range(len(other.gates)))


def difference_and_scope_words(one: Circuit, other: Circuit, is_of_common: bool = False) -> tuple[str, str]:
    """Returns how two circuits differ, or nothing, and in which inputs they were compared. Inputs and outputs are
    matched by their names.

    Outputs that only one of the circuits has are a difference, unless those that both have are asked for.
    """
    common = [name for name in one.outputs if name in set(other.outputs)]
    if is_of_common and not common:
        return "they have no common output", "the names of outputs"
    outputs = [] if is_of_common else [("output", one.outputs, other.outputs)]
    for kind, names, others in [("input", one.inputs, other.inputs), *outputs]:
        alone = sorted(set(names) ^ set(others))
        if alone:
            return f"only one of them has the {kind} {alone[0]}", "the names of inputs and outputs"
    mine, theirs = wire_values_of_both(one, other)
    for name in common:
        unequal = (mine.tables[name] ^ theirs.tables[name]) | (mine.defined_columns ^ theirs.defined_columns)
        if unequal:
            column = (unequal & -unequal).bit_length() - 1
            on = " ".join(mine.true_free_wires(column)) or "no input"
            return f"with {on} on, {name} differs", mine.tried_choices_words
    if len(one.inputs) <= MAX_EXHAUSTIVE_INPUTS:
        return "", mine.tried_choices_words
    return "", f"in {SAMPLE_COUNT} sampled choices of the inputs"
