"""Runs `bbmlab circuit`, `table`, `stats` and `equal`."""

import argparse
import csv
import io
from typing import Callable

from ..circuits import truth
from ..circuits.aiger_form import aiger_text
from ..circuits.circuit_forms import blif_text, dot_text, verilog_text
from ..circuits.cleaning import clean
from ..circuits.gate_lines import reread_circuit
from ..circuits.inverting import inverse, wire_values_of
from ..circuits.line_forms import qasm_text, real_text
from ..circuits.netlists import ReadingOptions
from ..circuits.simplifying import simplify
from ..host.terminal import LabError, read_latin1_text, tell_user, write_bytes, write_utf8_text
from ..route.command import read_text_and_circuit
from ..texts.circuits import Circuit, evaluate_under_tables
from ..texts.documents import read_document
from ..texts.limits import smallest_fitting_limits, text_with_limits_line
from ..texts.sections import section_text_with_limits

TEXT_FUNCTION_BY_FORMAT = {"aiger": aiger_text, "blif": blif_text, "dot": dot_text, "qasm": qasm_text,
                           "real": real_text, "verilog": verilog_text}


def run_circuit(options: argparse.Namespace) -> int:
    """Writes the circuit of a file: in the one spelling, or in the form of another tool."""
    text, circuit = read_text_and_circuit(options.file, ReadingOptions.from_options(options))
    text = text_with_limits_line(text, smallest_fitting_limits(gates=len(circuit.gates), wires=len(circuit.wires)))
    try:
        for change in chosen_circuit_changes(options):
            lines, before = change(circuit), circuit
            text, circuit = section_text_with_limits(lines), reread_circuit(lines)
            if before.outputs:
                scope = require_agreement(change, before, circuit)
                tell_user(f"the new circuit was compared with the one before {scope}")
    except LabError as error:
        raise LabError(f"{options.file}: {error}", error.status) from error
    if options.clean and any(name.endswith("_not") for name in circuit.outputs):
        tell_user("each output that a gate makes also leaves as its complement, with `_not` at its end: no gate makes "
                  "balls")
    write_bytes(options.output,
                (text if options.to is None else TEXT_FUNCTION_BY_FORMAT[options.to](circuit)).encode("latin-1"))
    return 0


def require_agreement(change: Callable[[Circuit], Circuit], before: Circuit, after: Circuit) -> str:
    """Returns in which inputs a changed circuit has the values that it should have, in words.

    Raises LabError where it has others.
    """
    differs, scope = (inverse_difference_and_scope(before, after) if change is inverse
                      else truth.difference_and_scope_words(before, after, True))
    if differs:
        raise LabError(f"the new circuit is wrong: {differs}. This is a fault of the lab", 1)
    return scope


def inverse_difference_and_scope(before: Circuit, after: Circuit) -> tuple[str, str]:
    """Returns how the inverse of a circuit fails to give its inputs back, or nothing, and in which inputs they were
    compared."""
    values = wire_values_of(before)
    back = evaluate_under_tables(after, {name: values.tables[name] for name in after.inputs}, values.full,
                                 range(len(after.gates)))
    wrong = next((name for name in before.inputs if back.tables[name] != values.tables[name]), None)
    return ("" if wrong is None else f"it does not give `{wrong}` back"), values.tried_choices_words


def chosen_circuit_changes(options: argparse.Namespace) -> list[Callable[[Circuit], Circuit]]:
    """Returns what a circuit is put through, in order.

    To `simplify` the second half of a clean circuit is dead, so it comes before.
    """
    return [change for is_asked,
            change in ((options.inverse, inverse), (options.simplify, simplify), (options.clean, clean)) if is_asked]


def run_table(options: argparse.Namespace) -> int:
    """Writes the rows of a circuit's values."""
    _, circuit = read_text_and_circuit(options.file, ReadingOptions.from_options(options))
    on = None if options.on is None else [name for name in options.on.split(",") if name]
    rows = truth.table_with_header(circuit, on)
    out = io.StringIO()
    if options.csv:
        csv.writer(out, lineterminator="\n").writerows(rows)
    write_utf8_text(options.output, out.getvalue() if options.csv else rows_text(circuit, [*rows]))
    return 0


def rows_text(circuit: Circuit, rows: list[list[str]]) -> str:
    """Returns rows in columns, with a bar between inputs and outputs."""
    heads, count = rows[0], len(circuit.inputs)
    lines = []
    for row in rows:
        cells = [word.rjust(len(head)) for word, head in zip(row, heads)] if len(row) == len(heads) else None
        if cells is None:
            cells = [word.rjust(len(head)) for word, head in zip(row[:count], heads)] + row[count:]
        lines.append(" ".join([*cells[:count], "|", *cells[count:]]).strip())
    return "\n".join(lines) + "\n"


def run_stats(options: argparse.Namespace) -> int:
    """Prints the figures of a text, or of the circuit of a netlist."""
    text = read_latin1_text(options.file)
    document = read_document(text, "check")
    if document.circuit is None or document.layout is None or not document.layout.width:
        _, circuit = read_text_and_circuit(options.file, ReadingOptions.from_options(options), text)
        found = truth.circuit_figures(circuit)
    else:
        found = truth.document_figures(document)
    longest = max(len(name) for name, _ in found)
    write_utf8_text(options.output, "".join(f"{name.ljust(longest)} {value}\n" for name, value in found))
    return 0


def run_equal(options: argparse.Namespace) -> int:
    """Says whether two circuits have the same outputs, and returns 0 only if they have."""
    if options.file == "-" and options.other == "-":
        raise LabError("only one of two files can be standard input", 2)
    one, other = read_text_and_circuit(options.file)[1], read_text_and_circuit(options.other)[1]
    differs, scope = truth.difference_and_scope_words(one, other, options.common)
    print(f"not equal: {differs}" if differs else f"equal {scope}")
    return 1 if differs else 0
