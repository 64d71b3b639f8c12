"""Netlists, and what can be asked of circuits and made of them. Nothing here is proved."""

from __future__ import annotations

from dataclasses import dataclass, field
from typing import Callable, NamedTuple

from bbmlab_core.circuits import netlists as core
from bbmlab_core.circuits import truth
from bbmlab_core.circuits.cleaning import clean as clean_lines
from bbmlab_core.circuits.gate_lines import reread_circuit
from bbmlab_core.circuits.inverting import inverse as inverse_lines
from bbmlab_core.circuits.netlists.model import LogicNetlist as CoreNetlist
from bbmlab_core.circuits.simplifying import simplify as simple_lines
from bbmlab_core.host.terminal import LabError
from bbmlab_core.texts.circuits import Circuit, values_and_undefined_gate
from bbmlab_core.texts.sections import Bundle, section_text_with_limits

from ._errors import NotFoundError
from ._reading import document_of, text_as_byte_characters


@dataclass(frozen=True)
class Netlist:
    """A netlist: its form, its ports, and the bits that it stores from one cycle to the next."""

    form: str
    inputs: tuple[str, ...]
    outputs: tuple[str, ...]
    stored: tuple[str, ...]
    _core: CoreNetlist = field(repr=False, hash=False)


class Row(NamedTuple):
    """A row of a circuit's table: the inputs that are on, and the outputs that are true. Without values:

    None, and the gate without a row.
    """

    inputs: frozenset[str]
    outputs: frozenset[str] | None
    gate: int | None


class Comparison(NamedTuple):
    """Whether two circuits have the same outputs, how they differ, and in which inputs they were compared."""

    is_equal: bool
    difference: str
    scope: str


def read_netlist(text: str, *, form: str | None = None) -> Netlist:
    """Reads a netlist, whose form its content says if none is given. Raises ValueError if it is none."""
    given = text_as_byte_characters(text)
    try:
        known = core.NetlistFormat(form) if form is not None else core.guessed_netlist_format(given)
        netlist = core.read_netlist(given, known)
    except LabError as error:
        raise ValueError(str(error)) from error
    assert known is not None
    stored = tuple(latch.name for latch in netlist.latches)
    return Netlist(known.value, tuple(netlist.inputs), tuple(name for name, _ in netlist.outputs_with_nets), stored,
                   netlist)


def to_conservative(netlist: Netlist | str, *, cycles: int | None = None, state: str = "ports") -> Circuit:
    """Returns the circuit to which a netlist is mapped. A machine is unrolled for some cycles, and its state is `ports`
    or `initial`.

    Raises ValueError if it cannot be mapped.
    """
    if state not in ("ports", "initial") or cycles is not None and cycles < 1:
        raise ValueError("cycles is from 1, and state is ports or initial")
    read = read_netlist(netlist) if isinstance(netlist, str) else netlist
    try:
        mapped = core.map_parsed_netlist(read._core, core.ReadingOptions(None, cycles, state == "ports"))
    except LabError as error:
        raise ValueError(str(error)) from error
    return mapped.circuit


def accepted_circuit(circuit: Circuit | str) -> Circuit:
    """Returns a circuit that the lab's reader takes. Raises RefusedError if it refuses it."""
    found = document_of(section_text_with_limits(circuit) if isinstance(circuit, Circuit) else circuit,
                        "circuit").circuit
    assert found is not None
    return found


def changed_circuit(circuit: Circuit, change: Callable[[Circuit], Circuit]) -> Circuit:
    """Returns what a change makes of a circuit."""
    try:
        found = change(accepted_circuit(circuit))
        reread_circuit(found)
    except LabError as error:
        raise NotFoundError(str(error)) from error
    return found


def inverse(circuit: Circuit) -> Circuit:
    """Returns the inverse of a circuit.

    Raises RefusedError if the circuit is refused, and NotFoundError with the reason if it has none.
    """
    return changed_circuit(circuit, inverse_lines)


def clean(circuit: Circuit) -> Circuit:
    """Returns a circuit whose garbage are its inputs and constants.

    Raises RefusedError if the circuit is refused, and NotFoundError if it has no values at some inputs or becomes too
    large.
    """
    return changed_circuit(circuit, clean_lines)


def simplify(circuit: Circuit) -> Circuit:
    """Returns a smaller circuit with the same outputs. Raises as `clean` does."""
    return changed_circuit(circuit, simple_lines)


def table(circuit: Circuit) -> tuple[Row, ...]:
    """Returns the rows of a circuit of at most 12 inputs, of which the first changes last.

    Raises ValueError if it has more.
    """
    model = accepted_circuit(circuit)
    try:
        choices = truth.inputs_on_by_row(model, None)
    except LabError as error:
        raise ValueError(str(error)) from error
    rows = []
    for on in choices:
        values, gate = values_and_undefined_gate(model, on)
        true = frozenset(name for name in model.outputs if values[name]) if gate is None else None
        rows.append(Row(frozenset(on), true, gate))
    return tuple(rows)


def stats(text: Bundle | Circuit) -> dict[str, int]:
    """Returns the figures of a circuit, and of a layout and a certificate if they are there.

    Raises RefusedError if the text is refused.
    """
    document = document_of(section_text_with_limits(text) if isinstance(text, Circuit) else str(text),
                           "circuit" if isinstance(text, Circuit) else None)
    return {name.strip(): int(value) for name, value in truth.document_figures(document) if value.isdecimal()}


def equivalent(one: Circuit, other: Circuit, *, common: bool = False) -> Comparison:
    """Compares the outputs of two circuits by their names, or only those that both have: in all choices of up to 16
    inputs, or in samples."""
    differs, scope = truth.difference_and_scope_words(accepted_circuit(one), accepted_circuit(other), common)
    return Comparison(not differs, differs, scope)
