"""What the tools that change circuits share: new gates, and reading a circuit that they made."""

from ..host.terminal import LabError
from ..texts.circuits import Circuit, Gate
from ..texts.documents import read_document
from ..texts.gates import GATE_SIZES
from ..texts.refusals import refusal_words
from ..texts.sections import section_text_with_limits


def constant_gate(bit: int, name: str) -> Gate:
    """Returns the line of a constant."""
    return Gate("source", (), (name,), bit)


def reread_circuit(circuit: Circuit) -> Circuit:
    """Returns a circuit as the lab's reader has it. Raises LabError if it is larger than a circuit section can be."""
    document = read_document(section_text_with_limits(circuit), "circuit")
    if document.refusal is not None or document.circuit is None:
        raise LabError("the new circuit is refused: "
                       f"{refusal_words(document, None) if document.refusal else 'it is missing'}", 1)
    return document.circuit


def outputs_without_control(gate: Gate) -> tuple[str, ...]:
    """Returns the outputs of a gate, without the one that hands its control on."""
    has_control = GATE_SIZES[gate.kind][0] and gate.kind not in ("interact", "uninteract", "delay")
    return gate.outs[1:] if has_control else gate.outs
