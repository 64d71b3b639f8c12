"""The sections of a text together, as a value that does not change."""

from dataclasses import dataclass

from .certificates import Certificate
from .circuits import Circuit
from .documents import Document
from .layouts import Layout
from .limits import FIRST_LIMITS, SECOND_LIMITS, smallest_fitting_limits
from .lines import section_text


@dataclass(frozen=True)
class Bundle:
    """The sections of a text; None for a section that it lacks.

    `on` is the assign section, and `limits` 2 for a first line `limits 2`.
    """

    circuit: Circuit | None = None
    layout: Layout | None = None
    certificate: Certificate | None = None
    on: tuple[str, ...] | None = None
    limits: int = FIRST_LIMITS.number

    def __str__(self) -> str:
        """Writes the text."""
        front = SECOND_LIMITS.line_text if self.limits == SECOND_LIMITS.number else ""
        assign = None if self.on is None else section_text(["assign", *(f"on {name}" for name in self.on)])
        return front + "".join(str(section) for section in (self.circuit, self.layout, assign, self.certificate)
                               if section is not None)


def section_text_with_limits(section: Circuit | Layout) -> str:
    """Returns the text of a circuit or a layout alone, after the line that raises its limits if one asks for it."""
    if isinstance(section, Layout):
        limits = smallest_fitting_limits(max(section.width, section.height), section.steps)
    else:
        limits = smallest_fitting_limits(gates=len(section.gates), wires=len(section.wires))
    return limits.line_text + str(section)


def bundle_of_document(document: Document) -> Bundle:
    """Returns the sections of a text that was read."""
    return Bundle(document.circuit, document.layout, document.certificate, document.on, document.limits.number)
