"""Whole texts: which sections a text has, and reading them as a command of the program does."""

import gc
import re
from contextlib import contextmanager
from dataclasses import dataclass
from typing import Iterator

from .assigns import AssignReader
from .certificates import Certificate, CertificateReader
from .circuits import Circuit, CircuitReader
from .layouts import Layout, LayoutReader
from .limits import Limits, limits_of_text
from .lines import Refusal, RefusedTextError, TextLines

BUNDLE_COMMANDS = ("check", "modules", "migrate")
HEADER_WORDS = ("circuit", "layout", "assign", "certificate")
# A line whose first word is a header, with any blanks around its words.
HEADER_LINE_PATTERN = re.compile(rf"^[^\S\n]*({'|'.join(HEADER_WORDS)})(?= |[^\S\n]*$)", re.MULTILINE)


@dataclass
class Document:
    """What was read of a text. A refusal is that of the lab's reader; the parts before it are kept."""

    text: str
    command: str
    circuit: Circuit | None = None
    layout: Layout | None = None
    certificate: Certificate | None = None
    on: tuple[str, ...] | None = None
    refusal: Refusal | None = None

    @property
    def limits(self) -> Limits:
        """The limits of the text."""
        return limits_of_text(self.text)

    def line(self, number: int) -> str:
        """Returns a line of the text, counted from 1, or nothing."""
        lines = self.text.split("\n")
        return lines[number - 1] if number <= len(lines) else ""


def decode_latin1(data: bytes) -> str:
    """Returns the bytes of a text as characters, one for each byte."""
    return data.decode("latin-1")


def command_for_text(text: str) -> str:
    """Returns the command of the program that the text is meant for, by its sections.

    `design` is the lab's own: a circuit and a layout without a certificate.
    """
    found = HEADER_LINE_PATTERN.findall(text)
    if "assign" in found:
        return "value" if "circuit" in found and "layout" not in found else "run"
    if "certificate" not in found and found[:2] == ["circuit", "layout"]:
        return "design"
    if found == ["layout"]:
        return "layout"
    if found == ["circuit"]:
        return "circuit"
    return "check"


@contextmanager
def pause_garbage_collection() -> Iterator[None]:
    """Stops Python's search for cycles while many objects are made that all stay: it takes a sixth of the time to read
    a long text."""
    is_on = gc.isenabled()
    gc.disable()
    try:
        yield
    finally:
        if is_on:
            gc.enable()


def read_sections(document: Document, lines: TextLines) -> str:
    """Reads the sections of the document's command, and returns the name of the last one."""
    command = document.command
    if command not in ("run", "layout"):
        circuits = CircuitReader(lines)
        try:
            circuits.read()
        finally:
            document.circuit = circuits.section_so_far()
    if command not in ("value", "circuit"):
        layouts = LayoutReader(lines, document.circuit)
        try:
            layouts.read()
        finally:
            document.layout = layouts.section_so_far()
    if command in ("run", "value"):
        known = document.circuit.inputs if document.circuit else [name for name, _, _ in layouts.ports["in"]]
        assign = AssignReader(lines, known, command)
        assign.read()
        document.on = tuple(assign.on)
        return "assign"
    if command in BUNDLE_COMMANDS:
        assert document.circuit is not None and document.layout is not None
        certificates = CertificateReader(lines, document.circuit, document.layout)
        try:
            certificates.read()
        finally:
            document.certificate = certificates.section_so_far()
        return "certificate"
    return "circuit" if command == "circuit" else "layout"


def read_document(text: str, command: str | None = None) -> Document:
    """Reads a text as a command does. The text of a refusal is kept up to the line that is refused."""
    document = Document(text, command or command_for_text(text))
    with pause_garbage_collection():
        lines = TextLines(text)
        try:
            last = read_sections(document, lines)
            lines.require_end_of_text(last)
        except RefusedTextError as refused:
            document.refusal = refused.refusal
    return document
