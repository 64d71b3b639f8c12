"""Reading a text that a command needs to be a design, and the report that an option names."""

import argparse

from ..host.terminal import LabError, read_latin1_text
from .documents import Document, read_document
from .layouts import Layout
from .refusals import refusal_words
from .reports import ReportLine, ReportOrRefusal, ReportError, parse_report
from .skimming import certificate_digest, certificate_start
from .spelling import source_line_number, spell_text


def read_freely_written_text(name: str, text: str, command: str | None = None) -> Document:
    """Returns a text that may be written freely, with comments, any spaces and unsorted lists: as it is in the one
    spelling.

    Raises LabError if it is refused. The line is that of the file.
    """
    document = read_document(text, command)
    if document.refusal is None:
        return document
    made = spell_text(text).text
    free = read_document(made, command) if made != text else document
    if free.refusal is None:
        return free
    line = source_line_number(text, made, free.refusal.line)
    if line is None or free is document:
        raise LabError(f"{name}: {refusal_words(document)}", 1)
    raise LabError(f"{name}: {refusal_words(free, line)}", 1)


# Above so many bytes the certificate of a text that is drawn is not read.
LONG_TEXT_CHARACTERS = 500_000


def read_layout_file(name: str, has_certificate: bool = True) -> tuple[Document, Layout]:
    """Returns a text and its layout; raises LabError if it is refused. Sections other than the layout may be missing.

    The certificate of a long text is not read if it is not needed.
    """
    text = read_latin1_text(name)
    place = certificate_start(text)
    if 0 < place < len(text) and not has_certificate and len(text) > LONG_TEXT_CHARACTERS:
        document = read_freely_written_text(name, text[:place], "design")
        document.text = text
    else:
        document = read_freely_written_text(name, text)
    if document.layout is None:
        raise LabError(f"{name}: the text has no layout", 1)
    return document, document.layout


def require_report_of_document(document: Document, report: ReportOrRefusal) -> None:
    """Refuses a report whose digest is not that of the text's certificate, or whose lines are not of things that the
    text has."""
    digest = certificate_digest(document.text)
    if digest != report.digest:
        raise ReportError(f"the report is not of this text: its certificate has the digest {report.digest[:16]}.., and "
                          f"the text's has {digest[:16]}..")
    if (report.verdict == "no") != bool(report.faults):
        raise ReportError(
            f"this is no whole report: it says {report.verdict}, with {len(report.faults)} reasons for a no")
    for finding in report.findings:
        if not is_possible_finding(document, finding):
            raise ReportError(f"the report is not of this text: the text gives no line `{finding.text}`")


def is_possible_finding(document: Document, finding: ReportLine) -> bool:
    """Whether the numbers of a line of a report are those of things that a text has."""
    values = {name: value for name, value in finding.values.items() if isinstance(value, int)}
    if finding.word in ("local", "keep", "border"):
        return is_possible_module_finding(document, finding, values)
    circuit, certificate = document.circuit, document.certificate
    if circuit is None or certificate is None or values["gate"] >= len(circuit.gates):
        return False
    gate = circuit.gates[values["gate"]]
    if finding.word == "meet":
        return any(stop.name in gate.ins for module in certificate.modules for stop in module.stops)
    return gate.kind == "delay" if finding.word == "delay" else gate.is_inverse


def is_possible_module_finding(document: Document, finding: ReportLine, values: dict[str, int]) -> bool:
    """Whether the numbers of a line on a module are those of things that a text has."""
    layout, certificate = document.layout, document.certificate
    if layout is None or certificate is None or values["module"] >= len(certificate.modules):
        return False
    module = certificate.modules[values["module"]]
    if values.get("assignment", 0) >> len(module.cuts):
        return False
    if finding.word == "keep":
        return values["gate"] in module.keeps
    cell, time = (values["x"], values["y"]), values["time"]
    if finding.word == "border":
        return time <= layout.steps and layout.has(cell)
    is_stop = any((stop.time, stop.cell) == (time, cell) for stop in module.stops)
    return time <= layout.steps and module.box.has(cell) and (finding.values["kind"] != "stop" or is_stop)


def report_from_option(options: argparse.Namespace, document: Document) -> ReportOrRefusal | None:
    """Returns the report of the option `--report`, if it is given.

    Raises ReportError if it is a verdict on another text.
    """
    if not options.report:
        return None
    report = parse_report(read_latin1_text(options.report))
    if not report.refused:
        require_report_of_document(document, report)
    return report
