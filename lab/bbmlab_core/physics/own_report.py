"""A report that the lab makes by itself, for a text that its reader takes.

It is no verdict: only the program gives one.
"""

from typing import Iterator

from ..texts.certificates import Certificate, Module
from ..texts.circuits import Circuit
from ..texts.documents import Document
from ..texts.layouts import Layout
from ..texts.reports import ReportLine, ReportOrRefusal, parse_finding
from ..texts.skimming import certificate_digest
from .simulation import ModuleRun, least_assignment, local_wire_tables


def module_fault_lines(circuit: Circuit, layout: Layout, certificate: Certificate) -> Iterator[str]:
    """Yields the lines about modules in their order: the least fault, the least keep fault and the least border fault
    of each."""
    for module in certificate.modules:
        fault = ModuleRun(circuit, layout, certificate, module).run_to_fault()
        if fault:
            yield f"local {module.number} {fault.text_in_report()}"
        yield from keep_fault_lines(circuit, module)
        if certificate.version == 1:
            yield from border_fault_lines(layout, certificate, module)


def keep_fault_lines(circuit: Circuit, module: Module) -> Iterator[str]:
    """Yields the least keep fault of a module."""
    values = local_wire_tables(circuit, module)
    before = values.full
    for number in module.uses:
        missing = before & ~values.defined_columns_by_gate[number]
        if number in module.keeps and missing:
            yield f"keep {module.number} {number} {least_assignment(missing)}"
            return
        before = values.defined_columns_by_gate[number]


def border_fault_lines(layout: Layout, certificate: Certificate, module: Module) -> Iterator[str]:
    """Yields the least border fault of a module of version 1."""
    others = certificate.neighbours(module)
    said = {(line.time, line.cell): line.signal for line in module.halos}
    told = {(line.time, line.cell): line.signal for other in others for line in other.edges
            if module.box.has_in_halo(line.cell)}
    # A line with `*` can differ from lines with times first at 1, or two steps behind one of these.
    odd = {1} | {time + later for time, _ in (*said, *told) if time is not None for later in (0, 2)}
    found = []
    for time in (time for time in odd if time < layout.steps):
        for cell in {cell for at, cell in (*said, *told) if at in (None, time)}:
            if said.get((None, cell), said.get((time, cell))) != told.get((None, cell), told.get((time, cell))):
                found.append((time, cell[1], cell[0]))
    if found:
        time, y, x = min(found)
        yield f"border {module.number} {time} {x} {y}"


def gate_report_lines(circuit: Circuit, certificate: Certificate) -> Iterator[str]:
    """Yields the lines about gates: inverse gates that no module keeps, delays, and inputs that are to meet."""
    kept = {number for module in certificate.modules for number in module.keeps}
    yield from (f"unkept {gate.number}" for gate in circuit.gates if gate.is_inverse and gate.number not in kept)
    times: dict[str, list[int]] = {}
    for stop in (stop for module in certificate.modules for stop in module.stops):
        times.setdefault(stop.name, []).append(stop.time)
    for gate in (gate for gate in circuit.gates if gate.kind == "delay"):
        used, made = times.get(gate.ins[0]), times.get(gate.outs[0])
        found = "missing" if not used or not made else "before" if min(made) < max(used) else str(min(made) - max(used))
        yield f"delay {gate.number} {gate.parameter} {found}"
    for gate in circuit.gates:
        last = [max(times[name]) for name in gate.ins if name in times]
        if len(last) >= 2:
            yield f"meet {gate.number} {last[0] if len(set(last)) == 1 else 'differ'}"


def lab_report(document: Document) -> ReportOrRefusal:
    """Returns the report of a bundle as the lab finds it by running each module, or its own refusal."""
    if document.refusal:
        return ReportOrRefusal(refused=(document.refusal.line, document.refusal.code))
    circuit, layout, certificate = document.circuit, document.layout, document.certificate
    assert circuit and layout and certificate
    lines = [*module_fault_lines(circuit, layout, certificate), *gate_report_lines(circuit, certificate)]
    findings: list[ReportLine] = [parse_finding(line) for line in lines]
    verdict = "no" if any(finding.is_reason_for_no for finding in findings) else "yes"
    return ReportOrRefusal(verdict, certificate_digest(document.text), len(certificate.modules), findings)
