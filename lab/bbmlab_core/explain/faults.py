"""The lines of a report about a module, in plain English: `local`, `keep` and `border`."""

from dataclasses import dataclass, field
from typing import Any

from ..physics.mirrors import is_stable
from ..texts.cell_pictures import text_picture
from ..texts.certificates import Border, Module, Stop, border_or_stop_text
from ..texts.circuits import evaluate_gates
from ..texts.layouts import Cell
from ..texts.reports import ReportLine, parse_finding
from .diagnosis import DiagnosticRuns, RunDifference, AssignmentOccurrence, FoundSignal, Tristate


@dataclass
class ExplainedLine:
    """A line of a report in words. `line` is the line of the text that is meant, if there is one.

    `fixes` are sentences on edits after which the line is gone and nothing new is against the text. They were tried.
    """

    report_line: str
    is_against: bool
    what: list[str]
    fixes: list[str] = field(default_factory=list)
    cause: str = ""
    line: int | None = None
    picture: list[str] = field(default_factory=list)
    facts: dict[str, Any] = field(default_factory=dict)


@dataclass
class WantedState:
    """What a cell is to be: live or dead, in words why, and the line of the text that says so."""

    is_live: bool
    why: str
    line: int | None
    text: str | None = None


def assignment_words(values: dict[str, int]) -> str:
    """Returns values of wires as `p=1 q=0`."""
    return " ".join(f"{name}={value}" for name, value in values.items()) or "no cut wires"


def cell_words(cell: Cell) -> str:
    """Returns a cell as (x, y)."""
    return f"({cell[0]}, {cell[1]})"


def wire_value(diagnosis: DiagnosticRuns, module: Module, name: str, assignment: int) -> int:
    """Returns the value of a local wire under an assignment of the cuts."""
    if name == "1":
        return 1
    values = evaluate_gates(diagnosis.circuit, module.cuts, module.uses)
    return values.tables[name] >> assignment & 1


def wanted_state(diagnosis: DiagnosticRuns, module: Module, finding: ReportLine) -> WantedState:
    """Returns what the cell of a `local` line is to be."""
    cell, time = (finding.number_value("x"), finding.number_value("y")), finding.number_value("time")
    assignment, kind = finding.number_value("assignment"), finding.values["kind"]
    if kind == "end":
        return wanted_end_state(diagnosis, module, cell, assignment)
    line: Border | Stop | None
    if kind == "edge":
        line = module.line_at("edge", time, cell)
    else:
        line = next((stop for stop in module.stops if (stop.time, stop.cell) == (time, cell)), None)
    if line is None:
        rim = diagnosis.layout.is_rim(cell)
        why = "the cell is on the rim, where nothing may be live at odd times" if rim else \
            f"module {module.number} has no `edge` line for this cell at time {time}"
        return WantedState(False, why, None)
    name = line.name if isinstance(line, Stop) else line.signal
    value = wire_value(diagnosis, module, name, assignment)
    at, text = module.line_number(str(kind), line), border_or_stop_text(str(kind), line)
    why = f"line {at} (`{text}`) says: live if and only if `{name}` is true, and `{name}` is {value} here"
    if name == "1":
        why = f"line {at} (`{text}`) says: always live"
    return WantedState(bool(value), why, at, text)


def wanted_end_state(diagnosis: DiagnosticRuns, module: Module, cell: Cell, assignment: int) -> WantedState:
    """Returns what the layout asks of a cell at the last time."""
    part = diagnosis.layout.part_at(cell, ("mirror", "out"))
    if part is None:
        return WantedState(False,
                           "the layout has no `out`, `waste` or mirror there, so the cell is to be dead at the end",
                           None)
    text = diagnosis.document.line(part.line)
    if part.kind == "mirror":
        return WantedState(True, f"a mirror is there (line {part.line}, `{text}`)", part.line, text)
    value = wire_value(diagnosis, module, part.name or "", assignment)
    return WantedState(bool(value),
                       f"line {part.line} (`{text}`) asks for the value of `{part.name}`, which is {value} here",
                       part.line, text)


def occurrence_words(diagnosis: DiagnosticRuns, occurrence: AssignmentOccurrence, names: str) -> str:
    """Returns whether an assignment occurs, in words."""
    if occurrence.occurs is Tristate.UNKNOWN:
        return (f"No choice that gives these values was found {diagnosis.tried_choices_words}; the others were not "
                "tried.")
    if occurrence.occurs is Tristate.NO:
        return f"The circuit never gives {names}: no choice of its inputs does."
    if not occurrence.inputs:
        return "This occurs whatever the inputs are."
    example = f"This can occur, for example with the inputs {assignment_words(occurrence.inputs)}"
    return (f"{example} ({occurrence.count} of {occurrence.total} choices of these inputs give it)." if occurrence.total
            else f"{example}.")


def explain_local(diagnosis: DiagnosticRuns, finding: ReportLine) -> ExplainedLine:
    """Returns a `local` line in words."""
    module, time = diagnosis.module_of_finding(finding), finding.number_value("time")
    cell, assignment = (finding.number_value("x"), finding.number_value("y")), finding.number_value("assignment")
    wanted = wanted_state(diagnosis, module, finding)
    values = module.cut_values(assignment)
    names = assignment_words(values)
    occurrence = diagnosis.assignment_occurrence(module, assignment)
    found, want = ("dead", "live") if wanted.is_live else ("live", "dead")
    last = ", the last time," if finding.values["kind"] == "end" else ""
    entry = ExplainedLine(finding.text, True, [
        f"Module {module.number} (line {module.line}, box {module.box.numbers_text}) was run by itself with {names}.",
        f"At time {time}{last} the cell {cell_words(cell)} is {found} and should be {want}: {wanted.why}.",
        occurrence_words(diagnosis, occurrence, names)], line=wanted.line)
    entry.facts = {"module": module.number, "module_line": module.line, "kind": finding.values["kind"], "time": time,
                   "cell": list(cell),
                   "assignment": values, "found": found, "wanted": want, "occurs": occurrence.occurs.json,
                   "inputs": occurrence.inputs, "text": wanted.text, "box": list(module.box)}
    if diagnosis.detailed is not None and finding.text not in diagnosis.detailed:
        return entry
    live, heard = diagnosis.live_and_heard_cells(module, assignment, time)
    box = module.box
    entry.picture = [f"Module {module.number} by itself at time {time} with {names}:",
                     *text_picture((box.x, box.y, box.width, box.height), live, diagnosis.mirrors, heard, cell)]
    part = diagnosis.layout.part_at(cell, ("mirror",))
    if part and not is_stable(part):
        entry.what.append(f"The cell is of the mirror of line {part.line} (`{diagnosis.document.line(part.line)}`), "
                          "which by itself does not stay as it is.")
    if occurrence.occurs is Tristate.NO:
        add_never_occurring_cause(diagnosis, module, entry)
    elif occurrence.occurs is Tristate.YES:
        add_occurring_cause(diagnosis, module, finding, entry, occurrence)
    else:
        entry.what.append("So it was not tried whether the run of the whole layout has this state too.")
    return entry


def add_never_occurring_cause(diagnosis: DiagnosticRuns, module: Module, entry: ExplainedLine) -> None:
    """Adds the cause of a fault under an assignment that never occurs: the cuts, or a fault under assignments that do
    occur."""
    fault = diagnosis.fault_under_occurring_assignments(module)
    if fault is None:
        entry.cause = "never_occurs"
        entry.what.append("Under the values that do occur the module has no fault.")
        return
    names = assignment_words(module.cut_values(fault.assignment))
    last = ", the last time," if fault.kind == "end" else ""
    entry.what.append(f"Under values that do occur the module has a fault too: with {names}, at time "
                      f"{fault.time}{last} at the cell "
                      f"{cell_words((fault.x, fault.y))}.")
    entry.facts["fault_that_occurs"] = {"kind": fault.kind, "time": fault.time, "cell": [fault.x, fault.y],
                                        "assignment": module.cut_values(fault.assignment)}
    finding = parse_finding(f"local {module.number} {fault.text_in_report()}")
    add_occurring_cause(diagnosis, module, finding, entry, diagnosis.assignment_occurrence(module, fault.assignment))


def add_occurring_cause(diagnosis: DiagnosticRuns, module: Module, finding: ReportLine, entry: ExplainedLine,
                        occurrence: AssignmentOccurrence) -> None:
    """Adds the cause of a fault under an assignment that occurs: what the module hears, its line, or the layout."""
    assignment, time = finding.number_value("assignment"), finding.number_value("time")
    cell = finding.number_value("x"), finding.number_value("y")
    difference = diagnosis.first_difference(module, assignment, occurrence.inputs, time)
    if difference:
        add_run_difference(diagnosis, module, entry, difference)
    elif diagnosis.layout.is_rim(cell) and finding.values["kind"] == "edge":
        entry.cause = "rim"
        entry.what.append("The run of the whole layout has the cell live then too. No certificate allows that: balls "
                          "and mirrors keep one cell "
                          "away from the outermost cells of the layout.")
    elif finding.values["kind"] == "end":
        entry.cause = "layout"
        entry.what.append("The run of the whole layout ends so too with these inputs: no certificate gives this layout "
                          "a yes.")
        entry.what += signal_words(diagnosis, diagnosis.signal_of(cell, time), "the cell")
    else:
        entry.cause = "line"
        entry.what.append("The run of the whole layout has the cell so too: the line of the certificate is wrong or "
                          "missing.")
        entry.what += signal_words(diagnosis, diagnosis.signal_of(cell, time), "the cell")


def add_run_difference(diagnosis: DiagnosticRuns, module: Module, entry: ExplainedLine,
                       difference: RunDifference) -> None:
    """Adds where a module's run leaves the whole one, and the cells of its halo that it does not hear so."""
    entry.cause = "not_heard"
    entry.facts["differs"] = {"time": difference.time, "cell": list(difference.cell)}
    entry.what.append("In the run of the whole layout it is not so. The two runs first differ at time "
                      f"{difference.time}, at {cell_words(difference.cell)}: what comes in over the border is not told "
                      "to the module, or told wrongly.")
    for cell, is_live in difference.misheard[:3]:
        entry.what += misheard_words(diagnosis, module, cell, difference.heard_time, is_live)


def misheard_words(diagnosis: DiagnosticRuns, module: Module, cell: Cell, time: int, is_live: bool) -> list[str]:
    """Returns how the whole run has a cell next to a module, and which line says otherwise."""
    certificate, owner = diagnosis.certificate, diagnosis.certificate.owner(cell)
    if owner is None:
        return []
    kind, teller = ("halo", module) if certificate.version == 1 else ("edge", owner)
    line = teller.line_at(kind, time, cell)
    state = "live" if is_live else "dead"
    against = (f"against line {teller.line_number(kind, line)} (`{border_or_stop_text(kind, line)}`)" if line
               else f"and module {teller.number} has no `{kind}` line for it")
    return [f"At time {time} the cell {cell_words(cell)} of module {owner.number} is {state} in the whole run, "
            f"{against}.",
            *signal_words(diagnosis, diagnosis.signal_of(cell, time), "it")]


def signal_words(diagnosis: DiagnosticRuns, signal: FoundSignal, cell: str) -> list[str]:
    """Returns which wire a cell has the values of, in words: a wire, none, or not found out."""
    if signal.known is Tristate.UNKNOWN:
        return [
            f"Which wire {cell} carries then was not found out: the whole run is too long, or leaves the rectangle."]
    scope = "" if diagnosis.wire_tables.is_all else f" {diagnosis.tried_choices_words}"
    if signal.known is Tristate.NO:
        return [f"No wire of the circuit is true in just the choices of the inputs in which {cell} is live then."]
    if signal.name in ("0", "1"):
        return [f"In the whole run {cell} is {'always' if signal.name == '1' else 'never'} live then{scope}."]
    return [f"In the whole run {cell} is live then if and only if `{signal.name}` is true{scope}."]


def explain_keep(diagnosis: DiagnosticRuns, finding: ReportLine) -> ExplainedLine:
    """Returns a `keep` line in words."""
    module, gate = diagnosis.module_of_finding(finding), diagnosis.circuit.gates[finding.number_value("gate")]
    assignment = finding.number_value("assignment")
    values = module.cut_values(assignment)
    occurrence = diagnosis.assignment_occurrence(module, assignment)
    ins = {name: wire_value(diagnosis, module, name, assignment) for name in gate.ins}
    keeps = module.line_number("keep", gate.number)
    entry = ExplainedLine(finding.text, True, [
        f"Module {module.number} keeps the inverse gate {gate.number} (`{gate.kind}`, line {gate.line}) "
        f"by line {keeps}.",
        f"With {assignment_words(values)} that gate is fed {assignment_words(ins)}, "
        "and it has no row for these values.",
        occurrence_words(diagnosis, occurrence, assignment_words(values))], line=keeps)
    entry.facts = {"module": module.number, "gate": gate.number, "assignment": values, "fed": ins,
                   "occurs": occurrence.occurs.json, "inputs": occurrence.inputs}
    if occurrence.occurs is Tristate.YES:
        entry.cause = "circuit"
        entry.what.append(f"So the circuit is wrong: it feeds gate {gate.number} these values. `bbmcheck value` "
                          f"answers `undefined {gate.number}`.")
    elif occurrence.occurs is Tristate.NO:
        entry.cause = "never_occurs"
    else:
        entry.what.append(f"So it was not tried whether the circuit ever feeds gate {gate.number} these values.")
    return entry


def border_line_words(line: Border | None, kind: str, module: Module) -> str:
    """Returns what a line about a border says."""
    if line is None:
        return f"module {module.number} has no `{kind}` line for it"
    text = border_or_stop_text(kind, line)
    return f"line {module.line_number(kind, line)} of module {module.number} says `{text}`"


def explain_border(diagnosis: DiagnosticRuns, finding: ReportLine) -> ExplainedLine:
    """Returns a `border` line in words."""
    module, time = diagnosis.module_of_finding(finding), finding.number_value("time")
    cell = finding.number_value("x"), finding.number_value("y")
    owner = diagnosis.certificate.owner(cell)
    assert owner is not None
    halo, edge = module.line_at("halo", time, cell), owner.line_at("edge", time, cell)
    entry = ExplainedLine(finding.text, True, [
        f"At time {time} modules {module.number} and {owner.number} say different things of the cell "
        f"{cell_words(cell)} on their border: {border_line_words(halo, 'halo', module)}, and "
        f"{border_line_words(edge, 'edge', owner)}."],
        line=module.line_number("halo", halo) if halo else owner.line_number("edge", edge) if edge else None,
        cause="border")
    entry.facts = {"module": module.number, "owner": owner.number, "time": time, "cell": list(cell),
                   "halo": border_or_stop_text("halo", halo) if halo else None,
                   "edge": border_or_stop_text("edge", edge) if edge else None}
    entry.what += signal_words(diagnosis, diagnosis.signal_of(cell, time), "the cell")
    return entry
