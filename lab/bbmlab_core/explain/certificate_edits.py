"""Edits of a certificate that may remove a fault of a report. They are tried before one of them is printed."""

from dataclasses import dataclass
from typing import Iterator, Sequence

from ..physics.simulation import TruthTable, key_of
from ..texts.certificates import MAX_CUTS, MAX_USES, Module, Stop, border_or_stop_text
from ..texts.layouts import Cell
from ..texts.reports import ReportLine
from .diagnosis import MAX_WHOLE_RUN_SECONDS, DiagnosticRuns
from .edits import Edit, addition, deletion, insertion_line_in_module, replacement
from .expected_lines import BorderCheck, CellEdits

Edits = tuple[Edit, ...]
# The most edits of all borders together.
MAX_BORDER_EDITS = 400
# How many steps a stop is moved, and how many cells.
MAX_STOP_STEPS = 4


@dataclass(frozen=True)
class EditProposal:
    """Edits that are tried together, with what kind of edits they are, in words."""

    kind: str
    edits: Edits


class CertificateEditProposer:
    """Proposes edits of the certificate of a document for the faults of its report."""

    def __init__(self, diagnosis: DiagnosticRuns, seconds: float = MAX_WHOLE_RUN_SECONDS) -> None:
        self.diagnosis = diagnosis
        self.circuit, self.certificate = diagnosis.circuit, diagnosis.certificate
        self.lines = diagnosis.document.text.split("\n")
        self.check = BorderCheck(diagnosis, seconds)
        self.groups: list[CellEdits] = self.check.all_cell_edits()

    def proposals_for_report(self, findings: list[ReportLine]) -> Iterator[EditProposal]:
        """Yields edits for a whole report: all borders together, then each by itself, then those for each line of the
        report."""
        together = tuple(dict.fromkeys(edit for group in self.groups for edit in group.edits))
        if together and len(together) <= MAX_BORDER_EDITS:
            yield EditProposal("border lines as the whole run has them", together)
        for finding in findings:
            yield from self.proposals_for_line(finding)

    def proposals_for_line(self, finding: ReportLine) -> Iterator[EditProposal]:
        """Yields edits for one line of a report."""
        if finding.word == "local":
            yield from self.proposals_for_local(finding)
        elif finding.word == "keep":
            yield from self.proposals_replacing_cuts(self.certificate.modules[finding.number_value("module")])
        elif finding.word == "border":
            yield from self.proposals_for_border(finding)
        elif finding.word == "unkept":
            number = finding.number_value("gate")
            for module in (module for module in self.certificate.modules if number in module.uses):
                yield EditProposal("`keep` lines", (self.line_addition(module, f"keep {number}"),))
        elif finding.word == "delay":
            yield from self.proposals_for_delay(finding)
        elif finding.word == "meet":
            yield from self.proposals_for_meet(finding)

    def proposals_for_local(self, finding: ReportLine) -> Iterator[EditProposal]:
        """Yields edits for a `local` line: the borders of its module up to its time, its stop, and gates in place of
        cuts."""
        module, time = self.diagnosis.module_of_finding(finding), finding.number_value("time")
        cell = finding.number_value("x"), finding.number_value("y")
        if finding.values["kind"] == "stop":
            stop = next((stop for stop in module.stops if (stop.time, stop.cell) == (time, cell)), None)
            if stop:
                yield from self.proposals_for_stop(module, stop)
        near = [group for group in self.groups if module.number in group.module_numbers
                and group.first_wrong_time <= time]
        near.sort(key=lambda group: (group.cell != cell, group.first_wrong_time))
        for group in near[:6]:
            for edits in (group.edits, *group.other_edits):
                yield EditProposal("border lines as the whole run has them", tuple(edits))
        if len(near) > 1:
            yield EditProposal("border lines as the whole run has them",
                               tuple(dict.fromkeys(edit for group in near for edit in group.edits)))
        if self.diagnosis.occurring_assignment_table(module) != (1 << (1 << len(module.cuts))) - 1:
            yield from self.proposals_replacing_cuts(module)

    def proposals_replacing_cuts(self, module: Module) -> Iterator[EditProposal]:
        """Yields `use` lines in place of `cut` lines: for one gate whose outputs are cut, then for all gates back to
        the inputs."""
        makers = {self.circuit.maker[name].number for name in module.cuts if name in self.circuit.maker}
        for number in sorted(makers, reverse=True):
            gate = self.circuit.gates[number]
            cuts = [name for name in module.cuts if name not in gate.outs]
            cuts += [name for name in gate.ins if name not in self.diagnosis.local_wires_of(module)]
            yield from self.proposals_with_cuts_and_uses(module, cuts, sorted({*module.uses, number}))
        free, used = self.circuit.cone_inputs_and_gates(module.cuts)
        if makers:
            yield from self.proposals_with_cuts_and_uses(module, free, sorted({*used, *module.uses}))

    def proposals_with_cuts_and_uses(self, module: Module, cuts: Sequence[str],
                                     uses: Sequence[int]) -> Iterator[EditProposal]:
        """Yields the edits after which a module has these `cut` and `use` lines, if they are within its limits."""
        if len(cuts) > MAX_CUTS or len(uses) > MAX_USES:
            return
        edits: list[Edit] = []
        for number, line in enumerate(self.lines[module.line:], module.line + 1):
            kind, _, name = line.partition(" ")
            if kind not in ("cut", "use"):
                break
            if kind == "cut" and name not in cuts or kind == "use" and int(name) not in uses:
                edits.append(deletion(number))
        new = [f"cut {name}" for name in cuts if name not in module.cuts] + [f"use {number}" for number in uses
                                                                             if number not in module.uses]
        edits += [self.line_addition(module, text) for text in new]
        if edits:
            yield EditProposal("gates in place of cuts", tuple(edits))

    def proposals_for_border(self, finding: ReportLine) -> Iterator[EditProposal]:
        """Yields edits of the `halo` line or the `edge` line of a border that do not agree."""
        module, time = self.diagnosis.module_of_finding(finding), finding.number_value("time")
        cell = finding.number_value("x"), finding.number_value("y")
        owner = self.certificate.owner(cell)
        halo, edge = module.line_at("halo", time, cell), owner.line_at("edge", time, cell) if owner else None
        for group in (group for group in self.groups if group.cell == cell):
            for edits in (group.edits, *group.other_edits):
                yield EditProposal("border lines as the whole run has them", tuple(edits))
        for line, other, kind, place in ((edge, halo, "halo", module), (halo, edge, "edge", owner)):
            if place is None:
                continue
            at = place.line_number(kind, other) if other else None
            if line:
                text = border_or_stop_text(kind, line)
                yield EditProposal("lines that agree",
                                   (replacement(at, text) if at else self.line_addition(place, text),))
            elif at:
                yield EditProposal("lines that agree", (deletion(at),))

    def line_addition(self, module: Module, text: str) -> Edit:
        """Returns the edit that adds a line to a module."""
        return addition(insertion_line_in_module(self.lines, module.line, text), text)

    def wire_table(self, name: str) -> TruthTable | None:
        """Returns the table of a wire over the tried inputs."""
        return self.diagnosis.wire_tables.tables.get(name)

    def proposals_for_stop(self, module: Module, stop: Stop) -> Iterator[EditProposal]:
        """Yields other times and cells for a stop, at which the whole run has its wire, and other wires."""
        spots = [(stop.time + dt, (stop.x + dx, stop.y + dy)) for dt in range(-MAX_STOP_STEPS, MAX_STOP_STEPS + 1)
                 for dx in (-1, 0, 1) for dy in (-1, 0, 1)]
        spots.sort(key=lambda spot: (spot[1] != stop.cell, abs(spot[0] - stop.time), spot))
        for time, cell in spots:
            if (0 <= time <= self.diagnosis.layout.steps and module.box.has(cell)
                and self.whole_run_table_at(time, cell) == self.wire_table(stop.name)):
                yield EditProposal("stops", self.stop_move_edits(module, stop, Stop(time, stop.name, *cell)))
        for name in self.diagnosis.local_wires_of(module):
            if name != stop.name and self.whole_run_table_at(stop.time, stop.cell) == self.wire_table(name):
                yield EditProposal("stops", (self.stop_renaming(module, stop, name),))

    def stop_renaming(self, module: Module, stop: Stop, name: str) -> Edit:
        """Returns the edit that gives a stop another wire."""
        return replacement(module.line_number("stop", stop), border_or_stop_text("stop", stop._replace(name=name)))

    def whole_run_table_at(self, time: int, cell: Cell) -> TruthTable | None:
        """Returns the table of a cell in the whole run at a time."""
        field = self.diagnosis.whole_run_cells(time)
        return None if field is None else field.live.get(key_of(cell), 0)

    def stop_move_edits(self, module: Module, old: Stop, new: Stop) -> Edits:
        """Returns the edits that move a stop to its place in the list."""
        at, text = module.line_number("stop", old), border_or_stop_text("stop", new)
        rest = [stop for stop in module.stops if stop is not old]
        before = [stop for stop in module.stops if stop.order_key < old.order_key]
        if all((stop.order_key < new.order_key) == (stop in before) for stop in rest):
            return (replacement(at, text),)
        return deletion(at), self.line_addition(module, text)

    def proposals_for_delay(self, finding: ReportLine) -> Iterator[EditProposal]:
        """Yields stops at other times for a delay, stops that are missing, and another number of steps in the circuit.
        """
        gate = self.circuit.gates[finding.number_value("gate")]
        wanted, found = finding.number_value("wanted"), finding.values["found"]
        used, made = self.certificate.stops_of(gate.ins[0]), self.certificate.stops_of(gate.outs[0])
        if used and made:
            if found == "before":
                yield EditProposal("stops",
                                   (self.stop_renaming(*used[-1], gate.outs[0]),
                                    self.stop_renaming(*made[0], gate.ins[0])))
            yield from self.proposals_moving_stop(used[-1], made[0][1].time - wanted)
            yield from self.proposals_moving_stop(made[0], used[-1][1].time + wanted)
        elif used or made:
            time = used[-1][1].time + wanted if used else made[0][1].time - wanted
            yield from self.proposals_adding_stop(gate.outs[0] if used else gate.ins[0], time)
        else:
            for time in range(self.diagnosis.layout.steps - wanted + 1):
                pairs = [(first, last) for first in self.proposals_adding_stop(gate.ins[0], time)
                         for last in self.proposals_adding_stop(gate.outs[0], time + wanted)]
                if pairs:
                    yield EditProposal("stops", pairs[0][0].edits + pairs[0][1].edits)
                    break
        if isinstance(found, int) and 1 <= found <= 4096:
            yield EditProposal("the steps of a delay",
                               (replacement(gate.line, f"delay {found} {gate.ins[0]} -> {gate.outs[0]}"),))

    def proposals_moving_stop(self, seen: tuple[Module, Stop], time: int) -> Iterator[EditProposal]:
        """Yields moves of a stop to a time, to the nearest cells of its module at which the whole run has its wire."""
        module, stop = seen
        for cell in self.cells_carrying(stop.name, time, module, stop.cell)[:2]:
            yield EditProposal("stops", self.stop_move_edits(module, stop, Stop(time, stop.name, *cell)))

    def cells_carrying(self, name: str, time: int, module: Module, near: Cell) -> list[Cell]:
        """Returns the cells of a module that carry a wire at a time, the nearest first."""
        if not 0 <= time <= self.diagnosis.layout.steps:
            return []
        cells = [cell for cell in module.box.cells() if self.whole_run_table_at(time, cell) == self.wire_table(name)]
        return sorted(cells, key=lambda cell: (abs(cell[0] - near[0]) + abs(cell[1] - near[1]), cell))

    def proposals_adding_stop(self, name: str, time: int) -> Iterator[EditProposal]:
        """Yields a stop of a wire at a time, in a module that knows it."""
        for module in (module for module in self.certificate.modules if name in self.diagnosis.local_wires_of(module)):
            for cell in self.cells_carrying(name, time, module, (module.box.x, module.box.y))[:1]:
                yield EditProposal("stops",
                                   (self.line_addition(module, border_or_stop_text("stop", Stop(time, name, *cell))),))

    def proposals_for_meet(self, finding: ReportLine) -> Iterator[EditProposal]:
        """Yields stops after which the inputs of a gate have their last stops at one time, or only one of them has
        stops."""
        gate = self.circuit.gates[finding.number_value("gate")]
        last = {name: self.certificate.stops_of(name)[-1] for name in gate.ins if self.certificate.stops_of(name)}
        for name, seen in last.items():
            for time in dict.fromkeys(stop.time for _, stop in last.values()):
                yield from (self.proposals_adding_stop(name, time) if time > seen[1].time
                            else self.proposals_moving_stop(seen, time))
        for name in last:
            yield EditProposal("stops",
                               tuple(deletion(module.line_number("stop", stop)) for other in last if other != name
                                     for module, stop in self.certificate.stops_of(other)))
