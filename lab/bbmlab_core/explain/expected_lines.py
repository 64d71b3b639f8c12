"""The lines about borders that a certificate should have: those of its text are compared with the whole run of the
layout.
"""

from dataclasses import dataclass, field
from functools import cached_property
from typing import Callable, Iterable

from ..host.processor import processor_seconds
from ..physics.simulation import TruthTable, WholeRun, cell_of
from ..texts.certificates import Border, Module, border_or_stop_text
from ..texts.layouts import Cell
from .diagnosis import MAX_WHOLE_RUN_SECONDS, DiagnosticRuns
from .edits import Edit, addition, deletion, insertion_line_in_module, replacement

# The most lines that one cell gets, and how many wires with the values of a cell are proposed.
MAX_LINES_PER_CELL = 40
MAX_LIKELY_WIRES = 4


@dataclass
class CellEdits:
    """The edits for one cell of a border: the first time at which its lines are wrong, and the modules whose lines
    change."""

    cell: Cell
    first_wrong_time: int
    module_numbers: set[int]
    edits: list[Edit] = field(default_factory=list)
    # Other edits, with other wires that have the values of the cell in the choices of the inputs that were tried.
    other_edits: list[list[Edit]] = field(default_factory=list)


@dataclass(frozen=True)
class UnnamedCell:
    """A cell of a border that is live at a time, and no wire has its values."""

    cell: Cell
    time: int


class LiveTimes:
    """Notes at which odd times cells of a run are live, with their tables.

    Most of them are mirrors: those that are live since the start are looked at only when they change, and share what is
    noted of them.
    """

    def __init__(self, live: dict[int, TruthTable], is_noted: Callable[[Cell], bool], steps: int) -> None:
        self.live, self.is_noted, self.steps = live, is_noted, steps
        # The cells that were live or changed up to now: those that are noted, and all of them.
        self.own: set[int] = set()
        self.known: set[int] = set()
        self.still = {key: live[key] for key in self.select_noted_cells(set(live))}
        self.moving: set[int] = set()
        self.seen: dict[int, dict[int, TruthTable]] = {}

    def select_noted_cells(self, keys: set[int]) -> set[int]:
        """Returns the cells that are noted among some."""
        new = keys - self.known
        if new:
            self.own.update(key for key in new if self.is_noted(cell_of(key)))
            self.known |= new
        return keys & self.own

    def note_state(self, time: int) -> None:
        """Notes the present state, at an odd time."""
        for key in self.moving:
            self.seen.setdefault(key, {})[time] = self.live[key]

    def note_changes(self, changed: set[int], time: int) -> None:
        """Takes the cells that changed in the step to a time."""
        for key in self.select_noted_cells(changed):
            if key in self.still:
                self.seen[key] = dict.fromkeys(range(1, time, 2), self.still.pop(key))
            if key in self.live:
                self.moving.add(key)
            else:
                self.moving.discard(key)

    def tables_by_cell_and_time(self) -> dict[int, dict[int, TruthTable]]:
        """Returns the tables by cell and odd time, after the last step."""
        shared = {table: dict.fromkeys(range(1, self.steps, 2), table) for table in set(self.still.values())}
        return {**self.seen, **{key: shared[table] for key, table in self.still.items()}}


class BorderCheck:
    """Compares the `edge` and `halo` lines of a certificate with the whole run."""

    def __init__(self, diagnosis: DiagnosticRuns, seconds: float = MAX_WHOLE_RUN_SECONDS) -> None:
        # `seconds` of the processor are what the run may take.
        self.diagnosis, self.seconds = diagnosis, min(seconds, MAX_WHOLE_RUN_SECONDS)
        self.certificate, self.circuit, self.layout = diagnosis.certificate, diagnosis.circuit, diagnosis.layout
        self.lines = diagnosis.document.text.split("\n")
        self.unnamed: list[UnnamedCell] = []

    def edge_line_owner(self, cell: Cell) -> Module | None:
        """Returns the module whose `edge` lines may name a cell: the one with the cell in its ring, if it is not on the
        rim."""
        owner = None if self.layout.is_rim(cell) else self.certificate.owner(cell)
        return owner if owner and owner.box.has_in_ring(cell) else None

    @cached_property
    def ring_tables(self) -> dict[Cell, dict[int, TruthTable]] | None:
        """The tables of the cells of all rings at the odd times at which they are live, or None if the run is too long
        or leaves."""
        if not self.diagnosis.can_run_whole():
            return None
        values = self.diagnosis.wire_tables
        run, end = WholeRun(self.layout, values.tables, values.full), processor_seconds() + self.seconds
        watch = LiveTimes(run.field.live, lambda cell: self.edge_line_owner(cell) is not None, self.layout.steps)
        while run.time < self.layout.steps:
            if run.time % 2:
                watch.note_state(run.time)
            if not run.step() or processor_seconds() > end:
                self.diagnosis.is_slow = run.left is None
                return None
            watch.note_changes(run.field.changed, run.time)
        return {cell_of(key): times for key, times in watch.tables_by_cell_and_time().items() if times}

    def signal_table(self, signal: str) -> TruthTable:
        """Returns the table of a signal."""
        return self.diagnosis.wire_tables.full if signal == "1" else self.diagnosis.wire_tables.tables[signal]

    def all_cell_edits(self) -> list[CellEdits]:
        """Returns the edits of all cells whose lines are wrong, in order of the first wrong time."""
        if self.ring_tables is None:
            return []
        found = [self.cell_edits(cell, self.lines_by_cell.get(cell, []))
                 for cell in sorted(self.ring_tables.keys() | self.lines_by_cell.keys())]
        return sorted((group for group in found if group), key=lambda group: group.first_wrong_time)

    @cached_property
    def lines_by_cell(self) -> dict[Cell, list[tuple[Module, Border]]]:
        """The border lines of each cell, with their modules."""
        lines: dict[Cell, list[tuple[Module, Border]]] = {}
        for module in self.certificate.modules:
            for line in (*module.edges, *module.halos):
                lines.setdefault(line.cell, []).append((module, line))
        return lines

    def cell_edits(self, cell: Cell, lines: list[tuple[Module, Border]]) -> CellEdits | None:
        """Returns the edits for one cell, or None if its lines are right or no lines would be."""
        owner = self.edge_line_owner(cell)
        if owner is None or self.ring_tables is None:
            return None
        actual = self.ring_tables.get(cell, {})
        hearers = [other for other in self.certificate.neighbours(owner) if other.box.has_in_halo(cell)]
        wrong = self.first_wrong_time_as_list(owner, actual, lines)
        if self.certificate.version == 1:
            wrong += [time for hearer in hearers for time in self.first_wrong_time_as_list(hearer, actual, lines)]
        if not wrong:
            return None
        edits = [self.edits_for_signals(cell, owner, hearers, signals)
                 for signals in self.possible_signals(cell, actual, [owner, *hearers], lines)]
        if not edits:
            return None
        return CellEdits(cell, min(wrong), {module.number for module in (owner, *hearers)}, edits[0], edits[1:])

    def edits_for_signals(self, cell: Cell, owner: Module, hearers: list[Module],
                          signals: dict[int | None, str]) -> list[Edit]:
        """Returns the edits after which all modules have just these signals of a cell, and know their wires."""
        edits = self.edits_for_lines(cell, owner, "edge", signals)
        for hearer in hearers:
            if self.certificate.version == 1:
                edits += self.edits_for_lines(cell, hearer, "halo", signals)
            edits += self.edits_making_wires_local(hearer, signals)
        return list(dict.fromkeys(edits + self.edits_making_wires_local(owner, signals)))

    def possible_signals(self, cell: Cell, actual: dict[int, TruthTable], modules: list[Module],
                         lines: list[tuple[Module, Border]]) -> list[dict[int | None, str]]:
        """Returns the signals that a cell may have, the likeliest first; none if no wire has its values, or if it needs
        too many lines."""
        found: list[dict[int | None, str]] = []
        for rank in range(MAX_LIKELY_WIRES):
            signals = self.expected_signals(cell, actual, modules, lines, rank)
            if signals is None or len(signals) > MAX_LINES_PER_CELL or signals in found:
                break
            found.append(signals)
        return found

    def first_wrong_time_as_list(self, module: Module, actual: dict[int, TruthTable],
                                 lines: list[tuple[Module, Border]]) -> list[int]:
        """Returns the first odd time at which the lines of a module about a cell differ from the run, in a list that
        may be empty."""
        own = {line.time: self.signal_table(line.signal) for other, line in lines if other is module}
        if None in own:
            return next(([time] for time in range(1, self.layout.steps, 2) if actual.get(time, 0) != own[None]), [])
        times = sorted(time for time in actual.keys() | own.keys() if time is not None)
        return next(([time] for time in times if actual.get(time, 0) != own.get(time, 0)), [])

    def expected_signals(self, cell: Cell, actual: dict[int, TruthTable], modules: list[Module],
                         lines: list[tuple[Module, Border]], rank: int) -> dict[int | None, str] | None:
        """Returns the signals that a cell should have by time, or None if no wire has its values.

        Where no line tells it, the wire is the one with this rank among those that have the values, or the last of
        them.
        """
        full = self.diagnosis.wire_tables.full
        if actual and all(actual.get(time) == full for time in range(1, self.layout.steps, 2)):
            return {None: "1"}
        signals: dict[int | None, str] = {}
        for time, table in sorted(actual.items()):
            told = [line.signal for _, line in lines if line.time in (None, time)
                    and self.signal_table(line.signal) == table]
            names = told[:1] or (["1"] if table == full else self.likely_wires(table, modules, cell, time))
            if not names:
                self.unnamed.append(UnnamedCell(cell, time))
                return None
            signals[time] = names[min(rank, len(names) - 1)]
        return signals

    def likely_wires(self, table: TruthTable, modules: list[Module], cell: Cell, time: int) -> list[str]:
        """Returns the wires with a table. First comes that of the line about the cell at the nearest time, then those
        that most modules know.

        Of those that as many know, first comes the one of the nearest line about a cell next to this one.
        """
        wires = [name for name, other in self.diagnosis.wire_tables.tables.items() if other == table]
        if len(wires) < 2:
            return wires
        neighbours = [(cell[0] + dx, cell[1] + dy) for dx in (-1, 0, 1) for dy in (-1, 0, 1) if dx or dy]
        here, around = self.nearest_line_distances([cell], time), self.nearest_line_distances(neighbours, time)
        far, known = self.layout.steps + 1, [self.diagnosis.local_wires_of(module) for module in modules]
        return sorted(wires, key=lambda name: (here.get(name, far), -sum(name in local for local in known),
                                               around.get(name, far)))

    def nearest_line_distances(self, cells: Iterable[Cell], time: int) -> dict[str, int]:
        """Returns how far from a time the nearest line about one of some cells is, for each signal."""
        found: dict[str, int] = {}
        for line in (line for cell in cells for _, line in self.lines_by_cell.get(cell, ())):
            far = 0 if line.time is None else abs(line.time - time)
            found[line.signal] = min(far, found.get(line.signal, far))
        return found

    def edits_for_lines(self, cell: Cell, module: Module, kind: str, signals: dict[int | None, str]) -> list[Edit]:
        """Returns the edits after which a module has just these lines about a cell."""
        old = {line.time: (at, line.signal) for at, line in module.numbered_lines(kind) if line.cell == cell}
        edits = [deletion(at) for time, (at, _) in old.items() if time not in signals]
        for time, signal in signals.items():
            text = border_or_stop_text(kind, Border(time, *cell, signal))
            if time not in old:
                edits.append(addition(insertion_line_in_module(self.lines, module.line, text), text))
            elif old[time][1] != signal:
                edits.append(replacement(old[time][0], text))
        return edits

    def edits_making_wires_local(self, module: Module, signals: dict[int | None, str]) -> list[Edit]:
        """Returns the edits after which a module knows the wires of some signals: a gate that it can use, or else a
        cut."""
        edits, local = [], self.diagnosis.local_wires_of(module)
        for name in dict.fromkeys(signals.values()):
            if name == "1" or name in local:
                continue
            gate = self.circuit.maker.get(name)
            is_made = gate is not None and set(gate.ins) <= local.keys() and local.keys().isdisjoint(gate.outs)
            text = f"use {gate.number}" if gate is not None and is_made else f"cut {name}"
            edits.append(addition(insertion_line_in_module(self.lines, module.line, text), text))
        return edits
