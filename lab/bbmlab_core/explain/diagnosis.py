"""What can be found out about a line of a report: the module's own run, the whole run, and which inputs give an
assignment.

What was not tried is `Truth.UNKNOWN`. Where the inputs are too many to try all choices, samples are tried: a fault in a
sample is certain, and so is that a wire differs from a cell in a sample. That no sample has a fault is no proof.
"""

from dataclasses import dataclass, field
from enum import Enum
from functools import cached_property
from typing import Callable

from ..host.processor import processor_seconds
from ..physics.simulation import (Fault, LiveCells, ModuleRun, TruthTable, WholeRun, cell_of, key_of, least_assignment,
                                  required_end_tables)
from ..texts.certificates import Module, local_wires
from ..texts.circuits import Circuit, WireTables, evaluate_gates, evaluate_all_or_samples
from ..texts.documents import Document
from ..texts.layouts import Cell, Layout, row_order_key
from ..texts.reports import ReportLine

MAX_EXHAUSTIVE_INPUTS = 12
# How many choices of the inputs are tried where they are more than MAX_INPUTS.
SAMPLE_COUNT = 256
# The most steps for which the whole run is made under all inputs or samples, and the most seconds that it takes.
MAX_WHOLE_RUN_STEPS = 5000
MAX_WHOLE_RUN_SECONDS = 20.0


class Tristate(Enum):
    """Whether something holds: found out that it does, found out that it does not, or not found out."""

    YES = "yes"
    NO = "no"
    UNKNOWN = "unknown"

    @property
    def json(self) -> bool | None:
        """The value in a JSON document: `null` stands for unknown."""
        return None if self is Tristate.UNKNOWN else self is Tristate.YES


@dataclass
class AssignmentOccurrence:
    """Whether an assignment of a module's cuts occurs in the circuit.

    `inputs` is a choice of inputs that gives it, if one was found; `count` of `total` choices do, if all were tried,
    else both are 0.
    """

    occurs: Tristate
    inputs: dict[str, int] = field(default_factory=dict)
    count: int = 0
    total: int = 0


@dataclass
class RunDifference:
    """The first time at which a module's own run differs from the whole one, a cell of it, and the cells that were not
    heard so."""

    time: int
    cell: Cell
    heard_time: int
    # Cells of the halo whose state differs from what the module hears: the cell, and whether the whole run has it live.
    misheard: list[tuple[Cell, bool]]


@dataclass(frozen=True)
class FoundSignal:
    """The signal of a cell at a time: its name if `known` is YES; NO if no wire has the cell's values.

    With samples a name is that of a wire which agrees in all samples.
    """

    known: Tristate
    name: str = ""


@dataclass(frozen=True)
class WholeRunOutcome:
    """Whether some certificate may get a yes: the whole run ends as the layout asks, and its rim is dead at odd times
    before.

    `fault_words` says what is wrong, where `correctness` is NO; `is_rim_fault` that it is a live cell of the rim,
    whatever the circuit asks.
    """

    correctness: Tristate
    fault_words: str = ""
    is_rim_fault: bool = False

    @property
    def why_no_yes(self) -> str:
        """Why no certificate gets a yes, where `correctness` is NO."""
        if self.is_rim_fault:
            return (f"In the whole run {self.fault_words}. At odd times before the end the outermost cells must be "
                    "dead, so no certificate gets a yes before the layout is changed.")
        return (f"The layout itself does not do what the circuit asks: {self.fault_words}. No certificate gets a yes "
                "before the layout or the circuit is changed.")


class RimWatch:
    """Looks at each step of a whole run whether a cell of the rim is live at an odd time before the end, under
    assignments that count."""

    def __init__(self, layout: Layout, defined: TruthTable) -> None:
        self.defined, self.steps = defined, layout.steps
        self.keys = {key_of((x, y)) for x in range(layout.width) for y in (0, layout.height - 1)}
        self.keys |= {key_of((x, y)) for y in range(layout.height) for x in (0, layout.width - 1)}
        # The first time, the cell, and under which assignments.
        self.found: tuple[int, Cell, TruthTable] | None = None

    def note_live_rim(self, run: WholeRun) -> None:
        """Looks at the present state. A cell that did not change in two steps was live at the odd time before."""
        if self.found or run.time % 2 == 0 or run.time >= self.steps:
            return
        live = [key for keys in (run.field.changed, run.field.changed_before) for key in keys & self.keys
                if run.field.live.get(key, 0) & self.defined]
        if live:
            self.found = run.time, cell_of(min(live)), run.field.live[min(live)] & self.defined


class DiagnosticRuns:
    """Runs of one document that explain its report. Runs are kept, since several lines ask for the same ones."""

    def __init__(self, document: Document) -> None:
        assert document.circuit and document.layout and document.certificate
        self.document = document
        self.circuit: Circuit = document.circuit
        self.layout = document.layout
        self.certificate = document.certificate
        self.mirrors = self.layout.mirror_cells()
        # Whether a run of the whole layout took too long.
        self.is_slow = False
        self._fields: dict[int, LiveCells | None] = {}
        self._local: dict[int, dict[str, None]] = {}
        # The lines whose causes are looked for by runs; None stands for all.
        self.detailed: set[str] | None = None

    def local_wires_of(self, module: Module) -> dict[str, None]:
        """Returns the wires that a module knows, as a set in order."""
        if module.number not in self._local:
            self._local[module.number] = local_wires(self.circuit, module)
        return self._local[module.number]

    @cached_property
    def wire_tables(self) -> WireTables:
        """The tables of all wires over all choices of the inputs, or over samples of them."""
        return evaluate_all_or_samples(self.circuit, MAX_EXHAUSTIVE_INPUTS, SAMPLE_COUNT)

    @property
    def tried_choices_words(self) -> str:
        """In how many choices of the inputs the whole run was tried, in words."""
        return self.wire_tables.tried_choices_words

    def assignment_occurrence(self, module: Module, assignment: int) -> AssignmentOccurrence:
        """Returns whether the circuit gives the module's cuts these values, and for which inputs."""
        inputs, gates = self.circuit.cone_inputs_and_gates(module.cuts)
        is_all = len(inputs) <= MAX_EXHAUSTIVE_INPUTS
        values = evaluate_gates(self.circuit, inputs, gates) if is_all else self.wire_tables
        table = values.full
        for name, value in module.cut_values(assignment).items():
            table &= values.tables[name] if value else values.full ^ values.tables[name]
        for number in gates:
            table &= values.defined_columns_by_gate[number]
        total = 1 << len(inputs) if is_all else 0
        if not table:
            return AssignmentOccurrence(Tristate.NO if is_all else Tristate.UNKNOWN, total=total)
        chosen = least_assignment(table)
        given = {name: values.tables[name] >> chosen & 1 for name in inputs}
        return AssignmentOccurrence(Tristate.YES, given, table.bit_count() if is_all else 0, total)

    def occurring_assignment_table(self, module: Module) -> TruthTable:
        """Returns a table of assignments of the module's cuts that occur: all of them, or those that occur in the
        samples."""
        inputs, gates = self.circuit.cone_inputs_and_gates(module.cuts)
        values = evaluate_gates(self.circuit, inputs,
                                gates) if len(inputs) <= MAX_EXHAUSTIVE_INPUTS else self.wire_tables
        columns = values.full
        for number in gates:
            columns &= values.defined_columns_by_gate[number]
        groups = [(columns, 0)]
        for index, name in enumerate(module.cuts):
            table = values.tables[name]
            groups = [(part, assignment | bit << index) for group, assignment in groups
                      for part, bit in ((group & table, 1), (group & ~table, 0)) if part]
        found = 0
        for _, assignment in groups:
            found |= 1 << assignment
        return found

    def fault_under_occurring_assignments(self, module: Module) -> Fault | None:
        """Returns the least fault of a module's own run under assignments that are known to occur, or None if there is
        none."""
        run = ModuleRun(self.circuit, self.layout, self.certificate, module)
        run.restrict_assignments(self.occurring_assignment_table(module))
        return run.run_to_fault() if run.full else None

    def live_and_heard_cells(self, module: Module, assignment: int, time: int) -> tuple[set[Cell], set[Cell]]:
        """Returns the live cells of a module's own run, and the cells of its halo that it hears to be live then."""
        run = ModuleRun(self.circuit, self.layout, self.certificate, module)
        run.run_to(time)
        heard = run.halos.tables_at(time) if time % 2 and time < self.layout.steps else {}
        return run.field.live_cells_under(assignment), {cell_of(key) for key, table in heard.items()
                                                        if table >> assignment & 1}

    def first_difference(self, module: Module, assignment: int, inputs: dict[str, int],
                         until: int) -> RunDifference | None:
        """Returns where a module's own run first differs from the whole one, up to a time."""
        own = ModuleRun(self.circuit, self.layout, self.certificate, module)
        whole = WholeRun(self.layout, {name: value for name, value in inputs.items() if value}, 1)
        keys = {key_of(cell) for cell in module.box.cells()}
        halo = [cell for cell in sorted(module.box.halo(), key=row_order_key) if self.layout.has(cell)]
        unheard: list[tuple[Cell, bool]] = []
        for time in range(until + 1):
            candidates = own.field.changed | (whole.field.changed & keys) if time else keys
            differ = [cell_of(key) for key in candidates
                      if (own.field.live.get(key, 0) >> assignment & 1) != whole.field.live.get(key, 0)]
            if differ:
                return RunDifference(time, min(differ, key=row_order_key), time - 1, unheard)
            if time % 2 and time < self.layout.steps:
                said = own.halos.tables_at(time)
                unheard = [(cell, bool(whole.field.live.get(key_of(cell)))) for cell in halo
                           if bool(whole.field.live.get(key_of(cell)))
                           != bool(said.get(key_of(cell), 0) >> assignment & 1)]
            if time < until:
                own.step()
                whole.step()
        return None

    def whole_run_cells(self, time: int) -> LiveCells | None:
        """Returns the whole run under the tried inputs at a time, or None where it is too long or leaves the rectangle
        before."""
        if time not in self._fields:
            run = self.whole_run_to(time)
            self._fields[time] = run.field if run and run.left is None else None
        return self._fields[time]

    def whole_run_to(self, time: int, look: Callable[[WholeRun], None] = lambda _: None) -> WholeRun | None:
        """Returns the whole run under the tried inputs at a time, or at the step that leaves the rectangle; None where
        it is too long.

        `look` is called after each step.
        """
        if not self.can_run_whole():
            return None
        run, end = WholeRun(self.layout, self.wire_tables.tables,
                            self.wire_tables.full), processor_seconds() + MAX_WHOLE_RUN_SECONDS
        while run.time < time and run.step():
            look(run)
            if processor_seconds() > end:
                self.is_slow = True
                return None
        return run

    def signal_with_table(self, table: TruthTable) -> FoundSignal:
        """Returns the signal that is true in just these choices of the inputs:

        `1`, a wire, or `0` where it is never true.
        """
        if not table:
            return FoundSignal(Tristate.YES, "0")
        if table == self.wire_tables.full:
            return FoundSignal(Tristate.YES, "1")
        name = next((name for name, other in self.wire_tables.tables.items() if other == table), None)
        return FoundSignal(Tristate.NO) if name is None else FoundSignal(Tristate.YES, name)

    def signal_of(self, cell: Cell, time: int) -> FoundSignal:
        """Returns the signal of a cell in the whole run at a time."""
        field_ = self.whole_run_cells(time)
        if field_ is None:
            return FoundSignal(Tristate.UNKNOWN)
        return self.signal_with_table(field_.live.get(key_of(cell), 0))

    def can_run_whole(self) -> bool:
        """Whether a run of the whole layout under all inputs, or under samples, takes seconds at most."""
        return self.layout.steps <= MAX_WHOLE_RUN_STEPS and not self.is_slow

    @cached_property
    def whole_run_outcome(self) -> WholeRunOutcome:
        """Whether the whole run ends as the layout asks with a dead rim, whatever the certificate says."""
        values, rim = self.wire_tables, RimWatch(self.layout, self.wire_tables.defined_columns)
        run = self.whole_run_to(self.layout.steps, rim.note_live_rim)
        if run is None:
            return WholeRunOutcome(Tristate.UNKNOWN)
        if run.left is not None:
            inputs = self.input_choice_words(least_assignment(run.left[1]))
            x, y = run.left[2]
            return WholeRunOutcome(Tristate.NO, f"with {inputs} step {run.left[0]} makes the cell ({x}, {y}) outside "
                                                "the rectangle live")
        wanted = {key_of(cell): table
                  for cell, table in required_end_tables(self.layout, values.tables, values.full).items()}
        for key in sorted(wanted.keys() | run.field.live.keys()):
            table = wanted.get(key, 0)
            differs = 0 if table is None else (table ^ run.field.live.get(key, 0)) & values.defined_columns
            if differs:
                inputs, (x, y) = self.input_choice_words(least_assignment(differs)), cell_of(key)
                is_live = run.field.live.get(key, 0) >> least_assignment(differs) & 1
                found, asked = ("live", "dead") if is_live else ("dead", "live")
                return WholeRunOutcome(Tristate.NO,
                                       f"with {inputs} the cell ({x}, {y}) is {found} at the end and should be {asked}")
        if rim.found:
            time, (x, y), table = rim.found
            inputs = self.input_choice_words(least_assignment(table))
            return WholeRunOutcome(Tristate.NO,
                                   f"with {inputs} the cell ({x}, {y}) of the rim is live at time {time}", True)
        return WholeRunOutcome(Tristate.YES if values.is_all else Tristate.UNKNOWN)

    def input_choice_words(self, column: int) -> str:
        """Returns a tried choice of inputs as `p=1 q=0`; of many inputs only those that are on."""
        names = self.circuit.inputs
        if not names:
            return "no inputs"
        if len(names) <= MAX_EXHAUSTIVE_INPUTS:
            return " ".join(f"{name}={self.wire_tables.tables[name] >> column & 1}" for name in names)
        on = self.wire_tables.true_free_wires(column)
        shown = " ".join(f"{name}=1" for name in on[:MAX_EXHAUSTIVE_INPUTS])
        more = " .." if len(on) > MAX_EXHAUSTIVE_INPUTS else ""
        return f"{len(on)} of the {len(names)} inputs on" + (f" ({shown}{more})" if on else "")

    def module_of_finding(self, finding: ReportLine) -> Module:
        """Returns the module of a line of a report."""
        return self.certificate.modules[finding.number_value("module")]
