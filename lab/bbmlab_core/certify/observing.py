"""What a whole run shows of the cells of a layout: which wire each cell carries at each odd time, and which cells carry
none.
"""

from dataclasses import dataclass, field

from ..host.processor import processor_seconds
from ..host.terminal import LabError
from ..physics.simulation import TruthTable, WholeRun, cell_of, key_of, least_assignment
from ..texts.circuits import Circuit, evaluate_all_or_samples
from ..texts.layouts import Box, Cell, Layout, row_order_key
from ..texts.refusals import names_words

# Up to this many inputs all choices are tried, and else so many samples.
MAX_EXHAUSTIVE_INPUTS = 12
SAMPLE_COUNT = 1024
# A layout with a delay is remembered at each time; this is the most that is kept.
MAX_REMEMBERED_CELLS = 4_000_000
NO_WIRES: frozenset[str] = frozenset()


@dataclass
class ObservedCells:
    """The cells of a whole run.

    `timed_tables` has for a cell its odd times below the steps with their tables; `always_live` are live at all of
    them.
    """

    always_live: set[int] = field(default_factory=set)
    timed_tables: dict[int, list[tuple[int, TruthTable]]] = field(default_factory=dict)
    # The cells that are not live always, at each time, if they are remembered.
    moving_by_time: list[dict[int, TruthTable]] = field(default_factory=list)


class Observer:
    """Runs a layout once, under all choices of the inputs or under samples of them, and tells the wires of its cells.
    """

    def __init__(self, circuit: Circuit, layout: Layout, remembers: bool = False, until: float | None = None) -> None:
        # `until` is the processor time at which the run is given up.
        self.circuit, self.layout, self.until = circuit, layout, until
        # Whether the cells are remembered at each time, for stops.
        self.remembers = remembers or any(gate.kind == "delay" for gate in circuit.gates)
        self.values = evaluate_all_or_samples(circuit, MAX_EXHAUSTIVE_INPUTS, SAMPLE_COUNT)
        self.require_row_at_all_inputs()
        self.signals: dict[TruthTable, str] = {}
        for name, table in self.values.tables.items():
            self.signals.setdefault(table, name)
        self.signals[self.values.full] = "1"
        self.observed = self.run()
        self.wires: dict[int, frozenset[str] | None] = {}

    def equal_wires_words(self) -> str:
        """Says how many wires have the values of an earlier one, by whose name the cells go: a box may lack the wires
        that its gate takes."""
        named = set(self.signals.values())
        hidden = [name for name, table in self.values.tables.items() if name not in named
                  and 0 != table != self.values.full]
        if not hidden:
            return ""
        first = self.signals[self.values.tables[hidden[0]]]
        return (f". {len(hidden)} of {len(self.values.tables)} wires have the values of an earlier one "
                f"{self.values.tried_choices_words}, as `{hidden[0]}` has those of "
                f"`{first}`, and the lab gives cells the earlier name, so a box may lack the wires that its gate takes")

    def require_row_at_all_inputs(self) -> None:
        """Raises LabError if some gate has no row under a choice of the inputs."""
        for number, table in self.values.defined_columns_by_gate.items():
            if table != self.values.full:
                on = self.values.true_free_wires(least_assignment(self.values.full ^ table))
                raise LabError(f"gate {number} has no row with {names_words(on) or 'none of the inputs'} on: no "
                               "certificate gets a yes", 1)

    def run(self) -> ObservedCells:
        """Runs the layout, and returns what its cells were."""
        values, observed = self.values, ObservedCells()
        run = WholeRun(self.layout, values.tables, values.full)
        observed.always_live = {key for key, table in run.field.live.items() if table == values.full}
        moving = {key: table for key, table in run.field.live.items() if table != values.full}
        remembered = 0
        while True:
            time = run.time
            if self.remembers:
                observed.moving_by_time.append(dict(moving))
                remembered += len(moving)
                if remembered > MAX_REMEMBERED_CELLS:
                    raise LabError("the run is too long to look for stops of delays: write the `stop` lines by hand", 1)
            if time % 2 and time < self.layout.steps:
                for key, table in moving.items():
                    observed.timed_tables.setdefault(key, []).append((time, table))
            if time == self.layout.steps:
                return observed
            if self.until is not None and processor_seconds() > self.until:
                raise LabError("no certificate was found in the time that was given", 1)
            if not run.step():
                on = values.true_free_wires(least_assignment(run.left[1])) if run.left else []
                raise LabError(f"step {run.time} leaves the rectangle with {names_words(on) or 'none of the inputs'} on"
                               ": no certificate gets a yes", 1)
            for key in run.field.changed:
                self.note_cell_change(observed, moving, key, run.field.live.get(key, 0), run.time)

    def note_cell_change(self, observed: ObservedCells, moving: dict[int, TruthTable], key: int, table: TruthTable,
                         time: int) -> None:
        """Notes a cell that changed in the last step. One that was live always gets its times before."""
        if key in observed.always_live:
            observed.always_live.discard(key)
            times = [(before, self.values.full) for before in range(1, time, 2)]
            if times:
                observed.timed_tables[key] = times
        if table:
            moving[key] = table
        else:
            moving.pop(key, None)

    def require_quiet_rim(self) -> None:
        """Raises LabError if a cell of the rim is live at an odd time below the steps."""
        if self.layout.steps < 2:
            return
        first = [(1, key) for key in self.observed.always_live] + [(times[0][0], key) for key,
                                                                   times in self.observed.timed_tables.items()]
        rim = [(time, cell_of(key)) for time, key in first if self.layout.is_rim(cell_of(key))]
        if rim:
            time, (x, y) = min(rim, key=lambda place: (place[0], row_order_key(place[1])))
            raise LabError(f"at time {time} the cell ({x}, {y}) is live, on the rim of the rectangle: no certificate "
                           "allows it. "
                           "Make the layout larger", 1)

    def wires_carried_by(self, key: int) -> frozenset[str] | None:
        """Returns the wires that a cell carries at odd times, without constants; None if at some time it carries no
        wire."""
        if key not in self.observed.timed_tables:
            return NO_WIRES
        if key not in self.wires:
            names = {self.signals.get(table) for _, table in self.observed.timed_tables.get(key, ())}
            self.wires[key] = None if None in names else frozenset(name for name in names if name and name != "1")
        return self.wires[key]

    def first_moment_without_wire(self, key: int) -> tuple[int, int, int]:
        """Returns the first time at which a cell carries no wire, with the cell's row and column."""
        x, y = cell_of(key)
        return next(time for time, table in self.observed.timed_tables[key] if table not in self.signals), y, x

    def moment_without_wire_words(self, key: int) -> str:
        """Says when a cell carries no wire."""
        time, y, x = self.first_moment_without_wire(key)
        table = dict(self.observed.timed_tables[key])[time]
        on = names_words(self.values.true_free_wires(least_assignment(table))) or "none of the inputs"
        return (f"at time {time} the cell ({x}, {y}) is live with {on} on, and no wire of the circuit is true in just "
                "the cases in which it is live")

    def first_times_of_wires(self, keys: list[int]) -> dict[str, int]:
        """Returns for each wire that some cells carry the first odd time at which one of them does."""
        first: dict[str, int] = {}
        for key in self.observed.timed_tables.keys() & keys:
            for time, table in self.observed.timed_tables[key]:
                name = self.signals.get(table)
                if name and time < first.get(name, time + 1):
                    first[name] = time
        return first


def ring_and_halo_keys(layout: Layout, box: Box) -> tuple[list[int], list[int]]:
    """Returns the cells of a box's ring, and those of its halo that lie in the rectangle, as numbers."""
    def outermost_cells(left: int, top: int, right: int, bottom: int) -> set[Cell]:
        """Returns the outermost cells of a rectangle that lie in the layout."""
        cells = {(x, y) for x in range(left, right + 1) for y in (top, bottom)} | {(x, y)
                                                                                   for y in range(top, bottom + 1)
                                                                                   for x in (left, right)}
        return {cell for cell in cells if layout.has(cell)}

    ring = outermost_cells(box.x, box.y, box.x + box.width - 1, box.y + box.height - 1)
    halo = outermost_cells(box.x - 1, box.y - 1, box.x + box.width, box.y + box.height)
    return [key_of(cell) for cell in sorted(ring, key=row_order_key)], [key_of(cell)
                                                                        for cell in sorted(halo, key=row_order_key)]

