"""The automaton under many assignments at once: a cell's state is a table, a number whose bit A is its state under
assignment A.

Only blocks in which something changed are stepped: a block of one partition depends on its four cells alone, so a block
whose cells are as they were two steps before changes no more than it did then. Source of the rule: Margolus 1984.
"""

from bisect import bisect_left
from dataclasses import dataclass, field
from typing import Iterable, Iterator

from ..texts.certificates import Border, Certificate, Module
from ..texts.circuits import Circuit, WireTables, evaluate_gates
from ..texts.layouts import Box, Cell, Layout

TruthTable = int
# A cell as one number: y + 2 above the lowest 13 bits, x + 2 in them, which is enough for the largest side. So a
# block's other cells are 1, ROW and DIAGONAL further.
ROW_STRIDE = 8192
DIAGONAL_STRIDE = ROW_STRIDE + 1
# After so many steps without a change of a module, both kinds of steps with what it hears were tried twice.
QUIET_STEPS_BEFORE_SKIP = 4


def key_of(cell: Cell) -> int:
    """Returns the number of a cell with coordinates from -2 to 8189."""
    return (cell[1] + 2) * ROW_STRIDE + cell[0] + 2


def cell_of(key: int) -> Cell:
    """Returns the cell of a number."""
    return key % ROW_STRIDE - 2, key // ROW_STRIDE - 2


def block_of(key: int, is_odd: int) -> int:
    """Returns the number of the upper left cell of the block that has the cell."""
    if is_odd:
        return ((key - DIAGONAL_STRIDE) & ~DIAGONAL_STRIDE) + DIAGONAL_STRIDE
    return key & ~DIAGONAL_STRIDE


def keys_of_box(box: Box) -> list[int]:
    """Returns the numbers of the cells of a box, row by row."""
    first = key_of((box.x, box.y))
    return [key for row in range(first, first + box.height * ROW_STRIDE, ROW_STRIDE)
            for key in range(row, row + box.width)]


class LiveCells:
    """The live cells of a pattern at one time after another."""

    def __init__(self, live: dict[int, TruthTable]) -> None:
        self.live = {key: table for key, table in live.items() if table}
        self.time = 0
        # The cells that changed in the last step and in the one before; at first any cell may change.
        self.changed = set(self.live)
        self.changed_before = set(self.live)

    def step(self, heard: Iterable[int] = ()) -> None:
        """Makes a step. `heard` has further cells whose blocks are stepped."""
        is_odd, live = self.time & 1, self.live
        corners = {block_of(key, is_odd) for keys in (self.changed, self.changed_before, heard) for key in keys}
        changed: set[int] = set()
        for corner in corners:
            a, b = live.get(corner, 0), live.get(corner + 1, 0)
            c, d = live.get(corner + ROW_STRIDE, 0), live.get(corner + DIAGONAL_STRIDE, 0)
            one, other = a | d, b | c
            # Where one diagonal is empty: a single ball crosses the block, and two change to the other diagonal.
            both, both_other = a & d & ~other, b & c & ~one
            flip, flip_other = one & ~other | both_other, other & ~one | both
            if flip:
                live[corner], live[corner + DIAGONAL_STRIDE] = a ^ flip, d ^ flip
                changed.update((corner, corner + DIAGONAL_STRIDE))
            if flip_other:
                live[corner + 1], live[corner + ROW_STRIDE] = b ^ flip_other, c ^ flip_other
                changed.update((corner + 1, corner + ROW_STRIDE))
        for key in changed:
            if not live.get(key):
                live.pop(key, None)
        self.changed_before, self.changed = self.changed, changed
        self.time += 1

    def live_cells_under(self, assignment: int = 0) -> set[Cell]:
        """Returns the live cells under an assignment."""
        return {cell_of(key) for key, table in self.live.items() if table >> assignment & 1}


def start_tables(layout: Layout, tables: dict[str, TruthTable], full: TruthTable) -> dict[int, TruthTable]:
    """Returns the start of a layout, where the wires of `in` cells have these tables."""
    live = {key_of(cell): full for cell in (*layout.mirror_cells(), *layout.balls)}
    live.update((key_of(port.cell), tables.get(port.name, 0)) for port in layout.ins)
    return live


class WholeRun:
    """The run of a whole layout on the infinite plane, up to the first step that leaves the rectangle."""

    def __init__(self, layout: Layout, tables: dict[str, TruthTable], full: TruthTable) -> None:
        self.layout, self.full = layout, full
        self.field = LiveCells(start_tables(layout, tables, full))
        # The first step that leaves the rectangle, under which assignments, and a cell outside.
        self.left: tuple[int, TruthTable, Cell] | None = None

    @property
    def time(self) -> int:
        """The time of the present state."""
        return self.field.time

    def step(self) -> bool:
        """Makes a step, and returns whether everything stays in the rectangle."""
        self.field.step()
        outside = [key for key in self.field.changed if key in self.field.live and not self.layout.has(cell_of(key))]
        if outside:
            table = 0
            for key in outside:
                table |= self.field.live[key]
            self.left = self.time, table, cell_of(min(outside))
        return not outside

    def run_to(self, time: int) -> bool:
        """Makes steps up to a time, and returns whether everything stays in the rectangle."""
        while self.time < time:
            if not self.step():
                return False
        return True


def layout_run(layout: Layout, on: Iterable[str]) -> WholeRun:
    """Returns a run of the layout under one choice of inputs."""
    return WholeRun(layout, {name: 1 for name in on}, 1)


@dataclass(frozen=True, order=True)
class Fault:
    """A fault of a module's own run, in the order of the report."""

    time: int
    rank: int
    y: int
    x: int
    assignment: int

    @property
    def kind(self) -> str:
        """The kind as the report writes it."""
        return FAULT_KINDS[self.rank]

    def text_in_report(self) -> str:
        """Writes the fault as the report does, without the module's number."""
        return f"{self.kind} {self.time} {self.x} {self.y} {self.assignment}"


FAULT_KINDS = ("edge", "stop", "end")


def least_assignment(table: TruthTable) -> int:
    """Returns the least assignment of a table that is not empty."""
    return (table & -table).bit_length() - 1


@dataclass
class BorderTables:
    """What is said of cells at odd times: tables for all times, and tables by time."""

    at_all_times: dict[int, TruthTable] = field(default_factory=dict)
    timed: dict[int, dict[int, TruthTable]] = field(default_factory=dict)

    def tables_at(self, time: int) -> dict[int, TruthTable]:
        """Returns the tables of the cells that are named at an odd time."""
        timed = self.timed.get(time)
        return {**self.at_all_times, **timed} if timed else self.at_all_times


class ModuleRun:
    """The run of a module by itself, under all assignments of its cuts or under some of them."""

    def __init__(self, circuit: Circuit, layout: Layout, certificate: Certificate, module: Module) -> None:
        self.layout, self.module, self.certificate = layout.clipped(module.box), module, certificate
        self.values = local_wire_tables(circuit, module)
        # The assignments that count: those under which each used gate has a row.
        self.full = self.values.full
        for table in self.values.defined_columns_by_gate.values():
            self.full &= table
        self.tables = {name: table & self.full for name, table in self.values.tables.items()} | {"1": self.full}
        self.field = LiveCells(start_tables(self.layout, self.tables, self.full))
        self.inside = set(keys_of_box(module.box))
        self.edges = self.tables_of_lines(module.edges)
        self.halos = self.tables_of_lines(certificate.heard_lines(module))
        self.ring = {key_of(cell) for cell in module.box.ring()}
        self.stops: dict[int, list[tuple[Cell, str]]] = {}
        for stop in module.stops:
            self.stops.setdefault(stop.time, []).append((stop.cell, stop.name))
        self.heard: list[int] = []

    def restrict_assignments(self, assignments: TruthTable) -> None:
        """Leaves only some assignments. It is called before the first step."""
        self.full &= assignments
        self.tables = {name: table & self.full for name, table in self.tables.items()}
        self.field = LiveCells(start_tables(self.layout, self.tables, self.full))
        self.edges = self.tables_of_lines(self.module.edges)
        self.halos = self.tables_of_lines(self.certificate.heard_lines(self.module))

    def tables_of_lines(self, lines: Iterable[Border]) -> BorderTables:
        """Returns what edge or halo lines say, by the tables of the wires that are local here."""
        said = BorderTables()
        for line in lines:
            where = said.at_all_times if line.time is None else said.timed.setdefault(line.time, {})
            where[key_of(line.cell)] = self.tables.get(line.signal, 0)
        return said

    @property
    def time(self) -> int:
        """The time of the present state."""
        return self.field.time

    def step(self) -> None:
        """Makes a step: an even one in the box, an odd one with what the module hears."""
        if self.time % 2 == 0:
            self.field.step()
            return
        said = {key: table for key, table in self.halos.tables_at(self.time).items() if table}
        self.field.live.update(said)
        self.field.step([*said, *self.heard])
        self.heard = list(said)
        for key in [key for key in (*said, *self.field.changed) if key not in self.inside]:
            self.field.live.pop(key, None)
        self.field.changed &= self.inside

    def run_to(self, time: int) -> None:
        """Makes steps up to a time."""
        while self.time < time:
            self.step()

    def faults_now(self) -> Iterator[tuple[int, Cell, TruthTable]]:
        """Yields the faults at the present time: the kind's rank, the cell, and under which assignments."""
        live, last = self.field.live, self.time == self.layout.steps
        if self.time % 2 and not last:
            said = self.edges.tables_at(self.time)
            for key in said.keys() | live.keys() & self.ring:
                table = live.get(key, 0) ^ said.get(key, 0)
                if table:
                    yield 0, cell_of(key), table
        for cell, name in self.stops.get(self.time, ()):
            table = live.get(key_of(cell), 0) ^ self.tables[name]
            if table:
                yield 1, cell, table
        if last:
            yield from self.end_faults()

    def end_faults(self) -> Iterator[tuple[int, Cell, TruthTable]]:
        """Yields the faults of the last time against the layout."""
        live = self.field.live
        wanted = {key_of(cell): table
                  for cell, table in required_end_tables(self.layout, self.tables, self.full).items()}
        for key in sorted(wanted.keys() | live.keys() & self.inside):
            demand = wanted.get(key, 0)
            table = 0 if demand is None else live.get(key, 0) ^ demand
            if table:
                yield 2, cell_of(key), table

    def run_to_fault(self) -> Fault | None:
        """Makes steps up to the first time with a fault, and returns the least one."""
        events, idle = self.event_times(), 0
        while True:
            found = [Fault(self.time, rank, cell[1], cell[0], least_assignment(table)) for rank, cell,
                     table in self.faults_now()]
            if found:
                return min(found)
            if self.time == self.layout.steps:
                return None
            self.step()
            idle = 0 if self.field.changed else idle + 1
            if idle >= QUIET_STEPS_BEFORE_SKIP:
                # As long as the module hears and says the same, nothing changes, and no time has another fault than the
                # last two.
                self.field.time = events[bisect_left(events, self.time)]

    def event_times(self) -> list[int]:
        """Returns the times at which something is asked or heard that was not before: lines with a time, two steps
        after them, stops and the end."""
        timed = self.edges.timed.keys() | self.halos.timed.keys()
        times = {time for event in timed for time in (event, event + 2) if time < self.layout.steps}
        return sorted(times | self.stops.keys() | {self.layout.steps})


def local_wire_tables(circuit: Circuit, module: Module) -> WireTables:
    """Returns the tables of a module's local wires over all assignments of its cuts."""
    return evaluate_gates(circuit, module.cuts, module.uses)


def required_end_tables(layout: Layout, tables: dict[str, TruthTable],
                        full: TruthTable) -> dict[Cell, TruthTable | None]:
    """Returns what the layout asks of cells at the end: a table, or None where anything is good.

    Other cells are to be dead.
    """
    wanted: dict[Cell, TruthTable | None] = {cell: full for cell in layout.mirror_cells()}
    wanted.update((port.cell, tables.get(port.name, 0)) for port in layout.outs)
    wanted.update((cell, None) for cell in layout.wastes)
    return wanted
