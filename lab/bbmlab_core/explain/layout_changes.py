"""Changes of a design that are tried where its whole run does not end as the layout asks: a few lines of the layout or
of the circuit.

Each kind of change is a generator. A change that passes `Testbench.is_fixed_by` ends as the layout asks, in the
choices of the inputs that were tried; the program decides.
"""

from dataclasses import dataclass, replace as with_fields
from functools import cached_property
from itertools import combinations
from typing import Iterable, Iterator

from ..host.processor import processor_seconds
from ..physics.simulation import TruthTable, WholeRun, cell_of, key_of, required_end_tables
from ..texts.circuits import Circuit, Gate, WireTables, evaluate_all, evaluate_all_or_samples
from ..texts.layouts import Cell, Layout, LayoutPart, cells_of_rectangle
from ..texts.limits import limits_of_text
from .diagnosis import MAX_EXHAUSTIVE_INPUTS, MAX_WHOLE_RUN_STEPS
from .edits import Edit, addition, deletion, insertion_line_in_section, replacement
from .meeting_places import cells_where_runs_differ_least, start_of_wanted_end

# How many samples of the inputs are tried first, if they are more than so many.
SAMPLE_COUNT, FEW_EXHAUSTIVE_INPUTS = 20, 4
# The most lines of one change.
MAX_CHANGE_LINES = 8
# How far from a place that is likely wrong a mirror is added, in cells.
NEAR_DISTANCE = 2
# The kinds of parts that take a cell at the start, and at the end.
START_PART_KINDS, END_PART_KINDS = ("mirror", "ball", "in"), ("mirror", "out", "waste")


@dataclass(frozen=True)
class DesignChange:
    """A change of a design: the edits of its text, and the design after them."""

    edits: tuple[Edit, ...]
    circuit: Circuit
    layout: Layout


def values_in_few_choices(circuit: Circuit) -> WireTables:
    """Returns the tables of all wires in at most 20 choices of the inputs, all of them if they are few."""
    return evaluate_all_or_samples(circuit, FEW_EXHAUSTIVE_INPUTS, SAMPLE_COUNT)


def wrong_cells(circuit_values: WireTables, layout: Layout, live: dict[int, TruthTable]) -> dict[int, TruthTable]:
    """Returns the cells that do not end as the layout asks, with the columns in which they do not."""
    wanted = {key_of(cell): table for cell,
              table in required_end_tables(layout, circuit_values.tables, circuit_values.full).items()}
    wrong = {}
    for key in wanted.keys() | live.keys():
        table = wanted.get(key, 0)
        differs = 0 if table is None else (table ^ live.get(key, 0)) & circuit_values.defined_columns
        if differs:
            wrong[key] = differs
    return wrong


class Testbench:
    """A design, its run under few choices of the inputs, and the changes that are tried on it."""

    def __init__(self, text: str, circuit: Circuit, layout: Layout, seconds: float = 20.0,
                 near: Cell | None = None) -> None:
        self.circuit, self.layout, self.lines, self.limits = circuit, layout, text.split("\n"), limits_of_text(text)
        self.end = processor_seconds() + seconds
        # The cell at which the first fault was found; what lies near it is tried first.
        self.near = near
        self.tried = 0
        self.values = values_in_few_choices(circuit)
        self.all_values = self.values if self.values.is_all or len(circuit.inputs) > MAX_EXHAUSTIVE_INPUTS else \
            evaluate_all(circuit)
        self.touched: dict[int, int] = {}
        self.last = self.live_cells_at_end(layout, self.values, notes=True)

    def is_out_of_time(self) -> bool:
        """Whether the seconds are used up, or a run would be too long."""
        return processor_seconds() > self.end or self.layout.steps > MAX_WHOLE_RUN_STEPS

    def live_cells_at_end(self, layout: Layout, values: WireTables,
                          notes: bool = False) -> dict[int, TruthTable] | None:
        """Returns the live cells after the last step, or None if a step leaves the rectangle or the seconds are used
        up."""
        run = WholeRun(layout, values.tables, values.full)
        while run.time < layout.steps:
            if not run.step() or self.is_out_of_time():
                return None
            if notes:
                for key in run.field.changed:
                    self.touched.setdefault(key, run.time)
        return run.field.live

    def is_fixed_by(self, change: DesignChange) -> bool:
        """Whether the changed design ends as its layout asks, first in few choices of the inputs, then in all if they
        are at most 4096."""
        self.tried += 1
        for all_of_them in (False, True):
            if change.circuit is self.circuit:
                values = self.all_values if all_of_them else self.values
            elif all_of_them and len(self.circuit.inputs) <= MAX_EXHAUSTIVE_INPUTS:
                values = evaluate_all(change.circuit)
            else:
                values = values_in_few_choices(change.circuit)
            live = self.live_cells_at_end(change.layout, values)
            if live is None or wrong_cells(values, change.layout, live):
                return False
            if self.values.is_all:
                return True
        return True

    @cached_property
    def start_and_end_parts_by_cell(self) -> tuple[dict[Cell, LayoutPart], dict[Cell, LayoutPart]]:
        """The parts that take cells at the start, and those that take cells at the end."""
        starts = {cell: part for part in self.layout.parts if part.kind in START_PART_KINDS for cell in part.cells()}
        ends = {cell: part for part in self.layout.parts if part.kind in END_PART_KINDS for cell in part.cells()}
        return starts, ends

    def can_place_parts(self, new: list[LayoutPart], removed: set[LayoutPart]) -> bool:
        """Whether new parts lie in the rectangle and share no cell that only one part may take."""
        for kinds, taken in zip((START_PART_KINDS, END_PART_KINDS), self.start_and_end_parts_by_cell):
            cells = [cell for part in new if part.kind in kinds for cell in part.cells()]
            if len(set(cells)) < len(cells) or any(cell in taken and taken[cell] not in removed for cell in cells):
                return False
        return all(min(part.x, part.y) >= 0 and part.x + part.width <= self.layout.width
                   and part.y + part.height <= self.layout.height
                   for part in new)

    def possible_change_as_list(self, swaps: dict[LayoutPart, LayoutPart], more: Iterable[LayoutPart] = (),
                                gone: Iterable[LayoutPart] = ()) -> list[DesignChange]:
        """Returns the change that moves parts, adds some and drops some, or none if cells would be taken twice or lie
        outside."""
        dropped, added = set(gone), list(more)
        if not self.can_place_parts([*swaps.values(), *added], dropped | swaps.keys()):
            return []
        parts = [swaps.get(part, part) for part in self.layout.parts if part not in dropped] + added
        edits = [replacement(part.line, str(new)) for part, new in swaps.items()]
        edits += [deletion(part.line) for part in dropped]
        edits += [addition(insertion_line_in_section(self.lines, "layout", str(part)), str(part)) for part in added]
        return [DesignChange(tuple(edits), self.circuit, self.layout.with_parts(parts))]

    @cached_property
    def suspect_cells(self) -> list[Cell]:
        """The cells at which something is likely wrong: where the run and the run backwards from the wanted end are
        nearest to each other."""
        return [] if self.is_out_of_time() else cells_where_runs_differ_least(self.layout, self.values)

    def distance_to_fault(self, part: LayoutPart) -> int:
        """Returns how far a part lies from the places at which something is likely wrong, or from the first fault."""
        cells = self.suspect_cells or ([self.near] if self.near else [])
        return min((max(part.x - cell[0], cell[0] - part.x - part.width + 1, part.y - cell[1],
                        cell[1] - part.y - part.height + 1)
                    for cell in cells), default=0)


def shifted_part(part: LayoutPart, dx: int, dy: int) -> LayoutPart:
    """Returns a part at another place."""
    return part._replace(x=part.x + dx, y=part.y + dy)


# ---- the circuit and the ports, by the run that there is

def circuit_changes(bench: Testbench) -> Iterator[DesignChange]:
    """Yields changes of one gate line: two outputs or two inputs exchanged, the other bit of a source, `fredkin` for
    `cswap`."""
    for gate in bench.circuit.gates:
        for other in similar_gates(gate):
            gates = (*bench.circuit.gates[:gate.number], other, *bench.circuit.gates[gate.number + 1:])
            yield DesignChange((replacement(gate.line, str(other)),), with_fields(bench.circuit, gates=gates),
                               bench.layout)


def similar_gates(gate: Gate) -> Iterator[Gate]:
    """Yields gates that may be meant in place of a gate."""
    if gate.kind == "source":
        yield with_fields(gate, parameter=1 - (gate.parameter or 0))
    for one, two in combinations(range(len(gate.outs)), 2):
        yield with_fields(gate, outs=with_two_exchanged(gate.outs, one, two))
    for one, two in combinations(range(len(gate.ins)), 2):
        yield with_fields(gate, ins=with_two_exchanged(gate.ins, one, two))
    if gate.kind in ("fredkin", "cswap"):
        yield with_fields(gate, kind="cswap" if gate.kind == "fredkin" else "fredkin")


def with_two_exchanged(names: tuple[str, ...], one: int, two: int) -> tuple[str, ...]:
    """Returns names with two of them exchanged."""
    result = list(names)
    result[one], result[two] = names[two], names[one]
    return tuple(result)


def output_place_changes(bench: Testbench, reach: int | None, is_exchange: bool = False) -> Iterator[DesignChange]:
    """Yields the change that puts each wrong `out` where its output is at the end, at most `reach` cells away, and
    `waste` for what is left.

    If `is_exchange`, the wrong `out` lines only take each other's cells.
    """
    if bench.last is None:
        return
    wrong = wrong_cells(bench.values, bench.layout, bench.last)
    outs = [part for part in bench.layout.of_kind("out") if key_of(part.cell) in wrong]
    taken = {part.cell for part in bench.layout.of_kind("out") if part not in outs} | bench.layout.mirror_cells()
    places = [(cell_of(key), table) for key, table in sorted(bench.last.items()) if bench.layout.has(cell_of(key))]
    own = {part.cell for part in outs}
    swaps: dict[LayoutPart, LayoutPart] = {}
    for part in outs:
        table = bench.values.tables[part.name or ""]
        cells = [cell for cell, other in places if other == table and cell not in taken
                 and (not is_exchange or cell in own)
                 and (reach is None or max(abs(cell[0] - part.x), abs(cell[1] - part.y)) <= reach)]
        cell = min(cells, key=lambda place: (abs(place[0] - part.x) + abs(place[1] - part.y)), default=None)
        if cell is None:
            return
        taken.add(cell)
        swaps[part] = shifted_part(part, cell[0] - part.x, cell[1] - part.y)
    covered = {part.cell for part in bench.layout.of_kind("waste")}
    freed = [part for part in bench.layout.of_kind("waste") if part.cell in {new.cell for new in swaps.values()}]
    wastes = [part_for_stray_ball(bench, cell, table) for cell, table in places if key_of(cell) in wrong
              and cell not in taken | covered]
    if len(swaps) + len(wastes) + len(freed) <= MAX_CHANGE_LINES and (swaps or wastes):
        yield from bench.possible_change_as_list(swaps, wastes, freed)


def part_for_stray_ball(bench: Testbench, cell: Cell, table: TruthTable) -> LayoutPart:
    """Returns the part for a ball that no line asks for: the second cell of an `out`, or else `waste`."""
    name = next((part.name for part in bench.layout.of_kind("out")
                 if abs(part.x - cell[0]) == abs(part.y - cell[1]) == 2
                 and bench.values.tables[part.name or ""] == table), None)
    return LayoutPart("waste" if name is None else "out", name, *cell)


def added_output_changes(bench: Testbench) -> Iterator[DesignChange]:
    """Yields the change that gives each output without a cell the live cells that have its value at the end and that no
    line asks for."""
    if bench.last is None:
        return
    wrong = wrong_cells(bench.values, bench.layout, bench.last)
    named = {part.name for part in bench.layout.of_kind("out")}
    new: list[LayoutPart] = []
    for name in (name for name in bench.circuit.outputs if name not in named):
        cells = [cell_of(key) for key in sorted(wrong) if bench.last.get(key) == bench.values.tables[name]
                 and bench.layout.has(cell_of(key))]
        new += [LayoutPart("out", name, *cell) for cell in cells if cell not in {part.cell for part in new}]
    if new and len(new) <= MAX_CHANGE_LINES:
        yield from bench.possible_change_as_list({}, new)


def output_exchanges(bench: Testbench) -> Iterator[DesignChange]:
    """Yields exchanges of the names of two wrong outputs, whatever the number of their cells."""
    if bench.last is None:
        return
    wrong = wrong_cells(bench.values, bench.layout, bench.last)
    outs = bench.layout.of_kind("out")
    names = sorted({part.name or "" for part in outs if key_of(part.cell) in wrong})
    for index, one in enumerate(names):
        for two in names[index + 1:]:
            swaps = {part: part._replace(name=two if part.name == one else one) for part in outs
                     if part.name in (one, two)}
            if len(swaps) <= MAX_CHANGE_LINES:
                yield from bench.possible_change_as_list(swaps)
    for one in names:
        for two in bench.circuit.outputs:
            for part in (part for part in outs if part.name == one and two != one):
                yield from bench.possible_change_as_list({part: part._replace(name=two)})


def step_count_changes(bench: Testbench) -> Iterator[DesignChange]:
    """Yields other numbers of steps at which the run is as the layout asks, the nearest first."""
    steps, good = bench.layout.steps, []
    run = WholeRun(bench.layout, bench.values.tables, bench.values.full)
    for _ in range(min(2 * steps + 16, MAX_WHOLE_RUN_STEPS)):
        if not wrong_cells(bench.values, bench.layout, run.field.live):
            good.append(run.time)
        if not run.step() or bench.is_out_of_time():
            break
    header = next(number for number, line in enumerate(bench.lines, 1) if line.startswith("layout "))
    for time in sorted(good, key=lambda time: abs(time - steps)):
        if time != steps:
            edit = replacement(header, f"layout {bench.layout.width} {bench.layout.height} {time}")
            yield DesignChange((edit,), bench.circuit, with_fields(bench.layout, steps=time))


def enlarged_layout_changes(bench: Testbench) -> Iterator[DesignChange]:
    """Yields the layout with two more cells on each side, if something is live on its rim at the start, at the end or
    between."""
    layout = bench.layout
    if not any(layout.is_rim(cell_of(key)) for key in bench.touched) and not any(
            layout.is_rim(cell) for cell in bench.start_and_end_parts_by_cell[0]):
        return
    if max(layout.width, layout.height) + 4 > bench.limits.max_side:
        return
    header = next(number for number, line in enumerate(bench.lines, 1) if line.startswith("layout "))
    parts = [shifted_part(part, 2, 2) for part in layout.parts]
    wide = with_fields(layout, width=layout.width + 4, height=layout.height + 4).with_parts(parts)
    edits = [replacement(header, f"layout {wide.width} {wide.height} {wide.steps}"),
             *(replacement(part.line, str(part)) for part in parts)]
    yield DesignChange(tuple(edits), bench.circuit, wide)


# ---- the start, by the run backwards

def start_state_changes(bench: Testbench) -> Iterator[DesignChange]:
    """Yields the change of `in` and `ball` lines after which the start is that from which the wanted end comes."""
    if bench.is_out_of_time():
        return
    last = bench.last if bench.last is not None else {}
    start = start_of_wanted_end(bench.layout, bench.values, last)
    parts = {key_of(part.cell): part for part in bench.layout.of_kind("in") + bench.layout.of_kind("ball")}
    full, mirrors = bench.values.full, {key_of(cell) for cell in bench.layout.mirror_cells()}
    own = {key: full if part.kind == "ball" else bench.values.tables[part.name or ""] for key, part in parts.items()}
    differing = [key for key in start.keys() | own.keys() if key not in mirrors
                 and start.get(key, 0) != own.get(key, 0)]
    if len(differing) > MAX_CHANGE_LINES:
        return
    names = {bench.values.tables[name]: name for name in reversed(bench.circuit.inputs)}
    new: list[LayoutPart] = []
    for key in (key for key in differing if start.get(key)):
        kind = "ball" if start[key] == full else "in"
        if kind == "in" and start[key] not in names:
            return
        new.append(LayoutPart(kind, None if kind == "ball" else names[start[key]], *cell_of(key)))
    yield from replaced_part_changes(bench, [parts[key] for key in differing if key in parts], new)


def replaced_part_changes(bench: Testbench, gone: list[LayoutPart], new: list[LayoutPart]) -> Iterator[DesignChange]:
    """Yields the change that drops parts and adds others; parts of one kind and name are moved."""
    swaps: dict[LayoutPart, LayoutPart] = {}
    for part in list(gone):
        other = next((other for other in new if (other.kind, other.name) == (part.kind, part.name)), None)
        if other:
            swaps[part] = shifted_part(part, other.x - part.x, other.y - part.y)
            gone.remove(part)
            new.remove(other)
    yield from (change for change in bench.possible_change_as_list(swaps, new, gone) if change.edits)


def moved_part_changes(bench: Testbench, kinds: tuple[str, ...], reach: int = 2) -> Iterator[DesignChange]:
    """Yields moves of one part by at most `reach` cells, and of both cells of a ball of two cells together, those near
    the fault first."""
    parts = sorted((part for part in bench.layout.parts if part.kind in kinds), key=bench.distance_to_fault)
    offsets = [(dx, dy) for dx in range(-reach, reach + 1) for dy in range(-reach, reach + 1) if dx or dy]
    offsets.sort(key=lambda offset: abs(offset[0]) + abs(offset[1]))
    for part in parts:
        mates = [other for other in parts if other is not part and (other.kind, other.name) == (part.kind, part.name)
                 and abs(other.x - part.x) == abs(other.y - part.y) == 2 and part.kind != "mirror"]
        for group in ([part], *([part, mate] for mate in mates if part.line < mate.line)):
            for dx, dy in offsets:
                if (part.kind == "mirror" and has_mirror_parity(part)
                        and not has_mirror_parity(shifted_part(part, dx, dy))):
                    continue
                yield from bench.possible_change_as_list({member: shifted_part(member, dx, dy) for member in group})


def has_mirror_parity(part: LayoutPart) -> bool:
    """Whether a mirror has the form that is sure to stay: even sides, and exactly one odd coordinate."""
    return part.width % 2 == 0 and part.height % 2 == 0 and part.x % 2 != part.y % 2


def removed_part_changes(bench: Testbench) -> Iterator[DesignChange]:
    """Yields the layout without one `ball`, one mirror or one of several cells of a port."""
    ports = [part for part in bench.layout.parts if part.kind in ("in", "out")]
    for part in sorted(bench.layout.parts, key=bench.distance_to_fault):
        is_port = part.kind in ("in", "out")
        if part.kind in ("ball", "mirror") or is_port and sum((other.kind, other.name) == (part.kind, part.name)
                                                              for other in ports) > 1:
            yield from bench.possible_change_as_list({}, (), [part])


def added_ball_changes(bench: Testbench) -> Iterator[DesignChange]:
    """Yields the layout with one more `ball`: first the second cell of a ball of two cells, then each cell if they are
    few."""
    parts = sorted(bench.layout.of_kind("ball") + bench.layout.of_kind("in"), key=bench.distance_to_fault)
    cells = [(part.x + dx, part.y + dy) for part in parts for dx in (-2, 2) for dy in (-2, 2)]
    if bench.layout.width * bench.layout.height <= 1600:
        cells += [(x, y) for y in range(bench.layout.height) for x in range(bench.layout.width)]
    for cell in dict.fromkeys(cells):
        yield from bench.possible_change_as_list({}, [LayoutPart("ball", None, *cell)])


def added_mirror_changes(bench: Testbench, is_near: bool) -> Iterator[DesignChange]:
    """Yields the layout with one more mirror of a size that it has, at a place that balls come to.

    If `is_near`, only places near those at which something is likely wrong; else all, in the order in which balls come.
    """
    sizes = dict.fromkeys([(part.width, part.height) for part in bench.layout.of_kind("mirror")]
                          + [(2, 2), (2, 4), (4, 2)])
    keys = sorted(bench.touched, key=lambda key: bench.touched[key])
    if is_near:
        keys = [key_of((x + dx, y + dy)) for x,
                y in bench.suspect_cells for dy in range(-NEAR_DISTANCE, NEAR_DISTANCE + 1)
                for dx in range(-NEAR_DISTANCE, NEAR_DISTANCE + 1)]
    seen = set()
    for x, y in map(cell_of, keys):
        for width, height in sizes:
            for u, v in cells_of_rectangle(x - width + 1, y - height + 1, width, height):
                part = LayoutPart("mirror", None, u, v, width, height)
                if part not in seen and has_mirror_parity(part):
                    seen.add(part)
                    yield from bench.possible_change_as_list({}, [part])
