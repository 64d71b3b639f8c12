"""The parts of a join: bundles with the balls at their starts and ends, and what their balls and mirrors take."""

from array import array
from collections import defaultdict
from dataclasses import dataclass, field, replace
from itertools import chain, compress
from typing import Collection, Iterable, Sequence
from weakref import WeakValueDictionary

from ..host.terminal import LabError
from ..physics.simulation import local_wire_tables
from ..route.balls import Ball, block_corner, state_after_step
from ..route.netlist import RouterNetlist
from ..route.world import ROW_STRIDE, ROW_BITS, STEP_STRIDE, Footprint, cell_number, cell_of_number
from ..texts.certificates import Border, Certificate, Module
from ..texts.circuits import Circuit
from ..texts.documents import read_document
from ..texts.gates import TruthTable
from ..texts.layouts import Cell, Layout
from ..texts.owners import BlockOwners
from ..texts.refusals import refusal_words
from .flight_claims import pop_flight_ranges
from .lone_ways import LoneRun, LoneRuns, LoneWay, left_out_way, whole_balls_of

# The wire of a ball that is always there.
ALWAYS_SIGNAL = "1"


@dataclass(frozen=True)
class PartPort:
    """A ball at the start or at the end of a part, at its time there, with the wire that it carries.

    If the port is connected, `lone_run` is its run alone.
    """

    wire: str
    ball: Ball
    lone_run: LoneRun | None = None


class BlockClaimCounts:
    """How often each block of a layout is claimed, by the number of its upper left cell."""

    def __init__(self, layout: Layout, claims: Iterable[int] = ()) -> None:
        self.width, self.height = layout.width, layout.height
        self.counts = array("H", [0]) * (self.width * self.height)
        for claim in claims:
            self.counts[(claim % STEP_STRIDE >> ROW_BITS) * self.width + (claim & ROW_STRIDE - 1)] += 1

    def claim_count(self, corner: int) -> int:
        """Returns how often a block is claimed, which is 0 outside the layout."""
        x, y = cell_of_number(corner)
        return self.counts[y * self.width + x] if x < self.width and 0 <= y < self.height else 0


@dataclass(frozen=True)
class PartBundle:
    """A bundle that was read. Its ports and what it takes do not depend on the name that a join gives it.

    `start_fault` and `end_fault` say why the part cannot begin later, or end earlier than the others, if that is so.
    """

    circuit: Circuit
    layout: Layout
    certificate: Certificate
    starts: list[PartPort]
    ends: list[PartPort]
    item: Footprint
    start_fault: str = ""
    end_fault: str = ""
    counts: BlockClaimCounts = field(default_factory=lambda: BlockClaimCounts(Layout(0, 0, 0)))
    # The lone ways of wires that are cut at a time, and what the part takes without some of them, while it is in use.
    ways: dict[tuple[str, int], LoneWay] = field(default_factory=dict)
    footprints_by_cuts: "WeakValueDictionary[frozenset[tuple[str, int]], Footprint]" = field(
        default_factory=WeakValueDictionary)

    @property
    def flights(self) -> list[range]:
        """The flights whose blocks the part claims."""
        return [part for part in self.item.claim_parts if isinstance(part, range)]

    @property
    def is_cheaper_to_begin_later(self) -> bool:
        """Whether it takes fewer steps of balls to begin the part later than to lead its balls on."""
        return not self.start_fault and len(self.starts) < len(self.ends)

    def lone_way(self, wire: str, run: LoneRun, ball: Ball) -> LoneWay:
        """Returns the lone way of a wire's run that is cut at a ball."""
        key = wire, ball.time
        if key not in self.ways:
            self.ways[key] = left_out_way(run, ball, self.counts.claim_count, self.layout.mirror_cells())
        return self.ways[key]


def read_part(name: str, text: str, connected: Collection[str] = ()) -> PartBundle:
    """Returns a bundle with its balls; raises LabError if it is refused or cannot be joined.

    The ports of connected wires get their lone runs.
    """
    document = read_document(text, "check")
    if document.refusal is not None:
        raise LabError(f"{name}: {refusal_words(document, document.refusal.line)}", 1)
    circuit, layout, certificate = document.circuit, document.layout, document.certificate
    assert circuit is not None and layout is not None and certificate is not None
    if certificate.version == 1:
        raise LabError(f"{name}: its certificate has version 1: `bbmcheck migrate` writes version 2", 1)
    lone = {} if not connected else lone_runs(circuit, layout, certificate, connected)
    run = PartRun(circuit, layout, certificate, LoneRuns(list(lone.values())))
    last = run.run()
    counts = BlockClaimCounts(layout, run.claims)
    item = part_footprint(frozenset(map(cell_number, run.mirrors)), list(pop_flight_ranges(run.claims)))
    starts, start_fault = start_ports_and_fault(layout)
    ends, end_fault = end_ports_and_fault(circuit, layout, run.waste_wires_at_end(last))
    starts = [replace(port, lone_run=lone.get(("in", port.wire))) for port in starts]
    ends = [replace(port, lone_run=lone.get(("out", port.wire))) for port in ends]
    return PartBundle(circuit, layout, certificate, starts, ends, item, start_fault, end_fault, counts)


def lone_runs(circuit: Circuit, layout: Layout, certificate: Certificate,
              connected: Collection[str]) -> dict[tuple[str, str], LoneRun]:
    """Returns the lone runs of ports that carry connected wires, each one ball of two cells without delays.

    A ball from an input to an output has none.
    """
    netlist, mirrors = RouterNetlist(circuit), layout.mirror_cells()
    bound = {*netlist.delayed, *netlist.after, *(line.name for module in certificate.modules for line in module.stops)}
    bound |= set(circuit.inputs).intersection(circuit.outputs)
    cells: dict[tuple[str, str], list[Cell]] = defaultdict(list)
    for part in layout.parts:
        if part.kind in ("in", "out") and part.name in connected and part.name not in bound:
            cells[part.kind, part.name or ""].append(part.cell)
    runs = {}
    for (kind, wire), own in cells.items():
        balls = whole_balls_of(own, layout.steps if kind == "out" else 0) or []
        if len(balls) == 1 and not netlist.has_no_ball(wire):
            runs[kind, wire] = LoneRun(mirrors, balls[0], layout.steps, kind == "out")
    return runs


def start_ports_and_fault(layout: Layout) -> tuple[list[PartPort], str]:
    """Returns the balls at time 0, and why they are none if that is so."""
    cells: dict[str, list[Cell]] = defaultdict(list)
    for part in layout.parts:
        if part.kind in ("in", "ball"):
            cells[part.name or ALWAYS_SIGNAL].append(part.cell)
    return ports_and_fault_of_cells(cells, 0, "start")


def end_ports_and_fault(circuit: Circuit, layout: Layout, wastes: dict[Cell, str | None]) -> tuple[list[PartPort], str]:
    """Returns the balls at the last time, without cells that are never live, and why they are none if that is so."""
    cells: dict[str, list[Cell]] = defaultdict(list)
    netlist = RouterNetlist(circuit)
    for part in layout.of_kind("out"):
        if not netlist.has_no_ball(part.name or ""):
            cells[part.name or ""].append(part.cell)
    for cell, wire in wastes.items():
        if wire is None:
            return [], f"the `waste` cell ({cell[0]}, {cell[1]}) carries no wire"
        cells[wire].append(cell)
    return ports_and_fault_of_cells(cells, layout.steps, "end")


def ports_and_fault_of_cells(cells: dict[str, list[Cell]], time: int, what: str) -> tuple[list[PartPort], str]:
    """Returns the balls of the cells of each wire, and why they are none if that is so."""
    ports: list[PartPort] = []
    for wire, own in cells.items():
        balls = whole_balls_of(own, time)
        if balls is None:
            x, y = own[0]
            name = "constants" if wire == ALWAYS_SIGNAL else wire
            return [], f"the cells of {name} at its {what}, such as ({x}, {y}), are not balls of two cells"
        ports += [PartPort(wire, ball) for ball in balls]
    return ports, ""


def part_footprint(mirrors: frozenset[int], flights: Sequence[range]) -> Footprint:
    """Returns what a part takes whose balls claim the blocks at times of some flights."""
    ends = [(flight[0] % STEP_STRIDE, flight[-1] % STEP_STRIDE) for flight in flights]
    width = max((corner % ROW_STRIDE for own in ends for corner in own), default=0) + 2
    height = max((corner // ROW_STRIDE for own in ends for corner in own), default=0) + 2
    # A byte for each cell, which is 1 if it is touched.
    cells = bytearray(ROW_STRIDE * height)
    for flight, own in zip(flights, ends):
        first, last = min(own), max(own)
        step, ones = (last - first) // max(1, len(flight) - 1) or 1, b"\1" * len(flight)
        for offset in (0, 1, ROW_STRIDE, ROW_STRIDE + 1):
            cells[first + offset:last + offset + 1:step] = ones
    for number in filter(range(len(cells)).__contains__, mirrors):
        cells[number] = 0
    rows = (range(start, start + width) for start in range(0, len(cells), ROW_STRIDE))
    touched = array("i", chain.from_iterable(compress(row, cells[row.start:row.stop]) for row in rows))
    return Footprint(mirrors, (touched,), tuple(flights))


class PartRun:
    """The runs of all modules of a bundle with a yes: they have each block in which a ball moves, under any inputs."""

    def __init__(self, circuit: Circuit, layout: Layout, certificate: Certificate, lone: LoneRuns) -> None:
        self.circuit, self.layout, self.certificate, self.lone = circuit, layout, certificate, lone
        self.owners: BlockOwners = certificate.owners
        self.mirrors = layout.mirror_cells()
        self.claims: set[int] = set()
        self.starts: dict[int, dict[Cell, str]] = defaultdict(dict)
        for part in layout.parts:
            if part.kind in ("in", "ball"):
                self.starts[self.owners.owner_at(part.cell)][part.cell] = part.name or ALWAYS_SIGNAL
        # The lines that each module hears.
        self.heard: dict[int, list[Border]] = defaultdict(list)
        for module in certificate.modules:
            for line in module.edges:
                if line.time is not None or line.cell not in self.mirrors:
                    self.note_edge_in_halos(module, line)

    def note_edge_in_halos(self, module: Module, line: Border) -> None:
        """Notes which modules hear a line."""
        x, y = line.cell
        near = {self.owners.owner_at((x + i, y + j)) for i in (-1, 1) for j in (-1, 1)}
        for number in near - {module.number, -1}:
            self.heard[number].append(line)

    def pop_halo_wires(self, number: int) -> dict[int, dict[Cell, str]]:
        """Returns the wires of the cells that a module hears, by time."""
        heard: dict[int, dict[Cell, str]] = defaultdict(dict)
        for line in self.heard.pop(number, ()):
            for time in (line.time,) if line.time is not None else range(1, self.layout.steps, 2):
                heard[time][line.cell] = line.signal
        return heard

    def run(self) -> dict[Cell, tuple[Module, TruthTable]]:
        """Runs all modules; returns the cells that move at the end, with their tables."""
        last: dict[Cell, tuple[Module, TruthTable]] = {}
        for module in self.certificate.modules:
            last.update((cell, (module, table)) for cell, table in self.run_module(module).items())
        return last

    def run_module(self, module: Module) -> dict[Cell, TruthTable]:
        """Runs a module, notes the blocks in which something moves, and returns the cells that move at the end."""
        heard, box, steps = self.pop_halo_wires(module.number), module.box, self.layout.steps
        times, starts = sorted(heard, reverse=True), self.starts[module.number]
        if not times and not starts:
            return {}
        values = local_wire_tables(self.circuit, module)
        full = values.full
        for table in values.defined_columns_by_gate.values():
            full &= table
        tables = {name: table & full for name, table in values.tables.items()} | {ALWAYS_SIGNAL: full}
        live = {cell: tables[wire] for cell, wire in starts.items() if tables[wire]}
        time = 0
        while time < steps:
            while times and times[-1] < time:
                times.pop()
            if not live:
                if not times:
                    break
                time = times[-1]
            now = dict(live)
            if time % 2 and time in heard:
                now.update((cell, tables[wire]) for cell, wire in heard[time].items() if tables[wire])
            corners = {block_corner(cell, time) for cell in now}
            claims = {time * STEP_STRIDE + y * ROW_STRIDE + x for x, y in corners}
            self.claims |= claims
            self.lone.note_meetings_in_blocks(time, claims, now.keys())
            following = state_after_step(self.mirrors, now, full, corners)
            if following is None:
                raise LabError("a module of a bundle with a yes does not run: this is an error of the lab")
            live, time = {cell: table for cell, table in following.items() if box.has(cell)}, time + 1
        return live

    def waste_wires_at_end(self, last: dict[Cell, tuple[Module, TruthTable]]) -> dict[Cell, str | None]:
        """Returns the wire of each `waste` cell that may be live at the last time, or None if it carries none."""
        netlist, wires = RouterNetlist(self.circuit), dict[Cell, str | None]()
        spills = set(self.circuit.spills)
        for part in self.layout.of_kind("waste"):
            if part.cell not in last:
                continue
            module, table = last[part.cell]
            values = local_wire_tables(self.circuit, module)
            full = values.full
            for rows in values.defined_columns_by_gate.values():
                full &= rows
            names = [name for name, own in values.tables.items() if own & full == table]
            names.sort(key=lambda name: (name not in spills, self.circuit.rank(name)))
            wire = names[0] if names else (ALWAYS_SIGNAL if table == full else None)
            is_always = wire is not None and netlist.constants.get(netlist.root_wire_of(wire))
            wires[part.cell] = ALWAYS_SIGNAL if is_always else wire
        return wires

