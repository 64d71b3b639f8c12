"""The text of a join: the circuit, the layout with all parts and paths, and the certificate."""

from functools import cached_property
from itertools import chain
from typing import Iterator

from ..route.design import outermost_cell_numbers
from ..route.netlist import RouterNetlist
from ..route.paths import Path
from ..route.search import RoutedBundle
from ..route.world import SINGLE_BITS, RIM_CELLS, ROW_STRIDE, ROW_BITS, TILE_SIDE
from ..texts.layouts import Box, Cell, row_order_key
from ..texts.limits import smallest_fitting_limits, text_with_limits_line
from .composing import Composition
from .modules import JoinedModules
from .parts import ALWAYS_SIGNAL
from .planning import JoinPlan, PlacedPart


class JoinedLayout:
    """The layout of a join. `wires` has the wire of each `in` and `out` cell."""

    def __init__(self, composed: Composition, plan: JoinPlan, paths: list[Path]) -> None:
        self.composed, self.plan, self.paths = composed, plan, paths
        self.netlist = RouterNetlist(composed.circuit)
        self.starts: dict[str, list[Cell]] = {}
        self.ends: dict[str, list[Cell]] = {}
        for placed in plan.placed:
            self.add_part_ports(placed)
        for job, path in zip(plan.jobs, paths):
            if job.start is None:
                self.starts.setdefault(job.wire, []).extend(path.start.cells())
            if job.goal is None:
                self.ends.setdefault(job.wire, []).extend(path.end.cells())
        self.add_never_true_outputs()

    def add_part_ports(self, placed: PlacedPart) -> None:
        """Adds the ports of a part that begin at time 0 or end at the last time: they stay where they are."""
        part, layout = placed.part, placed.part.bundle.layout
        taken = {own.input for own in self.composed.connections if own.target == part.name}
        given = {own.output for own in self.composed.connections if own.source == part.name}
        if placed.time == 0:
            for own in layout.parts:
                if own.kind in ("in", "ball") and own.name not in taken:
                    self.starts.setdefault(part.joined_wire(own.name or ALWAYS_SIGNAL),
                                           []).append(placed.placed_cell(own.cell))
        if placed.end_time == self.plan.end:
            for own in (own for own in layout.of_kind("out") if own.name not in given):
                self.ends.setdefault(part.joined_wire(own.name or ""), []).append(placed.placed_cell(own.cell))
            for own in layout.of_kind("waste"):
                self.ends.setdefault("", []).append(placed.placed_cell(own.cell))

    def add_never_true_outputs(self) -> None:
        """Gives each output that is never true and has no cell a cell of the first rows, where nothing moves."""
        dead = 0
        for wire in self.composed.circuit.outputs:
            if wire not in self.ends:
                self.ends[wire] = [(dead % self.plan.width, dead // self.plan.width)]
                dead += 1

    def lines(self) -> Iterator[str]:
        """Yields the lines of the layout section."""
        plan, circuit = self.plan, self.composed.circuit
        yield f"layout {plan.width} {plan.height} {plan.end}"
        for x, y, width, height in rectangles_of_rows(self.mirror_rows):
            yield f"mirror {x} {y} {width} {height}"
        for x, y in sorted(self.starts.get(ALWAYS_SIGNAL, []), key=row_order_key):
            yield f"ball {x} {y}"
        for wire in circuit.inputs:
            for x, y in sorted(self.starts.get(wire, []), key=row_order_key):
                yield f"in {wire} {x} {y}"
        outs = set(circuit.outputs)
        for wire in circuit.outputs:
            for x, y in sorted(self.ends[wire], key=row_order_key):
                yield f"out {wire} {x} {y}"
        wastes = [cell for wire, cells in self.ends.items() if wire not in outs for cell in cells]
        for x, y in sorted(wastes, key=row_order_key):
            yield f"waste {x} {y}"
        yield "end"

    @cached_property
    def mirror_rows(self) -> list[int]:
        """The cells of all mirrors, as bits of rows."""
        rows = [0] * self.plan.height
        parts = (placed.placing.cell_number_map().map_all(placed.part.footprint.mirrors) for placed in self.plan.placed)
        for number in chain.from_iterable(chain(parts, (path.item.mirrors for path in self.paths))):
            rows[number >> ROW_BITS] |= SINGLE_BITS[number & ROW_STRIDE - 1]
        return rows

    @property
    def mirror_cell_count(self) -> int:
        """The number of cells of mirrors."""
        return sum(row.bit_count() for row in self.mirror_rows)

    def port_cells(self) -> Iterator[tuple[Cell, str]]:
        """Yields the cells of inputs and outputs with their wires."""
        circuit = self.composed.circuit
        for wires, cells in ((circuit.inputs, self.starts), (circuit.outputs, self.ends)):
            for wire in wires:
                for cell in cells.get(wire, []):
                    yield cell, wire


def rectangles_of_rows(rows: list[int]) -> Iterator[Box]:
    """Yields rectangles that do not overlap and together have the cells of rows of bits, by y and then x."""
    left = list(rows)
    for y in range(len(left)):
        while left[y]:
            x = (left[y] & -left[y]).bit_length() - 1
            beyond = ~(left[y] >> x)
            width, height = (beyond & -beyond).bit_length() - 1, 1
            own = (1 << width) - 1 << x
            while y + height < len(left) and left[y + height] & own == own:
                height += 1
            for below in range(y, y + height):
                left[below] ^= own
            yield Box(x, y, width, height)


def set_cropped_size(plan: JoinPlan, paths: list[Path]) -> None:
    """Leaves out whole tiles of a plane at the right and below that nothing reaches."""
    numbers = [number for path in paths for number in outermost_cell_numbers(path.item)]
    right = max([0, *(number % ROW_STRIDE + RIM_CELLS for number in numbers),
                 *(own.x + own.extent.width for own in plan.placed)])
    bottom = max([0, *(number // ROW_STRIDE + RIM_CELLS for number in numbers),
                  *(own.y + own.extent.height for own in plan.placed)])
    plan.width = min(plan.side, (right // TILE_SIDE + 1) * TILE_SIDE)
    plan.height = min(plan.side, (bottom // TILE_SIDE + 1) * TILE_SIDE)


def make_joined_bundle(composed: Composition, plan: JoinPlan, modules: JoinedModules,
                       paths: list[Path]) -> RoutedBundle:
    """Returns the bundle of a join whose balls are all led; raises NoRouteError if a module needs too many wires."""
    set_cropped_size(plan, paths)
    layout = JoinedLayout(composed, plan, paths)
    modules.note_border_lines(paths, layout.port_cells())
    texts, count, most_cuts = ["certificate 2\n"], 0, 0
    for module in modules.modules(paths):
        texts.append(str(module))
        count, most_cuts = count + 1, max(most_cuts, len(module.cuts))
    circuit, side = composed.circuit, max(plan.width, plan.height)
    limits = smallest_fitting_limits(side, plan.end, count, len(circuit.gates), len(circuit.wires))
    text = text_with_limits_line("".join([composed.section, "\n".join(layout.lines()), "\n", *texts, "end\n"]), limits)
    gates = sum(gate.kind not in ("source", "delay") for gate in circuit.gates)
    return RoutedBundle(text, "", plan.width, plan.height, plan.end, layout.mirror_cell_count, count, most_cuts, gates)
