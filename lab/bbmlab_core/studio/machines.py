"""The machines of a layout: balls that meet others, one after another, belong to one. A whole machine can begin later.

The run is that under all choices of up to 12 inputs, else under samples. Two balls that come into one block at one time
count as meeting, under whichever choices each is there.
"""

from array import array
from dataclasses import dataclass, replace

from ..host.terminal import LabError
from ..joining.flight_claims import pop_flight_ranges
from ..joining.lone_ways import whole_balls_of
from ..joining.parts import part_footprint, start_ports_and_fault
from ..pictures.drawing import wire_tables_and_column
from ..route.balls import Ball, block_corner, start_state, state_after_step
from ..route.world import ROW_STRIDE, STEP_STRIDE, Footprint, cell_number
from ..texts.documents import Document
from ..texts.layouts import Cell

# A longer run takes minutes.
MAX_RUN_MOVES = 2_000_000


@dataclass(frozen=True)
class FinalBall:
    """A ball at the last time, with the kind and the name of its port."""

    kind: str
    name: str | None
    ball: Ball


class MachineRun:
    """The run of a layout that finds its machines. Each ball at the start is a machine until it meets another one."""

    def __init__(self, document: Document) -> None:
        layout = document.layout
        assert layout
        self.layout, self.mirrors = layout, layout.mirror_cells()
        self.tables, self.full, _ = wire_tables_and_column(document, [])
        self.starts, fault = start_ports_and_fault(layout)
        if fault:
            raise LabError(f"{fault[:1].upper()}{fault[1:]}, and only these can be led.")
        self.root = list(range(len(self.starts)))
        self.machine = {cell: number for number, port in enumerate(self.starts) for cell in port.ball.cells()}
        # The blocks in which balls move, at their times, by the balls they were when they were noted.
        self.claims: list[array[int]] = [array("q") for _ in self.starts]
        self.run()
        self.ends = self.end_balls()

    def machine_of_ball(self, number: int) -> int:
        """Returns the machine of a ball."""
        while self.root[number] != number:
            self.root[number] = number = self.root[self.root[number]]
        return number

    def run(self) -> None:
        """Runs the layout. Raises LabError if a mirror breaks or a ball leaves."""
        live, moves = start_state([(port.ball, self.full if port.wire == "1" else self.tables.get(port.wire, 0))
                                   for port in self.starts]), 0
        for time in range(self.layout.steps):
            blocks: dict[Cell, int] = {}
            for cell in live:
                corner, own = block_corner(cell, time), self.machine_of_ball(self.machine[cell])
                other = blocks.setdefault(corner, own)
                if other != own:
                    self.root[own] = self.machine_of_ball(other)
            following = state_after_step(self.mirrors, live, self.full, set(blocks))
            moves += len(live)
            if following is None or not all(map(self.layout.has, following)):
                raise LabError(f"At time {time} a mirror breaks or a ball leaves the layout: fix this first.")
            if moves > MAX_RUN_MOVES:
                raise LabError(f"The layout makes more than {MAX_RUN_MOVES} moves, which takes too long here.")
            for (x, y), number in blocks.items():
                self.claims[number].append(time * STEP_STRIDE + y * ROW_STRIDE + x)
            self.machine = {cell: blocks[block_corner(cell, time)] for cell in following}
            live = following

    def end_balls(self) -> list[FinalBall]:
        """Returns the balls at the last time. Raises LabError if cells there are none."""
        groups: dict[tuple[str, str | None], list[Cell]] = {}
        for part in self.layout.parts:
            if part.kind in ("out", "waste") and part.cell in self.machine:
                groups.setdefault((part.kind, part.name), []).append(part.cell)
        found = []
        for (kind, name), cells in groups.items():
            balls = whole_balls_of(cells, self.layout.steps)
            if balls is None:
                raise LabError(f"The cells of {name or 'waste'} at the end, such as {cells[0]}, are not balls of two "
                               "cells, and only these can be led.")
            found += [FinalBall(kind, name, ball) for ball in balls]
        return found

    def machine_of_end_ball(self, ball: Ball) -> int:
        """Returns the machine of a ball at the last time."""
        return self.machine_of_ball(self.machine[ball.cells()[0]])

    def machines_footprint(self, numbers: set[int], is_for_mirrors: bool) -> Footprint:
        """Returns what some machines take. Mirrors, which are nobody's, are in one of the items."""
        claims = {claim for number, own in enumerate(self.claims) if self.machine_of_ball(number) in numbers
                  for claim in own}
        machines_item = part_footprint(frozenset(map(cell_number, self.mirrors)), list(pop_flight_ranges(claims)))
        return machines_item if is_for_mirrors else replace(machines_item, mirrors=frozenset())
