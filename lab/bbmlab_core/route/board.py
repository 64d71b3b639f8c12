"""What an attempt has placed so far: gates, paths, waiting balls, and the wires that each box of the certificate needs.
"""

from dataclasses import dataclass, field, replace
from enum import Enum
from typing import Iterable

from ..circuits.cones import few_cuts_and_uses
from ..texts.certificates import MAX_CUTS
from .balls import Ball, Leg
from .cells import GateCell
from .netlist import RouterNetlist
from .paths import Path
from .settings import RouterSettings
from .world import ROW_STRIDE, TILE_SIDE, Footprint, RoutingGrid, gate_cell_footprint, path_footprint


class FailureKind(Enum):
    """What ended an attempt."""

    TIME = "the time was over"
    ROOM = "a gate found no room"
    PATH = "an input could not be led to its gate"
    END = "a ball could not be led to the last time"
    WIRES = "a box needed too many wires"
    KEEP = "an inverse gate could not be kept"
    ERROR = "the router made an error"


class NoRouteError(Exception):
    """An attempt found no route. The message names the gate or the wire, and the reason."""

    def __init__(self, message: str, bound: FailureKind = FailureKind.ERROR) -> None:
        super().__init__(message, bound)
        self.bound = bound

    def __str__(self) -> str:
        """Returns the message."""
        return str(self.args[0])


TileBox = tuple[int, int, int, int]


@dataclass(frozen=True)
class PlacedGate:
    """A gate's cell at a place and a time, and its box: first tile column and row, and the counts of columns and rows.
    """

    number: int
    cell: GateCell
    x: int
    y: int
    time: int
    box: TileBox
    item: Footprint

    def output_ball(self, name: str) -> Ball:
        """Returns the ball of an output."""
        return self.cell.outs[name].shifted_by(self.x, self.y, self.time)

    def input_ball(self, name: str) -> Ball:
        """Returns the ball of an input."""
        return self.cell.ins[name].shifted_by(self.x, self.y, self.time)


@dataclass(frozen=True)
class WaitingBall:
    """A ball that waits to be led on, and what is reserved for its next steps.

    Without a ball, it may begin anywhere at time 0.
    """

    ball: Ball | None = None
    item: Footprint | None = None


@dataclass(eq=False)
class Placement:
    """A gate that was placed, the paths to its inputs, and its outputs that wait; with its inputs before.

    `parking_paths` has the first paths of outputs that no gate consumes: they lead away from the gate.
    """

    gate: PlacedGate
    paths: list[Path]
    outs: dict[str, WaitingBall] = field(default_factory=dict)
    parking_paths: list[Path] = field(default_factory=list)
    waiting_before: dict[str, WaitingBall] = field(default_factory=dict)

    def with_gate_number(self, number: int) -> "Placement":
        """Returns the step for a gate with another number, before it is added."""
        return Placement(replace(self.gate, number=number), self.paths, self.outs, self.parking_paths)


def gate_tile_box(cell: GateCell, x: int, y: int) -> TileBox:
    """Returns the box of whole tiles whose inside has all cells of a placed gate that carry no wire."""
    left, top, right, bottom = cell.unnamed_cell_bounds
    first_column, first_row = (left + x - 1) // TILE_SIDE, (top + y - 1) // TILE_SIDE
    last_column, last_row = (right + x + 1) // TILE_SIDE, (bottom + y + 1) // TILE_SIDE
    return first_column, first_row, last_column - first_column + 1, last_row - first_row + 1


def tiles_in(box: TileBox) -> list[int]:
    """Returns the tiles of a box."""
    column, row, columns, rows = box
    return [(row + j) * ROW_STRIDE + column + i for j in range(rows) for i in range(columns)]


class Board:
    """The state of an attempt. Each change can be taken back."""

    def __init__(self, netlist: RouterNetlist, size: int, settings: RouterSettings, height: int | None = None) -> None:
        self.netlist, self.settings = netlist, settings
        self.world = RoutingGrid(size, height)
        # The root wires that wait.
        self.waiting: dict[str, WaitingBall] = {root: WaitingBall() for root in netlist.roots_starting_anywhere()}
        self.steps: list[Placement] = []
        self.ends: list[Path] = []
        # For each tile the wires that its box needs, with the number of items for which it does; and the gate that owns
        # it.
        self.names: dict[int, dict[str, int]] = {}
        self.owners: dict[int, PlacedGate] = {}

    @property
    def width(self) -> int:
        """The width of the plane."""
        return self.world.size

    @property
    def height(self) -> int:
        """The height of the plane."""
        return self.world.height

    def try_grow(self, part: int, most: int) -> bool:
        """Adds the given part of the side at the right and below, in whole pairs of tiles; returns whether that is at
        most `most` cells."""
        cells = max(2 * TILE_SIDE, self.width // part // (2 * TILE_SIDE) * 2 * TILE_SIDE)
        if self.width + cells > most:
            return False
        self.world.grow(cells)
        return True

    # --- wires of boxes -----------------------------------------------------------------------------------------------

    def change_wire_need_counts(self, wires: Iterable[str], tiles: Iterable[int], change: int) -> None:
        """Notes that tiles need wires for one more item, or for one less."""
        for tile in tiles:
            names = self.names.setdefault(tile, {})
            for wire in wires:
                count = names.get(wire, 0) + change
                if count:
                    names[wire] = count
                else:
                    del names[wire]

    def wires_of(self, root: str) -> list[str]:
        """Returns the wires by which certificates know the ball of a root: none if it is a constant."""
        return [] if root in self.netlist.constants else self.netlist.wires_of_ball(root)

    def wires_needed_in(self, tiles: Iterable[int]) -> set[str]:
        """Returns the wires that some tiles need."""
        return {wire for tile in tiles for wire in self.names.get(tile, ())}

    def has_wire_room_for(self, root: str, tiles: frozenset[int]) -> bool:
        """Whether the boxes of tiles have room for the wires of a ball."""
        wires = self.wires_of(root)
        if not wires:
            return True
        boxes = {self.owners[tile].box: self.owners[tile] for tile in tiles if tile in self.owners}
        for tile in tiles:
            names = self.names.get(tile)
            if names and tile not in self.owners and len(names) + len(wires) > MAX_CUTS:
                if len(few_cuts_and_uses(self.netlist.circuit, {*names, *wires}, ())[0]) > MAX_CUTS:
                    return False
        # A gate's box also knows the wires that pass within one cell of it.
        return all(self.has_wire_room_in_box(box, [gate.number], wires, 1) for box, gate in boxes.items())

    def has_wire_room_in_box(self, box: TileBox, used: list[int], wires: Iterable[str], spare: int = 0) -> bool:
        """Whether a box that uses gates has room for more wires, and then for `spare` others."""
        names = self.wires_needed_in(tiles_in(box)) | set(wires)
        return len(few_cuts_and_uses(self.netlist.circuit, names, used)[0]) <= MAX_CUTS - spare

    # --- waiting balls ------------------------------------------------------------------------------------------------

    def new_waiting_ball(self, ball: Ball) -> WaitingBall | None:
        """Returns a ball that waits, or None if its next steps leave the layout or meet something."""
        for steps in self.settings.reserved_steps:
            far = ball.after_flight(steps)
            if self.world.is_inside(far.x, far.y) and self.world.is_inside(ball.x, ball.y):
                item = path_footprint(ball, [Leg(steps, None)])
                if item and self.world.can_add(item):
                    return WaitingBall(ball, item)
        return None

    def add_waiting_ball(self, root: str, waiting: WaitingBall) -> None:
        """Makes a root wait."""
        self.waiting[root] = waiting
        if waiting.item is not None:
            self.world.add(waiting.item)
            self.change_wire_need_counts(self.wires_of(root), waiting.item.tiles, 1)

    def wait_again(self, root: str, before: WaitingBall) -> bool:
        """Makes a root wait as before, or with a shorter reservation if something is in the way; returns whether that
        was possible."""
        waiting: WaitingBall | None = before
        if before.ball is not None and (before.item is None or not self.world.can_add(before.item)):
            waiting = self.new_waiting_ball(before.ball)
        if waiting is None:
            return False
        self.add_waiting_ball(root, waiting)
        return True

    def stop_waiting(self, root: str) -> WaitingBall:
        """Ends the waiting of a root, and returns it."""
        waiting = self.waiting.pop(root)
        if waiting.item is not None:
            self.world.remove(waiting.item)
            self.change_wire_need_counts(self.wires_of(root), waiting.item.tiles, -1)
        return waiting

    # --- paths and gates ----------------------------------------------------------------------------------------------

    def add_path(self, path: Path, is_there: bool = False) -> None:
        """Adds a path, which may be in the world already."""
        if not is_there:
            self.world.add(path.item)
        self.change_wire_need_counts(self.wires_of(path.wire), path.item.tiles, 1)

    def remove_path(self, path: Path) -> None:
        """Removes a path."""
        self.world.remove(path.item)
        self.change_wire_need_counts(self.wires_of(path.wire), path.item.tiles, -1)

    def make_placed_gate(self, x: int, y: int, time: int, cell: GateCell, number: int) -> PlacedGate:
        """Returns a gate's cell at a place and a time, without adding it."""
        return PlacedGate(number, cell, x, y, time, gate_tile_box(cell, x, y), gate_cell_footprint(cell, x, y, time))

    def gate_wires(self, gate: PlacedGate) -> list[str]:
        """Returns the wires at a gate's ports that are no constants."""
        line = self.netlist.circuit.gates[gate.number]
        return [wire for wire in line.ins + line.outs if self.netlist.root_wire_of(wire) not in self.netlist.constants]

    def add_gate(self, gate: PlacedGate) -> None:
        """Adds a gate's cell and its box."""
        self.world.add(gate.item)
        for tile in tiles_in(gate.box):
            self.owners[tile] = gate
        self.change_wire_need_counts(self.gate_wires(gate), self.touched_gate_tiles(gate), 1)

    def remove_gate(self, gate: PlacedGate) -> None:
        """Removes a gate's cell and its box."""
        self.world.remove(gate.item)
        for tile in tiles_in(gate.box):
            del self.owners[tile]
        self.change_wire_need_counts(self.gate_wires(gate), self.touched_gate_tiles(gate), -1)

    def touched_gate_tiles(self, gate: PlacedGate) -> frozenset[int]:
        """Returns the tiles to which a gate's moving cells come."""
        return gate.item.touched_tiles

    def add_placement(self, step: Placement) -> None:
        """Adds a gate with its paths, and lets its outputs wait."""
        self.add_gate(step.gate)
        for path in step.paths:
            step.waiting_before[path.wire] = self.stop_waiting(path.wire)
            self.add_path(path)
        for path in step.parking_paths:
            self.add_path(path)
        for wire, waiting in step.outs.items():
            self.add_waiting_ball(wire, waiting)
        self.steps.append(step)

    def adopt_placements(self, steps: list[Placement]) -> str:
        """Adds gates and paths, and lets the balls that are left wait; returns the root of a ball that has no room to
        wait, or no name.

        What another board reserved for a ball that waited there may be taken by a path that was led later.
        """
        for step in steps:
            self.add_gate(step.gate)
            for path in step.paths:
                step.waiting_before[path.wire] = self.waiting.pop(path.wire)
            for path in [*step.paths, *step.parking_paths]:
                self.add_path(path)
            self.waiting.update(step.outs)
        self.steps += steps
        left = {root: waiting for root, waiting in self.waiting.items() if waiting.ball}
        return next((root for root, waiting in left.items() if not self.wait_again(root, waiting)), "")

    def park_output(self, step: Placement, path: Path, waiting: WaitingBall) -> None:
        """Leads an output of the last gate on, to where it waits from then on."""
        self.add_path(path)
        step.parking_paths.append(path)
        step.outs[path.wire] = waiting
        self.add_waiting_ball(path.wire, waiting)

    def take_last_gate_back(self) -> Placement:
        """Takes the last gate back, and returns it."""
        step = self.steps.pop()
        for wire in step.outs:
            self.stop_waiting(wire)
        for path in [*step.paths, *step.parking_paths]:
            self.remove_path(path)
        self.remove_gate(step.gate)
        for wire, waiting in step.waiting_before.items():
            if not self.wait_again(wire, waiting):
                raise NoRouteError(f"the ball of wire {wire} has no room to wait", FailureKind.ROOM)
        step.waiting_before = {}
        return step

    def take_gate_out(self, step: Placement) -> bool:
        """Takes any gate back whose outputs all wait, so that it can be placed elsewhere; returns whether its inputs
        have room to wait."""
        if any(wire not in self.waiting for wire in step.outs):
            return False
        for wire in step.outs:
            self.stop_waiting(wire)
        for path in [*step.paths, *step.parking_paths]:
            self.remove_path(path)
        self.remove_gate(step.gate)
        again: list[str] = []
        for root, before in step.waiting_before.items():
            if not self.wait_again(root, before):
                break
            again.append(root)
        if len(again) == len(step.waiting_before):
            self.steps.remove(step)
            return True
        for root in again:
            self.stop_waiting(root)
        self.add_gate(step.gate)
        for path in [*step.paths, *step.parking_paths]:
            self.add_path(path)
        for wire, waiting in step.outs.items():
            self.add_waiting_ball(wire, waiting)
        return False
