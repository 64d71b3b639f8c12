"""Places and times for the parts of a join: rows on a square, each part turned and late enough for its balls.

Shifts are even and places are whole tiles, so blocks stay blocks and the boxes of parts and tiles do not overlap.
"""

import math
from dataclasses import dataclass

from ..route.balls import Ball
from ..route.world import TILE_SIDE
from ..texts.layouts import Cell
from ..texts.limits import SECOND_LIMITS
from .composing import Composition, NamedPart
from .places import LEAST_GAP, Extent, Place, place_arrangements
from .turning import ORIENTATIONS, UNTURNED, PartTransform, PartOrientation

# The part of the plane between the parts that may be taken by estimate, and the cells that a ball newly touches in a
# step.
FILL_SHARE = 0.2
NEW_CELLS_PER_STEP = 2.6


@dataclass(frozen=True)
class SpareSteps:
    """The steps to spare of balls between two parts: for each cell of the way, and further ones.

    Balls fly round what is in the way.
    """

    steps_per_cell: float
    steps: int

    def steps_between(self, first: Ball, last: Ball) -> int:
        """Returns the steps from a ball to another one."""
        return int((1 + self.steps_per_cell) * max(offsets_between(first, last))) + self.steps


def offsets_between(first: Ball, last: Ball) -> tuple[int, int]:
    """Returns the columns and rows from a ball to another one."""
    return abs(first.x - last.x), abs(first.y - last.y)


# The steps to spare of each ball between two parts: the next ones if it could not be led, or if the columns or rows of
# its way are more than a part of the others: it has few ways to go.
SPARES = (SpareSteps(0.1, 60), SpareSteps(0.2, 100), SpareSteps(0.35, 150), SpareSteps(0.35, 250),
          SpareSteps(0.35, 350))
MAX_OFFSET_RATIO = 0.6
# A ball that is led deeper into its part than so many cells gets a step to spare for each further cell.
SHALLOW_DEPTH_CELLS = 150
# The place of the first spare steps in `SPARES` if a ball is led so deep.
DEEP_SPARE_INDEX = 2
# How often all parts are turned anew.
ORIENTATION_ROUNDS = 2
# For each connection the place of its spare steps in `SPARES`.
SpareIndices = list[int]


@dataclass
class PlacedPart:
    """A part at a place and a time."""

    part: NamedPart
    x: int = 0
    y: int = 0
    time: int = 0
    turning: PartOrientation = UNTURNED

    @property
    def placing(self) -> PartTransform:
        """Where the part's plane is in the join."""
        layout = self.part.bundle.layout
        return PartTransform(layout.width, layout.height, self.x, self.y, self.time, self.turning)

    def placed_ball(self, ball: Ball) -> Ball:
        """Returns a ball of the part where and when it is in the join."""
        return self.placing.placed_ball(ball)

    def placed_cell(self, cell: Cell) -> Cell:
        """Returns a cell of the part where it is in the join."""
        return self.placing.placed_cell(cell)

    @property
    def extent(self) -> Extent:
        """The width and the height in cells, in whole tiles."""
        layout = self.part.bundle.layout
        return Extent(-(-layout.width // TILE_SIDE) * TILE_SIDE, -(-layout.height // TILE_SIDE) * TILE_SIDE)

    def excess_depth(self, ball: Ball) -> int:
        """Returns how many cells deeper than `SHALLOW_DEPTH_CELLS` a ball is in the part, or 0."""
        area = self.extent
        return max(0, min(ball.x - self.x, self.x + area.width - ball.x,
                          ball.y - self.y, self.y + area.height - ball.y) - SHALLOW_DEPTH_CELLS)

    @property
    def end_time(self) -> int:
        """The last time of the part in the join."""
        return self.time + self.part.bundle.layout.steps


@dataclass
class BallJob:
    """A ball to lead: from a ball or from any place at time 0, to a ball or to any place at the last time.

    `wire` is the wire of the ball in the join, or ALWAYS.
    """

    wire: str
    start: Ball | None
    goal: Ball | None
    end: int

    @property
    def is_between(self) -> bool:
        """Whether the ball is led from a part to another one."""
        return self.start is not None and self.goal is not None

    @property
    def steps(self) -> int:
        """The steps of the way."""
        return self.end - (self.start.time if self.start else 0)


@dataclass
class JoinPlan:
    """Places and times of all parts, the side of the plane and the last time.

    The layout is the plane up to `width` and `height`.
    """

    side: int
    end: int
    placed: list[PlacedPart]
    jobs: list[BallJob]
    width: int
    height: int


def first_spare_indices(composed: Composition) -> SpareIndices:
    """Returns the spare steps of the first plan: more if some ball is led deep into its part."""
    parts = {part.name: PlacedPart(part) for part in composed.parts}
    goals = ((parts[own.target], part_input_ball(parts[own.target], own.input)) for own in composed.connections)
    is_deep = any(part.excess_depth(goal) for part, goal in goals)
    return [DEEP_SPARE_INDEX if is_deep else 0] * len(composed.connections)


def make_plan(composed: Composition, side: int, spares: SpareIndices) -> JoinPlan | None:
    """Returns a plan on a plane with a side that takes few steps, or None if the parts have no room there.

    Balls between parts get some steps to spare. A part that feeds no other one begins as late as it can, if fewer balls
    come to it than leave it.
    """
    areas = [PlacedPart(part).extent for part in composed.parts]
    can_turn = all(fitting_orientations(PlacedPart(part)) == ORIENTATIONS for part in composed.parts)
    found = [placed_parts(composed, places, spares) for places in place_arrangements(areas, side, can_turn)]
    if not found:
        return None
    placed = min(found, key=last_time)
    end = last_time(placed)
    for own in placed:
        feeds_none = not any(connection.source == own.part.name for connection in composed.connections)
        if feeds_none and own.part.bundle.is_cheaper_to_begin_later:
            own.time += (end - own.end_time) // 2 * 2
    return JoinPlan(side, end, placed, ball_jobs_of(composed, {own.part.name: own for own in placed}, end), side, side)


def last_time(placed: list[PlacedPart]) -> int:
    """Returns the time at which the last part ends."""
    return max(own.end_time for own in placed)


def placed_parts(composed: Composition, places: list[Place], spares: SpareIndices) -> list[PlacedPart]:
    """Returns the parts at some places, each turned so that the last one ends early."""
    placed = [PlacedPart(part, x, y) for part, (x, y) in zip(composed.parts, places)]
    set_part_times(composed, placed, spares)
    connected = {name for own in composed.connections for name in (own.source, own.target)}
    for own in (own for _ in range(ORIENTATION_ROUNDS) for own in placed if own.part.name in connected):
        ends = dict[PartOrientation, tuple[int, int]]()
        for turning in fitting_orientations(own):
            own.turning = turning
            set_part_times(composed, placed, spares)
            ends[turning] = last_time(placed), sum(other.time for other in placed)
        own.turning = min(ends, key=lambda turning: ends[turning])
    set_part_times(composed, placed, spares)
    return placed


def fitting_orientations(placed: PlacedPart) -> list[PartOrientation]:
    """Returns the turnings with which a part takes the same place. Blocks stay blocks if its sides are even."""
    layout, area = placed.part.bundle.layout, placed.extent
    if layout.width % 2 or layout.height % 2:
        return [UNTURNED]
    return [own for own in ORIENTATIONS if area.width == area.height or not own.is_turned]


def set_part_times(composed: Composition, placed: list[PlacedPart], spares: SpareIndices) -> None:
    """Sets the times of placed parts: each is as early as its balls can come."""
    by_name = {own.part.name: own for own in placed}
    for own in placed:
        own.time = 0
        for connection, spare in zip(composed.connections, spares):
            if connection.target == own.part.name:
                first = part_output_ball(by_name[connection.source], connection.output)
                last = part_input_ball(own, connection.input)
                after = first.time + steps_needed(own, first, last, spare) - (last.time - own.time)
                own.time = max(own.time, (after + 1) // 2 * 2)


def steps_needed(target: PlacedPart, first: Ball, last: Ball, spare: int) -> int:
    """Returns the steps for which a ball is led from a part to another one, by the place of its spare steps."""
    ways = sorted(offsets_between(first, last))
    own = SPARES[min(len(SPARES) - 1, spare + (ways[0] > MAX_OFFSET_RATIO * ways[1]))]
    return own.steps_between(first, last) + target.excess_depth(last)


def part_output_ball(placed: PlacedPart, wire: str) -> Ball:
    """Returns the ball of an output where the join takes it over from a part."""
    return placed.placed_ball(placed.part.inner_ball(placed.part.bundle.ends, wire))


def part_input_ball(placed: PlacedPart, wire: str) -> Ball:
    """Returns the ball of an input where the join gives it to a part."""
    return placed.placed_ball(placed.part.inner_ball(placed.part.bundle.starts, wire))


def ball_jobs_of(composed: Composition, placed: dict[str, PlacedPart], end: int) -> list[BallJob]:
    """Returns the balls to lead: between parts, to parts that begin later, and from parts that end earlier."""
    given = {(own.source, own.output) for own in composed.connections}
    taken = {(own.target, own.input) for own in composed.connections}
    jobs = []
    for own in composed.connections:
        goal = part_input_ball(placed[own.target], own.input)
        source = placed[own.source]
        jobs.append(BallJob(source.part.joined_wire(own.output), part_output_ball(source, own.output), goal, goal.time))
    for name, part in placed.items():
        text, wire = part.part.bundle, part.part.joined_wire
        for port in text.starts:
            if part.time > 0 and (name, port.wire) not in taken:
                jobs.append(BallJob(wire(port.wire), None, part.placed_ball(port.ball), part.time))
        for port in text.ends:
            if part.end_time < end and (name, port.wire) not in given:
                jobs.append(BallJob(wire(port.wire), part.placed_ball(port.ball), None, end))
    return jobs


def estimated_side(composed: Composition, spares: SpareIndices) -> int:
    """Returns the side of a plane on which all ways have room by estimate, at most the largest one."""
    side = LEAST_GAP
    while side < SECOND_LIMITS.max_side:
        plan = make_plan(composed, side, spares)
        if plan is not None:
            free = side ** 2 - sum(own.extent.width * own.extent.height for own in plan.placed)
            if NEW_CELLS_PER_STEP * sum(job.steps for job in plan.jobs) <= FILL_SHARE * free:
                break
        side = min(SECOND_LIMITS.max_side,
                   (math.ceil(side * 1.05) + 2 * TILE_SIDE - 1) // (2 * TILE_SIDE) * 2 * TILE_SIDE)
    return side
