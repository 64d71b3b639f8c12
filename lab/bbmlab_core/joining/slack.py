"""Balls with time to spare between two parts: they stay on the lone ways inside the parts, which are led already.

Outside such a ball would wander about for thousands of steps, and take the room of others. So an output leaves its part
as late as it can, and then an input comes to its part as early as it can.
"""

from dataclasses import replace
from typing import Callable, Collection, Iterable, NamedTuple

from ..route.balls import Ball
from .composing import Composition, Connection, NamedPart
from .lone_ways import LoneRun
from .parts import PartPort
from .planning import JoinPlan, PlacedPart, SpareIndices, part_output_ball, ball_jobs_of, part_input_ball, steps_needed

# A ball with at most so many more steps than it needs is led as it is. Others keep at least the spare steps of this
# place.
LEAST_SLACK_STEPS = 300
LEAST_SPARE_INDEX = 2
# The steps around a cut from which its ball could not leave: no other cut is made there.
NEAR_CLOSED_STEPS = 160


class WayCut(NamedTuple):
    """Where the lone way of a connection's output is cut, or that of its input, by the time of the part."""

    connection_index: int
    is_output: bool
    time: int


def is_near_closed(cut: WayCut, closed: Iterable[WayCut]) -> bool:
    """Whether a cut is near one from which no ball can leave."""
    return any(own[:2] == cut[:2] and abs(own.time - cut.time) <= NEAR_CLOSED_STEPS for own in closed)


def lone_run_of(part: NamedPart, ports: list[PartPort], wire: str) -> LoneRun | None:
    """Returns the lone run of a port whose lone way is left out."""
    return next((port.lone_run for port in ports if port.wire == wire and wire in part.ways), None)


class LoneWayCuts:
    """The cuts of a join's lone ways in a plan. `closed` has those from which no ball can leave."""

    def __init__(self, made: Composition, plan: JoinPlan, spares: SpareIndices, closed: Collection[WayCut]) -> None:
        self.made, self.plan, self.spares, self.closed = made, plan, spares, closed
        self.placed = {own.part.name: own for own in plan.placed}
        # The balls at which lone ways are cut, by the names of parts and their own wires.
        self.cuts: dict[tuple[str, str], tuple[LoneRun, Ball]] = {}
        self.moved: list[WayCut] = []
        for index, own in enumerate(made.connections):
            self.cut_ways_of_connection(index, own)

    def cut_ways_of_connection(self, index: int, own: Connection) -> None:
        """Cuts the ways of a connection if its ball has much time to spare."""
        source, target = self.placed[own.source], self.placed[own.target]
        spare = max(LEAST_SPARE_INDEX, self.spares[index])
        first, last = part_output_ball(source, own.output), part_input_ball(target, own.input)

        def has_time(begin: Ball, end: Ball, slack: int = 0) -> bool:
            """Whether a ball has time from one ball to another one, and so many steps more."""
            return steps_needed(target, begin, end, spare) <= end.time - begin.time - slack

        if not has_time(first, last, LEAST_SLACK_STEPS + 1):
            return
        moved = self.try_cut_at_last_ball(index, source, source.part.bundle.ends, own.output,
                                          lambda ball: has_time(ball, last))
        first = moved or first
        self.try_cut_at_last_ball(index, target, target.part.bundle.starts, own.input,
                                  lambda ball: has_time(first, ball))

    def try_cut_at_last_ball(self, index: int, placed: PlacedPart, ports: list[PartPort], wire: str,
                             has_time: Callable[[Ball], bool]) -> Ball | None:
        """Cuts the lone way of a port at the last ball that has time enough and can leave. Returns that ball, or None.
        """
        run = lone_run_of(placed.part, ports, wire)
        for ball in reversed(run.possible_cut_balls) if run else ():
            if has_time(placed.placed_ball(ball)) and self.try_cut_at_ball(index, (placed.part.name, wire), run, ball):
                return placed.placed_ball(ball)
        return None

    def try_cut_at_ball(self, index: int, port: tuple[str, str], run: LoneRun | None, ball: Ball) -> bool:
        """Cuts the lone way of a port at a ball, if a ball can leave there; returns whether that is so."""
        assert run is not None
        cut = WayCut(index, run.is_output, ball.time)
        if is_near_closed(cut, self.closed):
            return False
        if ball != run.possible_cut_balls[0]:
            self.cuts[port] = run, ball
            self.moved.append(cut)
        return True

    def plan_with_cuts(self) -> JoinPlan:
        """Returns the plan with parts that are cut so, and their balls."""
        placed = [replace(own, part=self.part_with_cuts(own.part)) for own in self.plan.placed]
        jobs = ball_jobs_of(self.made, {own.part.name: own for own in placed}, self.plan.end)
        return replace(self.plan, placed=placed, jobs=jobs)

    def part_with_cuts(self, part: NamedPart) -> NamedPart:
        """Returns a part that is cut so."""
        cuts = {wire: cut for (name, wire), cut in self.cuts.items() if name == part.name}
        return replace(part, ways=part.ways | {wire: part.bundle.lone_way(wire, *cut) for wire, cut in cuts.items()})
