"""Leading the balls of a join: between parts, from time 0 to later parts, and on from parts that end earlier.

Balls are led one after another: first between parts, then those with the longest ways, around parts and through their
free cells. If a ball finds no way, the paths across its straight way make room and are led again after it.
"""

import random
import time
from dataclasses import dataclass
from functools import partial
from itertools import chain, islice
from typing import Callable, Collection, Iterator

from ..route.balls import Ball, Leg, follow_legs, reversed_legs
from ..route.board import FailureKind, NoRouteError
from ..route.coil_ways import CoiledPath, CoilGround, CoilSearch, OpenGroundSearch
from ..route.paths import Path, PathFinder, Trail, is_in_reach
from ..route.settings import RouterSettings
from ..route.world import STEP_STRIDE, TILE_SIDE, Footprint, RoutingGrid, cell_number, cell_of_number, path_footprint
from ..texts.layouts import Box
from .flight_claims import FlightClaims
from .modules import JoinedModules
from .parts import ALWAYS_SIGNAL
from .planning import SHALLOW_DEPTH_CELLS, SPARES, BallJob, JoinPlan, PlacedPart

# The steps at the open ends of balls that wait which are kept free, the first that fit.
STUB_STEPS = (20, 14, 10, 6, 3)
# The steps at such an end within which room for a bounce is kept.
BOUNCE_WITHIN_STEPS = 60
# The tries of a path between two parts. It comes back from its goal for some of the first steps, and is joined in some
# of the second ones. It comes back further from a goal that is deep in its part: among what is there, 11 of 12 balls
# could not be led to multipliers of 4 bits, 247 to 664 cells deep.
CONNECT_TRIES = 12
STEPS_BACK_RANGE = (60, 300)
JOIN_STEPS_RANGE = (80, 260)
# The ways to open ground that are tried at each end if no such path is found, and the tries to join two of them.
OPEN_GROUND_WAYS = 4
OPEN_GROUND_TRIES = 3
# The cost of a step to the other end while open ground is sought: searches go there with each of these.
GOAL_STEP_COSTS = (4.0, 1.0, 12.0)
# The steps for which a ball is led to see that it can leave its part.
LEAVING_TEST_STEPS = 80
# The paths that are tried for a ball before others make room, and how often that may happen for each ball.
PATH_TRIES = 4
RIPS_PER_BALL = 2
# The cost of a step inside a part, in cells, and that of a step away from its border. Outside a step touches at most
# three new cells.
INSIDE_STEP_COST = 5
INWARD_STEP_COST = 3
# The columns and rows around an open end in which other paths make room if none crosses its way.
NEAR_DISTANCE = 70
# The steps of the straight way of a ball from which other paths are taken.
STRAIGHT_WAY_STEPS = 76

# A ball with at least so many steps to wait goes to a coil. A coil keeps so many cells off parts: balls have to leave
# them.
LEAST_COIL_STEPS = 400
COIL_TO_PART_CELLS = 80


class TooFewStepsError(NoRouteError):
    """Some balls between two parts could not be led in the time that they got. `connections` has their numbers."""

    def __init__(self, message: str, connections: list[int]) -> None:
        super().__init__(message, FailureKind.PATH)
        self.connections = connections


@dataclass(frozen=True, eq=False)
class SealedPath(CoiledPath):
    """A path that waits in a coil. `sealed` keeps all other balls out of the coil's box, without its claims there."""

    sealed: Footprint


def occupied_footprint(path: Path) -> Footprint:
    """Returns what a path takes in the world."""
    return path.sealed if isinstance(path, SealedPath) else path.item


def sealed_footprint(item: Footprint, box: Box) -> Footprint:
    """Returns what a path takes whose coil no other ball can enter: the ring of its box is closed as by mirrors."""
    flights = (part for part in item.claim_parts if isinstance(part, range))
    claims = tuple(part for part in flights
                   if not all(box.has(cell_of_number(number % STEP_STRIDE)) for number in (part[0], part[-1])))
    return Footprint(item.mirrors.union(map(cell_number, box.ring())), item.touched_parts, claims)


class JoinRoutingGrid(RoutingGrid):
    """A world with parts, in which cells inside a part are dear: balls leave parts, so that they enclose no other port.

    Without this, 59 of 85 balls of four joined adders were led before the search ended, and with it all.
    """

    def __init__(self, plan: JoinPlan) -> None:
        super().__init__(plan.side)
        self.claims = FlightClaims()
        self.boxes = [(own.x, own.y, own.x + own.extent.width, own.y + own.extent.height) for own in plan.placed]
        # Parts are at whole tiles, and take whole tiles.
        self.box_of_tile = {(column, row): box for box in self.boxes
                            for column in range(box[0] // TILE_SIDE, box[2] // TILE_SIDE)
                            for row in range(box[1] // TILE_SIDE, box[3] // TILE_SIDE)}

    def add_part(self, placed: PlacedPart) -> None:
        """Adds a part where and when it is in the join."""
        item, cells, blocks = placed.part.footprint, placed.placing.cell_number_map(), placed.placing.block_number_map()
        self.add(Footprint(frozenset(cells.map_all(item.mirrors)),
                           tuple(map(cells.map_footprint_part, item.touched_parts)),
                           tuple(map(blocks.map_footprint_part, item.claim_parts))))

    def depth_in_part(self, x: int, y: int) -> int:
        """Returns how far a cell is from the border of the part that it is in, or 0."""
        box = self.box_of_tile.get((x // TILE_SIDE, y // TILE_SIDE))
        if box is None:
            return 0
        left, top, right, bottom = box
        return min(x - left, right - x, y - top, bottom - y)

    def flight_cost(self, ball: Ball, steps: int) -> int:
        """Returns the cost of a straight flight: the cells that it newly touches, but more inside a part."""
        depth = self.depth_in_part(ball.x, ball.y)
        far = self.depth_in_part(ball.x + steps * ball.dx, ball.y + steps * ball.dy)
        if depth or far:
            return INSIDE_STEP_COST * steps + INWARD_STEP_COST * (far - depth)
        return super().flight_cost(ball, steps)


def require_before_deadline(deadline: float) -> None:
    """Raises NoRouteError when the time is over."""
    if time.monotonic() > deadline:
        raise NoRouteError("the time was over", FailureKind.TIME)


class JoinWiring:
    """The paths of a join, in a world that has its parts."""

    def __init__(self, plan: JoinPlan, modules: JoinedModules, seed: int, settings: RouterSettings,
                 deadline: float) -> None:
        self.plan, self.modules, self.settings, self.deadline = plan, modules, settings, deadline
        self.world = JoinRoutingGrid(plan)
        for placed in plan.placed:
            self.world.add_part(placed)
        self.chance = random.Random(seed)
        self.finder = PathFinder(self.world, self.chance, settings)
        # A method of this object would keep the world in memory when it is no longer used.
        self.finder.require_time_left = partial(require_before_deadline, deadline)
        around = [Box(x - COIL_TO_PART_CELLS, y - COIL_TO_PART_CELLS, far - x + 2 * COIL_TO_PART_CELLS,
                      low - y + 2 * COIL_TO_PART_CELLS)
                  for x, y, far, low in self.world.boxes]
        self.ground = CoilGround(self.world, around)
        self.stubs: dict[int, list[Footprint]] = {}
        self.paths: dict[int, Path] = {}

    def run(self, progress: Callable[[int, int], None], can_loosen: Collection[int] = ()) -> list[Path]:
        """Returns the paths of all balls; raises NoRouteError.

        Of balls between two parts that can get more time, all are tried before the search ends with a TooFewStepsError.
        """
        jobs, tight, taken_back = self.plan.jobs, list[int](), set[int]()
        for index in range(len(jobs)):
            self.reserve_ends(index)
        queue = sorted(range(len(jobs)), key=lambda index: (not jobs[index].is_between, -jobs[index].steps))
        left = RIPS_PER_BALL * len(jobs)
        while queue:
            require_before_deadline(self.deadline)
            index = queue.pop(0)
            if tight and not jobs[index].is_between:
                break
            if self.lead_ball(index) or self.lead_before_others(index):
                progress(len(self.paths), len(jobs))
                continue
            if index in can_loosen and index not in taken_back:
                tight.append(index)
                continue
            crossing = self.balls_crossing_way_of(index)
            left -= 1 + len(crossing)
            if left <= 0 or not crossing:
                raise NoRouteError(self.failure_words(index), FailureKind.END)
            for other in crossing:
                self.take_path_back(other)
            taken_back.update(crossing)
            # The balls between two parts have few ways to go, so they are led again before the others.
            between = [other for other in crossing if jobs[other].is_between]
            queue = [index, *between, *queue, *(other for other in crossing if other not in between)]
        if tight:
            raise TooFewStepsError(self.failure_words(tight[0]), tight)
        return [self.paths[index] for index in range(len(jobs))]

    def failure_words(self, index: int) -> str:
        """Says which ball could not be led."""
        job = self.plan.jobs[index]
        ends = [f"{what} ({ball.x}, {ball.y}) at time {ball.time}"
                for what, ball in (("from", job.start), ("to", job.goal)) if ball]
        return f"{ball_words(job)} could not be led {' '.join(ends)}"

    def is_enclosed(self, index: int, is_start: bool) -> bool:
        """Whether a ball between two parts finds no way from its start to open ground, or from there to its goal."""
        job = self.plan.jobs[index]
        assert job.start is not None and job.goal is not None
        ends = (job.start, job.goal) if is_start else (job.goal, job.start)
        search = OpenGroundSearch(self.finder, self.ground, *ends, not is_start, self.modules.make_room_test(job.wire),
                                  GOAL_STEP_COSTS[0])
        return next(search.ways_to_free_squares(), None) is None

    def closed_ends(self, skipped: Collection[tuple[int, int]] = ()) -> list[tuple[int, Ball, int]]:
        """Returns the open ends that no ball can leave even if no other ball is led: the number of the job, the ball,
        and 1 behind it or -1 before it. The paths to come do not depend on what was tried.

        Skipped ends are jobs with such a number.
        """
        self.finder.chance = random.Random(0)
        found = [(index, ball, sign) for index, job in enumerate(self.plan.jobs)
                 for ball, sign in ((job.start, 1), (job.goal, -1))
                 if ball is not None and (index, sign) not in skipped
                 and not any(self.can_leave(ball, sign) for _ in range(PATH_TRIES))]
        self.finder.chance = self.chance
        return found

    def can_leave(self, ball: Ball, sign: int) -> bool:
        """Whether a ball can fly some steps on, or some steps come before it if `sign` is -1."""
        trail = Trail(self.world, ball, is_backward=sign < 0)
        found = self.finder.wander(trail, sign * ball.time + LEAVING_TEST_STEPS)
        trail.clear_legs()
        return found

    # --- one ball -----------------------------------------------------------------------------------------------------

    def reserve_ends(self, index: int) -> None:
        """Keeps the next steps at the open ends of a ball that waits free."""
        job, own = self.plan.jobs[index], list[Footprint]()
        for ball, sign in ((job.start, 1), (job.goal, -1)):
            stub = self.stub_footprint(ball, sign) if ball else None
            if stub is not None:
                self.world.add(stub)
                own.append(stub)
        self.stubs[index] = own

    def stub_footprint(self, ball: Ball, sign: int) -> Footprint | None:
        """Returns what a way with one bounce takes behind a ball, or before it if `sign` is -1.

        If there is none it is a way of a few straight steps, or None.
        """
        way = self.finder.open_way_footprint(ball, sign, BOUNCE_WITHIN_STEPS)
        if way is not None:
            return way
        for steps in STUB_STEPS:
            far = ball.after_flight(sign * steps)
            if self.world.is_inside(far.x, far.y):
                item = path_footprint(ball if sign > 0 else far, [Leg(steps, None)])
                if item is not None and self.world.can_add(item):
                    return item
        return None

    def lead_ball(self, index: int) -> bool:
        """Leads a ball; returns whether a way was found. Else it waits again."""
        for stub in self.stubs.pop(index):
            self.world.remove(stub)
        job = self.plan.jobs[index]
        for tried in range(PATH_TRIES):
            path = self.find_path(job, tried)
            numbers = self.modules.module_numbers_near_path(path) if path else set[int]()
            if path is not None and self.modules.has_room_for(job.wire, numbers):
                self.world.add(occupied_footprint(path))
                if isinstance(path, CoiledPath):
                    self.ground.exclude_box_and_street(path.box)
                self.modules.change_wire_count(job.wire, numbers, 1)
                self.paths[index] = path
                return True
        self.reserve_ends(index)
        return False

    def lead_before_others(self, index: int) -> bool:
        """Leads a ball as if no ball near it waited; returns whether a way was found. The others keep the room left."""
        ends = [ball for ball in (self.plan.jobs[index].start, self.plan.jobs[index].goal) if ball is not None]
        near = [other for other in self.stubs if other != index and self.has_end_near(other, ends)]
        for other in near:
            for stub in self.stubs[other]:
                self.world.remove(stub)
        done = self.lead_ball(index)
        for other in near:
            self.reserve_ends(other)
        return done

    def has_end_near(self, index: int, balls: list[Ball]) -> bool:
        """Whether a ball that waits has an open end near one of some balls."""
        job = self.plan.jobs[index]
        ends = [ball for ball in (job.start, job.goal) if ball is not None]
        return any(abs(end.x - ball.x) < NEAR_DISTANCE and abs(end.y - ball.y) < NEAR_DISTANCE for end in ends
                   for ball in balls)

    def find_path(self, job: BallJob, tried: int = 0) -> Path | None:
        """Returns a path for a ball, or None. A coil is sought only at the first try."""
        self.finder.known_departures.clear()
        coiled = self.find_coiled_path(
            job) if not tried and not job.is_between and job.steps >= LEAST_COIL_STEPS else None
        if coiled is not None:
            return coiled
        if job.goal is None:
            assert job.start is not None
            return self.finder.path_to_anywhere(job.wire, job.start, job.end)
        if job.start is None:
            return self.finder.path_from_anywhere(job.wire, job.goal)
        is_deep = max(self.world.depth_in_part(ball.x, ball.y) for ball in (job.start, job.goal)) > SHALLOW_DEPTH_CELLS
        path = self.find_path_outside(job.wire, job.start, job.goal) if is_deep and not tried else None
        path = path or self.find_connecting_path(job.wire, job.start, job.goal)
        # With little time to spare such searches took 5 to 17 seconds, and found nothing: more time is cheaper.
        is_sought = not is_deep and not tried and is_in_reach(job.start, job.goal, SPARES[-1].steps)
        return path or (self.find_path_outside(job.wire, job.start, job.goal) if is_sought else None)

    def find_coiled_path(self, job: BallJob) -> Path | None:
        """Returns a path to a coil in which a ball waits, or None. Without a start the ball comes from a coil."""
        ball, end = job.start, job.end
        if ball is None:
            assert job.goal is not None
            ball, end = job.goal, 0
        has_room = self.modules.make_room_test(job.wire)
        search = CoilSearch(self.finder, self.ground, ball, end, job.start is None, has_room)
        for coil, legs in search.coils_with_legs():
            if job.start is None:
                legs = reversed_legs(legs)
            start = job.start or self.finder.start_of_legs(ball, legs)
            path = self.finder.path_of_legs(job.wire, start, follow_legs(start, legs)[0], legs)
            if path is not None:
                sealed = sealed_footprint(path.item, coil.box)
                return SealedPath(job.wire, start, path.end, path.legs, path.item, coil.box, sealed)
        return None

    def find_connecting_path(self, wire: str, start: Ball, goal: Ball) -> Path | None:
        """Returns a path between two parts: it wanders back from the goal and on from the start, and joins the two."""
        for _ in range(CONNECT_TRIES):
            back, on = Trail(self.world, goal, is_backward=True), Trail(self.world, start)
            legs = self.wander_and_join(back, on, start, goal)
            on.clear_legs()
            back.clear_legs()
            path = self.finder.path_of_legs(wire, start, goal, legs) if legs else None
            if path is not None:
                return path
        return None

    def find_path_outside(self, wire: str, start: Ball, goal: Ball) -> Path | None:
        """Returns a path between two parts whose ends are led to open ground by a search, and joined there."""
        has_room = self.modules.make_room_test(wire)
        for cells, behind in self.ways_from_open_ground(start, goal, has_room):
            back, last = Trail(self.world, goal, is_backward=True), self.finder.start_of_legs(goal, behind)
            turns = [leg.turn for leg in reversed(behind[:-1])]
            is_free = all(back.push_leg(leg.steps, turn) for leg, turn in zip(reversed(behind), [*turns, None]))
            legs = self.legs_to_open_ground(start, last, has_room, cells) if is_free else None
            back.clear_legs()
            path = self.finder.path_of_legs(wire, start, goal, linked_legs(legs, behind)) if legs else None
            if path is not None and self.modules.has_room_for(wire, self.modules.module_numbers_near_path(path)):
                return path
        return None

    def ways_from_open_ground(self, start: Ball, goal: Ball,
                              has_room: Callable[[Footprint], bool]) -> Iterator[tuple[float, list[Leg]]]:
        """Yields legs from open ground to a ball in a part: the first ones by each cost of a step, then the second.

        If the first one with a cost does not lead on to the start, the others with this cost seldom do.
        """
        ways = dict[float, Iterator[list[Leg]]]()
        for cells in OPEN_GROUND_WAYS * GOAL_STEP_COSTS:
            if cells not in ways:
                ways[cells] = OpenGroundSearch(self.finder, self.ground, goal, start, True, has_room,
                                               cells).ways_to_free_squares()
            behind = next(ways[cells], None)
            if behind is not None:
                yield cells, behind

    def legs_to_open_ground(self, start: Ball, last: Ball, has_room: Callable[[Footprint], bool],
                            cells: float) -> list[Leg] | None:
        """Returns legs from a ball in a part to a ball on open ground, or None."""
        search = OpenGroundSearch(self.finder, self.ground, start, last, False, has_room, cells)
        for ahead in islice(search.ways_to_free_squares(), OPEN_GROUND_WAYS):
            on = Trail(self.world, start)
            legs = self.legs_outside(on.ball, last) if all(on.push_leg(*leg) for leg in ahead) else None
            on.clear_legs()
            if legs:
                return linked_legs(ahead, legs)
        return None

    def legs_outside(self, start: Ball, last: Ball) -> list[Leg] | None:
        """Returns legs between two balls on open ground, or None."""
        for _ in range(OPEN_GROUND_TRIES):
            stop, on = last.time - self.chance.randint(*JOIN_STEPS_RANGE), Trail(self.world, start)
            self.finder.known_departures.clear()
            legs = [Leg(0, None)]
            if stop > start.time and self.finder.wander(on, stop, last):
                legs = on.legs()
            middle = self.finder.find_direct_legs(on.ball, last, self.settings.path_tries)
            on.clear_legs()
            if middle:
                return linked_legs(legs, middle)
        return None

    def wander_and_join(self, back: Trail, on: Trail, start: Ball, goal: Ball) -> list[Leg] | None:
        """Returns legs from a start to a goal by two trails, or None."""
        finder, chance = self.finder, self.chance
        deep = max(0, self.world.depth_in_part(goal.x, goal.y) - SHALLOW_DEPTH_CELLS)
        before = goal.time - chance.randint(STEPS_BACK_RANGE[0] + deep, STEPS_BACK_RANGE[1] + 2 * deep)
        if before <= start.time or not finder.wander(back, -before):
            return None
        last, behind = back.ball.time_reversed(), back.legs()
        stop = last.time - chance.randint(*JOIN_STEPS_RANGE)
        if stop <= start.time or not finder.can_reach(start, last) or not finder.wander(on, stop, last):
            return None
        finder.known_departures.clear()
        middle = finder.find_direct_legs(on.ball, last, self.settings.path_tries)
        return linked_legs(linked_legs(on.legs(), middle), behind) if middle else None

    def take_path_back(self, index: int) -> None:
        """Takes the path of a ball back, which waits again."""
        path = self.paths.pop(index)
        self.world.remove(occupied_footprint(path))
        if isinstance(path, CoiledPath):
            self.ground.set_coils(own.box for own in self.paths.values() if isinstance(own, CoiledPath))
        self.modules.change_wire_count(path.wire, self.modules.module_numbers_near_path(path), -1)
        self.reserve_ends(index)

    def balls_crossing_way_of(self, index: int) -> list[int]:
        """Returns the balls whose paths cross or touch the straight way of a ball that waits."""
        job, touched = self.plan.jobs[index], set[int]()
        for ball, sign in ((job.start, 1), (job.goal, -1)):
            if ball is not None:
                touched |= self.straight_way_cells(ball, sign)
        found = [other for other, path in self.paths.items()
                 if not touched.isdisjoint(chain(path.item.mirrors, *path.item.touched_parts))]
        return found or [other for other, path in self.paths.items() if self.has_mirror_near(path, job)]

    def has_mirror_near(self, path: Path, job: BallJob) -> bool:
        """Whether a path has a mirror near an open end of a ball."""
        balls = [ball for ball in (job.start, job.goal) if ball is not None]
        return any(abs(ball.x - mirror.x) < NEAR_DISTANCE and abs(ball.y - mirror.y) < NEAR_DISTANCE
                   for mirror in path.mirrors() for ball in balls)

    def straight_way_cells(self, ball: Ball, sign: int) -> set[int]:
        """Returns the cells of the straight way behind a ball, or before it, up to the first mirror and a little on."""
        room = 6 + self.world.free_steps(ball if sign > 0 else ball.time_reversed(), STRAIGHT_WAY_STEPS)
        way = path_footprint(ball if sign > 0 else ball.after_flight(-room), [Leg(room, None)])
        return way.touched_cells if way else set()


def ball_words(job: BallJob) -> str:
    """Says which ball is led."""
    return "a constant ball" if job.wire == ALWAYS_SIGNAL else f"the ball of wire {job.wire}"


def linked_legs(legs: list[Leg], more: list[Leg]) -> list[Leg]:
    """Returns legs and those that follow them: the last leg goes on as the first one of the others."""
    return [*legs[:-1], Leg(legs[-1].steps + more[0].steps, more[0].turn), *more[1:]]
