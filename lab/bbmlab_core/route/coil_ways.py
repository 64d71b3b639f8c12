"""Ways of balls to coils: the free ground of a plane, and a best-first search from a ball to a place there.

A ball may come to its coil at any time and from any side, so the search needs no exact time. A ball that comes from a
coil is led in reversed time.
"""

import bisect
import heapq
from dataclasses import dataclass
from typing import Callable, Iterable, Iterator, NamedTuple

from ..texts.layouts import Box
from .balls import BOUNCE_STEPS, Ball, BounceKind, Leg, ball_and_mirror_after_bounce, reversed_legs
from .bit_rows import BallJoiner
from .coils import Coil, coils_entered_by, least_coil_width
from .paths import Path, PathFinder, is_in_reach
from .world import MARGIN_CELLS, ROW_STRIDE, TILE_SIDE, Footprint, RoutingGrid, path_footprint

# The cells between two coils, and between a coil and other paths: balls pass between coils.
STREET_CELLS = 24
PATH_STREET_CELLS = 4
# A coil is sought among so many rows above and below a ball.
MAX_ROWS_AWAY = 1100
# The bounces that a search tries at most, the longest leg, and the cells in which it comes to a place once.
MAX_TRIED_BOUNCES = 2000
MAX_LEG_STEPS = 150
SEARCH_GRID_CELLS = 4
# The steps of a leg at which a bounce is tried: all for the first bounces, as a ball has few ways out of its part.
BOUNCES_TRIED_AT_EVERY_STEP = 40
LEG_STRIDE = 8
# The cost of a bounce in cells, and how much dearer than in steps the way that is left is taken to be.
BOUNCE_COST = 10
COST_PER_CELL_LEFT = 5
# A coil begins at least so many steps behind the last bounce.
LEAST_STEPS_TO_COIL = 12
# The tiles within which the distance to a coil is known.
MAX_TILE_DISTANCE = 140
# A ball can fly at least so many steps on behind a bounce.
LEAST_STEPS_AFTER_BOUNCE = 9
# The side of the free squares that are open ground, the steps to spare with which a ball comes there, and the bounces
# that are tried at most. In `multiplier_6` ways came after at most 1,148 bounces; other searches found none in 2,000.
OPEN_SQUARE_SIDE = 48
OPEN_GROUND_SPARE_STEPS = 110
MAX_TRIED_OPEN_BOUNCES = 1200
# The first bit of each tile of a row, and the digits 0 and 1 for these numbers.
TILE_FIRST_BITS = sum(1 << column for column in range(0, ROW_STRIDE, TILE_SIDE))
DIGIT_TABLE = bytes.maketrans(b"\0\1", b"01")
# What a leg takes is less than so many cells away from the rectangle between its ends.
LEG_SPAN_MARGIN = 12
# The balls behind bounces, by the direction before them, as seen from the cell of the bounce.
BALLS_BEHIND_BOUNCES = {(dx, dy): [(turn, ball_and_mirror_after_bounce(Ball(0, 0, dx, dy, 0), turn)[0])
                                   for turn in BounceKind]
                        for dx in (1, -1) for dy in (1, -1)}


@dataclass(frozen=True, eq=False)
class CoiledPath(Path):
    """A path that waits in a coil, whose box is `box`."""

    box: Box


class CoilGround:
    """The cells of a world where coils may be: off its border, off some boxes and off other coils."""

    def __init__(self, world: RoutingGrid, boxes: Iterable[Box]) -> None:
        self.world = world
        whole = (1 << world.size - MARGIN_CELLS) - (1 << MARGIN_CELLS)
        self.rows = [whole if MARGIN_CELLS <= y < world.height - MARGIN_CELLS else 0 for y in range(world.height)]
        for box in boxes:
            self.exclude_box(box)
        self.without_coils = list(self.rows)

    def exclude_box(self, box: Box) -> None:
        """Takes the cells of a box out."""
        own = (1 << max(0, box.x + box.width)) - (1 << max(0, box.x))
        for y in range(max(0, box.y), min(len(self.rows), box.y + box.height)):
            self.rows[y] &= ~own

    def set_coils(self, boxes: Iterable[Box]) -> None:
        """Takes the cells of coils and of the streets around them out, and no others."""
        self.rows = list(self.without_coils)
        for box in boxes:
            self.exclude_box_and_street(box)

    def exclude_box_and_street(self, box: Box) -> None:
        """Takes the cells of a coil and of the street around it out."""
        self.exclude_box(Box(box.x - STREET_CELLS, box.y - STREET_CELLS, box.width + 2 * STREET_CELLS,
                             box.height + 2 * STREET_CELLS))

    def free_squares_near(self, side: int, y: int) -> "SquareCorners":
        """Returns the free squares of a side near a row."""
        top, bottom = max(0, y - MAX_ROWS_AWAY), min(len(self.rows), y + MAX_ROWS_AWAY)
        own = square_corners(self.rows[top:bottom], side)
        wide = side + 2 * PATH_STREET_CELLS
        first = max(0, top - PATH_STREET_CELLS)
        blocked = self.world.blocked[first:bottom + PATH_STREET_CELLS]
        whole = (1 << self.world.size) - 1
        clear = square_corners([whole & ~row for row in blocked], wide)
        # A square is clear if the wider one around it is.
        shift = top - PATH_STREET_CELLS - first
        rows = [row & (clear[index + shift] << PATH_STREET_CELLS if 0 <= index + shift < len(clear) else 0)
                for index, row in enumerate(own)]
        return SquareCorners(side, top, rows)


@dataclass(frozen=True)
class SquareCorners:
    """The upper left cells of squares, as bits of the rows from a row on."""

    side: int
    top: int
    rows: list[int]

    def has_corner_at(self, x: int, y: int) -> bool:
        """Whether a cell is one of them."""
        return x >= 0 and 0 <= y - self.top < len(self.rows) and self.rows[y - self.top] >> x & 1 == 1

    def tile_distances(self) -> "TileDistances":
        """Returns the distances of tiles to the middles of squares."""
        half, tiles = self.side // 2, [0] * (ROW_STRIDE // TILE_SIDE)
        for index, row in enumerate(self.rows):
            if row:
                tiles[(self.top + index + half) // TILE_SIDE] |= row << half
        return TileDistances([tile_bits(row) for row in tiles])


class TileDistances:
    """The distances of tiles to some tiles, in tiles: each level has the tiles that are at most so far away.

    A level is made when it is needed.
    """

    def __init__(self, rows: list[int]) -> None:
        self.levels, self.is_empty = [rows], not any(rows)
        self.known = dict[tuple[int, int], int]()

    def add_level(self) -> None:
        """Makes the next level."""
        wide = [0, *(row | row << 1 | row >> 1 for row in self.levels[-1]), 0]
        self.levels.append([above | own | below for above, own, below in zip(wide, wide[1:], wide[2:])])

    def least_steps_from(self, x: int, y: int) -> int:
        """Returns the least steps from a cell to one of the tiles, about."""
        column, row = tile = x // TILE_SIDE, y // TILE_SIDE
        found = self.known.get(tile)
        if found is None:
            while len(self.levels) < MAX_TILE_DISTANCE and not self.is_empty and not self.levels[-1][row] >> column & 1:
                self.add_level()
            found = TILE_SIDE * bisect.bisect_left(self.levels, True, key=lambda own: bool(own[row] >> column & 1))
            self.known[tile] = found
        return found


def tile_bits(row: int) -> int:
    """Returns for each tile of a row whether one of its bits is set."""
    for shift in (1, 2, 4, 8):
        row |= row >> shift
    # Each tile's bits come together in its first one: a digit of a number with two bytes a tile.
    words = (row & TILE_FIRST_BITS).to_bytes(ROW_STRIDE // 8, "big")
    return int(words[1::2].translate(DIGIT_TABLE), 2)


def square_corners(rows: list[int], side: int) -> list[int]:
    """Returns the bits that are the upper left ones of squares of set bits."""
    return bit_column_starts(bit_run_starts(rows, side), side)


def bit_run_starts(rows: list[int], length: int) -> list[int]:
    """Returns the bits that begin a run of set bits of a length in each row."""
    known = 1
    while known < length:
        step = min(known, length - known)
        rows = [row & row >> step for row in rows]
        known += step
    return rows


def bit_column_starts(rows: list[int], length: int) -> list[int]:
    """Returns the bits that begin a column of set bits of a length, downwards."""
    known = 1
    while known < length:
        step = min(known, length - known)
        rows = [row & below for row, below in zip(rows, rows[step:])]
        known += step
    return rows


class LegSpan(NamedTuple):
    """What a leg takes, and a rectangle that has it: the first column and the last one, and so for the rows."""

    item: Footprint
    left: int
    right: int
    top: int
    bottom: int

    def has_conflict_with(self, other: "LegSpan") -> bool:
        """Whether mirrors of one leg are where the other one is touched."""
        if self.left > other.right or other.left > self.right or self.top > other.bottom or other.top > self.bottom:
            return False
        return any(number in part for one, own in ((self.item, other.item), (other.item, self.item))
                   for number in one.mirrors for part in own.touched_parts)


def leg_span_of(item: Footprint, first: Ball, last: Ball) -> LegSpan:
    """Returns what a leg takes that leads from a ball to another one."""
    return LegSpan(item, min(first.x, last.x) - LEG_SPAN_MARGIN, max(first.x, last.x) + LEG_SPAN_MARGIN,
                   min(first.y, last.y) - LEG_SPAN_MARGIN, max(first.y, last.y) + LEG_SPAN_MARGIN)


class SearchBounce(NamedTuple):
    """A bounce of a way that is being sought, after some steps of a leg, with the ball behind it. The first has no leg.
    """

    ball: Ball
    cost: float = 0.0
    before: "SearchBounce | None" = None
    leg: Leg = Leg(0, None)
    # What the legs take up to here, or up to the bounce before if it is not known yet.
    spans: tuple[LegSpan, ...] = ()

    @property
    def steps_to_new_track(self) -> int:
        """The steps until the ball is on its track."""
        return BOUNCE_STEPS if self.before else 0

    def legs(self) -> list[Leg]:
        """Returns the legs up to the bounce."""
        return [*self.before.legs(), self.leg] if self.before else []


class BounceOption(NamedTuple):
    """A bounce that may come next, after some steps behind another one. The one with the least rank is tried first, and
    of equal ones the one with the least number."""

    rank: float
    number: int
    cost: float
    before: SearchBounce
    steps: int
    turn: BounceKind


def place_key(ball: Ball) -> tuple[int, int, int, int]:
    """Returns the place and direction of a ball, about: a search comes to each once."""
    return ball.x // SEARCH_GRID_CELLS, ball.y // SEARCH_GRID_CELLS, ball.dx, ball.dy


class CoilSearch:
    """A search for a way from a ball to a coil in which it waits up to a time.

    If it is backward, the ball is reversed, and so is the way found.
    """

    def __init__(self, finder: PathFinder, ground: CoilGround, ball: Ball, end: int, is_backward: bool,
                 has_room: Callable[[Footprint], bool] = lambda _: True, width: int | None = None) -> None:
        self.finder, self.world, self.is_backward, self.end = finder, finder.world, is_backward, end
        # Whether the modules where a leg passes have room for its wire.
        self.has_room = has_room
        self.first = SearchBounce(ball.time_reversed() if is_backward else ball)
        self.width = width or least_coil_width(end - self.first.ball.time)
        self.squares = ground.free_squares_near(self.width + 1, ball.y)
        self.distances = self.squares.tile_distances()
        # Nothing is added to the world before the search ends.
        self.taken = BallJoiner(self.world, finder.chance, finder.settings).taken_column_bits
        self.seen = set[tuple[int, int, int, int]]()
        self.queue = list[BounceOption]()
        self.tried, self.count, self.most_bounces = 0, 0, MAX_TRIED_BOUNCES

    def coils_with_legs(self) -> Iterator[tuple[Coil, list[Leg]]]:
        """Yields coils with the legs up to the end, those of a cheap way first."""
        for bend, room in self.reached_bounces():
            for coil in self.coils_ahead(bend, room):
                ahead = coil.entry.time - bend.ball.time
                inner = list(coil.legs(self.end - coil.entry.time))
                yield coil, [*bend.legs(), Leg(ahead + inner[0].steps, inner[0].turn), *inner[1:]]

    def ways_to_free_squares(self) -> Iterator[list[Leg]]:
        """Yields the legs of ways to the middles of free squares, in their order of time. They end or begin with a
        straight flight."""
        half = self.width // 2
        for bend, room in self.reached_bounces():
            for ahead in range(max(LEAST_STEPS_TO_COIL, bend.steps_to_new_track), room + 1, LEG_STRIDE):
                ball = bend.ball.after_flight(ahead)
                if self.squares.has_corner_at(ball.x - half, ball.y - half) and self.can_go_on(ball):
                    item = self.leg_footprint(bend, Leg(ahead, None))
                    if item is not None and self.has_room(item):
                        legs = [*bend.legs(), Leg(ahead, None)]
                        yield reversed_legs(legs) if self.is_backward else legs
                    break

    def can_go_on(self, ball: Ball) -> bool:
        """Whether a ball on open ground can go on to where it is to come."""
        return True

    def reached_bounces(self) -> Iterator[tuple[SearchBounce, int]]:
        """Yields the bounces that the search comes to, and how far the ball can fly on straight."""
        bend: SearchBounce | None = self.first if any(self.squares.rows) else None
        while bend is not None and self.tried < self.most_bounces:
            self.seen.add(place_key(bend.ball))
            self.tried += 1
            room = self.straight_steps(bend)
            yield bend, room
            for option in self.bounce_options_behind(bend, room):
                heapq.heappush(self.queue, option)
            bend = self.pop_next_bounce()

    def pop_next_bounce(self) -> SearchBounce | None:
        """Returns the next bounce at a place to which the search did not come yet, or None if there is none."""
        while self.queue:
            _, _, cost, before, steps, turn = heapq.heappop(self.queue)
            ball = ball_and_mirror_after_bounce(before.ball.after_flight(steps), turn)[0]
            is_new = place_key(ball) not in self.seen
            # One of some 80 bounces comes so far: a search took 1.5 times as long when all of them were looked at.
            if is_new and self.world.free_steps(ball.after_flight(BOUNCE_STEPS),
                                                LEAST_STEPS_AFTER_BOUNCE) >= LEAST_STEPS_AFTER_BOUNCE:
                bend = self.with_leg_footprint(SearchBounce(ball, cost, before, Leg(steps, turn), before.spans))
                if bend is not None:
                    return bend
        return None

    def straight_steps(self, bend: SearchBounce) -> int:
        """Returns how many steps a ball can fly straight on."""
        most = min(MAX_LEG_STEPS, self.end - bend.ball.time)
        begun = bend.steps_to_new_track
        return begun + self.world.free_steps(bend.ball.after_flight(begun), most - begun) if most > begun else 0

    def leg_steps_to_try(self, bend: SearchBounce, room: int) -> list[int]:
        """Returns the steps behind a bounce after which another one is tried."""
        chance, begun = self.finder.chance, bend.steps_to_new_track
        stride = 1 if self.tried < BOUNCES_TRIED_AT_EVERY_STEP else LEG_STRIDE
        found = {*range(begun, room + 1, stride), *range(max(begun, room - 2), room + 1)}
        found |= {chance.randint(begun, room) for _ in range(4)} if room >= begun else set()
        latest = self.end - bend.ball.time - BOUNCE_STEPS
        return sorted(steps for steps in found if steps <= latest)

    def bounce_options_behind(self, bend: SearchBounce, room: int) -> Iterator[BounceOption]:
        """Yields the bounces that a ball can come to without another one. Behind them something may be in the way."""
        x, y, dx, dy, _ = bend.ball
        # The columns from the first one to the last one in which a mirror has no room, as bits.
        low = x if dx > 0 else x - room
        turns = [(turn, *behind, self.taken(bend.ball, turn, dx == dy) >> low & (1 << room + 1) - 1)
                 for turn, behind in BALLS_BEHIND_BOUNCES[dx, dy]]
        for steps in self.leg_steps_to_try(bend, room):
            column, row, cost = x + steps * dx, y + steps * dy, None
            # This runs most often: no more balls are made than needed.
            for turn, right, down, across, along, _, taken in turns:
                i, j = column + right, row + down
                if taken >> column - low & 1 or (i // SEARCH_GRID_CELLS, j // SEARCH_GRID_CELLS, across,
                                                 along) in self.seen:
                    continue
                if cost is None:
                    cost = bend.cost + self.world.flight_cost(bend.ball, steps) + BOUNCE_COST
                self.count += 1
                yield BounceOption(cost + self.cost_left(i, j), self.count, cost, bend, steps, turn)

    def cost_left(self, x: int, y: int) -> float:
        """Returns the cost of the way that is left from a cell, about."""
        return COST_PER_CELL_LEFT * self.distances.least_steps_from(x, y)

    def with_leg_footprint(self, bend: SearchBounce) -> SearchBounce | None:
        """Returns a bounce with what the leg before it takes, or None if the leg meets something."""
        assert bend.before is not None
        item = self.leg_footprint(bend.before, bend.leg)
        if item is None:
            return None
        span = leg_span_of(item, bend.before.ball, bend.ball)
        if (any(span.has_conflict_with(own) for own in bend.spans) or not self.world.can_add(item)
                or not self.has_room(item)):
            return None
        return bend._replace(spans=(*bend.spans, span))

    def leg_footprint(self, bend: SearchBounce, leg: Leg) -> Footprint | None:
        """Returns what a leg takes behind a bounce."""
        begun = min(bend.steps_to_new_track, leg.steps)
        if not self.is_backward:
            return path_footprint(bend.ball, [leg], begun)
        legs = reversed_legs([Leg(leg.steps - begun, leg.turn), Leg(BOUNCE_STEPS, None)])
        goal = bend.ball.after_flight(begun).time_reversed()
        return path_footprint(self.finder.start_of_legs(goal, legs), legs)

    def coils_ahead(self, bend: SearchBounce, room: int) -> Iterator[Coil]:
        """Yields the first coils that have room on the straight way behind a bounce."""
        ball, has = bend.ball, self.squares.has_corner_at
        if self.distances.least_steps_from(ball.x, ball.y) > room + self.width + TILE_SIDE:
            return
        boxes = [coil.box for coil in coils_entered_by(ball, self.width)]
        for ahead in range(LEAST_STEPS_TO_COIL, room + 1):
            right, down = ahead * ball.dx, ahead * ball.dy
            for index, box in enumerate(boxes):
                if has(box.x + right, box.y + down):
                    yield list(coils_entered_by(ball.after_flight(ahead), self.width))[index]
                    return


class OpenGroundSearch(CoilSearch):
    """A search for ways from a ball out of its part to open ground, from which it can come to a goal in time.

    If it is backward, the ball comes from the goal to its part.
    """

    def __init__(self, finder: PathFinder, ground: CoilGround, ball: Ball, goal: Ball, is_backward: bool,
                 has_room: Callable[[Footprint], bool], goal_cells: float) -> None:
        self.goal, self.goal_cells = goal.time_reversed() if is_backward else goal, goal_cells
        super().__init__(finder, ground, ball, self.goal.time, is_backward, has_room, OPEN_SQUARE_SIDE)
        self.most_bounces = MAX_TRIED_OPEN_BOUNCES

    def can_go_on(self, ball: Ball) -> bool:
        """Whether a ball on open ground can come to the goal in time."""
        return is_in_reach(ball, self.goal, OPEN_GROUND_SPARE_STEPS)

    def bounce_options_behind(self, bend: SearchBounce, room: int) -> Iterator[BounceOption]:
        """Yields the bounces that a ball can come to without another one, if the goal can be reached."""
        if is_in_reach(bend.ball, self.goal, OPEN_GROUND_SPARE_STEPS):
            yield from super().bounce_options_behind(bend, room)

    def cost_left(self, x: int, y: int) -> float:
        """Returns the cost of the way that is left from a cell, about: to open ground, and then to the goal."""
        return super().cost_left(x, y) + self.goal_cells * max(abs(x - self.goal.x), abs(y - self.goal.y))
