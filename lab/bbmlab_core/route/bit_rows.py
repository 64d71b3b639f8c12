"""Paths of four bounces by rows of bits: one AND looks at all places of the first two mirrors.

On diagonals a path is a way of right angles. The legs of such a path are a, b, c, d, e: c flies in the direction of a,
and d back along b. So b and d take up the time to spare. If the last bounce stays where it is and a becomes a step
longer, then c becomes a step shorter, and all else stays: the first mirror moves along one diagonal, the second one
along a parallel diagonal. The cells at which these two mirrors find no room are bits of two numbers, and a place for
both is a bit that neither has.
"""

import random
from itertools import islice
from typing import Iterator, NamedTuple

from .balls import BOUNCE_STEPS, Ball, BounceKind, Leg, ball_and_mirror_after_bounce, ball_and_mirror_before_bounce
from .settings import RouterSettings
from .world import ROW_STRIDE, RoutingGrid

# The cells of a mirror as seen from the cell of the ball that it turns.
MIRROR_OFFSETS = {(turn, dx, dy): ball_and_mirror_after_bounce(Ball(0, 0, dx, dy, 0), turn)[1].cells()
                  for turn in BounceKind for dx in (1, -1) for dy in (1, -1)}
# The most paths that are yielded for one last bounce.
MAX_PATHS_PER_BEND = 3


class Bend(NamedTuple):
    """A bounce of a path: its steps from the start or to the goal, its turn, and the ball behind it or, of a last
    bounce, before it."""

    steps: int
    turn: BounceKind
    ball: Ball


class MiddleLegs(NamedTuple):
    """The legs between a first bounce and a last one: away from the start's diagonal, along it, and back."""

    out: int
    along: int
    back: int


def middle_legs_between(first: Bend, last: Bend, most: int) -> MiddleLegs | None:
    """Returns the legs between two bounces if they fit place and time, and those that take up time have at most `most`
    steps."""
    ball, goal, is_flat = first.ball, last.ball, first.turn is BounceKind.FLAT
    u, v = (goal.x - ball.x) * ball.dx, (goal.y - ball.y) * ball.dy
    u, v = (u + 1, v - 3) if is_flat else (u - 3, v + 1)
    along = (u - v) // 2 if is_flat else (v - u) // 2
    if along < BOUNCE_STEPS or (u + v) % 2:
        return None
    rest = goal.time - ball.time - along
    out, odd = divmod(rest + (u + v) // 2, 2)
    back = rest - out
    return None if odd or min(out, back) < BOUNCE_STEPS or max(out, back) > most else MiddleLegs(out, along, back)


def unset_bit_steps(bits: int, x: int, dx: int, low: int, high: int) -> Iterator[int]:
    """Yields the steps from `low` to `high`, in order of x, after which a ball in column x is at a bit that is not set.
    """
    free = ~(bits >> (x + low if dx > 0 else x - high)) & (1 << high - low + 1) - 1
    while free:
        index = (free & -free).bit_length() - 1
        free &= free - 1
        yield low + index if dx > 0 else high - index


class BallJoiner:
    """Joins balls by bounces in a world that does not change meanwhile. Claims of blocks are not tested."""

    def __init__(self, world: RoutingGrid, chance: random.Random, settings: RouterSettings) -> None:
        self.world, self.chance, self.settings = world, chance, settings
        self.known: dict[tuple[int, bool, BounceKind, int, int], int] = {}

    def taken_column_bits(self, ball: Ball, turn: BounceKind, is_falling: bool) -> int:
        """Returns in which columns a ball that comes in this direction to a cell of a diagonal finds no room for its
        mirror, as bits.

        The diagonal is that through the ball's cell, falling or rising; the ball need not fly along it.
        """
        line = ball.y - ball.x + ROW_STRIDE if is_falling else ball.y + ball.x
        key = line, is_falling, turn, ball.dx, ball.dy
        if key not in self.known:
            lines, bits = self.world.blocked_falling if is_falling else self.world.blocked_rising, 0
            for i, j in MIRROR_OFFSETS[turn, ball.dx, ball.dy]:
                row = lines[line + j - i if is_falling else line + i + j]
                bits |= row >> i if i > 0 else row << -i
            self.known[key] = bits
        return self.known[key]

    def most_steps_to_bounce(self, ball: Ball) -> int:
        """Returns the steps after which a ball can bounce inside the plane, at most those of the longest leg."""
        return min(self.world.free_steps(ball, self.settings.longest_leg), self.world.steps_to_margin(ball))

    def pop_in_random_order(self, found: list[tuple[int, BounceKind]]) -> Iterator[tuple[int, BounceKind]]:
        """Yields the members of a list in random order, without shuffling them all at once."""
        while found:
            index = int(self.chance.random() * len(found))
            found[index], last = found[-1], found[index]
            found.pop()
            yield last

    def first_bends(self, ball: Ball, least: int) -> Iterator[Bend]:
        """Yields the bounces on the straight way of a ball for which a mirror has room, in random order."""
        most, is_falling = self.most_steps_to_bounce(ball), ball.dx == ball.dy
        found = [(steps, turn) for turn in BounceKind if most >= least
                 for steps in unset_bit_steps(self.taken_column_bits(ball, turn, is_falling),
                                              ball.x, ball.dx, least, most)]
        for steps, turn in self.pop_in_random_order(found):
            yield Bend(steps, turn, ball_and_mirror_after_bounce(ball.after_flight(steps), turn)[0])

    def last_bends(self, goal: Ball) -> Iterator[Bend]:
        """Yields the bounces from which a ball flies straight to a goal and for which a mirror has room, in random
        order."""
        most, is_falling = self.most_steps_to_bounce(goal.time_reversed()), goal.dx == goal.dy
        found: list[tuple[int, BounceKind]] = []
        for turn in BounceKind:
            if most < BOUNCE_STEPS:
                break
            before = ball_and_mirror_before_bounce(goal, turn)[0]
            found += ((steps, turn)
                      for steps in unset_bit_steps(self.taken_column_bits(before, turn, is_falling), before.x, -goal.dx,
                                                   BOUNCE_STEPS, most))
        for steps, turn in self.pop_in_random_order(found):
            yield Bend(steps, turn, ball_and_mirror_before_bounce(goal.after_flight(-steps), turn)[0])

    def joining_legs(self, start: Ball, goal: Ball, begun: int, count: int) -> Iterator[list[Leg]]:
        """Yields legs from a ball to a ball with four bounces, the last of them at `count` random places."""
        if start.dx * start.dy != goal.dx * goal.dy or self.most_steps_to_bounce(start) < begun:
            return
        firsts = [Bend(begun, turn, ball_and_mirror_after_bounce(start.after_flight(begun), turn)[0])
                  for turn in BounceKind]
        for last in islice(self.last_bends(goal), count):
            for first in firsts:
                if (first.ball.dx, first.ball.dy) == (-last.ball.dx, -last.ball.dy):
                    yield from islice(self.legs_with_bends(start, first, last), MAX_PATHS_PER_BEND)

    def legs_with_bends(self, start: Ball, first: Bend, last: Bend) -> Iterator[list[Leg]]:
        """Yields legs with given turns and a given last bounce. `first` is the earliest first bounce."""
        world, middle = self.world, middle_legs_between(first, last, self.settings.longest_detour)
        if middle is None:
            return
        second = first.ball.after_flight(middle.out)
        third = ball_and_mirror_after_bounce(second, first.turn)[0].after_flight(middle.along)
        behind, mirror = ball_and_mirror_after_bounce(third, first.turn.other)
        if not world.has_room_for_mirror(mirror) or not self.is_way_free(behind, middle.back):
            return
        # The third bounce stays where it is, so the second one is at most as far from it as a ball flies back from
        # there.
        reach = world.free_steps(Ball(third.x, third.y, -third.dx, -third.dy, 0), middle.along)
        low = max(first.steps, first.steps + middle.along - reach - BOUNCE_STEPS)
        high = min(self.most_steps_to_bounce(start), first.steps + middle.along - BOUNCE_STEPS)
        if low > high:
            return
        is_falling = start.dx == start.dy
        shift = second.x - first.steps * start.dx - start.x
        others = self.taken_column_bits(second, first.turn, is_falling)
        taken = self.taken_column_bits(start, first.turn, is_falling)
        taken |= others >> shift if shift >= 0 else others << -shift
        for steps in unset_bit_steps(taken, start.x, start.dx, low, high):
            more = steps - first.steps
            if self.is_way_free(ball_moved_along(first.ball, start, more),
                                middle.out) and self.is_inside(ball_moved_along(second, start, more)):
                yield [Leg(steps, first.turn), Leg(middle.out, first.turn), Leg(middle.along - more, first.turn.other),
                       Leg(middle.back, last.turn), Leg(last.steps, None)]

    def is_way_free(self, ball: Ball, steps: int) -> bool:
        """Whether no mirror is in the way of a ball that has just bounced, for some steps."""
        return self.world.free_steps(ball.after_flight(BOUNCE_STEPS), steps - BOUNCE_STEPS) >= steps - BOUNCE_STEPS

    def is_inside(self, ball: Ball) -> bool:
        """Whether a ball is inside the plane."""
        return self.world.is_inside(ball.x, ball.y)


def ball_moved_along(ball: Ball, start: Ball, steps: int) -> Ball:
    """Returns a ball that is moved along the direction of a start."""
    return ball._replace(x=ball.x + steps * start.dx, y=ball.y + steps * start.dy)
