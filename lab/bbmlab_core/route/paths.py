"""Paths of balls: from a ball to a ball at an exact time, or with a free beginning or end.

A path is straight legs with a bounce between two legs. A bounce exchanges falling and rising diagonals, so the legs of
a path lie on the two kinds of diagonals in turn. The last three legs follow from place and time of the goal.
"""

import random
from dataclasses import dataclass
from itertools import islice
from typing import Callable, Iterator, NamedTuple, Sequence

from .balls import (BOUNCE_STEPS, Ball, BounceKind, Leg, Mirror, ball_and_mirror_after_bounce,
                    ball_and_mirror_before_bounce, follow_legs)
from .bit_rows import BallJoiner, Bend
from .settings import RouterSettings
from .world import MARGIN_CELLS, Footprint, LaidFootprint, RoutingGrid, path_footprint

# A leg leads on for at least this many steps, if the path goes on so long.
LEAST_LEG_STEPS = 12
# A wander ends with this many steps more than the way to its goal needs at least.
WANDER_SPARE_STEPS = 30
# A way behind an open end goes on for the first number of steps after its bounce, and the second number of steps is
# free when it is found. The straight way is kept free for the third number of steps behind the bounce.
STEPS_PAST_OPEN_BOUNCE = 24
FREE_STEPS_PAST_OPEN_BOUNCE = 40
STRAIGHT_STEPS_PAST_BOUNCE = 4
NO_FOOTPRINT = Footprint(frozenset())
# A path without a return has at most this many steps to spare.
MAX_STAIR_SPARE_STEPS = 24


@dataclass(frozen=True, eq=False)
class Path:
    """A path of one ball: its wire, its first and last ball, its legs, and what it takes."""

    wire: str
    start: Ball
    end: Ball
    legs: tuple[Leg, ...]
    item: Footprint

    def mirrors(self) -> list[Mirror]:
        """Returns the mirrors, in the order of time."""
        return follow_legs(self.start, self.legs)[1]


def joined_path(parts: list[Path]) -> Path:
    """Returns the path of parts that follow one another. What it takes is left out."""
    legs = list(parts[0].legs)
    for part in parts[1:]:
        legs[-1:] = [Leg(legs[-1].steps + part.legs[0].steps, part.legs[0].turn), *part.legs[1:]]
    return Path(parts[0].wire, parts[0].start, parts[-1].end, tuple(legs), Footprint(frozenset()))


def combined_footprint(item: Footprint, way: Footprint) -> Footprint:
    """Returns what a path takes with the straight way at its open end."""
    if way is NO_FOOTPRINT:
        return item
    touched = (*item.touched_parts, *way.touched_parts)
    return Footprint(item.mirrors | way.mirrors, touched, (*item.claim_parts, *way.claim_parts))


class WanderOption(NamedTuple):
    """A way on for a wandering ball: steps and a bounce, with a cost for each step."""

    cost: float
    steps: int
    turn: BounceKind


class OuterBounce(NamedTuple):
    """A bounce after or before some steps, with the ball on its other side; or no bounce."""

    steps: int
    turn: BounceKind | None
    ball: Ball


Direction = tuple[int, int]


class Trail:
    """A path that is being made, forward from its first ball or backward from its last one.

    Its parts are laid in the world, so that the parts to come keep off them. Of two trails at a time the one that was
    begun last is cleared first. A trail that goes backward moves the reversed ball.
    """

    def __init__(self, world: RoutingGrid, ball: Ball, is_backward: bool = False) -> None:
        self.world, self.is_backward = world, is_backward
        self.ball = ball.time_reversed() if is_backward else ball
        self.begun = BOUNCE_STEPS if is_backward else 0
        self.steps: list[tuple[int, BounceKind | None, Ball, int, LaidFootprint]] = []

    def ball_and_mirror_after_bounce(self, ball: Ball, turn: BounceKind) -> tuple[Ball, Mirror]:
        """Returns the ball after a bounce, and its mirror."""
        if not self.is_backward:
            return ball_and_mirror_after_bounce(ball, turn)
        before, mirror = ball_and_mirror_before_bounce(ball.time_reversed(), turn)
        return before.time_reversed(), mirror

    def free_steps(self, most: int) -> int:
        """Returns how many steps, at most `most`, the ball can fly straight on."""
        begun = 0 if self.is_backward else self.begun
        return begun + self.world.free_steps(self.ball.after_flight(begun), most - begun) if most > begun else 0

    def push_leg(self, steps: int, turn: BounceKind | None) -> bool:
        """Adds a leg and its bounce if they meet nothing."""
        if steps < self.begun and turn is not None or steps < 0:
            return False
        ball = self.ball.after_flight(steps)
        after = self.ball_and_mirror_after_bounce(ball, turn)[0] if turn else ball
        if self.is_backward:
            first = after.time_reversed()
            item = path_footprint(first, [Leg(0, turn), Leg(steps, None)] if turn else [Leg(steps, None)])
        else:
            item = path_footprint(self.ball, [Leg(steps, turn)], min(self.begun, steps))
        if item is None or not self.world.can_add(item):
            return False
        self.steps.append((steps, turn, self.ball, self.begun, self.world.lay_temporarily(item)))
        self.ball, self.begun = after, BOUNCE_STEPS
        return True

    def pop_leg(self) -> None:
        """Takes the last leg away."""
        _, _, self.ball, self.begun, laid = self.steps.pop()
        self.world.lift_last_laid(laid)

    def clear_legs(self) -> None:
        """Takes all legs away."""
        while self.steps:
            self.pop_leg()

    def legs(self) -> list[Leg]:
        """Returns the legs in the order of time."""
        if not self.is_backward:
            return [Leg(steps, turn) for steps, turn, *_ in self.steps]
        turns = [turn for _, turn, *_ in self.steps]
        legs = [Leg(self.steps[0][0], None)]
        for index in range(1, len(self.steps)):
            legs.insert(0, Leg(self.steps[index][0], turns[index - 1]))
        return legs


class PathFinder:
    """Finds paths in a world. Its choices come from `chance` alone."""

    def __init__(self, world: RoutingGrid, chance: random.Random, settings: RouterSettings) -> None:
        self.world, self.chance, self.settings = world, chance, settings
        # The departures of waiting balls, while one gate is placed. What a place adds to the world is looked at later.
        self.known_departures: dict[tuple[Ball, int], dict[Direction, list[OuterBounce]]] = {}
        # What may raise an exception when the time is over.
        self.require_time_left: Callable[[], None] = lambda: None

    # --- free ends ----------------------------------------------------------------------------------------------------

    def path_to_anywhere(self, wire: str, ball: Ball, end: int, stays: bool = False) -> Path | None:
        """Returns a path from a ball to any place at the time `end`.

        If it stays, its item is in the world.
        """
        trail = Trail(self.world, ball)
        found = self.wander(trail, end)
        legs, last = trail.legs(), trail.ball
        trail.clear_legs()
        item = path_footprint(ball, legs) if found and stays else None
        if item is not None:
            self.world.add(item)
            most = self.settings.open_end_steps
            way = self.open_way_footprint(last, 1, most)
            # A ball that begins anywhere has an open start too.
            start = self.open_way_footprint(ball, -1, most) if ball.time == 0 else NO_FOOTPRINT
            if way is not None and start is not None:
                item = combined_footprint(combined_footprint(item, way), start)
                self.world.add(way)
                self.world.add(start)
                return Path(wire, ball, last, tuple(legs), item)
            self.world.remove(item)
        return self.path_of_legs(wire, ball, last, legs) if found and not stays else None

    def path_from_anywhere(self, wire: str, goal: Ball) -> Path | None:
        """Returns a path that begins at any place at time 0 and comes to a ball."""
        trail = Trail(self.world, goal, is_backward=True)
        found = self.wander(trail, 0)
        legs, first = trail.legs() if trail.steps else [], trail.ball.time_reversed()
        trail.clear_legs()
        path = self.path_of_legs(wire, first, goal, legs) if found else None
        way = self.open_way_footprint(first, -1, self.settings.open_end_steps, path.item) if path else None
        return Path(wire, first, goal, path.legs, combined_footprint(path.item, way)) if path and way else None

    def open_way_footprint(self, ball: Ball, sign: int, most: int, own: Footprint | None = None) -> Footprint | None:
        """Returns what a way on with one bounce takes behind the end of a path, or before its start if `sign` is -1.

        The bounce comes within `most` steps. Its mirror is not put there: it is room for a join. Returns None if
        something is in the way, `own` included.
        """
        if not most:
            return NO_FOOTPRINT
        for legs in self.legs_past_bounce(ball, sign, most):
            way = path_footprint(ball if sign > 0 else self.start_of_legs(ball, legs), legs)
            # A few steps of the straight way keep mirrors so far away that a search sees the bounce.
            steps = STRAIGHT_STEPS_PAST_BOUNCE + (legs[0] if sign > 0 else legs[-1]).steps
            straight = path_footprint(ball if sign > 0 else ball.after_flight(-steps), [Leg(steps, None)])
            if way is None or straight is None or not self.world.can_add(way) or not self.world.can_add(straight):
                continue
            found = combined_footprint(way, straight)
            if own is None or own.mirrors.isdisjoint(found.touched_cells) and way.mirrors.isdisjoint(own.touched_cells):
                return found
        return None

    def legs_past_bounce(self, ball: Ball, sign: int, most: int) -> Iterator[list[Leg]]:
        """Yields legs with one bounce that has room, soon behind a ball or before it, with a free way beyond the
        bounce.

        If a ball soon leaves at the left or at the top, where the plane does not grow, its straight way is first.
        """
        first = 1 if sign > 0 else 3
        rooms = [place - first for place, step in ((ball.x, sign * ball.dx), (ball.y, sign * ball.dy)) if step < 0]
        room = min(rooms, default=most + 1)
        far = max(ball.x, ball.y) + most
        if STRAIGHT_STEPS_PAST_BOUNCE <= room <= most and far < self.world.size - MARGIN_CELLS - 1:
            yield [Leg(room - STRAIGHT_STEPS_PAST_BOUNCE, None)]
        most = self.world.free_steps(ball if sign > 0 else ball.time_reversed(), most)
        for steps in range(0 if sign > 0 else BOUNCE_STEPS, most + 1):
            at = ball.after_flight(sign * steps)
            for turn in BounceKind:
                after, mirror = (ball_and_mirror_after_bounce(at, turn) if sign > 0
                                 else ball_and_mirror_before_bounce(at, turn))
                clear = after.after_flight(BOUNCE_STEPS) if sign > 0 else after.time_reversed()
                if (self.world.has_room_for_mirror(mirror)
                        and self.world.free_steps(clear, FREE_STEPS_PAST_OPEN_BOUNCE) >= FREE_STEPS_PAST_OPEN_BOUNCE):
                    ends = [Leg(steps, turn), Leg(STEPS_PAST_OPEN_BOUNCE, None)], [Leg(STEPS_PAST_OPEN_BOUNCE, turn),
                                                                                   Leg(steps, None)]
                    yield ends[sign < 0]

    def start_of_legs(self, ball: Ball, legs: list[Leg]) -> Ball:
        """Returns the ball from which legs lead to a ball."""
        for leg in reversed(legs):
            ball = (ball_and_mirror_before_bounce(ball, leg.turn)[0] if leg.turn else ball).after_flight(-leg.steps)
        return ball

    def path_of_legs(self, wire: str, start: Ball, end: Ball, legs: list[Leg]) -> Path | None:
        """Returns the path of these legs if it meets nothing, itself included."""
        item = path_footprint(start, legs)
        if item is None or not self.world.can_add(item):
            return None
        return Path(wire, start, end, tuple(legs), item)

    def wander(self, trail: Trail, end: int, goal: Ball | None = None) -> bool:
        """Leads a trail on up to a time, so that it takes few new cells; with a goal, it can still come to this ball.
        """
        ways: list[Iterator[WanderOption]] = []
        self.require_time_left()
        for _ in range(self.settings.wander_tries + (end - trail.ball.time) // self.settings.steps_per_wander_try):
            left = end - trail.ball.time
            if left == 0 and not trail.steps or self.can_end(trail, left, goal) and trail.push_leg(left, None):
                return True
            ways.append(iter(self.next_bounce_options(trail, left, goal)))
            while ways:
                option = next(ways[-1], None)
                if option and trail.push_leg(option.steps, option.turn):
                    break
                if option is None:
                    ways.pop()
                    if ways:
                        trail.pop_leg()
            if not ways:
                return False
        return False

    def can_end(self, trail: Trail, left: int, goal: Ball | None) -> bool:
        """Whether a trail can fly straight on to its end, with enough time to come to a goal from there."""
        if left < trail.begun or trail.free_steps(left) < left:
            return False
        return goal is None or self.can_reach(trail.ball.after_flight(left), goal)

    def can_reach(self, ball: Ball, goal: Ball) -> bool:
        """Whether a wandering ball can come to a goal with steps to spare, more of them if it is far away."""
        spare = WANDER_SPARE_STEPS + int(self.settings.wander_spare_per_cell * max(abs(ball.x - goal.x),
                                                                                   abs(ball.y - goal.y)))
        return is_in_reach(ball, goal, spare)

    def next_bounce_options(self, trail: Trail, left: int, goal: Ball | None) -> list[WanderOption]:
        """Returns the ways on of a trail, the cheapest first."""
        chance, world, settings = self.chance, self.world, self.settings
        room, least = trail.free_steps(min(settings.longest_leg, left)), trail.begun
        found: list[WanderOption] = []
        if room < least:
            return found
        for index in range(settings.wander_option_count):
            steps = room - index if index < 3 and room - index >= least else chance.randint(least, room)
            at = trail.ball.after_flight(steps)
            for turn in BounceKind:
                after, mirror = trail.ball_and_mirror_after_bounce(at, turn)
                rest = left - steps
                if rest < BOUNCE_STEPS or not world.has_room_for_mirror(mirror):
                    continue
                clear = after.after_flight(BOUNCE_STEPS)
                on = BOUNCE_STEPS + world.free_steps(clear, min(60, rest - BOUNCE_STEPS))
                if on < min(LEAST_LEG_STEPS, rest) or goal and not self.can_reach(after, goal):
                    continue
                new = world.flight_cost(trail.ball, steps) + world.flight_cost(clear, on - BOUNCE_STEPS)
                cost = (new + settings.mirror_cost) / (steps + on) + chance.random() * 0.5
                found.append(WanderOption(cost, steps, turn))
        found.sort(key=lambda option: option.cost)
        return found[:4]

    # --- from a ball to a ball ----------------------------------------------------------------------------------------

    def find_path(self, wire: str, start: Ball, goal: Ball, tries: int) -> Path | None:
        """Returns a path from a ball to a ball: the cheapest of some that were found."""
        settings, best, least = self.settings, None, 0.0
        total = goal.time - start.time
        for _ in range(settings.path_choices if total <= settings.longest_compared_path else 1):
            path = self.find_path_once(wire, start, goal, tries)
            if path is None:
                break
            cost = self.path_cost(path)
            if best is None or cost < least:
                best, least = path, cost
        return best

    def path_cost(self, path: Path) -> float:
        """Returns the cost of a path: the cells that it newly touches, and its mirrors."""
        counts = self.world.counts
        new = sum(not counts[number] for part in path.item.touched_parts for number in part)
        return new + self.settings.mirror_cost * (len(path.legs) - 1)

    def find_path_once(self, wire: str, start: Ball, goal: Ball, tries: int) -> Path | None:
        """Returns a path from a ball to a ball. If there is much time to spare, the ball wanders first."""
        settings, total = self.settings, goal.time - start.time
        spare = total - max(abs(start.x - goal.x), abs(start.y - goal.y))
        if spare <= settings.most_direct_spare:
            legs = self.find_direct_legs(start, goal, tries)
            path = self.path_of_legs(wire, start, goal, legs) if legs else None
            if path or spare <= settings.least_wander_spare:
                return path
        for _ in range(settings.wanders):
            path = self.find_wandering_path(wire, start, goal, tries)
            if path:
                return path
        return None

    def find_wandering_path(self, wire: str, start: Ball, goal: Ball, tries: int) -> Path | None:
        """Returns a path that wanders up to some time before the goal."""
        trail = Trail(self.world, start)
        stop = goal.time - self.chance.randint(*self.settings.wander_stop)
        legs = None
        if stop > start.time and self.wander(trail, stop, goal):
            before, rest = trail.legs(), self.find_direct_legs(trail.ball, goal, tries)
            if rest:
                legs = [*before[:-1], Leg(before[-1].steps + rest[0].steps, rest[0].turn), *rest[1:]]
        trail.clear_legs()
        return self.path_of_legs(wire, start, goal, legs) if legs else None

    def find_direct_legs(self, start: Ball, goal: Ball, tries: int) -> list[Leg] | None:
        """Returns legs from a ball to a ball: straight, by rows of bits if there is much time to spare, else by random
        bounces."""
        total = goal.time - start.time
        if total < 0 or not is_in_reach(start, goal):
            return None
        if start.after_flight(total) == goal:
            straight = [Leg(total, None)]
            if self.is_free_path(start, straight):
                return straight
        if total - max(abs(start.x - goal.x), abs(start.y - goal.y)) >= self.settings.bits_spare:
            return next((legs for legs in self.legs_by_bit_rows(start, goal) if self.is_free_path(start, legs)), None)
        return self.random_joining_legs(start, goal, tries)

    def legs_by_bit_rows(self, start: Ball, goal: Ball) -> Iterator[list[Leg]]:
        """Yields legs from a ball to a ball by rows of bits: with four bounces, and with one or two more before or
        behind these."""
        joiner, settings = BallJoiner(self.world, self.chance, self.settings), self.settings
        is_parallel = start.dx * start.dy == goal.dx * goal.dy
        yield from joiner.joining_legs(start, goal, 0, 3 * settings.bit_ends)
        firsts = list(islice(joiner.first_bends(start, 0), settings.bit_bends))
        lasts: list[Bend | None] = [*islice(joiner.last_bends(goal), settings.bit_bends)] if is_parallel else [None]
        for first in firsts if lasts else ():
            for _ in range(2 if is_parallel else 1):
                last = lasts[int(self.chance.random() * len(lasts))]
                end = last.ball if last else goal
                if is_in_reach(first.ball, end):
                    for legs in joiner.joining_legs(first.ball, end, BOUNCE_STEPS, settings.bit_ends):
                        yield [Leg(first.steps, first.turn), *(legs_past_bend(legs, last) if last else legs)]

    def random_joining_legs(self, start: Ball, goal: Ball, tries: int) -> list[Leg] | None:
        """Returns legs from a ball to a ball.

        The first and the last bounce are chosen where mirrors have room. The two bounces between follow from place and
        time.
        """
        total = goal.time - start.time
        key = start, total // 32
        first = self.known_departures.get(key) or self.first_bounces_by_direction(start, total)
        last = self.last_bounces_by_direction(goal, total)
        self.known_departures[key] = first
        spare = total - max(abs(start.x - goal.x), abs(start.y - goal.y))
        returns = (True, True, True, False) if spare <= MAX_STAIR_SPARE_STEPS else (True,)
        joins = [(before, after, is_return) for way, before in first.items() for is_return in returns
                 for after in [last.get((-way[0], -way[1]) if is_return else way)] if after]
        for _ in range(tries if joins else 0):
            firsts, lasts, is_return = joins[int(self.chance.random() * len(joins))]
            before, after = firsts[int(self.chance.random() * len(firsts))], lasts[
                int(self.chance.random() * len(lasts))]
            legs = self.legs_between_bounces(before, after, is_return)
            if legs and self.is_free_path(start, legs):
                return legs
        return None

    def first_bounces_by_direction(self, ball: Ball, total: int) -> dict[Direction, list[OuterBounce]]:
        """Returns by direction the beginnings of a path: none, and first bounces for which a mirror has room."""
        found = {(ball.dx, ball.dy): [OuterBounce(0, None, ball)]}
        room = self.world.free_steps(ball, min(self.settings.longest_leg, total))
        for steps in self.sampled_step_counts(0, room):
            at = ball.after_flight(steps)
            for turn in BounceKind:
                after, mirror = ball_and_mirror_after_bounce(at, turn)
                if self.world.has_room_for_mirror(mirror):
                    found.setdefault((after.dx, after.dy), []).append(OuterBounce(steps, turn, after))
        return found

    def last_bounces_by_direction(self, goal: Ball, total: int) -> dict[Direction, list[OuterBounce]]:
        """Returns by direction the ends of a path: none, and last bounces for which a mirror has room."""
        found, back = {(goal.dx, goal.dy): [OuterBounce(0, None, goal)]}, goal.time_reversed()
        room = self.world.free_steps(back, min(self.settings.longest_leg, total))
        for steps in self.sampled_step_counts(BOUNCE_STEPS, room):
            at = goal.after_flight(-steps)
            for turn in BounceKind:
                before, mirror = ball_and_mirror_before_bounce(at, turn)
                if self.world.has_room_for_mirror(mirror):
                    found.setdefault((before.dx, before.dy), []).append(OuterBounce(steps, turn, before))
        return found

    def sampled_step_counts(self, least: int, most: int) -> Sequence[int]:
        """Returns numbers of steps from `least` to `most`: all, or some at random if they are many."""
        count = self.settings.bounce_places
        return range(least,
                     most + 1) if most - least < count else sorted(self.chance.sample(range(least, most + 1), count))

    def legs_between_bounces(self, before: OuterBounce, after: OuterBounce, is_return: bool) -> list[Leg] | None:
        """Returns legs that begin and end with given bounces, if two bounces between them can join them."""
        begun = BOUNCE_STEPS if before.turn else 0
        rest = middle_legs(before.ball, after.ball, begun, is_return, self.chance.random())
        if rest is None or not self.has_room_for_legs(before.ball, rest, begun):
            return None
        legs = [Leg(before.steps, before.turn), *rest] if before.turn else rest
        return [*legs[:-1], Leg(legs[-1].steps, after.turn), Leg(after.steps, None)] if after.turn else legs

    def is_free_path(self, start: Ball, legs: list[Leg]) -> bool:
        """Whether a path meets nothing, itself included."""
        item = path_footprint(start, legs)
        return item is not None and self.world.can_add(item)

    def has_room_for_legs(self, ball: Ball, legs: list[Leg], begun: int) -> bool:
        """Whether no mirror is in the way of legs, and each of their mirrors has room."""
        world = self.world
        for steps, turn in legs:
            if world.free_steps(ball.after_flight(begun), steps - begun) < steps - begun:
                return False
            ball = ball.after_flight(steps)
            if turn is not None:
                ball, mirror = ball_and_mirror_after_bounce(ball, turn)
                if not world.has_room_for_mirror(mirror):
                    return False
            begun = BOUNCE_STEPS
        return True


def legs_past_bend(legs: list[Leg], last: Bend) -> list[Leg]:
    """Returns legs that end at a last bounce, and that go on behind it."""
    return [*legs[:-1], Leg(legs[-1].steps, last.turn), Leg(last.steps, None)]


def middle_legs(ball: Ball, goal: Ball, begun: int, is_return: bool, share: float) -> list[Leg] | None:
    """Returns three legs from a ball to a ball, with two bounces, or None.

    If `is_return`, the ball comes back at the second bounce: two different bounces reverse it, and the time follows
    from the legs. Else two equal bounces shift it, and the time must fit; `share`, from 0 to 1, divides the way between
    the two legs.
    """
    x, y, dx, dy, time = ball
    total = goal.time - time
    for turn in BounceKind:
        if is_return:
            # The places of a ball after two bounces at one place, less its place before: see
            # `ball_and_mirror_after_bounce`.
            u, v = (goal.x - x) * dx, (goal.y - y) * dy
            u, v = (u + 1, v - 3) if turn is BounceKind.FLAT else (u - 3, v + 1)
        else:
            u, v = (goal.x - x) * dx, (goal.y - y) * dy
            u, v = (u + 4, v) if turn is BounceKind.FLAT else (u, v + 4)
        along, across = (u + v) // 2, (u - v) // 2 if turn is BounceKind.FLAT else (v - u) // 2
        if across < BOUNCE_STEPS or (u + v) % 2:
            continue
        if is_return:
            first, odd = divmod(total - across + along, 2)
            last, second = total - across - first, turn.other
        else:
            first, odd, second = begun + int(share * (along - begun - BOUNCE_STEPS + 1)), along + across != total, turn
            last = along - first
        if not odd and first >= begun and last >= BOUNCE_STEPS:
            return [Leg(first, turn), Leg(across, second), Leg(last, None)]
    return None


def is_in_reach(ball: Ball, goal: Ball, spare: int = -2 * BOUNCE_STEPS) -> bool:
    """Whether a ball can come to the place of another in time and with steps to spare, apart from what is in the way.
    """
    return max(abs(ball.x - goal.x), abs(ball.y - goal.y)) + spare <= goal.time - ball.time
