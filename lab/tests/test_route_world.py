"""The world of the router: what items claim, and why items that fit together run as they run alone."""

import random
import unittest

import support  # noqa: F401
from bbmlab_core.route.balls import (BOUNCE_STEPS, Ball, BounceKind, ExactRun, Leg, follow_legs, mirror_cells, path_run,
                                     run_exactly, start_state)
from bbmlab_core.route.cells import cell_library
from bbmlab_core.route.world import (LEAST_BULK_COUNT, ROW_STRIDE, STEP_STRIDE, Footprint, RoutingGrid, cell_number,
                                     gate_cell_footprint, path_footprint)
from bbmlab_core.texts.layouts import Cell

# The steps of the runs that are compared.
LAST = 48


class Piece:
    """A path or a gate with straight ways in and out, from time 0 to `LAST`: its item, its mirrors, and its balls at
    time 0."""

    def __init__(self, item: Footprint, mirrors: set[Cell], balls: list[Ball]) -> None:
        self.item, self.mirrors, self.balls = item, mirrors, balls

    def run(self) -> ExactRun:
        """Runs the piece alone."""
        return run_exactly(self.mirrors, start_state([(ball, 1) for ball in self.balls]), 0, LAST)


def random_ball(chance: random.Random) -> Ball:
    """Returns a legal ball at time 0."""
    dx, dy = chance.choice((1, -1)), chance.choice((1, -1))
    return Ball(2 * chance.randrange(35, 75) + (dx < 0), 2 * chance.randrange(35, 75) + (dy < 0), dx, dy, 0)


def random_path(chance: random.Random) -> Piece | None:
    """Returns a random path, or None if it would come to its own mirrors."""
    ball, legs, left = random_ball(chance), [], LAST
    for _ in range(chance.randrange(5)):
        legs.append(Leg(chance.randint(BOUNCE_STEPS, 12), chance.choice(list(BounceKind))))
        left -= legs[-1].steps
    if left < BOUNCE_STEPS:
        return None
    legs.append(Leg(left, None))
    item = path_footprint(ball, legs)
    return Piece(item, mirror_cells(follow_legs(ball, legs)[1]), [ball]) if item else None


def random_gate(chance: random.Random) -> Piece | None:
    """Returns a random gate with straight ways in and out, or None if its balls meet again outside."""
    cell = chance.choice(cell_library()[chance.choice(["switch", "interact"])])
    time = chance.randint(2, 8)
    x, y = (2 * chance.randrange(30, 60) + time % 2 for _ in range(2))
    parts = [gate_cell_footprint(cell, x, y, time)]
    ins = [ball.shifted_by(x, y, time) for ball in cell.ins.values()]
    parts += [item for ball in ins for item in [path_footprint(ball.at_time(0), [Leg(ball.time, None)])] if item]
    for ball in (own.shifted_by(x, y, time) for own in cell.outs.values()):
        parts += [item for item in [path_footprint(ball, [Leg(LAST - ball.time, None)])] if item]
    plane = RoutingGrid(300)
    for part in parts:
        if not plane.can_add(part):
            return None
        plane.add(part)
    item = Footprint(parts[0].mirrors, tuple(own for part in parts for own in part.touched_parts),
                     tuple(own for part in parts for own in part.claim_parts))
    return Piece(item, {(u + x, v + y) for u, v in cell.mirrors}, [ball.at_time(0) for ball in ins])


class Composition(unittest.TestCase):
    """Items that claim no block in common, and whose mirrors are in no touched cell of another, run as they run alone.
    """

    def differs(self, pieces: list[Piece]) -> bool:
        """Whether the run of all pieces together differs from the union of their runs alone."""
        mirrors = set().union(*(piece.mirrors for piece in pieces))
        start = start_state([(ball, 1) for piece in pieces for ball in piece.balls])
        together, alone = run_exactly(mirrors, start, 0, LAST), [piece.run() for piece in pieces]
        if not together.is_stable:
            return True
        return any(set(state) != set().union(*(run.states[time] for run in alone)) for time,
                   state in enumerate(together.states))

    def test_pieces_that_fit_run_as_alone(self) -> None:
        """Random pieces that fit run as they run alone. Some that do not fit run otherwise, so the comparison can fail.
        """
        seed = random.randrange(10**6)
        chance, counts, spoilt = random.Random(seed), [], 0
        for _ in range(25):
            plane, pieces = RoutingGrid(300), []
            for _ in range(40):
                piece = random_gate(chance) if chance.random() < 0.3 else random_path(chance)
                if piece is None:
                    continue
                if plane.can_add(piece.item):
                    plane.add(piece.item)
                    pieces.append(piece)
                elif not any(piece.mirrors & other.mirrors for other in pieces):
                    spoilt += self.differs([*pieces, piece])
            self.assertFalse(self.differs(pieces), f"seed {seed}")
            counts.append(len(pieces))
        self.assertGreater(max(counts), 5)
        self.assertGreater(spoilt, 20)


class Claims(unittest.TestCase):
    """What paths and the world note."""

    def test_paths_claim_what_they_run(self) -> None:
        """The blocks of a path by arithmetic are those of its exact run."""
        seed = random.randrange(10**6)
        chance, count = random.Random(seed), 0
        for _ in range(500):
            ball = random_ball(chance)
            legs = [Leg(chance.randint(BOUNCE_STEPS, 14), chance.choice(list(BounceKind)))
                    for _ in range(chance.randrange(7))]
            legs.append(Leg(chance.randint(BOUNCE_STEPS, 14), None))
            item = path_footprint(ball, legs)
            if item:
                count += 1
                run = path_run(ball, legs)
                self.assertTrue(run.is_stable, f"seed {seed}")
                self.assertEqual(set(run.states[-1]), set(follow_legs(ball, legs)[0].cells()), f"seed {seed}")
                claims = {time * STEP_STRIDE + cell_number(corner) for time,
                          corners in enumerate(run.blocks) for corner in corners}
                self.assertEqual(item.claims, claims, f"seed {seed}")
        self.assertGreater(count, 300)

    def test_add_and_remove(self) -> None:
        """A world from which all items are removed is as it was, in any order of removing."""
        chance = random.Random(5)
        plane, items = RoutingGrid(300), []
        while len(items) < 8:
            piece = random_path(chance)
            if piece and plane.can_add(piece.item):
                plane.add(piece.item)
                items.append(piece.item)
        ball = random_ball(chance)
        self.assertTrue(any(plane.blocked))
        chance.shuffle(items)
        for item in items:
            plane.remove(item)
        self.assertFalse(plane.claims or plane.mirrors or any(plane.counts) or any(plane.blocked)
                         or any(plane.mirror_falling)
                         or any(plane.mirror_rising) or any(plane.blocked_falling) or any(plane.blocked_rising))
        self.assertGreater(plane.free_steps(ball, 400), 60)

    def test_flights_are_counted_at_once(self) -> None:
        """Flights leave in a world what their cells leave one by one, also when some are removed."""
        chance, plane, plain = random.Random(7), RoutingGrid(300), RoutingGrid(300)
        items = [piece.item for piece in (random_path(chance) for _ in range(60)) if piece]
        flights = [part for item in items for part in item.touched_parts if isinstance(part, range)]
        self.assertEqual({part.step for part in flights if len(part) >= LEAST_BULK_COUNT},
                         {ROW_STRIDE + 1, ROW_STRIDE - 1, -ROW_STRIDE - 1, 1 - ROW_STRIDE})
        for change in (RoutingGrid.add, RoutingGrid.remove):
            for item in items:
                change(plane, item)
                change(plain, Footprint(item.mirrors, tuple(map(list, item.touched_parts)), item.claim_parts))
            self.assertEqual(plane.counts, plain.counts)
            for rows in ("blocked", "blocked_falling", "blocked_rising"):
                self.assertEqual(getattr(plane, rows), getattr(plain, rows), rows)
            del items[::2]

    def test_free_flight_ends_before_mirrors(self) -> None:
        """A straight flight as long as `free_steps` says fits, and one step more meets a mirror or the margin."""
        chance, met = random.Random(6), 0
        for _ in range(300):
            plane, ball = RoutingGrid(300), random_ball(chance)
            other = random_path(chance)
            if other is None:
                continue
            mirrors = Footprint(other.item.mirrors)
            plane.add(mirrors)
            steps = plane.free_steps(ball, 200)
            item = path_footprint(ball, [Leg(steps, None)])
            start = path_footprint(ball, [Leg(1, None)])
            assert item and start
            if not steps or not plane.can_add(start):
                continue
            self.assertTrue(plane.mirrors.isdisjoint(item.touched_cells))
            longer = path_footprint(ball, [Leg(steps + 3, None)])
            met += longer is not None and not plane.mirrors.isdisjoint(longer.touched_cells)
        self.assertGreater(met, 10)
