"""Claims of a join as straight flights: they answer as sets of the numbers of blocks at times do."""

import random
import unittest
from typing import Iterable

import support  # noqa: F401
from bbmlab_core.joining.flight_claims import (DIRECTION_BY_NUMBER_STEP, FlightClaims, pop_flight_ranges,
                                               ranges_without_claims)
from bbmlab_core.joining.lone_ways import PackedBalls
from bbmlab_core.joining.parts import BlockClaimCounts, part_footprint
from bbmlab_core.route.balls import Ball
from bbmlab_core.route.world import ROW_STRIDE, STEP_STRIDE
from bbmlab_core.texts.layouts import Layout

# Blocks are in a small square for a short time, so that many flights meet.
SIDE, STEPS = 12, 12


def some_flight(chance: random.Random) -> range:
    """Returns a flight in any direction. At a time, all blocks are in even columns and rows, or all in odd ones."""
    time, step = chance.randrange(STEPS), chance.choice([*DIRECTION_BY_NUMBER_STEP])
    count = chance.choice((1, 1, 2, 5, 20))
    x, y = (64 + 2 * chance.randrange(SIDE // 2) + time % 2 for _ in range(2))
    first = time * STEP_STRIDE + y * ROW_STRIDE + x
    return range(first, first + count * step, step)


class FlightClaimsTest(unittest.TestCase):
    """Flights beside sets of numbers."""

    def test_claims(self) -> None:
        """Flights meet if and only if they share a block at a time, whatever was added and taken away before."""
        chance, meetings = random.Random(1), 0
        for _ in range(100):
            claims, numbers, added = FlightClaims(), set[int](), list[Iterable[int]]()
            for _ in range(60):
                flight = some_flight(chance)
                part = chance.choice((flight, flight, list(flight), range(flight[0], flight[0] + 1)))
                self.assertEqual(claims.isdisjoint(part), numbers.isdisjoint(part))
                meetings += not claims.isdisjoint(part)
                if claims.isdisjoint(part):
                    claims.update(part)
                    numbers.update(part)
                    added.append(part)
                elif chance.random() < 0.3:
                    part = added.pop(chance.randrange(len(added)))
                    claims.difference_update(part)
                    numbers.difference_update(part)
            claims.difference_update(*added)
            self.assertEqual(len(claims), 0)
            self.assertTrue(claims.isdisjoint(numbers))
        self.assertGreater(meetings, 500)

    def test_flights_of_numbers(self) -> None:
        """Flights that are made of numbers have each of them once, and few flights are found."""
        chance = random.Random(1)
        for _ in range(20):
            given = [some_flight(chance) for _ in range(15)]
            numbers = set[int]().union(*given)
            flights = list(pop_flight_ranges(set(numbers)))
            self.assertEqual(sorted(number for flight in flights for number in flight), sorted(numbers))
            self.assertLess(len(flights), 3 * len(given))
            left_out = set(chance.sample(sorted(numbers), len(numbers) // 5))
            left = [own for flight in flights for own in ranges_without_claims(flight, left_out)]
            self.assertEqual(sorted(number for flight in left for number in flight), sorted(numbers - left_out))

    def test_part_item(self) -> None:
        """A part touches the cells of the blocks that it claims, but for mirrors."""
        chance = random.Random(1)
        for _ in range(20):
            flights = [some_flight(chance) for _ in range(15)]
            corners = [number % STEP_STRIDE for flight in flights for number in flight]
            around = {corner + offset for corner in corners for offset in (0, 1, ROW_STRIDE, ROW_STRIDE + 1)}
            mirrors = frozenset([*chance.sample(sorted(around), 9), ROW_STRIDE * ROW_STRIDE - 1])
            item = part_footprint(mirrors, flights)
            self.assertEqual((item.touched_cells, item.mirrors), (around - mirrors, mirrors))
            self.assertEqual(item.claims, {number for flight in flights for number in flight})
            counts = BlockClaimCounts(Layout(128, 128, 64), (number for flight in flights for number in flight))
            self.assertTrue(all(counts.claim_count(corner) == corners.count(corner) for corner in (*around, -1, 128)))

    def test_lone_balls(self) -> None:
        """Balls are as they were."""
        balls = [Ball(40 + time + (dx < 0), 60 + time + (dy < 0), dx, dy, time)
                 for time in range(9) for dx in (1, -1) for dy in (1, -1)]
        self.assertTrue(all(ball.is_legal for ball in balls))
        own = PackedBalls(balls)
        self.assertEqual([*own], balls)
        self.assertEqual([*reversed(own)], balls[::-1])
        self.assertEqual((len(own), own[-1]), (len(balls), balls[-1]))


if __name__ == "__main__":
    unittest.main()
