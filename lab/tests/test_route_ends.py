"""How the router leads waiting balls to coils, to open ground and to the last time."""

import copy
import random
import sys
import unittest
from typing import Any
from unittest import mock

import support
from bbmlab_core.route.attempt import Attempt
from bbmlab_core.route.balls import Ball, BounceKind, Leg, follow_legs
from bbmlab_core.route.coil_ways import CoiledPath
from bbmlab_core.route.ends import EndWiring
from bbmlab_core.route.netlist import RouterNetlist
from bbmlab_core.route.paths import Path
from bbmlab_core.route.settings import OPEN_END_STEPS, RouterSettings
from bbmlab_core.route.world import RoutingGrid, path_footprint
from test_route import circuit_text
from test_route_backward import BoardTests, read_circuit

sys.path.insert(0, str(support.TOP / "bench"))
from random_circuits import made_circuit  # noqa: E402


class Placed(Exception):
    """Enough gates are placed."""


def bits_of(world: RoutingGrid) -> tuple[Any, ...]:
    """Returns copies of the lists of bits and of the mirrors of a world."""
    return (list(world.blocked), list(world.blocked_falling), list(world.blocked_rising), list(world.mirror_falling),
            list(world.mirror_rising), set(world.mirrors))


def attempt_with_gates(count: int, gates: int = 12, side: int = 384) -> Attempt:
    """Returns an attempt that has placed some gates of a circuit."""
    attempt = Attempt(RouterNetlist(read_circuit(made_circuit("forward", gates, 8, 1))), side, 1, RouterSettings())

    def stop(placed: int, total: int) -> None:
        if placed == count:
            raise Placed

    with unittest.TestCase().assertRaises(Placed):
        attempt.run(stop)
    return attempt


class LaidItems(unittest.TestCase):
    """What is on the plane for a while."""

    def test_bits(self) -> None:
        """Laid items set the bits that added ones set, count nothing and claim nothing. Lifted, they leave the bits as
        they were."""
        chance, laid_items = random.Random(1), 0
        for _ in range(60):
            added, laid = RoutingGrid(520), RoutingGrid(520)
            for _ in range(12):
                ball = Ball(chance.randrange(160, 360), chance.randrange(160, 360), chance.choice((1, -1)),
                            chance.choice((1, -1)), 0)
                legs = [Leg(chance.randrange(3, 40), chance.choice(list(BounceKind)))
                        for _ in range(chance.randrange(3))]
                item = path_footprint(ball, [*legs, Leg(chance.randrange(30), None)])
                if item is None or not added.can_add(item):
                    continue
                self.assertTrue(laid.can_add(item))
                before = bits_of(laid)
                laid.lift_last_laid(laid.lay_temporarily(item))
                self.assertEqual(bits_of(laid), before)
                added.add(item)
                laid.lay_temporarily(item)
                laid_items += 1
                self.assertEqual(bits_of(laid), bits_of(added))
            self.assertEqual((len(laid.claims), any(laid.counts)), (0, False))
        self.assertGreater(laid_items, 200)


class Coils(unittest.TestCase):
    """Balls that stay in coils up to the last time."""

    def attempt(self, settings: RouterSettings = RouterSettings()) -> Attempt:
        """Returns an attempt without gates."""
        return Attempt(RouterNetlist(read_circuit(circuit_text("a", "", "a"))), 640, 1, settings)

    def test_balls_go_to_coils(self) -> None:
        """With time enough balls go to coils, which do not meet, and which leave the board as it was when they go."""
        attempt = self.attempt()
        board = attempt.board
        for number in range(6):
            ball = Ball(200 + 40 * number, 300, 1, -1, 100)
            path = attempt.ends.add_end_path("a", ball, 2500)
            assert isinstance(path, CoiledPath)
            board.ends.append(path)
            self.assertEqual((path.start, path.end.time), (ball, 2500))
            self.assertEqual(follow_legs(ball, path.legs)[0], path.end)
            self.assertTrue(path.box.has((path.end.x, path.end.y)))
        for path in board.ends:
            board.remove_path(path)
        self.assertEqual((len(board.world.claims), any(board.world.counts), any(board.names.values())),
                         (0, False, False))

    def test_no_coil(self) -> None:
        """A ball goes to no coil with little time, and to none if ends stay open for a join."""
        ball = Ball(300, 300, 1, 1, 100)
        for settings, end in ((RouterSettings(), 400), (RouterSettings(open_end_steps=OPEN_END_STEPS), 2500)):
            path = self.attempt(settings).ends.add_end_path("a", ball, end)
            with self.subTest(end=end):
                assert path is not None
                self.assertEqual((path.end.time, isinstance(path, CoiledPath)), (end, False))


class OpenGround(BoardTests):
    """Balls that gates wait for in vain."""

    def test_blamed_ball(self) -> None:
        """A ball that could not be led often enough waits on open ground afterwards, and its gate can be taken back."""
        attempt = attempt_with_gates(9)
        board, freed = attempt.board, 0
        for root in [root for root, waiting in board.waiting.items() if waiting.ball]:
            before = board.waiting[root].ball
            assert before is not None
            attempt.placer.blame.clear()
            attempt.placer.blame[root] = RouterSettings().least_blame - 1
            self.assertFalse(attempt.lead_blamed_ball_away())
            attempt.placer.blame[root] += 1
            books = copy.copy(board.waiting[root])
            if attempt.lead_blamed_ball_away():
                freed += 1
                after = board.waiting[root].ball
                assert after is not None
                self.assertGreater(after.time, before.time)
                maker = next(step for step in board.steps if root in step.outs)
                self.assertEqual((maker.parking_paths[-1].start, maker.parking_paths[-1].end), (before, after))
            else:
                self.assertEqual(board.waiting[root], books)
            self.assert_books(board)
        self.assertGreater(freed, 3)
        while board.steps:
            board.take_last_gate_back()
        self.assertEqual((len(board.world.claims), any(board.world.counts)), (0, False))


class LedAlone(BoardTests):
    """Balls that have no way to the last time beside others."""

    def led(self, can_lead: Any) -> tuple[Attempt, str | None]:
        """Leads all balls of placed gates to the end, where `can_lead` says of a ball whether there may be a way."""
        attempt, right = attempt_with_gates(12), EndWiring.add_end_path

        def limited(self: EndWiring, root: str, ball: Ball | None, end: int) -> Path | None:
            return right(self, root, ball, end) if can_lead(self, root) else None

        with mock.patch.object(EndWiring, "add_end_path", limited), \
                mock.patch.object(EndWiring, "end_paths_crossing_way_of", return_value=[]):
            return attempt, attempt.lead_ends_or_say_why()

    def test_alone(self) -> None:
        """A ball that finds no way beside others is led as if it were alone, and the others are led again."""
        def can_lead(ends: EndWiring, root: str) -> bool:
            return root != last or not ends.board.ends

        last = max((own.ball.time, root) for root, own in attempt_with_gates(12).board.waiting.items() if own.ball)[1]
        attempt, why = self.led(can_lead)
        self.assertIsNone(why)
        self.assertEqual(attempt.ends.led_alone, {last})
        self.assertEqual((attempt.board.waiting, len({path.end.time for path in attempt.board.ends})), ({}, 1))
        self.assert_books(attempt.board)

    def test_no_way(self) -> None:
        """If a ball has no way even alone, the plane does not grow for it, and all balls wait as before."""
        before = attempt_with_gates(12).board
        last = max((own.ball.time, root) for root, own in before.waiting.items() if own.ball)[1]
        with mock.patch.object(EndWiring, "make_room_for_ends"):
            attempt, why = self.led(lambda ends, root: root != last)
        assert why is not None
        self.assertIn(f"the ball of wire {last} could not be led", why)
        self.assertEqual((attempt.board.width, attempt.board.ends), (before.width, []))
        self.assertEqual({root: own.ball for root, own in attempt.board.waiting.items()},
                         {root: own.ball for root, own in before.waiting.items()})
        self.assert_books(attempt.board)


if __name__ == "__main__":
    unittest.main()
