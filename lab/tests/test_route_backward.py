"""Circuits that are placed from the last time to the first, and paths that are taken out and led again."""

import random
import subprocess
import sys
import unittest
from unittest import mock

import support
from bbmlab_core.route.attempt import Attempt
from bbmlab_core.route.balls import BOUNCE_STEPS, Ball, BounceKind, Leg, follow_legs, path_run, reversed_legs
from bbmlab_core.route.board import Board, NoRouteError
from bbmlab_core.route.design import time_reversed_path
from bbmlab_core.route.ends import EndWiring
from bbmlab_core.route.escapes import EscapeWiring
from bbmlab_core.route.netlist import RouterNetlist
from bbmlab_core.route.paths import Path
from bbmlab_core.route.ripup import PathRipper
from bbmlab_core.route.search import routed_bundle
from bbmlab_core.route.settings import RouterSettings
from bbmlab_core.route.world import RoutingGrid, path_footprint
from support import circuit_of as read_circuit
from test_route import LINES, circuit_text, gate_circuit

sys.path.insert(0, str(support.TOP / "bench"))
from random_circuits import made_circuit  # noqa: E402

DELAYS = [
    circuit_text("ab", "delay 9 a -> c\ndelay 30 c -> d\ndelay 5 b -> e\nswitch d e -> x y z", "xyz"),
    circuit_text("abc", "delay 90 a -> d\ndelay 40 b -> e\ndelay 7 c -> f\nfredkin d e f -> x y z\ndelay 60 x -> w",
                 "wyz"),
    circuit_text("a", "source 0 -> b\ndelay 200 b -> c\ndelay 5 a -> d\nswitch d c -> x y z", "xyz"),
    circuit_text("", "source 0 -> a\ndelay 500 a -> b\nsource 1 -> c\ndelay 30 c -> d", "bd"),
]


class BoardTests(unittest.TestCase):
    """Tests that compare a board with its world."""

    def assert_books(self, board: Board) -> None:
        """Asserts that the world has exactly the items of the board."""
        world = RoutingGrid(board.width)
        items = [item for step in board.steps for item in [step.gate.item,
                                                           *(path.item for path in [*step.paths, *step.parking_paths])]]
        items += [path.item for path in board.ends]
        for item in [*items, *(own.item for own in board.waiting.values() if own.item)]:
            self.assertTrue(world.can_add(item))
            world.add(item)
        self.assertEqual((world.claims, world.mirrors, world.counts),
                         (board.world.claims, board.world.mirrors, board.world.counts))


class Backward(BoardTests):
    """What is made backwards runs forward, and paths are taken out and led again."""

    def assert_yes(self, text: str, seed: int) -> None:
        """Asserts that a circuit that is placed backwards gets a yes."""
        netlist = RouterNetlist(read_circuit(text), is_backward=True)
        for index in range(8):
            try:
                design = Attempt(netlist, 256, seed + index, RouterSettings()).run()
                break
            except NoRouteError:
                continue
        else:
            self.fail("no route in 8 attempts")
        bundle = routed_bundle(text, design).text
        ended = subprocess.run([support.program(), "check"], input=bundle.encode(), capture_output=True, check=False)
        self.assertIn("\nverdict yes\n", ended.stdout.decode())

    def test_gates(self) -> None:
        """Each kind of gate, delays in a row, and delays of constants."""
        for text in [*map(gate_circuit, LINES), *DELAYS]:
            with self.subTest(text):
                self.assert_yes(text, 1)

    def test_random_circuits(self) -> None:
        """Random circuits of all kinds of gate, with a new seed each time."""
        seed = random.randrange(10**6)
        for index in range(6):
            with self.subTest(seed=seed, index=index):
                self.assert_yes(made_circuit("any", 4, 4, seed + index), seed)

    def test_paths(self) -> None:
        """A path's run backwards has the balls, the mirrors and the blocks of the exact run in the other order."""
        chance = random.Random(5)
        done = 0
        while done < 40:
            turns = [chance.choice(list(BounceKind)) for _ in range(chance.randint(0, 5))]
            legs = [Leg(chance.randint(BOUNCE_STEPS, 40), turn) for turn in [*turns, None]]
            start = Ball(400, 400, 1, 1, 0)
            end, mirrors = follow_legs(start, legs)
            item, last = path_footprint(start, legs), 2 * chance.randint(200, 300) + 1
            if item is None:
                continue
            path = time_reversed_path(Path("a", start, end, tuple(legs), item),
                                      RouterNetlist(read_circuit(circuit_text("a", "", "a"))), last)
            run = path_run(path.start, path.legs)
            self.assertEqual(set(run.states[-1]), set(start.cells()))
            self.assertEqual(set(path.start.cells()), set(end.cells()))
            self.assertEqual(follow_legs(path.start, reversed_legs(legs))[1], mirrors[::-1])
            forward = path_footprint(path.start, path.legs)
            self.assertEqual((forward.mirrors, forward.touched_cells, forward.claims),
                             (path.item.mirrors, path.item.touched_cells, path.item.claims))
            done += 1

    def test_books(self) -> None:
        """After each way that was made, and after each that was not, no two items meet and the books agree."""
        right, results = PathRipper.place_by_ripping, []

        def checked(self: PathRipper, gate: object) -> bool:
            results.append(right(self, gate))  # type: ignore[arg-type]
            return results[-1]

        with mock.patch.object(PathRipper, "place_by_ripping", checked):
            for seed in range(40):
                attempt = Attempt(RouterNetlist(read_circuit(made_circuit("forward", 14, 8, 3))), 160, seed,
                                  RouterSettings())
                before = len(results)
                try:
                    attempt.run(lambda placed, total: self.assert_books(attempt.board))
                except NoRouteError:
                    pass
                if set(results) == {True, False} and len(results) > before:
                    break
        self.assertEqual(set(results), {True, False})

    def test_books_of_ends(self) -> None:
        """If no ball finds its way to the last time at once, paths to gates make way for some, and the books agree in
        the end."""
        right, lead, made, asked = EndWiring.add_path_making_way, EndWiring.add_end_path, [], set()

        def unwilling(self: EndWiring, root: str, ball: Ball | None, end: int) -> Path | None:
            if root in asked:
                return lead(self, root, ball, end)
            asked.add(root)
            return None

        def counted(self: EndWiring, root: str, ball: Ball | None, end: int) -> Path | None:
            path = right(self, root, ball, end)
            made.extend([path] if path else [])
            return path

        attempt = Attempt(RouterNetlist(read_circuit(made_circuit("forward", 12, 8, 1))), 384, 1, RouterSettings())
        with mock.patch.object(EndWiring, "add_path_making_way", counted), \
                mock.patch.object(EndWiring, "add_end_path", unwilling):
            attempt.run()
        self.assert_books(attempt.board)
        self.assertEqual(len({path.end.time for path in attempt.board.ends}), 1)
        self.assertGreater(len(made), 0)

    def test_long_ways(self) -> None:
        """A ball is led on for 9,000 steps, which take more legs than the tries of a short wander."""
        attempt = Attempt(RouterNetlist(read_circuit(circuit_text("a", "", "a"))), 1200, 1, RouterSettings())
        with mock.patch.object(EscapeWiring, "add_path_to_coil", return_value=None):
            path = attempt.ends.add_end_path("a", Ball(600, 600, 1, 1, 0), 9000)
        self.assertEqual((path.end.time, follow_legs(path.start, path.legs)[0]), (9000, path.end))
        world = RoutingGrid(1200)
        world.add(path.item)
        self.assertEqual((world.claims, world.counts), (attempt.board.world.claims, attempt.board.world.counts))
