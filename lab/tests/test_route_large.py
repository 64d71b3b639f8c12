"""What the router does for large circuits: rows of bits, planes that grow, lanes, cropping, and what it says before and
after a search.
"""

import pickle
import random
import unittest
from unittest import mock

from test_route import Routing, circuit_text, gate_circuit

import support
from bbmlab_core.circuits.keeps import search_keeping_cone
from bbmlab_core.route import bit_rows, search
from bbmlab_core.route.attempt import Attempt
from bbmlab_core.route.balls import BOUNCE_STEPS, Ball, BounceKind, Leg, ball_and_mirror_after_bounce, follow_legs
from bbmlab_core.route.bit_rows import BallJoiner
from bbmlab_core.route.board import FailureKind, NoRouteError, WaitingBall
from bbmlab_core.route.certificate import require_keeps
from bbmlab_core.route.design import cropped_design
from bbmlab_core.route.netlist import RouterNetlist
from bbmlab_core.route.placement import Inlet
from bbmlab_core.route.settings import RouterSettings
from bbmlab_core.route.world import MARGIN_CELLS, RoutingGrid, path_footprint
from support import circuit_of as read_circuit
from random_circuits import made_circuit

SIDE = 400


def crowded_world(chance: random.Random, count: int) -> RoutingGrid:
    """Returns a plane with some random paths."""
    world = RoutingGrid(SIDE)
    while count:
        dx, dy = chance.choice((1, -1)), chance.choice((1, -1))
        ball = Ball(2 * chance.randrange(40, 160) + (dx < 0), 2 * chance.randrange(40, 160) + (dy < 0), dx, dy, 0)
        legs = [Leg(chance.randint(BOUNCE_STEPS, 30), chance.choice(list(BounceKind))),
                Leg(chance.randint(3, 20), None)]
        item = path_footprint(ball, legs)
        if item and world.can_add(item):
            world.add(item)
            count -= 1
    return world


def random_pair(chance: random.Random) -> tuple[Ball, Ball]:
    """Returns two legal balls, the second with time to spare."""
    balls = []
    for time in (0, 2 * chance.randint(120, 260)):
        dx, dy = chance.choice((1, -1)), chance.choice((1, -1))
        balls.append(Ball(2 * chance.randrange(40, 160) + (dx < 0), 2 * chance.randrange(40, 160) + (dy < 0), dx, dy,
                          time))
    return balls[0], balls[1]


class BitRows(unittest.TestCase):
    """Paths by rows of bits, planes that grow, and the way ahead of waiting balls."""

    def test_joins_come_to_the_goal(self) -> None:
        """Each join ends at its goal, and its mirrors have room and its legs a free way; many pairs of balls on a free
        plane are joined: half of them on average, and fewer than a sixth in one run of thousands."""
        seed = random.randrange(10**6)
        chance, joined, pairs = random.Random(seed), 0, 0
        for _ in range(60):
            world = crowded_world(chance, 25)
            start, goal = random_pair(chance)
            if start.dx * start.dy != goal.dx * goal.dy:
                continue
            pairs += 1
            found = list(BallJoiner(world, chance, RouterSettings()).joining_legs(start, goal, 0, 20))
            joined += bool(found)
            for legs in found:
                end, mirrors = follow_legs(start, legs)
                self.assertEqual(end, goal, f"seed {seed}")
                self.assertEqual(len(mirrors), 4)
                self.assertTrue(all(world.has_room_for_mirror(mirror) for mirror in mirrors), f"seed {seed}")
                self.assertTrue(all(leg.steps >= BOUNCE_STEPS for leg in legs[1:]), f"seed {seed}")
        self.assertGreater(joined, pairs // 6, f"seed {seed}")

    def test_bends_have_room(self) -> None:
        """The first and the last bounces are just those for which a mirror has room on the way of the ball, one by one.
        """
        seed = random.randrange(10**6)
        chance = random.Random(seed)
        for _ in range(40):
            world = crowded_world(chance, 40)
            ball, goal = random_pair(chance)
            joiner = BallJoiner(world, chance, RouterSettings())
            found = {(bend.steps, bend.turn) for bend in joiner.first_bends(ball, 0)}
            wanted = {(steps, turn) for steps in range(joiner.most_steps_to_bounce(ball) + 1) for turn in BounceKind
                      if world.has_room_for_mirror(ball_and_mirror_after_bounce(ball.after_flight(steps), turn)[1])}
            self.assertEqual(found, wanted, f"seed {seed}")
            for bend in joiner.last_bends(goal):
                self.assertEqual(ball_and_mirror_after_bounce(bend.ball, bend.turn)[0].after_flight(bend.steps), goal,
                                 f"seed {seed}")
                self.assertTrue(world.has_room_for_mirror(ball_and_mirror_after_bounce(bend.ball, bend.turn)[1]),
                                f"seed {seed}")

    def test_wrong_time_is_no_join(self) -> None:
        """Without time to spare there is no middle, and a goal that comes two steps later gets longer legs."""
        first = bit_rows.Bend(0, BounceKind.FLAT, Ball(100, 101, 1, -1, 0))
        last = bit_rows.Bend(10, BounceKind.FLAT, Ball(140, 160, -1, 1, 30))
        self.assertIsNone(bit_rows.middle_legs_between(first, last, 500))

    def test_what_is_there_stays(self) -> None:
        """A plane that grew has the same rows and diagonals, and takes items beyond its old border, which were refused
        before."""
        chance = random.Random(3)
        world = crowded_world(chance, 10)
        before = [world.claims.copy(), world.mirrors.copy(), world.blocked.copy(), world.mirror_falling.copy(),
                  world.blocked_rising.copy()]
        mirror = ball_and_mirror_after_bounce(Ball(SIDE + 20, SIDE + 20, 1, 1, 0), BounceKind.FLAT)[1]
        self.assertFalse(world.has_room_for_mirror(mirror))
        world.grow(64)
        self.assertEqual(before,
                         [world.claims, world.mirrors, world.blocked, world.mirror_falling, world.blocked_rising])
        self.assertTrue(world.has_room_for_mirror(mirror))
        item = path_footprint(Ball(SIDE - 20, SIDE - 20, 1, 1, 0), [Leg(40, BounceKind.FLAT), Leg(10, None)])
        assert item
        world.add(item)
        world.remove(item)
        self.assertEqual(before[2], world.blocked)

    def test_a_small_plane_grows(self) -> None:
        """A circuit that has no room on its first plane is routed on a larger one, and not if a side is given."""
        netlist = RouterNetlist(read_circuit(made_circuit("forward", 8, 6, 1)))
        grown = []
        for seed in range(3):
            attempt = Attempt(netlist, 128, seed, RouterSettings(), most_size=4096)
            try:
                attempt.run()
            except NoRouteError:
                pass
            grown.append(attempt.board.width)
            fixed = Attempt(netlist, 128, seed, RouterSettings(), most_size=128)
            with self.assertRaises(NoRouteError):
                fixed.run()
            self.assertEqual(fixed.board.width, 128)
        self.assertGreater(max(grown), 128)
        self.assertLessEqual(max(grown), 192)

    def test_ends_get_room(self) -> None:
        """Before balls are led to the last time the plane grows until their ways have room by estimate: here 30 balls
        for some 300 steps."""
        names = [f"w{number}" for number in range(30)]
        text = "\n".join(["circuit", *(f"input {name}" for name in names),
                          *(f"delay 300 {name} -> {name}_late" for name in names),
                          *(f"output {name}_late" for name in names), "end"]) + "\n"
        for most, is_grown in ((4096, True), (160, False)):
            attempt = Attempt(RouterNetlist(read_circuit(text)), 160, 1, RouterSettings(), most_size=most)
            attempt.ends.make_room_for_ends()
            side = attempt.board.width
            least = (30 * 300 * RouterSettings().step_cells / RouterSettings().end_fill_share) ** 0.5
            self.assertEqual(side > 160, is_grown)
            self.assertLess(side, 1.3 * least)
            self.assertEqual(side >= least, is_grown)

    def test_gates_keep_off(self) -> None:
        """No gate is put on the way ahead of a ball that waits, but for the gate that consumes it, or behind the ball.
        """
        attempt = Attempt(RouterNetlist(read_circuit(gate_circuit("switch"))), 400, 1, RouterSettings())
        placer, board = attempt.placer, attempt.board
        gate = attempt.netlist.gates[0]
        cell, ball = board.netlist.gate_cells_for(gate)[0], Ball(200, 200, 1, 1, 0)
        board.waiting["other"] = WaitingBall(ball)
        self.assertTrue(placer.is_in_lane(cell, 230, 230, []))
        self.assertFalse(placer.is_in_lane(cell, 230, 230, [Inlet("c", "other", ball, 0)]))
        self.assertFalse(placer.is_in_lane(cell, 100, 100, []))
        self.assertFalse(placer.is_in_lane(cell, 320, 320, []))
        self.assertFalse(placer.is_in_lane(cell, 300, 200, []))


class Cropping(Routing):
    """Layouts as small as what they contain, and planes of sides below and above the first limit."""

    def test_crop_keeps_the_design(self) -> None:
        """The cropped layout gets a yes like the whole one, is no larger, and has a margin of at most a tile and four
        cells on each side."""
        text = made_circuit("any", 8, 5, 2)
        design = next(found for found in (self.design(text, seed) for seed in range(20)) if found)
        small, whole = search.uncropped_bundle(text, cropped_design(design)), search.uncropped_bundle(text, design)
        self.assertLess(small.width * small.height, whole.width * whole.height)
        for bundle in (small, whole):
            self.assertIn("\nverdict yes\n", self.verdict(bundle.text))
        layout = support.read_document(small.text).layout
        columns = [part.x for part in layout.parts]
        self.assertLess(min(columns), 40)
        self.assertGreater(min(columns), MARGIN_CELLS - 3)
        self.assertGreater(max(columns), layout.width - 60)

    def design(self, text: str, seed: int) -> "search.Design | None":
        """Returns a design on a plane of 512 by 512, or None."""
        try:
            return Attempt(RouterNetlist(read_circuit(text)), 512, seed, RouterSettings()).run()
        except NoRouteError:
            return None

    def test_sides(self) -> None:
        """On planes of given sides a circuit gets a yes, and the lab's run its values; the line of limits is there only
        if it is needed."""
        for side, words in ((512, ()), (528, ("--seed", "2")), (2048, ()), (4096, ())):
            with self.subTest(side=side):
                document = self.assert_yes(gate_circuit("fredkin"), "--size", str(side), *words)
                self.assertEqual((document.layout.width, document.layout.height), (side, side))
                self.assertEqual((self.room / "bundle.txt").read_text().startswith("limits 2\n"), side > 512)


class Words(Routing):
    """What is said before a search and after it."""

    def test_estimate_comes_first(self) -> None:
        """The gates, levels and ends of a circuit, and the first side, are said before the search."""
        status, _, said = self.route(gate_circuit("switch"), "--size", "96")
        self.assertEqual(status, 0, said)
        self.assertTrue(said.startswith("bbmlab: 1 gate in 1 level, 3 balls at the end: first side 96."), said)

    def test_what_ended_the_attempts(self) -> None:
        """A failure names what ended each attempt, and promises nothing."""
        status, _, said = self.route(made_circuit("forward", 40, 12, 1), "--size", "256", "--effort", "6")
        self.assertEqual(status, 1)
        self.assertRegex(said, r"what ended the attempts: [a-z ]+ \(\d+\)")
        self.assertNotIn("may help", said)

    def test_no_keep_is_said_before_the_search(self) -> None:
        """A circuit with an inverse gate that nothing can keep is refused at once, with the gate and its line."""
        text = next(text for text in (made_circuit("any", 100, 8, seed) for seed in range(1, 200))
                    if any(gate.is_inverse and search_keeping_cone(read_circuit(text), gate.number) is None
                           for gate in read_circuit(text).gates))
        with mock.patch.object(search.RouterSearch, "run", side_effect=AssertionError("the search began")):
            status, _, said = self.route(text)
        self.assertEqual(status, 1)
        self.assertRegex(said, r"gate \d+ \((unswitch|uninteract) .*, line \d+\) cannot be kept")
        with self.assertRaises(NoRouteError) as raised:
            require_keeps(read_circuit(text))
        self.assertIs(raised.exception.bound, FailureKind.KEEP)
        require_keeps(read_circuit(circuit_text("ab", "switch a b -> c d e\nunswitch c d e -> f g", "fg")))

    def test_a_program_without_the_line(self) -> None:
        """If the program does not know `limits 2`, that is said, and not that the router made an error."""
        old, made = self.room / "old", self.room / "made.txt"
        old.write_text("#!/bin/sh\ncat > /dev/null\necho 'refused 1 1'\nexit 3\n")
        old.chmod(0o755)
        for side, words in (("528", "does not read texts that begin with `limits 2`"),
                            ("512", "this is an error of the router")):
            self.assert_ends(1, "route", support.example("half_adder"), "--size", side, "-o", str(made), "--program",
                             str(old), err=words)

    def test_pickled_errors_keep_their_bound(self) -> None:
        """What ended an attempt in a process of its own is known to the others."""
        again = pickle.loads(pickle.dumps(NoRouteError("no room at all", FailureKind.ROOM)))
        self.assertEqual((str(again), again.bound), ("no room at all", FailureKind.ROOM))
