"""`bbmlab join`: parts with a yes, balls led between them, and one bundle with a yes."""

import contextlib
import io
import itertools
import os
import random
import re
import signal
import subprocess
import sys
import tempfile
import time
import unittest
from dataclasses import replace
from pathlib import Path
from typing import Iterable
from unittest import mock

import support
from bbmlab_core.joining import command, lone_ways, modules, planning, wiring
from bbmlab_core.joining.composing import Composition, Connection, NamedPart, compose, feeding_order
from bbmlab_core.joining.lone_ways import whole_balls_of
from bbmlab_core.joining.parts import read_part
from bbmlab_core.joining.places import LEAST_GAP, Extent, place_arrangements
from bbmlab_core.joining.slack import LoneWayCuts, WayCut
from bbmlab_core.joining.turning import ORIENTATIONS, UNTURNED, PartTransform
from bbmlab_core.physics.simulation import layout_run
from bbmlab_core.route import coil_ways, coils
from bbmlab_core.route.attempt import Attempt
from bbmlab_core.route.balls import (BOUNCE_STEPS, Ball, BounceKind, ball_and_mirror_after_bounce, follow_legs,
                                     mirror_cells)
from bbmlab_core.route.command import ProgressLine
from bbmlab_core.route.netlist import RouterNetlist
from bbmlab_core.route.paths import PathFinder
from bbmlab_core.route.settings import OPEN_END_STEPS, RouterSettings
from bbmlab_core.route.world import (MARGIN_CELLS, ROW_STRIDE, STEP_STRIDE, TILE_SIDE, Footprint, RoutingGrid,
                                     cell_number, cell_of_number, path_footprint)
from bbmlab_core.texts.certificates import Module
from bbmlab_core.texts.circuits import values_and_undefined_gate
from bbmlab_core.texts.documents import Document, read_document
from bbmlab_core.texts.layouts import Box

INTERRUPT_SECONDS = 6.0
# The numbers of rows in which seven areas have room.
ROW_COUNTS = 2
BLOCK = "circuit\ninput a\nsource 1 -> one\nswitch a one -> b c d\noutput b\nspill c\nspill d\nend\n"
DELAYED = "circuit\ninput a\ninput b\ndelay 40 a -> late\nswitch late b -> c d e\noutput d\noutput c\nspill e\nend\n"
LATE = "circuit\ninput a\ndelay 40 a -> late\noutput late\nend\n"
INVERSE = "circuit\ninput a\ninput b\nswitch a b -> c d e\nunswitch c d e -> f g\noutput f\noutput g\nend\n"


def routed(circuit: str, room: Path, name: str, *words: str) -> Path:
    """Returns the file of a circuit that is routed with open ends."""
    made = room / f"{name}.txt"
    ended = support.lab("route", "-", "--open-ends", "-o", str(made), *words, text=circuit, BBMCHECK=support.program())
    assert ended.returncode == 0, ended.stderr
    return made


class Joining(unittest.TestCase):
    """Bundles that are joined, from parts that are routed once."""

    room: Path
    parts: dict[str, Path]

    @classmethod
    def setUpClass(cls) -> None:
        """Routes the parts."""
        support.program_of_limits_2()
        folder = tempfile.TemporaryDirectory()
        cls.addClassCleanup(folder.cleanup)
        cls.room = Path(folder.name)
        half = Path(support.example("half_adder")).read_text()
        circuits = {"half": half, "block": BLOCK, "delayed": DELAYED, "inverse": INVERSE, "late": LATE}
        cls.parts = {name: routed(text, cls.room, name) for name, text in circuits.items()}

    def join(self, *words: str, **environment: str) -> subprocess.CompletedProcess[str]:
        """Runs the command. Names of parts in the words become files."""
        files = [re.sub(r"@(\w+)", lambda found: str(self.parts[str(found.group(1))]), word) for word in words]
        return support.lab("join", *files, **{"BBMCHECK": support.program(), **environment})

    def joined(self, *words: str) -> Document:
        """Returns the bundle of a join, which the program accepts."""
        ended = self.join(*words)
        self.assertEqual(ended.returncode, 0, ended.stderr)
        self.assertIn("verdict yes", ended.stderr)
        document = read_document(ended.stdout, "check")
        self.assertIsNone(document.refusal)
        return document

    def assert_runs(self, document: Document) -> None:
        """Asserts that the layout computes the circuit under sampled inputs, by the lab's run of the whole layout."""
        circuit, layout, chance = document.circuit, document.layout, random.Random(1)
        assert circuit and layout
        for _ in range(3):
            on = {name for name in circuit.inputs if chance.random() < 0.6}
            run = layout_run(layout, on)
            self.assertTrue(run.run_to(layout.steps))
            live, values = run.field.live_cells_under(), values_and_undefined_gate(circuit, on)[0]
            for part in layout.of_kind("out"):
                self.assertEqual(part.cell in live, values[part.name or ""], (part, on))

    # --- what is joined -----------------------------------------------------------------------------------------------

    def test_chain(self) -> None:
        """Two half adders in a row compute the sum of three bits, as their circuits do one after the other."""
        document = self.joined("@half", "@half", "--connect", "A.sum=B.a")
        circuit = document.circuit
        assert circuit
        self.assertEqual(circuit.inputs, ("a_a", "a_b", "b_b"))
        self.assertEqual(circuit.outputs, ("a_carry", "b_sum", "b_carry"))
        for number in range(8):
            on = {name for index, name in enumerate(circuit.inputs) if number >> index & 1}
            values = values_and_undefined_gate(circuit, on)[0]
            self.assertEqual(values["b_sum"] + 2 * (values["a_carry"] + values["b_carry"]), len(on))
        self.assert_runs(document)

    def test_modules_of_parts_stay(self) -> None:
        """Modules of a part that begins at time 0 stay, but for their place and names, if no path comes to them."""
        document = self.joined("x=@half", "y=@half", "--connect", "x.carry=y.b")
        part = read_document(self.parts["half"].read_text(), "check")
        assert document.certificate and part.certificate

        def shapes(own: Document, name: str) -> list[tuple[object, ...]]:
            assert own.certificate
            return [(module.box.width, module.box.height, tuple(name + wire for wire in module.cuts),
                     tuple(module.uses), tuple((line.time, line.x - module.box.x, line.y - module.box.y)
                                               for line in module.edges if line.signal == "1"))
                    for module in own.certificate.modules]

        there, own = set(shapes(document, "")), [shape for shape in shapes(part, "x_") if len(shape[2]) > 1]
        self.assertGreater(sum(shape in there for shape in own), len(own) // 3)

    def test_side_by_side(self) -> None:
        """Parts without connections end together. The balls of the part with fewer steps are led to its start."""
        document = self.joined("p=@half", "q=@block")
        assert document.layout and document.circuit
        self.assertEqual(document.circuit.outputs, ("p_sum", "p_carry", "q_b"))
        parts = {name: read_part(name, self.parts[name].read_text()) for name in ("half", "block")}
        self.assertEqual(document.layout.steps, max(own.layout.steps for own in parts.values()))
        plan = planning.make_plan(compose(parts, []), 512, [])
        assert plan
        self.assertTrue(all(plan.end - own.end_time < 2 for own in plan.placed), plan.placed)
        self.assert_runs(document)

    def test_delays_and_inverse_gates(self) -> None:
        """Stops and keeps of parts are those of the join."""
        document = self.joined("@block", "d=@delayed", "i=@inverse", "--connect", "A.b=d.a", "d.d=i.b", "d.c=i.a")
        assert document.certificate and document.circuit
        self.assertEqual([gate.kind for gate in document.circuit.gates if gate.is_inverse], ["unswitch"])
        self.assertTrue(any(module.keeps for module in document.certificate.modules))
        self.assertTrue(any(module.stops for module in document.certificate.modules))
        self.assert_runs(document)

    def test_seeds(self) -> None:
        """One seed gives the same bytes, and another seed others."""
        words = ["@half", "@block", "--connect", "A.carry=B.a", "--seed"]
        one, again, other = (self.join(*words, seed).stdout for seed in ("1", "1", "2"))
        self.assertEqual(one, again)
        self.assertNotEqual(one, other)

    def test_lone_ways(self) -> None:
        """A connected input meets the other balls late, and a connected output leaves early: the join takes fewer steps
        than with whole parts."""
        made = self.made()
        ways = {(part.name, wire): way for part in made.parts for wire, way in part.ways.items()}
        self.assertEqual(set(ways), {("a", "sum"), ("b", "a")})
        self.assertGreater(ways["b", "a"].inner_ball.time, 0)
        self.assertLess(ways["a", "sum"].inner_ball.time, made.parts[0].bundle.layout.steps)
        for way in ways.values():
            self.assertTrue(way.inner_ball.is_legal)
            self.assertFalse(way.mirrors - made.parts[0].bundle.layout.mirror_cells())
        parts = {part.name: part.bundle for part in made.parts}
        with mock.patch.object(planning, "fitting_orientations", lambda placed: [UNTURNED]):
            whole = planning.make_plan(compose(parts, made.connections, set(ways)), 512, [0])
            plan = planning.make_plan(made, 512, [0])
        assert plan and whole
        self.assertLess(plan.end, whole.end)

    def test_mirrors_of_lone_ways(self) -> None:
        """A mirror that another ball touches stays, and so do all mirrors that hang together with it."""
        mirrors = {(x + i, y + j) for x, y in ((10, 10), (30, 30), (34, 31)) for i in range(4) for j in range(2)}
        beside = {(10, 10), (31, 31)}
        self.assertEqual(len(lone_ways.unclaimed_mirrors(beside, set().__contains__, mirrors)), 24)
        claimed = {32 * ROW_STRIDE + 37}.__contains__
        self.assertEqual(lone_ways.unclaimed_mirrors(beside, claimed, mirrors),
                         {cell for cell in mirrors if cell[0] < 20})

    def test_balls_with_time_to_spare(self) -> None:
        """A ball with time to spare stays on its lone ways. It leaves elsewhere if it could not leave there."""
        made = self.made()
        plan = planning.make_plan(made, 512, [0])
        assert plan
        self.assertEqual(LoneWayCuts(made, plan, [0], set()).moved, [])
        first, last = plan.placed
        late = replace(plan, end=plan.end + 1000, placed=[first, replace(last, time=last.time + 1000)])
        slack = LoneWayCuts(made, late, [0], set())
        before, job = plan.jobs[0], slack.plan_with_cuts().jobs[0]
        assert before.start and job.start and job.goal
        self.assertEqual(slack.moved[0], WayCut(0, True, first.part.bundle.layout.steps))
        self.assertGreater(job.start.time, before.start.time)
        self.assertGreaterEqual(job.steps, planning.steps_needed(last, job.start, job.goal, 0))
        self.assertNotIn(slack.moved[0], LoneWayCuts(made, late, [0], set(slack.moved)).moved)

    # --- planted mistakes: the program finds each of them -------------------------------------------------------------

    def made(self, names: str = "ab", words: Iterable[str] = ("a.sum=b.a",), lone: str = "sum a") -> Composition:
        """Returns connected half adders, two in a row if no others are given, and wires whose balls may come alone."""
        part = read_part("half", self.parts["half"].read_text(), lone.split())
        return compose(dict.fromkeys(names, part), [command.parse_connection(word) for word in words])

    def verdict_with(self, change: mock._patch) -> str: # type: ignore[type-arg]
        """Returns the first lines that the program says of a join with a mistake."""
        with change, contextlib.redirect_stderr(io.StringIO()):
            found = command.JoinSearch(self.made(), command.JoinOptions(1, None, 60), ProgressLine(60)).run()[0]
        assert found
        said = subprocess.run([support.program(), "check"], input=found.text.encode(), capture_output=True, check=False)
        return "\n".join(said.stdout.decode().splitlines()[:4])

    def test_join_without_mistakes(self) -> None:
        """Without a mistake the join gets a yes."""
        self.assertIn("verdict yes", self.verdict_with(mock.patch.object(planning, "LEAST_GAP", planning.LEAST_GAP)))

    def test_a_part_with_early_lines(self) -> None:
        """A part whose lines come two steps before its balls gets a no."""
        right = modules.JoinedModules.add_own_lines

        def early(own: modules.JoinedModules, module: Module) -> None:
            placed, origin = own.origins[module.number]
            if placed.part.name == "b":
                own.origins[module.number] = replace(placed, time=placed.time - 2), origin
            right(own, module)

        self.assertIn("verdict no", self.verdict_with(mock.patch.object(modules.JoinedModules, "add_own_lines", early)))

    def test_paths_that_ignore_a_part(self) -> None:
        """Paths through the parts get a no if the world has only their mirrors."""
        def add_mirrors(own: wiring.JoinRoutingGrid, placed: planning.PlacedPart) -> None:
            own.add(Footprint(frozenset(map(placed.placing.cell_number_map(), placed.part.footprint.mirrors))))

        change = mock.patch.object(wiring.JoinRoutingGrid, "add_part", add_mirrors)
        # Balls wander through the parts, which cost nothing.
        with mock.patch.multiple(wiring, INSIDE_STEP_COST=0, INWARD_STEP_COST=0, LEAST_COIL_STEPS=10 ** 6):
            self.assertIn("verdict no", self.verdict_with(change))

    def test_a_lost_wire(self) -> None:
        """If no module is told of the wires of paths, the text is refused."""
        change = mock.patch.object(modules.JoinedModules, "change_wire_count", lambda *words: None)
        self.assertIn("refused", self.verdict_with(change))

    def test_lines_of_a_lone_way(self) -> None:
        """A part that keeps the lines of a ball that comes another way gets no yes."""
        change = mock.patch.object(NamedPart, "left_out_cell_times", set[object]())
        self.assertRegex(self.verdict_with(change), "verdict no|^refused")

    # --- time and room between parts ----------------------------------------------------------------------------------

    def test_places(self) -> None:
        """Parts have gaps between them and around them, in eight ways for each number of rows, and each is beside the
        next one."""
        areas = [Extent(160 + 16 * (index % 3), 160) for index in range(7)]
        found = list(place_arrangements(areas, 800))
        self.assertEqual(len({tuple(places) for places in found}), 8 * ROW_COUNTS)
        for places in found:
            boxes = [(x, y, x + own.width, y + own.height) for (x, y), own in zip(places, areas)]
            for number, (left, top, right, bottom) in enumerate(boxes):
                self.assertTrue(min(left, top) >= LEAST_GAP and max(right, bottom) <= 800 - LEAST_GAP)
                self.assertTrue(left % TILE_SIDE == top % TILE_SIDE == 0)
                for x, y, far, low in boxes[:number]:
                    self.assertTrue(left >= far + LEAST_GAP or x >= right + LEAST_GAP or top >= low + LEAST_GAP
                                    or y >= bottom + LEAST_GAP)
            for (x, y), (across, down) in zip(places, places[1:]):
                self.assertLess(max(abs(x - across), abs(y - down)), 160 + 32 + 8 * LEAST_GAP)
        self.assertEqual(list(place_arrangements(areas, 600)), [])

    def test_order_of_parts(self) -> None:
        """A part comes next to those that feed it: before other parts that nothing feeds."""
        fed = [Connection(*own.split()) for own in ("u o x i", "v o y i", "w o y j")]
        self.assertEqual(feeding_order(list("uvwxy"), fed), list("uxvwy"))
        self.assertEqual(feeding_order(list("yxwvu"), fed), list("wvyux"))
        self.assertEqual(feeding_order(list("uvw"), []), list("uvw"))

    def test_time_for_each_ball(self) -> None:
        """A part to which many balls come begins so late that each of them gets its steps, and with more to spare
        later."""
        words = ("a.sum=c.a", "b.sum=c.b", "a.carry=d.a", "b.carry=d.b", "c.sum=e.a", "d.sum=e.b")
        made = self.made("abcde", words, "sum carry a b")
        ends = []
        for spare, own in enumerate(planning.SPARES):
            with mock.patch.object(planning, "SHALLOW_DEPTH_CELLS", 30):
                plan = planning.make_plan(made, 800, [spare] * len(words))
            assert plan
            between, world = [job for job in plan.jobs if job.start and job.goal], wiring.JoinRoutingGrid(plan)
            self.assertEqual(len(between), len(words))
            deep = []
            for job in between:
                assert job.start and job.goal
                deep.append(max(0, world.depth_in_part(job.goal.x, job.goal.y) - 30))
                self.assertGreaterEqual(job.steps, own.steps_between(job.start, job.goal) + deep[-1], job)
            self.assertTrue(any(deep))
            ends.append(plan.end)
        self.assertEqual(ends, sorted(set(ends)))

    def test_ways_back_from_deep_goals(self) -> None:
        """A path to a ball deep in a part comes back from it for more steps, so that it can be joined outside."""
        search = command.JoinSearch(self.made(), command.JoinOptions(1, None, 60), ProgressLine(60))
        _, _, own = search.prepare_attempt()
        ball = Ball(512, 512, 1, 1, 4000)
        for depth in (0, planning.SHALLOW_DEPTH_CELLS, planning.SHALLOW_DEPTH_CELLS + 500):
            with mock.patch.object(own.world, "depth_in_part", lambda *words, own=depth: own), mock.patch.object(
                    own.finder, "wander", return_value=False) as wander:
                self.assertIsNone(own.find_connecting_path("w", ball.at_time(0), ball))
            steps, deep = [ball.time + call.args[1]
                           for call in wander.call_args_list], max(0, depth - planning.SHALLOW_DEPTH_CELLS)
            self.assertEqual(len(steps), wiring.CONNECT_TRIES)
            self.assertGreaterEqual(min(steps), wiring.STEPS_BACK_RANGE[0] + deep)
            self.assertLessEqual(max(steps), wiring.STEPS_BACK_RANGE[1] + 2 * deep)

    def test_searches_outside(self) -> None:
        """A ball that random bounces do not lead is led by a search if it has time to spare, and a deep one before
        them."""
        search = command.JoinSearch(self.made(), command.JoinOptions(1, None, 60), ProgressLine(60))
        _, _, own = search.prepare_attempt()
        ball, least = Ball(400, 400, 1, 1, 1000), 100 + planning.SPARES[-1].steps
        for depth, steps, tried, order in ((0, least, 0, "RO"), (0, least - 1, 0, "R"), (0, least, 1, "R"),
                                           (planning.SHALLOW_DEPTH_CELLS + 1, least - 1, 0, "OR"),
                                           (planning.SHALLOW_DEPTH_CELLS + 1, least, 1, "R")):
            goal, found = Ball(500, 500, 1, 1, 1000 + steps), list[str]()
            with mock.patch.object(own.world, "depth_in_part", lambda *words, own=depth: own), mock.patch.object(
                    own, "find_connecting_path", lambda *words, found=found: found.append("R")), mock.patch.object(
                    own, "find_path_outside", lambda *words, found=found: found.append("O")):
                self.assertIsNone(own.find_path(planning.BallJob("w", ball, goal, goal.time), tried))
            self.assertEqual("".join(found), order, (depth, steps, tried))

    def test_ways_from_open_ground(self) -> None:
        """The first ways by each cost come before the second ones, and a search without more ways is left out."""
        search = command.JoinSearch(self.made(), command.JoinOptions(1, None, 60), ProgressLine(60))
        _, _, own = search.prepare_attempt()
        job = own.plan.jobs[0]
        assert job.start and job.goal
        counts = dict(zip(wiring.GOAL_STEP_COSTS, (1, 9, 2)))
        with mock.patch.object(coil_ways.OpenGroundSearch, "ways_to_free_squares",
                               lambda self: iter(range(counts[self.goal_cells]))):
            found = list(own.ways_from_open_ground(job.start, job.goal, lambda _: True))
        first, second, third = wiring.GOAL_STEP_COSTS
        self.assertEqual(found, [(first, 0), (second, 0), (third, 0), (second, 1), (third, 1),
                                 *((second, number) for number in range(2, wiring.OPEN_GROUND_WAYS))])

    def test_more_time_for_one_ball(self) -> None:
        """A ball between two parts that cannot be led in its time gets more, and no other one does."""
        search = command.JoinSearch(self.made(), command.JoinOptions(1, None, 60), ProgressLine(60))
        _, _, own = search.prepare_attempt()
        with mock.patch.object(wiring.JoinWiring, "lead_ball", lambda *words: False):
            with self.assertRaises(wiring.TooFewStepsError) as caught:
                own.run(lambda *words: None, [0])
        self.assertEqual(caught.exception.connections, [0])
        search.spares = [0, 2]
        results = [caught.exception, mock.sentinel.bundle]
        with mock.patch.object(command.JoinSearch, "make_join_attempt", side_effect=results):
            self.assertEqual(search.run(), (mock.sentinel.bundle, ""))
        self.assertEqual(search.spares, [1, 2])

    def test_more_time_for_all_balls(self) -> None:
        """If a ball gets no more time by itself, since another one decides when its part begins, all get more."""
        made = self.made("abc", ("a.sum=b.a", "b.sum=c.a", "a.carry=c.b"), "sum carry a b")
        search = command.JoinSearch(made, command.JoinOptions(1, 800, 60), ProgressLine(60))
        before = search.planned_ball_steps()
        search.add_spare_steps([2])
        self.assertEqual(search.spares, [1, 1, 2])
        self.assertTrue(all(more > steps for more, steps in zip(search.planned_ball_steps(), before)))
        search.spares = [0, 0, 0]
        search.add_spare_steps([1])
        self.assertEqual(search.spares, [0, 1, 0])

    def test_coils(self) -> None:
        """A coil takes its steps: its path meets itself nowhere, and stays in its box behind the entry."""
        for (dx, dy), steps in itertools.product(itertools.product((1, -1), repeat=2), (90, 327, 328, 2567, 9000)):
            ball = Ball(1000 + (dx < 0), 1000 + (dy < 0), dx, dy, 0)
            for coil in coils.coils_entered_by(ball, coils.least_coil_width(steps)):
                legs = list(coil.legs(steps))
                self.assertEqual(sum(leg.steps for leg in legs), steps)
                item = path_footprint(ball, legs)
                assert item
                cells = {cell_of_number(number) for number in item.mirrors | item.touched_cells}
                self.assertTrue(all(coil.box.has(cell) for cell in cells), (ball, steps))

    def test_balls_wait_in_coils(self) -> None:
        """A ball that waits long goes to a coil, or comes from one, and is there at its time."""
        plan = planning.JoinPlan(1024, 4000, [], [], 1024, 1024)
        own = wiring.JoinWiring(plan, mock.Mock(), 1, command.JOIN_SETTINGS, float("inf"))
        # The balls are where a part would be.
        own.ground = coil_ways.CoilGround(own.world, [Box(400, 450, 220, 100)])
        for number in range(8):
            ball = Ball(440 + 16 * number, 500, 1, 1, 1000)
            job = planning.BallJob("w", None, ball, 1000) if number % 2 else planning.BallJob("w", ball, None, 4000)
            path = own.find_path(job)
            assert path
            assert isinstance(path, wiring.SealedPath)
            before = len(own.world.claims), len(own.world.mirrors)
            own.world.add(path.sealed)
            self.assertEqual(follow_legs(path.start, path.legs)[0], path.end)
            self.assertEqual((path.start.time, path.end.time), (0, 1000) if number % 2 else (1000, 4000))
            self.assertLess(len(path.sealed.claims), len(path.item.claims) // 2)
            ring = path.sealed.mirrors - path.item.mirrors
            self.assertTrue(ring and ring <= own.world.mirrors)
            own.world.remove(path.sealed)
            self.assertEqual((len(own.world.claims), len(own.world.mirrors)), before)
            own.world.add(path.sealed)

    def test_legs_to_coils(self) -> None:
        """What a leg to a coil takes is in its rectangle. A bounce is sought wherever its mirror has room."""
        world, chance = RoutingGrid(512), random.Random(1)
        for _ in range(300):
            world.add(Footprint(frozenset([cell_number((chance.randrange(180, 330), chance.randrange(180, 330)))])))
        finder = PathFinder(world, chance, command.JOIN_SETTINGS)
        for dx, dy, is_backward in itertools.product((1, -1), (1, -1), (False, True)):
            ball = Ball(256 + (dx < 0), 256 + (dy < 0), dx, dy, 1000)
            search = coil_ways.CoilSearch(finder, coil_ways.CoilGround(world, []), ball, 3000 * (not is_backward),
                                          is_backward)
            first = search.first
            room = world.free_steps(first.ball, coil_ways.MAX_LEG_STEPS)
            with mock.patch.object(search, "leg_steps_to_try", lambda *words, most=room: range(most + 1)):
                found = list(search.bounce_options_behind(first, room))
            self.assertEqual([(option.steps, option.turn) for option in found], [
                (steps, turn) for steps in range(room + 1) for turn in BounceKind
                if world.has_room_for_mirror(ball_and_mirror_after_bounce(first.ball.after_flight(steps), turn)[1])])
            search.queue, on = found, coil_ways.LEAST_STEPS_AFTER_BOUNCE
            for bend in iter(search.pop_next_bounce, None):
                self.assertEqual(world.free_steps(bend.ball.after_flight(BOUNCE_STEPS), on), on)
                item, left, right, top, bottom = bend.spans[-1]
                for x, y in map(cell_of_number, item.mirrors | item.touched_cells):
                    self.assertTrue(left <= x <= right and top <= y <= bottom, bend)

    def test_ways_to_open_ground(self) -> None:
        """A way out of a part or into it meets nothing, and ends or begins on open ground."""
        world, chance, part = RoutingGrid(512), random.Random(1), Box(176, 176, 160, 160)
        for _ in range(60):
            world.add(Footprint(frozenset([cell_number((chance.randrange(180, 330), chance.randrange(180, 330)))])))
        finder, ground = PathFinder(world, chance, command.JOIN_SETTINGS), coil_ways.CoilGround(world, [part])
        for dx, dy, is_backward in itertools.product((1, -1), (1, -1), (False, True)):
            inner = Ball(256 + (dx < 0), 256 + (dy < 0), dx, dy, 2000)
            other = Ball(60, 60, 1, 1, 1000 if is_backward else 3000)
            for cells in wiring.GOAL_STEP_COSTS:
                search = coil_ways.OpenGroundSearch(finder, ground, inner, other, is_backward, lambda _: True, cells)
                legs = next(search.ways_to_free_squares())
                first = finder.start_of_legs(inner, legs) if is_backward else inner
                item, last = path_footprint(first, legs), follow_legs(first, legs)[0]
                assert item
                self.assertTrue(world.can_add(item))
                self.assertEqual(inner, last if is_backward else first)
                end = first if is_backward else last
                self.assertFalse(part.has((end.x, end.y)))
                self.assertLess(max(abs(end.x - other.x), abs(end.y - other.y)), abs(end.time - other.time))

    def test_ground_of_coils(self) -> None:
        """Squares are free if nothing is in them or near them. Tiles far away from them need as many steps at least."""
        size, part, world = 160, Box(50, 40, 20, 30), RoutingGrid(160)
        taken = [(30, 100), (100, 60), *part.ring()]
        world.add(Footprint(frozenset(map(cell_number, taken[:2]))))
        ground, side, street = coil_ways.CoilGround(world, [part]), 40, coil_ways.PATH_STREET_CELLS
        ground.exclude_box_and_street(Box(130, 120, 20, 20))
        squares = ground.free_squares_near(side, 80)
        for x, y in itertools.product(range(0, size, 3), repeat=2):
            own, around = Box(x, y, side, side), Box(x - street, y - street, side + 2 * street, side + 2 * street)
            inside = min(x, y) >= MARGIN_CELLS and max(x, y) + side <= size - MARGIN_CELLS
            free = inside and not any(map(around.has, taken[:2])) and not any(map(own.has, taken[2:])) and (
                x + side <= 130 - coil_ways.STREET_CELLS or y + side <= 120 - coil_ways.STREET_CELLS)
            self.assertEqual(squares.has_corner_at(x, y), free, (x, y))
        places = [(x + side // 2, y + side // 2) for x in range(size) for y in range(size)
                  if squares.has_corner_at(x, y)]
        distances = squares.tile_distances()
        for x, y in ((5, 5), (60, 55), (155, 155)):
            least = min(max(abs(i - x), abs(j - y)) for i, j in places)
            self.assertLess(abs(distances.least_steps_from(x, y) - least), 2 * TILE_SIDE)

    def test_turned_numbers(self) -> None:
        """The numbers of the cells and of the blocks of a turned part are those of its turned cells."""
        chance = random.Random(1)
        for turning in ORIENTATIONS:
            placing = PartTransform(160, 96, 320, 640, 40, turning)
            cells, blocks = placing.cell_number_map(), placing.block_number_map()
            for _ in range(20):
                x, y, time = chance.randrange(0, 158), chance.randrange(0, 94), chance.randrange(100)
                self.assertEqual(cell_of_number(cells(cell_number((x, y)))), placing.placed_cell((x, y)))
                number = time * STEP_STRIDE + cell_number((x, y))
                own = blocks(number)
                self.assertEqual((own // STEP_STRIDE, cell_of_number(own % STEP_STRIDE)),
                                 (time + 40, placing.placed_box(Box(x, y, 2, 2))[:2]))
                flight = range(number, number + 5 * (STEP_STRIDE + ROW_STRIDE + 1), STEP_STRIDE + ROW_STRIDE + 1)
                for part in (flight, list(flight), flight[:1]):
                    self.assertEqual(list(blocks.map_footprint_part(part)), [blocks(each) for each in part])
                dx, dy = chance.choice((-1, 1)), chance.choice((-1, 1))
                ball = Ball(2 * (x // 2) + (dx < 0), 2 * (y // 2) + (dy < 0), dx, dy, 2 * time)
                there = placing.placed_ball(ball)
                self.assertTrue(ball.is_legal and there.is_legal)
                self.assertEqual(there.cells(), tuple(map(placing.placed_cell, ball.cells())))
                self.assertEqual(placing.placed_ball(ball.after_flight(7)), there.after_flight(7))

    def test_turned_parts(self) -> None:
        """A join of parts that are mirrored, and turned if they are squares, gets a yes in all ways."""
        turnings = planning.fitting_orientations(planning.PlacedPart(self.made().parts[0]))
        self.assertGreaterEqual(len(turnings), 4)
        for turning in turnings[1:]:
            with self.subTest(turning):
                change = mock.patch.object(planning, "fitting_orientations", lambda placed, own=turning: [own])
                self.assertIn("verdict yes", self.verdict_with(change))

    # --- balls --------------------------------------------------------------------------------------------------------

    def test_balls_of_cells(self) -> None:
        """The balls of cells are found by place and time. Cells that are no balls are not taken for some."""
        even = [Ball(10, 10, 1, 1, 4), Ball(14, 14, 1, 1, 4), Ball(21, 30, -1, 1, 4), Ball(41, 41, -1, -1, 4)]
        for balls, moment in ((even, 4), ([ball.shifted_by(1, 1, 1) for ball in even], 5)):
            self.assertTrue(all(ball.is_legal for ball in balls))
            cells = [cell for ball in balls for cell in ball.cells()]
            self.assertEqual(sorted(whole_balls_of(cells, moment) or []), sorted(balls))
            self.assertIsNone(whole_balls_of(cells[1:], moment))

    def test_room_at_open_ends(self) -> None:
        """An end that is to be open takes the room of one more mirror than its path has, and no other end does."""
        circuit = read_document(BLOCK, "circuit").circuit
        assert circuit
        for steps in (OPEN_END_STEPS, 0):
            design = Attempt(RouterNetlist(circuit), 160, 1, RouterSettings(open_end_steps=steps)).run()
            ends = [path for path in design.paths if path.end.time == design.end]
            kept = sum(len(path.item.mirrors) > len(mirror_cells(path.mirrors())) for path in ends)
            self.assertEqual(kept > 0, steps > 0)

    def test_open_ends_can_be_led(self) -> None:
        """Each ball of a part that is routed with open ends can be led away from it, and to it from elsewhere."""
        made = self.made()
        plan = planning.make_plan(made, planning.estimated_side(made, [3]), [3])
        assert plan
        own = wiring.JoinWiring(plan, modules.JoinedModules(made, plan), 1, command.JOIN_SETTINGS, float("inf"))
        for job in plan.jobs:
            self.assertIsNotNone(next((path for path in (own.find_path(job) for _ in range(4)) if path), None), job)

    # --- what is refused ----------------------------------------------------------------------------------------------

    def assert_refused(self, status: int, sentence: str, *words: str) -> None:
        """Asserts that a join ends with a status and a sentence."""
        ended = self.join(*words)
        with self.subTest(words=words):
            self.assertEqual(ended.returncode, status, ended.stderr)
            self.assertRegex(ended.stderr, sentence)
            self.assertEqual(len(ended.stderr.splitlines()), 1, ended.stderr)
            self.assertEqual(ended.stdout, "")

    def test_wrong_connections(self) -> None:
        """A connection that is none gets a sentence."""
        two = "@half", "@half", "--connect"
        for sentence, word in (("it is A.OUT=B.IN", "A.sum"), ("it is A.OUT=B.IN", ""),
                               ("there is no part z; the parts are a, b", "A.sum=z.a"),
                               ("a has no output x", "A.x=B.a"), ("b has no input sum", "A.sum=B.sum")):
            self.assert_refused(2, sentence, *two, word)
        self.assert_refused(2, "the output sum of a is connected twice", *two, "A.sum=B.a", "A.sum=B.b")
        self.assert_refused(2, "the input a of b is connected twice", *two, "A.sum=B.a", "A.carry=B.a")
        self.assert_refused(1, "a loop through a, b", *two, "A.sum=B.a", "B.sum=A.a")
        self.assert_refused(1, "a loop through a", "@half", "--connect", "A.sum=A.a")
        self.assert_refused(2, "there is a part a already", "@half", "a=@half")
        name = "w" * 31
        text = BLOCK.replace("input a", f"input {name}").replace("switch a", f"switch {name}")
        long = routed(text, self.room, "long")
        self.assert_refused(1, "names have at most 32 characters", f"{'x' * 16}=@half", f"a={long}")

    def test_delays_that_do_not_meet(self) -> None:
        """A delayed output is not led to a gate whose other input is delayed too: its stops would not meet."""
        ended = self.join("@late", "@delayed", "--connect", "A.late=B.b")
        self.assertEqual(ended.returncode, 1)
        self.assertRegex(ended.stderr, r"gate \d+ \(switch\) would get inputs with stops at different times, b_late at")
        self.assertIsNotNone(self.joined("@late", "@delayed", "--connect", "A.late=B.a"))

    def test_closed_ends(self) -> None:
        """A ball that leaves its part in front of a mirror ends the join at once, with its wire."""
        cell = self.room / "cell.txt"
        cell.write_text(support.lab("cells", "half_adder", "--bundle").stdout)
        sentence = "the ball of wire a_sum at .* has no room for a bounce behind it: route the part with --open-ends"
        self.assert_refused(1, sentence, str(cell), "@block", "--connect", "A.carry=B.a")

    def test_wrong_parts(self) -> None:
        """A part without a yes gets a sentence."""
        self.assert_refused(1, "the program says no to it", support.example("plain_no"), "@half")
        self.assert_refused(1, "refused", support.example("refused"), "@half")
        self.assert_refused(4, "No such file", "nowhere.txt", "@half")
        self.assert_refused(1, "has no room on a plane|have no room on a plane", "@half", "@half", "--size", "160")
        self.assert_refused(2, "a multiple of 16", "@half", "--size", "161")

    def test_cells_that_are_no_balls(self) -> None:
        """A part whose ports are single cells can be joined only if they need not be led."""
        single = self.room / "single.txt"
        single.write_text("circuit\ninput p\noutput p\nend\nlayout 16 16 4\nin p 4 4\nout p 8 8\nend\n"
                          "certificate 2\nmodule 0 0 16 16\ncut p\nend\n")
        self.assert_refused(1, "are not balls of two cells", str(single), "@block", "--connect", "B.b=A.p")

    def test_interrupt(self) -> None:
        """An interrupt ends the command in time, and writes nothing."""
        made = self.room / "never.txt"
        chain = [f"{one}.sum={other}.a" for one, other in zip("abcdefghijk", "bcdefghijkl")]
        words = [*[str(self.parts["half"])] * 12, "--effort", "100", "-o", str(made), "--connect", *chain]
        words = [sys.executable, str(support.LAB / "bbmlab"), "join", *words]
        process = subprocess.Popen(words, stderr=subprocess.PIPE, start_new_session=True,
                                   env={**os.environ, "BBMCHECK": support.program()},
                                   preexec_fn=lambda: signal.signal(signal.SIGINT, signal.SIG_DFL))
        assert process.stderr
        self.assertIn(b"12 parts, ", process.stderr.readline())
        begun = time.monotonic()
        os.killpg(process.pid, signal.SIGINT)
        said = process.communicate(timeout=30)[1].decode()
        self.assertLess(time.monotonic() - begun, INTERRUPT_SECONDS)
        self.assertEqual((process.returncode, said), (130, ""))
        self.assertFalse(made.exists())


if __name__ == "__main__":
    unittest.main()
