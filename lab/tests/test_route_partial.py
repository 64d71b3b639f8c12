"""Parts that are kept of a search without a route: all gates that are counted, with a yes."""

import argparse
import contextlib
import io
import re
import subprocess
import sys
from collections import Counter
from pathlib import Path
from typing import Any, Callable
from unittest import mock

import support
from bbmlab_core.host.program import find_and_open_program
from bbmlab_core.route import partial
from bbmlab_core.route.attempt import Attempt, OutOfTimeError
from bbmlab_core.route.balls import Ball, Leg
from bbmlab_core.route.board import NoRouteError, Placement, WaitingBall
from bbmlab_core.route.command import report_failure
from bbmlab_core.route.design import RoutedDesign
from bbmlab_core.route.ends import EndWiring
from bbmlab_core.route.netlist import RouterNetlist
from bbmlab_core.route.partial import (PartialRoute, finishable_placement_count, partial_circuit, partial_design,
                                       circuit_section_text, placements_without_maker)
from bbmlab_core.route.paths import Path as BallPath
from bbmlab_core.route.search import RouterSearch, SearchOptions, SearchOutcome, routed_bundle
from bbmlab_core.route.settings import RouterSettings
from bbmlab_core.route.world import path_footprint
from bbmlab_core.texts.circuits import Circuit
from bbmlab_core.texts.documents import read_document
from bbmlab_core.texts.gates import GATE_SIZES
from test_route import circuit_text
from test_route_backward import read_circuit

sys.path.insert(0, str(support.TOP / "bench"))
from random_circuits import made_circuit  # noqa: E402


def placed_part(text: str, side: int, seed: int, failures: int = 0) -> PartialRoute:
    """Returns what an attempt on a plane of one side placed at most."""
    circuit = read_circuit(text)
    attempt = Attempt(RouterNetlist(circuit), side, seed, RouterSettings(failures=failures))
    try:
        attempt.run()
    except NoRouteError:
        pass
    return PartialRoute(circuit, attempt.best_steps, side, side)


def slow_above(most: int) -> Callable[..., RoutedDesign | str]:
    """Returns a leading to the end whose time is over for more gates than some."""
    right = partial.design_or_lost_wire

    def led(part: PartialRoute, steps: list[Placement], *words: Any) -> RoutedDesign | str:
        if len(steps) > most:
            raise OutOfTimeError("the time was over")
        return right(part, steps, *words)

    return led


class Parts(support.InRoom):
    """Gates that an attempt placed before it failed, steps of another board, and the summary's counts."""

    def assert_yes(self, part: PartialRoute, count: int) -> None:
        """Asserts that so many gates of a part are kept, with a yes."""
        design = partial_design(part, RouterSettings(), 60)
        self.assertEqual(len(design.gates), count)
        bundle = routed_bundle(circuit_section_text(design.circuit), design).text
        ended = subprocess.run([support.program(), "check"], input=bundle.encode(), capture_output=True, check=False)
        self.assertIn("\nverdict yes\n", ended.stdout.decode())

    def test_all_gates_are_kept(self) -> None:
        """On small planes too all placed gates are kept: where a ball has no way to the end, paths to gates make way
        for it."""
        for kind, inputs, seed in (("inverse", 10, 1), ("forward", 8, 2), ("any", 6, 2)):
            part = placed_part(made_circuit(kind, 40, inputs, seed), 256, 1)
            with self.subTest(kind=kind):
                self.assertGreater(len(part.placements), 4)
                self.assert_yes(part, len(part.placements))

    def test_paths_make_way(self) -> None:
        """Some ball of these parts has a way to the end only since paths to gates were led again."""
        made: Counter[bool] = Counter()
        right = EndWiring.add_path_making_way

        def counted(self: EndWiring, root: str, ball: Ball | None, end: int) -> BallPath | None:
            path = right(self, root, ball, end)
            made[path is not None] += 1
            return path

        with mock.patch.object(EndWiring, "add_path_making_way", counted):
            for seed in range(1, 30):
                part = placed_part(made_circuit("inverse", 40, 10, 1), 256, seed)
                self.assert_yes(part, len(part.placements))
                if made[True]:
                    break
        self.assertTrue(made[True])

    def test_short_time(self) -> None:
        """If the time is over for many gates, as many are kept as it is enough for, and not half of them."""
        part = placed_part(made_circuit("forward", 12, 8, 1), 512, 1)
        for most in (3, 9, 11):
            with self.subTest(most=most), mock.patch.object(partial, "design_or_lost_wire", slow_above(most)):
                self.assert_yes(part, most)

    def test_affordable_count(self) -> None:
        """Without time no gate is kept after an interrupt, with much time all are, and with more time never fewer."""
        part = placed_part(made_circuit("forward", 12, 8, 1), 512, 1)
        counts = [finishable_placement_count(part.circuit, part.placements, seconds)
                  for seconds in (0.0, 0.05, 0.1, 0.2, 100.0)]
        self.assertEqual((counts[0], counts[-1], counts), (0, len(part.placements), sorted(counts)))

    def test_which_gate_is_left_out(self) -> None:
        """The maker of a wire if nothing follows from it, and else the last gate."""
        part = placed_part(circuit_text("abc", "switch a b -> d e f\nswitch d c -> g h i", "efghi"), 384, 1)
        first, second = part.placements
        self.assertEqual(placements_without_maker(part.placements, "g"), [first])
        self.assertEqual(placements_without_maker(part.placements, "e"), [first])
        self.assertEqual(placements_without_maker([second, first], "e"), [second])

    def test_no_room_to_wait(self) -> None:
        """A ball whose way was given to a path that was led later is named, and does not take it as well."""
        part = placed_part(circuit_text("ab", "switch a b -> x y z", "xyz"), 384, 1)
        step = part.placements[0]
        ball = step.outs["x"].ball
        way = path_footprint(ball.after_flight(2), [Leg(20, None)])
        assert way
        other = BallPath("y", ball.after_flight(2), ball.after_flight(22), (Leg(20, None),), way)
        own = Placement(step.gate, step.paths, {"x": step.outs["x"]}, [*step.parking_paths, other])
        attempt = Attempt(RouterNetlist(part.circuit), 384, 1, RouterSettings())
        self.assertEqual(attempt.adopt_placements([own]), "x")
        self.assertIsInstance(attempt.board.waiting["x"], WaitingBall)
        again = Attempt(RouterNetlist(part.circuit), 384, 1, RouterSettings())
        self.assertEqual(again.adopt_placements([step]), "")

    def test_what_is_counted_is_kept(self) -> None:
        """The summary counts the gates of the bundle, and one more sentence those whose balls could not be led to the
        end."""
        part = placed_part(made_circuit("forward", 12, 8, 1), 512, 1)
        options = argparse.Namespace(keep_partial=True, map=None, output=f"{self.room}/part.txt", seed=1, size=512,
                                     effort=1.0, jobs=1, compact=False, timeout=60, late=[])
        for is_interrupted in (False, True):
            outcome = SearchOutcome(None, "", Counter(), 1, 12, 12, part.placements, 512, is_interrupted)
            said = io.StringIO()
            with mock.patch.object(partial, "design_or_lost_wire", slow_above(3)), \
                    mock.patch.object(partial, "finishable_placement_count", lambda *_: 3), \
                    contextlib.redirect_stderr(said):
                report_failure(part.circuit, outcome, options, find_and_open_program(support.program()))
            kept = sum(line.split(" ")[0] in GATE_SIZES for line in Path(options.output).read_text().split("\n"))
            with self.subTest(is_interrupted=is_interrupted):
                self.assertEqual(re.findall(r"[0-9]+ of [0-9]+ gates", said.getvalue()), [f"{kept} of 12 gates"],
                                 said.getvalue())
                self.assertIn(f"bbmlab: {12 - kept} more had a place", said.getvalue())
                self.assertIn("verdict yes", said.getvalue())

    def test_only_parts_count(self) -> None:
        """If a part is kept, an attempt backward in time, which leaves none, does not count; else it does."""
        text = made_circuit("wide", 12, 16, 1)
        circuit = read_document(text, "circuit").circuit
        assert circuit
        for keeps, count in ((True, 1), (False, 11)):
            search = RouterSearch(circuit, text, SearchOptions(keeps_partial=keeps), RouterSettings(), lambda *_: None)
            search.note_partial(11, [], 384)
            search.note_partial(1, placed_part(text, 384, 1).placements[:1], 384)
            self.assertEqual(search.outcome.placed, count)

    def test_what_no_gate_needs_is_left_out(self) -> None:
        """A part has the inputs, sources and delays that its gates need, and no others."""
        text = ("circuit\ninput a\ninput b\ninput c\nsource 1 -> d\nsource 0 -> e\ndelay 5 a -> f\ndelay 7 b -> g\n"
                "switch f d -> h i j\nswitch g e -> k l m\noutput c\n"
                + "".join(f"output {name}\n" for name in "hijklm") + "end\n")
        part: Circuit = partial_circuit(read_circuit(text), {4})
        self.assertEqual((part.inputs, [gate.kind for gate in part.gates], part.outputs),
                         (("a",), ["source", "delay", "switch"], ("h", "i", "j")))
