"""The balls and cells of the router: the algebra of a ball, and each gate's cell by exact runs."""

import random
import unittest

import support  # noqa: F401
from bbmlab_core.route.balls import (BOUNCE_STEPS, Ball, Leg, BounceKind, ball_and_mirror_after_bounce,
                                     ball_and_mirror_before_bounce, path_cells_at, follow_legs, moving_path_cells,
                                     path_run, run_exactly, start_state)
from bbmlab_core.route.cells import GATE_PORTS, GateCell, base_gate_cells, cell_library
from bbmlab_core.route.world import path_footprint
from bbmlab_core.texts.circuits import Gate
from bbmlab_core.texts.gates import gate_tables, input_tables

EACH_DIRECTION = [Ball(40 + (dx < 0), 40 + (dy < 0), dx, dy, 0) for dx in (1, -1) for dy in (1, -1)]


class Balls(unittest.TestCase):
    """A ball by algebra is where the rule of blocks leads it, and the cells and gates of the library."""

    def test_bounce(self) -> None:
        """A bounce ends on the track that the algebra says, in all directions, and not a step sooner than
        `BOUNCE_STEPS`."""
        for ball in EACH_DIRECTION:
            for turn in BounceKind:
                legs = [Leg(6, turn), Leg(BOUNCE_STEPS, None)]
                run, (end, _) = path_run(ball, legs), follow_legs(ball, legs)
                with self.subTest(ball=ball, turn=turn):
                    self.assertTrue(run.is_stable)
                    self.assertEqual(set(run.states[-1]), set(end.cells()))
                    self.assertNotEqual(set(run.states[-2]), set(end.after_flight(-1).cells()))

    def test_bounce_before(self) -> None:
        """`ball_and_mirror_before_bounce` undoes `ball_and_mirror_after_bounce`."""
        for ball in EACH_DIRECTION:
            for turn in BounceKind:
                after, mirror = ball_and_mirror_after_bounce(ball, turn)
                self.assertEqual(ball_and_mirror_before_bounce(after, turn), (ball, mirror))

    def test_cells_of_paths(self) -> None:
        """The moving cells of random paths by arithmetic are those of exact runs, at each time, in all directions and
        with any first time."""
        seed = random.randrange(10**6)
        chance, count = random.Random(seed), 0
        for _ in range(300):
            start = chance.choice(EACH_DIRECTION).shifted_by(200, 200, 0).after_flight(chance.randint(0, 3))
            legs = [Leg(chance.randint(0 if index == 0 else BOUNCE_STEPS, 20), chance.choice(list(BounceKind)))
                    for index in range(chance.randint(0, 5))]
            legs.append(Leg(chance.randint(BOUNCE_STEPS, 20), None))
            if path_footprint(start, legs) is None:
                continue
            run, count = path_run(start, legs), count + 1
            wanted = {run.first + index: set(state) for index, state in enumerate(run.states)}
            self.assertEqual({time: set(path_cells_at(start, legs, time)) for time in wanted}, wanted, f"seed {seed}")
            del wanted[max(wanted)]
            found = {time: set(cells) for odd in (0, 1) for time, cells in moving_path_cells(start, legs, odd)}
            self.assertEqual(found, wanted, f"seed {seed}")
            self.assertTrue(all(time % 2 == odd for odd in (0, 1) for time, _ in moving_path_cells(start, legs, odd)))
        self.assertGreater(count, 150)

    def test_free_flight(self) -> None:
        """A legal ball flies straight, and `reversed` gives the same way backwards."""
        for ball in EACH_DIRECTION:
            self.assertTrue(ball.is_legal)
            self.assertEqual(set(path_run(ball, [Leg(9, None)]).states[-1]), set(ball.after_flight(9).cells()))
            self.assertEqual(set(ball.time_reversed().cells()), set(ball.cells()))

    def ends(self, cell: GateCell, shift: tuple[int, int, int]) -> tuple[dict, dict]:
        """Returns the last state of a run of a moved cell, and the state that the gate's rule asks for."""
        inputs, outputs = GATE_PORTS[cell.word]
        tables = input_tables(len(inputs))
        outs, rows = gate_tables(cell.word, None, tables, (1 << (1 << len(inputs))) - 1)
        table = dict(zip(inputs + outputs, tables + outs))
        ports = {port: ball.shifted_by(*shift) for port, ball in (cell.ins | cell.outs).items()}
        first = min(ports[port].time for port in inputs)
        last = max(ports[port].time for port in outputs)
        mirrors = {(x + shift[0], y + shift[1]) for x, y in cell.mirrors}
        run = run_exactly(mirrors, start_state([(ports[port].at_time(first), table[port] & rows) for port in inputs]),
                          first, last)
        self.assertTrue(run.is_stable)
        return run.states[-1], start_state([(ports[port].at_time(last), table[port] & rows) for port in outputs])

    def test_each_cell_in_each_orientation(self) -> None:
        """Each cell computes its gate in all orientations, moved by even and by odd numbers."""
        seed = random.randrange(10**6)
        chance = random.Random(seed)
        for word, cells in cell_library().items():
            self.assertGreaterEqual(len(cells), 8)
            for cell in [*cells, *base_gate_cells()[word]]:
                odd = chance.randrange(2)
                shift = tuple(2 * chance.randrange(40) + odd for _ in range(3))
                found, expected = self.ends(cell, (shift[0], shift[1], shift[2]))
                self.assertEqual(found, expected, (word, shift, f"seed {seed}"))

    def test_ports_are_legal(self) -> None:
        """The ports of each cell are legal balls, and their names are those of the gate's line."""
        for word, cells in cell_library().items():
            for cell in cells:
                self.assertEqual((tuple(sorted(cell.ins)), tuple(sorted(cell.outs))),
                                 tuple(tuple(sorted(names)) for names in GATE_PORTS[word]))
                self.assertTrue(all(ball.is_legal for ball in (cell.ins | cell.outs).values()))

    def test_claims_are_whole(self) -> None:
        """A cell's blocks and the straight flights of its ports have all moving cells of its run."""
        for word in ("switch", "interact", "fredkin"):
            cell = cell_library()[word][3]
            inputs = GATE_PORTS[word][0]
            tables = dict(zip(inputs, input_tables(len(inputs))))
            run = run_exactly(set(cell.mirrors),
                              start_state([(cell.ins[port].at_time(0), tables[port]) for port in inputs]), 0,
                              cell.step_count)
            for time, state in enumerate(run.states[:-1]):
                flying = {own for ball in cell.ins.values() if time < ball.time for own in ball.at_time(time).cells()}
                flying |= {own for ball in cell.outs.values() if time >= ball.time
                           for own in ball.at_time(time).cells()}
                self.assertEqual(set(state) - flying, set(cell.port_names[time]), (word, time))

    def test_port_counts(self) -> None:
        """Each gate has as many ports as wires."""
        for word, (inputs, outputs) in GATE_PORTS.items():
            gate = Gate(word, tuple(inputs), tuple(outputs))
            self.assertEqual(gate.is_inverse, word.startswith("un"))
            self.assertEqual(len(gate_tables(word, None, input_tables(len(inputs)), 1)[0]), len(outputs))
