"""The ways on the viewer's page: at each time of a piece its wire's ball is there, in the lab's run; and what a page
cannot show is left out.
"""

import random
import unittest
from unittest import mock

import support
from bbmlab_core.physics.simulation import WholeRun, key_of
from bbmlab_core.pictures.drawing import ball_ways_and_labels, wire_tables_and_column
from bbmlab_core.texts.documents import Document, read_document
from bbmlab_core.view import page_ways, viewing
from test_ways import random_layout, steps_of


class Ways(unittest.TestCase):
    """The pieces with their times."""

    def assert_there(self, document: Document) -> int:
        """Asserts that the balls of each piece are there at its times, and that all steps are those of `draw`.

        Returns how many cells were looked at.
        """
        layout, found = document.layout, page_ways.page_ways(document)
        assert layout and found
        tables, full, _ = wire_tables_and_column(document, [])
        wanted: dict[int, list[tuple[int, int, int]]] = {}
        for wire in found["wires"]:
            numbers, table = wire["pieces"], tables.get(wire["name"], full if wire["name"] == "1" else 0)
            for x, y, u, v, time in zip(*(numbers[place::5] for place in range(5))):
                dx, dy = (u > x) - (u < x), (v > y) - (v < y)
                for step in range(max(abs(u - x), abs(v - y)) + 1):
                    wanted.setdefault(time + step, []).append((x + dx * step, y + dy * step, table))
        run, count = WholeRun(layout, tables, full), 0
        for time in range(max(wanted, default=-1) + 1):
            for x, y, table in wanted.get(time, []):
                live = run.field.live.get(key_of((x, y)), 0)
                self.assertTrue(live if table == 0 else live & table == table, (x, y, time, table))
                count += 1
            run.step()
        return count

    def test_examples(self) -> None:
        """The ways of examples and standard cells."""
        self.assertGreater(sum(self.assert_there(own) for _, own in support.drawn_documents()), 10_000)

    def test_random_layouts(self) -> None:
        """The ways of layouts in which balls collide, mirrors fall apart and balls fly for many steps at once."""
        seed = random.randrange(10**6)
        chance = random.Random(seed)
        for _ in range(80):
            text = random_layout(chance, chance.choice((48, 120)))
            with self.subTest(seed=seed, text=text):
                self.assert_there(read_document(text))

    def test_all_steps_are_there(self) -> None:
        """The page has the same steps as `draw --ways`."""
        document = read_document(support.text_of("full_adder"))
        found = page_ways.page_ways(document)
        assert found
        ways = {wire["name"]: [tuple(sorted(((x, y), (u, v)))) for x, y, u, v,
                               _ in zip(*(wire["pieces"][place::5] for place in range(5)))]
                for wire in found["wires"]}
        wanted, _ = ball_ways_and_labels(document, None, document.layout.steps)
        self.assertEqual({name: steps_of(pieces) for name, pieces in ways.items()},
                         {name: steps_of(pieces) for name, pieces in wanted.items()})

    def test_too_many_moves(self) -> None:
        """A run with more moves than a page can show has no ways, and the page says so by leaving them out."""
        lines = ["layout 512 512 65536"]
        for place in range(0, 512, 16):
            lines += [f"mirror {place + 2} 1 2 2", f"mirror {place + 12} 9 2 2", f"ball {place + 4} 2"]
        balls = read_document("\n".join([*lines[:1], *sorted(lines[1:], key=lambda line: line.startswith("ball")),
                                         "end"]) + "\n")
        self.assertIsNone(balls.refusal)
        with mock.patch.object(page_ways, "MAX_RUN_MOVES", 50_000):
            self.assertIsNone(page_ways.page_ways(balls))
            self.assertIn('"ways":null', viewing.page_data_json(balls, None))

    def test_levels(self) -> None:
        """The level of a wire counts the gates before it, but for sources and delays."""
        circuit = support.circuit_of("circuit\ninput p\nsource 1 -> k\nswitch p k -> a b c\ndelay 3 a -> d\n"
                                     "switch d b -> e f g\noutput e\nspill f\nspill g\nspill c\nend\n")
        self.assertEqual(page_ways.wire_levels(circuit),
                         {"p": 0, "k": 0, "a": 1, "b": 1, "c": 1, "d": 1, "e": 2, "f": 2, "g": 2})
