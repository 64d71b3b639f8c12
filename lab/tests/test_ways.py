"""The ways of the balls in pictures: those of the block rule, step by step, and how many wires of a large layout are
shown.
"""

import random
import re
import unittest
from pathlib import Path

import support
from bbmlab_core.commands.draw import boxes_with_gates, picture_of
from bbmlab_core.physics.simulation import DIAGONAL_STRIDE, ROW_STRIDE, TruthTable, WholeRun, block_of, cell_of
from bbmlab_core.pictures import drawing
from bbmlab_core.pictures.picture_parts import (OTHER_WIRES_LABEL, PictureOptions, chevrons, cone_of, piece_within,
                                                ways_with_others_grouped)
from bbmlab_core.pictures.ways import Piece, WayRun, block_moves, directed_ways, joined_pieces, ways_by_table
from bbmlab_core.texts.designs import read_layout_file
from bbmlab_core.texts.documents import Document, read_document
from bbmlab_core.texts.layouts import Box, Cell

Step = tuple[Cell, Cell]


def steps_of(pieces: list[Piece]) -> set[Step]:
    """Returns the single steps of pieces, each from left to right."""
    found = set()
    for (x, y), (u, v) in pieces:
        slope = (v > y) - (v < y)
        found |= {((x + k, y + slope * k), (x + k + 1, y + slope * (k + 1))) for k in range(u - x)}
    return found


def moves_by_rule(document: Document, tables: dict[str, TruthTable], full: TruthTable) -> dict[TruthTable, set[Step]]:
    """Returns the steps of the balls from the lab's run, one block after another, by the assignments under which they
    are made."""
    layout = document.layout
    run, found = WholeRun(layout, tables, full), dict[TruthTable, set[Step]]()
    for _ in range(layout.steps):
        live, is_odd = run.field.live, run.time % 2
        looked = {block_of(key, is_odd) for key in run.field.changed | run.field.changed_before}
        before = {key: live[key] for corner in looked
                  for key in (corner, corner + 1, corner + ROW_STRIDE, corner + DIAGONAL_STRIDE)
                  if key in live}
        if not run.step():
            break
        for corner in {block_of(key, is_odd) for key in run.field.changed}:
            for start, end, table in block_moves(before, corner):
                one, two = sorted((cell_of(start), cell_of(end)))
                found.setdefault(table, set()).add((one, two))
    return found


def random_layout(chance: random.Random, side: int = 48) -> str:
    """Returns a layout of balls, inputs and mirrors at random, some of which fall apart."""
    cells: set[Cell] = set()
    lines: list[str] = []
    for kind, count in (("mirror", 6), ("ball", 8), ("in a", 4), ("in b", 4)):
        for _ in range(count):
            x, y = chance.randrange(8, side - 8), chance.randrange(8, side - 8)
            width, height = chance.choice(((2, 2), (4, 2), (1, 1), (3, 2))) if kind == "mirror" else (1, 1)
            own = {(x + i, y + j) for i in range(width) for j in range(height)}
            if cells.isdisjoint(own):
                cells |= own
                lines.append(f"{kind} {x} {y}" + (f" {width} {height}" if kind == "mirror" else ""))
    return "\n".join([f"layout {side} {side} {chance.randint(1, side + 12)}", *lines, "end"]) + "\n"


def crowded_layout(chance: random.Random, mirror_count: int, side: int = 96) -> str:
    """Returns a layout of many balls, and of mirrors that no ball can change."""
    cells: set[Cell] = set()
    mirrors: list[str] = []
    balls: list[str] = []
    for _ in range(mirror_count):
        x, y = chance.randrange(8, side - 8), chance.randrange(4, side // 2 - 4) * 2
        own = {(x + i, y + 1 - x % 2 + j) for i in range(-2, 6) for j in range(-2, 4)}
        if cells.isdisjoint(own):
            cells |= own
            mirrors.append(f"mirror {x} {y + 1 - x % 2} 4 2")
    for _ in range(40):
        cell = chance.randrange(8, side - 8), chance.randrange(8, side - 8)
        if cell not in cells:
            cells.add(cell)
            balls.append(f"{chance.choice(('ball', 'in a', 'in b'))} {cell[0]} {cell[1]}")
    return "\n".join([f"layout {side} {side} 60", *mirrors, *balls, "end"]) + "\n"


class Ways(unittest.TestCase):
    """The pieces of ways."""

    def assert_same(self, document: Document) -> int:
        """Asserts that the ways of a layout are those of the rule.

        A run that leaves the rectangle may be a step longer there.
        """
        layout = document.layout
        tables, full, _ = drawing.wire_tables_and_column(document, [])
        wanted = moves_by_rule(document, tables, full)
        run = WholeRun(layout, tables, full)
        until = layout.steps if run.run_to(layout.steps) else run.time - 1
        found = {table: steps_of(pieces) for table, pieces in ways_by_table(layout, tables, full, until).items()}
        self.assertEqual(found, wanted)
        return sum(map(len, wanted.values()))

    def test_examples(self) -> None:
        """The ways of each example and standard cell."""
        self.assertGreater(sum(self.assert_same(own) for _, own in support.drawn_documents()), 10_000)

    def test_random_layouts(self) -> None:
        """The ways of layouts in which balls collide, and mirrors fall apart."""
        seed = random.randrange(10**6)
        chance, count = random.Random(seed), 0
        for _ in range(150):
            text = random_layout(chance)
            with self.subTest(seed=seed, text=text):
                count += self.assert_same(read_document(text))
        self.assertGreater(count, 20_000)

    def test_wide_layouts(self) -> None:
        """The ways of layouts in which most balls fly for many steps at once, and some meet on the way."""
        seed, flown, stepped = random.randrange(10**6), 0, 0
        chance = random.Random(seed)
        for _ in range(40):
            text = random_layout(chance, chance.choice((120, 240)))
            with self.subTest(seed=seed, text=text):
                document = read_document(text)
                stepped += self.assert_same(document)
                flown += self.flown_steps(document)
        self.assertGreater(flown, 500)
        self.assertGreater(stepped, flown)

    def test_crowded_layouts(self) -> None:
        """The ways of layouts in which many balls that fly meet each other, and mirrors that no ball can change."""
        seed = random.randrange(10**6)
        chance = random.Random(seed)
        for _ in range(30):
            text = crowded_layout(chance, chance.choice((0, 12, 40)))
            with self.subTest(seed=seed, text=text):
                document = read_document(text)
                assert document.layout
                self.assertTrue(WayRun(document.layout, {}, 1).is_ball_proof)
                self.assert_same(document)

    def test_a_flight_is_one_move(self) -> None:
        """Balls that meet nothing cost no steps, however far they fly."""
        crossed: list[int] = []

        class Counted(WayRun):
            """A run that counts single moves."""

            def move_lone_cell(self, start: int, end: int, direction: int, left: list[int]) -> None:
                crossed.append(start)
                super().move_lone_cell(start, end, direction, left)

        balls = [f"ball {4 * number} {4 * number % 60}" for number in range(20)]
        document = read_document("\n".join(["layout 512 512 400", "mirror 490 1 4 2", *balls, "end"]) + "\n")
        assert document.layout
        run = Counted(document.layout, {}, 1)
        self.assertTrue(run.run_steps(400))
        self.assertEqual(crossed, [])
        self.assertEqual(run.move_count, 20 * 400)
        self.assertEqual(len(list(run.pieces())), 20)

    def flown_steps(self, document: Document) -> int:
        """Returns how many steps balls of a layout fly at once."""
        layout, counts = document.layout, list[int]()
        assert layout

        class Counted(WayRun):
            """A run that counts steps of flights."""

            def land(self, number: int) -> int:
                before = self.move_count
                key = super().land(number)
                counts.append(self.move_count - before)
                return key

        tables, full, _ = drawing.wire_tables_and_column(document, [])
        Counted(layout, tables, full).run_steps(layout.steps)
        return sum(counts)

    def test_directed_ways(self) -> None:
        """Directed ways are the same steps, and each piece goes as a ball flies: one goes to and fro between two
        mirrors."""
        document = read_document("layout 24 24 30\nmirror 2 1 2 2\nmirror 12 9 2 2\nball 4 2\nend\n")
        assert document.layout
        tables, full, _ = drawing.wire_tables_and_column(document, [])
        plain, directed = (of(document.layout, tables, full, 30) for of in (ways_by_table, directed_ways))
        self.assertEqual({table: steps_of([(min(piece), max(piece)) for piece in pieces]) for table,
                          pieces in directed.items()},
                         {table: steps_of(pieces) for table, pieces in plain.items()})
        pieces = [piece for found in directed.values() for piece in found]
        self.assertIn(((4, 2), (11, 9)), pieces)
        self.assertIn((11, 9),
                      [first for first, last in pieces if last < first] + [last for first,
                                                                           last in pieces if last < first])

    def test_joined_pieces(self) -> None:
        """Pieces of a line that meet are one, and others stay."""
        self.assertEqual(joined_pieces([((0, 0), (3, 3)), ((5, 5), (3, 3)), ((7, 7), (8, 8)), ((0, 3), (3, 0)),
                                        ((4, 2), (5, 2))]),
                         [((0, 0), (5, 5)), ((0, 3), (3, 0)), ((4, 2), (5, 2)), ((7, 7), (8, 8))])


class Large(support.InRoom):
    """Pictures of large layouts."""

    def text(self, wires: int) -> str:
        """Returns a bundle of wires that each fly straight, through delays, in a layout of 1024 by 1024."""
        names = [f"w{number}" for number in range(wires)]
        lines = ["limits 2", "circuit", *(f"input {name}" for name in names), "source 0 -> o",
                 *(f"switch {name} {'o' if number == 0 else f'z{number - 1}'} -> c{number} y{number} z{number}"
                   for number, name in enumerate(names)),
                 *(f"output c{number}" for number in range(wires)), *(f"spill y{number}" for number in range(wires)),
                 f"spill z{wires - 1}", "end", "layout 1024 1024 40"]
        lines += [f"in {name} 100 {100 + 8 * number}" for number, name in enumerate(names)]
        lines += [f"out c{number} 140 {140 + 8 * number}" for number in range(wires)]
        return "\n".join([*lines, "end", "certificate 2", "module 0 0 16 16", "use 0", "module 16 0 32 32", "cut w0",
                          "use 0", "use 1", "end"]) + "\n"

    def test_many_wires_by_levels(self) -> None:
        """More wires than the legend lists are shown by their levels, at most eight groups; fewer keep their names."""
        for wires, is_grouped in ((40, False), (60, True)):
            document = read_document(self.text(wires).split("certificate")[0], "design")
            assert document.layout and document.circuit
            self.assertIsNone(document.refusal)
            shown = drawing.Drawing()
            shown.ways, shown.wire_labels = drawing.ball_ways_and_labels(document, None, document.layout.steps)
            steps = sum(len(steps_of(pieces)) for pieces in shown.ways.values())
            names = drawing.group_ways_by_level(shown, document.circuit)
            self.assertEqual(any(name.startswith("level") for name in names), is_grouped)
            self.assertLessEqual(len([name for name in names if name.startswith("level")]), 8)
            self.assertEqual(sum(len(steps_of(pieces)) for pieces in shown.ways.values()), steps)
            self.assertEqual(set(shown.ways) - set(names) - {"1", ""}, set())

    def test_large_pictures_have_no_dashes(self) -> None:
        """In a large layout nine wires are grouped by levels, since dashes could not be told apart there; what is no
        wire's is dotted."""
        text = self.text(9).split("certificate")[0]
        path = Path(self.room, "nine.txt")
        path.write_text(text)
        large = picture_of(read_layout_file(str(path)), None, None)
        self.assertIn(">level 0<", large)
        self.assertNotIn(">w1<", large)
        # The ways of wires have no dashes: those of what is no wire's have class w8.
        self.assertEqual(re.findall(r'class="way w[0-7]"[^>]*stroke-dasharray', large), [])

    def test_gates_are_outlined(self) -> None:
        """In a large layout the modules that use gates are outlined, but for the smallest ones, and borders of modules
        are left out."""
        text = self.text(2)
        circuit = support.circuit_of(text.split("layout")[0])
        self.assertEqual(boxes_with_gates(text, circuit), [(Box(16, 0, 32, 32), ["switch 1"])])
        self.assertEqual(boxes_with_gates("circuit\nend\n", circuit), [])

    def test_gates_are_named(self) -> None:
        """A box with room for it shows its gate, and how many others its module uses; a small one does not."""
        shown = drawing.gate_name_elements([(Box(0, 0, 64, 64), ["switch 1", "interact 2"]),
                                            (Box(64, 0, 4, 4), ["switch 3"])], 16)
        self.assertEqual(len(shown), 1)
        self.assertIn(">switch 1 +1<", shown[0])

    def test_names_of_many_ports_are_left_out(self) -> None:
        """More names than can be read are left out, and the title says so."""
        lines = [f"in a{number} {2 * (number % 200)} {8 * (number // 200)}"
                 for number in range(drawing.MAX_PORT_NAMES + 1)]
        for count, words in ((drawing.MAX_PORT_NAMES, False), (drawing.MAX_PORT_NAMES + 1, True)):
            layout = read_document("\n".join(["layout 512 512 0", *lines[:count], "end"]) + "\n").layout
            assert layout
            picture = drawing.layout_svg(layout, drawing.Drawing(title="all"), [])
            self.assertEqual(f"; the names of {count} ports are left out" in picture, words)
            self.assertEqual('class="name"' in picture, not words)

    def test_balls_have_a_least_size(self) -> None:
        """A ball of a large layout can be seen in a small picture; the reader's size counts before it."""
        layout = read_document("limits 2\nlayout 1200 1200 0\nball 600 600\nend\n", "layout").layout
        assert layout
        for size, radius in ((0.0, "24.0"), (10.0, "60.0")):
            self.assertIn(f'class="ball" cx="7236" cy="7236" r="{radius}"',
                          drawing.layout_svg(layout, drawing.Drawing(live={(600, 600)}, least_ball_size=size), []))

    def test_small_pictures_show_modules(self) -> None:
        """A small layout has the borders of its modules, and no outlined gates."""
        picture = picture_of(read_layout_file(support.example("four_modules")), None, None)
        self.assertIn('class="box"', picture)
        self.assertNotIn('class="gate"', picture)


class Chosen(support.Case):
    """Parts of a picture that a reader asks for."""

    def test_piece_within(self) -> None:
        """A piece is cut at the borders of a box, in its direction."""
        box = Box(10, 10, 10, 10)
        self.assertEqual(piece_within(((0, 0), (40, 40)), box), ((10, 10), (19, 19)))
        self.assertEqual(piece_within(((40, 40), (0, 0)), box), ((19, 19), (10, 10)))
        self.assertEqual(piece_within(((8, 20), (20, 8)), box), ((9 + 1, 18), (18, 10)))
        self.assertEqual(piece_within(((12, 12), (13, 12)), box), ((12, 12), (13, 12)))
        self.assertIsNone(piece_within(((12, 9), (13, 9)), box))
        self.assertIsNone(piece_within(((0, 20), (20, 40)), box))

    def test_crop(self) -> None:
        """A cropped picture has the size of its part, and the parts that lie in it."""
        design = read_layout_file(support.example("four_modules"))
        whole, part = (picture_of(design, None, None, None, PictureOptions(crop=crop))
                       for crop in (None, Box(0, 0, 6, 4)))
        self.assertIn('<rect class="plane" x="30" y="30" width="72" height="48"/>', part)
        self.assertLess(part.count('class="box"'), whole.count('class="box"'))
        self.assertLess(len(part), len(whole))

    def test_crop_outside(self) -> None:
        """A part outside the layout is an error, and no picture."""
        self.assert_ends(4, "draw", support.example("four_modules"), "--crop", "4000", "0", "8", "8", stdout="",
                         err="lies outside the layout")

    def test_wires_are_brought_out(self) -> None:
        """The ways of a wire, or of an equal one, keep their colour, and all others are faint."""
        ways = {"a": [((0, 0), (3, 3))], "b": [((5, 0), (8, 3))], "": [((9, 9), (8, 8))]}
        found = ways_with_others_grouped(ways, {"a": "a, c"}, {"c"})
        self.assertEqual(found, {"a": ways["a"], OTHER_WIRES_LABEL: ways["b"] + ways[""]})
        picture = picture_of(read_layout_file(support.example("full_adder")), None, None, None,
                             PictureOptions(wires=("a",)))
        self.assertIn("<title>other wires</title>", picture)
        self.assertLess(picture.index("<title>other wires</title>"), picture.index('class="way w0"'))

    def test_cone(self) -> None:
        """A cone is a wire with all on which it depends."""
        circuit = support.circuit_of("circuit\ninput p\ninput q\ninput r\nswitch p q -> a b c\nswitch a r -> d e f\n"
                                     "output d\nspill b\nspill c\nspill e\nspill f\nend\n")
        self.assertEqual(set(cone_of(circuit, "e")), {"e", "a", "r", "p", "q"})
        self.assertEqual(set(cone_of(circuit, "b")), {"b", "p", "q"})

    def test_unknown_wire(self) -> None:
        """A name that is no wire's is said, and so are options that need --ways."""
        for words, told in ((["--ways", "--wires", "nobody"], "there is no wire `nobody`"),
                            (["--ways", "--cone", "none"], "there is no wire `none`"), (["--arrows"], "need --ways")):
            self.assert_ends(4, "draw", support.example("full_adder"), *words, err=told)

    def test_arrows(self) -> None:
        """An arrow is on each piece that is long enough, with its tip ahead of its arms."""
        (one, tip, other), = chevrons([((0, 0), (20, 20)), ((5, 0), (6, 1))], 2)
        self.assertEqual(tip, (12.5, 12.5))
        self.assertEqual((one, other), ((10.5, 12.5), (12.5, 10.5)))
        (one, tip, other), = chevrons([((20, 0), (0, 20))], 2)
        self.assertTrue(one[0] > tip[0] and other[1] < tip[1])
        with_arrows, without = (picture_of(read_layout_file(support.example("fredkin_gate")), None, None, None,
                                           PictureOptions(has_arrows=has)) for has in (True, False))
        self.assertGreater(with_arrows.count('class="way'), without.count('class="way'))
