"""The studio's editing model and its runs, under node without a browser."""

import itertools
import json
import random
import re
import unittest
from pathlib import Path
from typing import Any

import support
from bbmlab_core.physics.mirrors import is_stable, unstable_mirrors
from bbmlab_core.physics.simulation import layout_run
from bbmlab_core.studio import answers, server
from bbmlab_core.texts import json_form
from bbmlab_core.texts.circuits import values_and_undefined_gate
from bbmlab_core.texts.layouts import Box, Layout, LayoutPart
from bbmlab_core.texts.spelling import spell_text
from support import text_of as example

STUDIO = Path(server.__file__).resolve().parent
COMMENTED = """# A gate by hand.
circuit  # begins
 input p
output p
end

layout 8 8 3   # small
# the start
  mirror 1 4 2 2\t# stays
in p 2 2
out p 5 5
end
"""


def node(*jobs: list[Any]) -> list[Any]:
    """Returns what the studio's modules make of some jobs."""
    found: list[Any] = support.node("run_studio.js", jobs)
    return found


def texts() -> list[str]:
    """Returns the examples, the standard cells and the texts of the worked cases."""
    files = [*sorted(support.EXAMPLES.glob("*.txt")), *sorted((support.LAB / "cells").glob("*.txt"))]
    worked = [case.input.decode("latin-1") for case in support.worked_cases() if len(case.input) < 400_000]
    return [path.read_text(encoding="latin-1") for path in files] + worked


def cells(*names: str) -> list[dict[str, Any]]:
    """Returns standard cells as the page has them."""
    return [cell for cell in answers.cell_catalogue() if cell["name"] in names]


def part(kind: str, *box: int, name: str | None = None) -> dict[str, Any]:
    """Returns a part as a tool makes it."""
    return {"kind": kind, "name": name, "box": [*box, 1, 1][:4], "line": -1}


def random_layout(chooser: random.Random, margin: int = 6, most: int = 16) -> Layout:
    """Returns a layout of random mirrors, most of which fall apart, and of balls of one cell, for less than `most`
    steps."""
    free, parts = {(x, y) for x in range(20) for y in range(20)}, []
    for _ in range(chooser.randrange(6)):
        box = (chooser.randrange(2, 14), chooser.randrange(2, 14), chooser.randrange(1, 5), chooser.randrange(1, 5))
        cells = set(LayoutPart("mirror", None, *box).cells())
        if cells <= free:
            free -= cells
            parts.append(LayoutPart("mirror", None, *box))
    middle = range(margin, 20 - margin)
    chosen = chooser.sample(sorted((x, y) for x, y in free if x in middle and y in middle), chooser.randrange(1, 12))
    parts += [LayoutPart("ball", None, *cell) for cell in chosen[::2]]
    parts += [LayoutPart("in", "pq"[x % 2], x, y) for x, y in chosen[1::2]]
    return Layout(20, 20, chooser.randrange(1, most)).with_parts(parts)


def text_of(layout: Layout) -> str:
    """Returns the text of a layout with the inputs p and q."""
    return f"circuit\ninput p\ninput q\nend\n{layout}"


class Bytes(unittest.TestCase):
    """Text, model, text."""

    def test_same_bytes(self) -> None:
        """The model of each example, standard cell and worked text has the same bytes, also with comments, CR LF and no
        end."""
        found = texts()
        more = [COMMENTED, COMMENTED.replace("\n", "\r\n"), "", "\n", "layout", "layout 8 8", "no layout at all\n",
                example("not_gate").rstrip("\n"),
                "layout 8 8 3\nlayout 8 8 3\nend\nend\n", "\ufeff" + example("not_gate"),
                "layout 8 8 3\nmirror 1 2\nmirror 99999999999 1 2 2\n"]
        self.assertGreater(len(found), 200)
        self.assertEqual(node(["law", found + more])[0], [True] * (len(found) + len(more)))

    def test_undo_to_the_start(self) -> None:
        """500 random commands, undone to the start, give the first bytes, and done again the last ones."""
        starts, some = [example("machine_fredkin"), COMMENTED, example("full_adder"),
                        COMMENTED.replace("\n", "\r\n")], cells("turn_left", "collision")
        found = node(*[["random", text, some, seed + 1, 500, True] for seed, text in enumerate(starts)])
        for seed, (text, told) in enumerate(zip(starts, found)):
            self.assertEqual((told["done"], told["isFirst"], told["isLast"]), (500, True, True), seed)
            self.assertNotEqual(told["last"], text)

    def test_commands_make_layouts_that_are_read(self) -> None:
        """No command of a tool makes a layout of which the reader says that a cell is outside or taken, or a line
        wrong."""
        start = "circuit\nend\nlayout 48 48 40\nend\n"
        for seed, told in enumerate(node(*[["random", start, cells("not", "turn_left", "collision"), seed + 11, 150,
                                            False] for seed in range(4)])):
            for text in [*told["texts"], told["last"]]:
                refusal = support.read_document(text, "design").refusal
                # Ports may be missing, and wires unused, while one draws.
                self.assertIn(refusal.code if refusal else None, (None, 3, 5, 11), (seed, refusal))


class Commands(unittest.TestCase):
    """Commands, each by its worked result."""

    def test_comments_stay(self) -> None:
        """A part that is moved keeps its indentation and its comment, and a new one comes behind the last of its kind.
        """
        moved = node(["commands", COMMENTED,
                      [["move", [8], 1, 1], ["addParts", [part("mirror", 5, 2, 2, 2)]],
                       ["setSizeAndSteps", 10, 8, 3]]])[0]
        self.assertEqual(moved,
                         COMMENTED.replace("  mirror 1 4 2 2\t# stays\n", "  mirror 2 5 2 2\t# stays\nmirror 5 2 2 2\n")
                         .replace("layout 8 8 3 ", "layout 10 8 3 "))

    def test_lines_move(self) -> None:
        """Lines behind added ones move, lines that went away are left out, and a change is taken into account once."""
        head = "circuit\n# one\n# two" + example("not_gate").partition("\nlayout")[0].removeprefix("circuit")
        self.assertEqual(node(["moved", example("not_gate"), ["setCircuitText", head, "typing"], [0, 10, 12]])[0],
                         [[0, 12, 14], [0, 10, 12], [0, 12, 14]])
        self.assertEqual(node(["moved", example("not_gate"), ["removeParts", [11]], [10, 11, 12]])[0],
                         [[10, 11], [10, 12], [10, 11]])
        self.assertEqual(node(["moved", example("not_gate"), ["move", [10], 2, 0], [10, 12]])[0],
                         [[10, 12], [10, 12], [10, 12]])

    def test_order_of_kinds(self) -> None:
        """New parts of any order of kinds are read."""
        text = "circuit\nend\nlayout 12 12 3\nend\n"
        steps = [["addBallsOrPorts", [part("in", 4, 4, name="p")]], ["addBallsOrPorts", [part("ball", 7, 7)]],
                 ["addBallsOrPorts", [part("waste", 7, 4)]],
                 ["setCircuitText", "circuit\ninput p\nsource 1 -> one\ninteract p one -> a b c d\nspill a\nspill c\n"
                  "spill d\nend"],
                 ["addBallsOrPorts", [part("out", 4, 4, name="b")]], ["addBallsOrPorts", [part("waste", 4, 7)]]]
        made = node(["commands", text, steps])[0]
        self.assertEqual(made.split("end\n")[1], example("not_gate").split("end\n")[1])
        self.assertIsNone(support.read_document(made, "design").refusal)
        self.assertIn("\noutput b\nspill a\n", made)

    def test_enlarge(self) -> None:
        """Columns and rows at the sides move all parts by those at the left and above, and a side above the first
        limits gets the line for it."""
        text = "circuit\ninput p\noutput p\nend\nlayout 12 12 3 # here\nmirror 5 2 2 2\nin p 2 2\nout p 5 5\nend\n"
        made, large, odd, most = node(["commands", text, [["enlarge", 2, 4, 6, 8]]],
                                      ["commands", text, [["enlarge", 0, 0, 502, 0]]],
                                      ["commands", text, [["enlarge", 1, 0, 0, 0]]],
                                      ["commands", text, [["enlarge", 0, 0, 0, 4086]]])
        self.assertEqual(made,
                         text.replace("layout 12 12 3", "layout 20 24 3").replace("mirror 5 2",
                                                                                  "mirror 7 6").replace("in p 2 2",
                                                                                                        "in p 4 6")
                         .replace("out p 5 5", "out p 7 9"))
        self.assertEqual(large, "limits 2\n" + text.replace("layout 12 12 3", "layout 514 12 3"))
        self.assertIn("even numbers", odd)
        self.assertIn("at most 4096", most)

    def test_limits(self) -> None:
        """A layout has sides of 512 and 65,536 steps, and behind the line `limits 2` 4096 and 1,048,576; one more is
        refused with a sentence."""
        text = example("not_gate")
        for front, side, steps in (("", 512, 65_536), ("limits 2\n", 4096, 1_048_576),
                                   ("# large\n\n limits  02 # two\n", 4096, 1_048_576)):
            with self.subTest(front):
                made = node(["commands", front + text, [["setSizeAndSteps", side, side, steps]]])[0]
                self.assertIn(f"\nlayout {side} {side} {steps}\n", made)
                self.assertTrue(made.startswith(front))
                self.assertTrue(node(["parts", made])[0]["isWhole"])
                more = "" if front else " A larger layout needs `limits 2` as first line."
                told = node(*[["commands", front + text, [["setSizeAndSteps", *size]]]
                              for size in ((side + 2, 12, 3), (12, side + 2, 3), (12, 12, steps + 1))])
                self.assertEqual(told,
                                 [f"Width and height are even numbers from 2 to {side}.{more}"] * 2
                                 + [f"The steps are a number from 0 to {steps}.{more}"])
        self.assertEqual(node(["circuit", "limits 2\ncircuit\ninput a\noutput a\nend\n"])[0]["isWhole"], True)
        self.assertEqual(node(["circuit", "limits 3\ncircuit\ninput a\noutput a\nend\n"])[0]["isWhole"], False)

    def test_line_of_limits_stays_first(self) -> None:
        """A text of the line and a layout gets its circuit between the two."""
        made = node(["commands", "limits 2\nlayout 1024 12 0\nend\n",
                     [["addBallsOrPorts", [part("in", 900, 4, name="p")]],
                      ["addBallsOrPorts", [part("out", 900, 4, name="p")]]]])[0]
        self.assertEqual(made, "limits 2\ncircuit\ninput p\noutput p\nend\nlayout 1024 12 0\nin p 900 4\nout p 900 "
                         "4\nend\n")
        self.assertIsNone(support.read_document(made, "design").refusal)

    def test_reasons(self) -> None:
        """What cannot be done says why, and changes nothing."""
        text = example("not_gate")
        for command, reason in ((["addParts", [part("mirror", 7, 6, 2, 2)]],
                                 "Cell (7, 7) is taken by the ball at (7, 7)."),
                                (["addParts", [part("mirror", 11, 2, 2, 2)]],
                                 "mirror at (11, 2) is outside the layout of 12 by 12 cells."),
                                (["addParts", [part("out", 7, 4, name="b")]],
                                 "Cell (7, 4) is taken by the waste at (7, 4)."),
                                (["addParts", [part("ball", 2, 2), part("ball", 2, 2)]],
                                 "Two of the parts take cell (2, 2)."),
                                (["addParts", [part("in", 2, 2, name="1x")]], "`1x` is no name of a wire."),
                                (["setSizeAndSteps", 6, 6, 3],
                                 "ball at (7, 7) would be outside the layout of 6 by 6 cells."),
                                (["setSizeAndSteps", 13, 12, 3], "Width and height are even numbers from 2 to 512."),
                                (["move", [10], 20, 0], "ball at (27, 7) is outside the layout of 12 by 12 cells."),
                                (["insertStandardCell", {"layout": {}, "circuit": []}, 1, 0, False],
                                 "A cell is moved by even numbers of columns and rows.")):
            self.assertEqual(node(["commands", text, [command]])[0], reason)

    def test_a_text_without_a_layout(self) -> None:
        """Its size cannot be set."""
        self.assertEqual(node(["commands", "circuit\nend\n", [["setSizeAndSteps", 10, 10, 3]]])[0],
                         "The text has no line `layout W H STEPS`.")

    def test_freely_written_words(self) -> None:
        """Arrows without spaces and leading zeros are read as the lab reads them."""
        free = "circuit\nsource 1->k\noutput k\nend\nlayout 08 08 00\nmirror 3 04 2 2\nball 02 02\nout k 02 5\nend\n"
        layout = support.read_document(spell_text(free).text, "design").layout
        self.assertEqual(node(["parts", free])[0],
                         {"size": [layout.width, layout.height, layout.steps], "isWhole": True,
                          "parts": sorted([part.kind, part.x, part.y] for part in layout.parts)})

    def test_outputs_follow(self) -> None:
        """With four more steps the output and waste cells of the NOT gate are four cells on: the layout is still right.
        """
        text = node(["commands", example("not_gate"), [["setSizeAndSteps", 12, 12, 5, True]]])[0]
        self.assertIn("out b 2 2\n", text)
        self.assertEqual({line for line in text.split("\n") if line.startswith("waste")}, {"waste 9 2", "waste 2 9"})
        rows = node(["truth", text])[0]
        self.assertTrue(all(output["wanted"] == output["found"] for row in rows for output in row["outputs"]))

    def test_turned_machines_compute(self) -> None:
        """A machine that is rotated or reflected as a whole computes the same."""
        text = example("machine_fredkin")
        lines = [number for number, line in enumerate(text.split("\n"))
                 if line.split(" ")[0] in ("mirror", "ball", "in", "out", "waste")]
        for how in ("rotate", "flip-x", "flip-y"):
            turned = node(["commands", text, [["rotateOrFlip", lines, how]]])[0]
            self.assertNotEqual(turned, text)
            rows = node(["truth", turned])[0]
            self.assertTrue(all(output["wanted"] == output["found"] for row in rows for output in row["outputs"]), how)

    def test_standard_cells(self) -> None:
        """Each standard cell that is put into an empty layout computes its circuit there; two of one kind get wires of
        their own."""
        for cell in (cell for cell in answers.cell_catalogue() if cell["layout"]["width"] < 90):
            width, height, steps = (cell["layout"][side] for side in ("width", "height", "steps"))
            empty = f"circuit\nend\nlayout {width + 4} {height + 2} 0\nend\n"
            text = node(["commands", empty, [["insertStandardCell", cell, 2, 2, True]]])[0]
            document = support.read_document(text, "design")
            self.assertIsNone(document.refusal, cell["name"])
            self.assertEqual(document.layout.steps, steps)
            rows = node(["truth", text])[0]
            self.assertTrue(all(output["wanted"] == output["found"] for row in rows for output in row["outputs"]),
                            cell["name"])
        twice = node(["commands", "circuit\nend\nlayout 96 48 0\nend\n",
                      [["insertStandardCell", cells("not")[0], x, 0, True] for x in (0, 50)]])[0]
        self.assertIn("switch a_2 k_2 -> d_2 y_2 z_2", twice)
        self.assertEqual(len(node(["truth", twice])[0]), 4)


class Runs(unittest.TestCase):
    """The runs under all choices at once, and where mirrors stay."""

    def test_ends(self) -> None:
        """Under each choice of the inputs the last state is that of the lab's run."""
        for name in ("not_gate", "machine_fredkin", "full_adder", "machine_switch", "gate_and_mirror",
                     "head_on_bundle"):
            document, told = support.read_document(example(name)), node(["ends", example(name)])[0]
            self.assertEqual(len(told["states"]), 2 ** len(document.circuit.inputs))
            for state in told["states"]:
                run = layout_run(document.layout, state["on"])
                run.run_to(document.layout.steps)
                self.assertEqual({tuple(cell) for cell in state["live"]}, set(run.field.live_cells_under()),
                                 (name, state["on"]))

    def test_random_layouts(self) -> None:
        """So it is for random layouts of many balls, with mirrors that fall apart and balls that lie still, as long as
        no ball leaves."""
        # In the last ones a cell of a mirror that fell apart lies still for a step, and then moves on.
        seeds = [*range(200), 491, 680, 974, 1032, 1147, 1151, 1197]
        layouts, count = [random_layout(random.Random(seed)) for seed in seeds], 0
        for layout, told in zip(layouts, node(*[["ends", text_of(layout)] for layout in layouts])):
            for state in told["states"] if told["leftAt"] is None else []:
                run = layout_run(layout, state["on"])
                run.run_to(layout.steps)
                self.assertEqual({tuple(cell) for cell in state["live"]}, set(run.field.live_cells_under()),
                                 text_of(layout))
                count += 1
        self.assertGreater(count, 200)

    def test_marks(self) -> None:
        """Balls that meet, meet a mirror, break one or leave are marked."""
        self.assertEqual(node(["ends", example("not_gate")])[0]["marks"], ["meet"])
        self.assertEqual(node(["ends", example("machine_fredkin")])[0]["marks"], ["bounce", "meet"])
        leaving = node(["ends", "circuit\ninput p\noutput p\nend\nlayout 8 8 9\nin p 2 2\nout p 4 4\nend\n"])[0]
        self.assertEqual((leaving["marks"], leaving["leftAt"]), (["left"], 6))
        self.assertIn("broken", node(["ends", "circuit\ninput p\noutput p\nend\nlayout 8 8 3\nmirror 4 4 1 1\nin p 2 "
                                      "2\nout p 5 5\nend\n"])[0]["marks"])

    def test_truth_tables(self) -> None:
        """The table has what the circuit wants and what the lab's run finds.

        Its rows count as in textbooks: the first input changes last.
        """
        for name in ("full_adder", "wrong_end", "plain_no", "machine_half_adder"):
            document, rows = support.read_document(example(name)), node(["truth", example(name)])[0]
            inputs = document.circuit.inputs
            self.assertEqual([row["inputs"] for row in rows],
                             [list(values) for values in itertools.product((False, True), repeat=len(inputs))])
            for number, row in enumerate(rows):
                on = {wire for wire, value in zip(inputs, row["inputs"]) if value}
                run, values = layout_run(document.layout, on), values_and_undefined_gate(document.circuit, on)[0]
                run.run_to(document.layout.steps)
                for output in row["outputs"]:
                    states = {port.cell in run.field.live_cells_under() for port in document.layout.of_kind("out")
                              if port.name == output["name"]}
                    found = states.pop() if len(states) == 1 else None
                    self.assertEqual((output["wanted"], output["found"]), (values[output["name"]], found),
                                     (name, number))

    def test_a_ball_that_leaves_ends_the_run(self) -> None:
        """Nothing is found at the end of a run that ends early, whatever a run without the ball would give."""
        text = ("circuit\ninput p\nsource 1 -> k\noutput k\noutput p\nend\nlayout 8 8 6\nmirror 3 4 2 2\nin p 0 6\nout "
                "k 4 5\nout p 7 7\nend\n")
        found = [[output["found"] for output in row["outputs"]] for row in node(["truth", text])[0]]
        self.assertEqual((found[0], found[1]), ([True, False], [None, None]))

    def test_circuits(self) -> None:
        """The page reads each circuit that the lab reads, and knows that a wrong one is wrong."""
        for path in sorted(support.EXAMPLES.glob("*.txt")):
            document = support.read_document(path.read_text(encoding="latin-1"))
            if document.circuit and not document.refusal:
                wanted = json.loads(json.dumps(json_form.circuit_members(document.circuit)))
                told = node(["circuit",
                             path.read_text(encoding="latin-1").split("\nlayout ")[0].split("\nassign")[0]])[0]
                self.assertEqual((told.pop("isWhole"), told), (True, wanted), path.name)
        for wrong in ("", "circuit\ninput p\ninput p\nend", "circuit\noutput q\nend", "circuit\nswitch a b -> c d\nend",
                      "circuit\nconstructor\nend", "input p"):
            self.assertIs(node(["circuit", wrong])[0]["isWhole"], False, wrong)

    def test_falling_mirrors(self) -> None:
        """The mirrors that fall apart are those of the lab, alone and touching others."""
        chooser = random.Random(3)
        layouts = [[[chooser.randrange(12), chooser.randrange(12), chooser.randrange(1, 5), chooser.randrange(1, 5)]
                    for _ in range(count)]
                   for count in (1, 2, 3, 5) for _ in range(150)]
        wanted = [[[mirror.mirror.x, mirror.mirror.y, mirror.mirror.width, mirror.mirror.height] for mirror in
                   unstable_mirrors(Layout(20, 20, 3, tuple(Box(*box) for box in boxes)))]
                  for boxes in layouts]
        self.assertEqual(node(*[["unstable", boxes] for boxes in layouts]), wanted)
        self.assertGreater(sum(map(len, wanted)), 100)

    def test_snapped_mirrors_stay(self) -> None:
        """Each snapped mirror stays, lies in the layout, holds the cells that were dragged or is one cell away."""
        boxes = [[x, y, w, h] for x in range(0, 9) for y in range(0, 9) for w in range(1, 5) for h in range(1, 5)]
        for (x, y, w, h), box in zip(boxes, node(["snapped", boxes, 12, 12])[0]):
            self.assertTrue(is_stable(LayoutPart("mirror", None, *box)), box)
            self.assertTrue(box[0] >= 0 and box[1] >= 0 and box[0] + box[2] <= 12 and box[1] + box[3] <= 12)
            self.assertLessEqual(abs(box[0] - x) + abs(box[1] - y), 1)
            self.assertEqual((box[2], box[3]), (w + w % 2, h + h % 2))


class Sources(unittest.TestCase):
    """The sources of the studio."""

    def test_pictures_of_the_page(self) -> None:
        """The page names three pictures, and each is a PNG file."""
        names = re.findall(r"\]\((pictures/[a-z0-9_]+\.png)\)", (support.TOP / "docs" / "STUDIO.md").read_text())
        self.assertEqual(len(names), 3)
        for name in names:
            self.assertEqual((support.TOP / "docs" / name).read_bytes()[:8], b"\x89PNG\r\n\x1a\n", name)

    def test_drawn_texts_are_of_one_spelling(self) -> None:
        """What the tools make of a text of the one spelling is of that spelling too."""
        for told in node(*[["random", example("machine_fredkin"), cells("not", "turn_left"), seed + 31, 100, False]
                           for seed in range(3)]):
            for text in [*told["texts"], told["last"]]:
                self.assertEqual(spell_text(text).text, text)

    def test_the_page_has_no_script_of_its_own(self) -> None:
        """The page has no script of its own."""
        page = (STUDIO / "studio.html").read_text()
        self.assertIsNone(re.search(r"<script(?! type=.module. src=)|<style|<[^>]* (?:style|on\w+)=", page))
