"""The page's modules under node: the address, names of ports, trails, the waveform, outputs, and pictures as SVG."""

import random
import re
import unittest
import xml.etree.ElementTree as ET
from typing import Any

import support
from bbmlab_core.physics import tracing
from bbmlab_core.physics.simulation import block_of, cell_of, key_of
from bbmlab_core.pictures.label_places import NameToPlace, Rect, choose_name_places
from bbmlab_core.pictures.ways import block_moves
from bbmlab_core.texts.documents import Document
from bbmlab_core.view import viewing
from support import data_of

SVG = "{http://www.w3.org/2000/svg}"
LIMITS = {"steps": 30, "names": ["p", "q", "constructor"], "faults": 2}
FOLDERS = [viewing.TEMPLATE_FOLDER, viewing.TEMPLATE_FOLDER.parent / "studio"]


def node(jobs: list[list[Any]]) -> list[Any]:
    """Returns what the page's modules make of some jobs."""
    found: list[Any] = support.node("run_modules.js", jobs)
    return found


def example(name: str) -> Document:
    """Returns an example."""
    return support.read_document(support.text_of(name))


def many_outputs(count: int, wrong: list[int]) -> Document:
    """Returns a circuit and a layout of one step with wires that go from inputs to outputs, of which some have their
    output beside the ball."""
    lines = ["limits 2", "circuit", *(f"input w{index}" for index in range(count)),
             *(f"output w{index}" for index in range(count)), "end", f"layout {4 * count + 4} 8 1"]
    lines += [f"in w{index} {4 * index + 2} 2" for index in range(count)]
    lines += [f"out w{index} {4 * index + 3} {4 if index in wrong else 3}" for index in range(count)]
    return support.read_document("\n".join([*lines, "end"]) + "\n")


class Address(unittest.TestCase):
    """The part of the address behind "#", and the names of ports on the page."""

    def test_what_is_written_is_read(self) -> None:
        """Each part comes back, and all of them together."""
        states = [{}, {"time": 7}, {"on": []}, {"on": ["p"]}, {"zoom": [2.5, 10, -3.25]}, {"fault": 2},
                  {"trails": False}, {"time": 30, "on": ["p", "q"], "zoom": [80, 0, 512], "fault": 1, "trails": False}]
        written = node([["addressFragment", state] for state in states])
        self.assertEqual(node([["read", f"#{text}", LIMITS] for text in written]), states)

    def test_a_hostile_address(self) -> None:
        """What is no time, input, zoom or line of the report is left out."""
        nothing = ["", "#", "#t=31", "#t=-1", "#t=1e1", "#t=NaN", "#t=0x1", "#t=1.5", "#t=Infinity", "#t= 1", "#t=%31",
                   "#t", "#=", "#t=1=2", "#T=1",
                   "#z=1,2", "#z=0,0,0", "#z=-1,0,0", "#z=81,0,0", "#z=1,NaN,0", "#z=1,1e300,0", "#z=,,", "#z=1,2,3,4",
                   "#z=1,99999,0",
                   "#fault=0", "#fault=3", "#fault=-1", "#fault=__proto__", "#trails=2", "#trails=true", "#__proto__=1",
                   "#constructor=1",
                   "#toString=1", "#<img src=x onerror=alert(1)>", "#%E0%A4%A", "#&&&===&&&", "#t=" + "9" * 60000,
                   "#t=1&" + "x" * 70000]
        self.assertEqual(node([["read", text, LIMITS] for text in nothing]), [{}] * len(nothing))
        some = {"#t=3&t=99": {}, "#on=r,<b>,__proto__,toString": {"on": []},
                "#on=constructor,p,p%00": {"on": ["constructor", "p"]},
                "#t=30&z=1,2&fault=2&javascript:alert(1)": {"time": 30, "fault": 2}}
        self.assertEqual(node([["read", text, LIMITS] for text in some]), list(some.values()))

    def test_same_places_as_in_pictures(self) -> None:
        """The page and `draw` place names by the same rules."""
        chooser, jobs, wanted = random.Random(7), [], []
        for _ in range(20):
            cells = [Rect(12 * chooser.randrange(20), 12 * chooser.randrange(20), 12, 12) for _ in range(40)]
            names = [NameToPlace(cell, chooser.randrange(10, 70), 8, chooser.random() < 0.5) for cell in cells[:20]]
            found = choose_name_places(names, cells[20:30], cells[30:])
            wanted.append([[place.box.x, place.box.y, place.lines_away] for place in found])
            jobs.append(["places",
                         [{"cell": vars(name.cell_rect), "width": name.width, "height": name.height,
                           "isAbove": name.is_above} for name in names],
                         [vars(cell) for cell in cells[20:30]], [vars(cell) for cell in cells[30:]]])
        for found, places in zip(node(jobs), wanted):
            for one, other in zip(found, places):
                self.assertEqual([round(part, 6) for part in one], [round(part, 6) for part in other])

    def test_no_name_covers_a_port(self) -> None:
        """At the end of `full_adder`, at three scales, each name of the page is off each port and each other name."""
        document = example("full_adder")
        for scale in (8, 14, 24):
            picture = node([["scene", data_of(document), ["a"], 8,
                             {"scale": scale, "left": 2, "top": 2, "pointed": None}]])[0]
            names = [(part.text, part_box(part)) for part in ET.fromstring(picture).iter(f"{SVG}text")
                     if "→" in (part.text or "")]
            self.assertEqual(sorted(text for text, _ in names),
                             ["→a", "→b", "→carry", "✓ carry_out→", "✓ carry_out→", "✓ sum→"])
            cells = [part.cell for part in document.layout.parts if part.kind in ("in", "out")]
            ports = [Rect((x - 2) * scale, (y - 2) * scale, scale, scale) for x, y in cells]
            self.assertEqual([text for text, box in names for port in ports if box.shared_area(port) > 1], [], scale)
            self.assertEqual([text for index, (text, box) in enumerate(names) for _,
                              other in names[:index] if box.shared_area(other) > 1], [], scale)


def part_box(part: ET.Element) -> Rect:
    """Returns the room of a text whose letters are 0.6 of their size wide."""
    size = float(re.search(r"([\d.]+)px", part.get("style", ""))[1])
    width = 0.6 * size * len(part.text or "")
    left = {"start": 0.0, "middle": width / 2, "end": width}[part.get("text-anchor", "start")]
    return Rect(float(part.get("x", "0")) - left, float(part.get("y", "0")) - 0.75 * size, width, 0.75 * size)


class Pictures(unittest.TestCase):
    """What is seen as SVG: also trails, the waveform and the outputs."""

    def test_rulers(self) -> None:
        """Numbers of columns and rows are at the middle of their cells, and the cell under the pointer has its numbers
        on plates."""
        place = {"scale": 20, "left": 5, "top": 3, "pointed": [11, 8]}
        root = ET.fromstring(node([["scene", data_of(example("full_adder")), [], 0, place]])[0])
        columns = {part.text: float(part.get("x")) for part in root.iter(f"{SVG}text") if (part.text or "").isdigit()
                   and float(part.get("y")) < 18}
        rows = {part.text: float(part.get("y")) for part in root.iter(f"{SVG}text") if (part.text or "").isdigit()
                and float(part.get("x")) < 32}
        self.assertGreaterEqual(len(columns), 10)
        self.assertGreaterEqual(len(rows), 10)
        for text, x in columns.items():
            self.assertEqual(x, (int(text) + 0.5 - 5) * 20)
        for text, y in rows.items():
            self.assertAlmostEqual(y, (int(text) + 0.5 - 3) * 20, delta=5)
        self.assertEqual(("11" in columns, "8" in rows), (True, True))
        plates = [part for part in root.iter(f"{SVG}path") if part.get("fill") == "var(--box)"]
        self.assertEqual(len(plates), 2)

    def test_is_svg(self) -> None:
        """The picture is XML with the balls and mirrors of the layout, and signs of XML in texts are texts."""
        picture = node([["scene", data_of(example("full_adder")), ["a", "b"], 3,
                         {"scale": 12, "left": 0, "top": 0, "pointed": None}]])[0]
        root = ET.fromstring(picture)
        self.assertEqual(root.find(f"{SVG}title").text, 'a <title> & "more"')
        balls = [part for part in root.iter(f"{SVG}path") if part.get("fill") == "var(--ball)"]
        state = tracing.trace_layout(example("full_adder").layout, ["a", "b"], 3, 3).states[0]
        mirrors = example("full_adder").layout.mirror_cells()
        # A disc is two half circles.
        self.assertEqual(balls[0].get("d").count("a"), 2 * len(state - mirrors))
        found = [part for part in root.iter(f"{SVG}path") if part.get("fill") == "var(--mirror)"]
        rects = re.findall(r"M([\d.]+) ([\d.]+)h([\d.]+)v([\d.]+)h-", found[0].get("d"))
        wanted = [[12 * part.x, 12 * part.y, 12 * part.width + 0.5, 12 * part.height + 0.5]
                  for part in example("full_adder").layout.of_kind("mirror")]
        self.assertEqual((len(found), sorted([float(part) for part in rect] for rect in rects)), (1, sorted(wanted)))

    def test_trails(self) -> None:
        """Trails are the moves of the last steps, as the lab's pictures have them, also through collisions and off
        mirrors."""
        jobs, wanted = [], []
        for name in ("full_adder", "head_on", "gate_and_mirror", "off_a_mirror", "machine_fredkin"):
            document = example(name)
            layout, on = document.layout, tracing.input_names(document.layout)
            states = tracing.trace_layout(layout, on, 0, layout.steps).states
            time = min(len(states) - 1, 30)
            moves = []
            for at in range(time - 1, max(-1, time - 13), -1):
                before = {key_of(cell): 1 for cell in states[at]}
                corners = {block_of(key, at % 2) for key in before}
                found = [(cell_of(start), cell_of(end)) for corner in corners for start, end,
                         _ in block_moves(before, corner)]
                # What stays is no move: `block_moves` is asked of changed blocks only, and so names moves of mirrors
                # too.
                changed = states[at] ^ states[at + 1]
                moves.append(sorted([list(start), list(end)] for start,
                                    end in found if start in changed and end in changed))
            wanted.append(moves)
            jobs.append(["trail", data_of(document), on, time, 12])
        for job, found, moves in zip(jobs, node(jobs), wanted):
            pairs = [sorted([step[index], step[index + 1]] for index in range(0, len(step), 2)) for step in found]
            self.assertEqual(pairs, moves, job[1]["layout"]["steps"])
        self.assertGreater(sum(len(step) for moves in wanted for step in moves), 100)

    def test_waveform(self) -> None:
        """The waveform has each port and stop, and each cell is live when the lab's trace says so."""
        for name in ("full_adder", "timed_modules", "machine_switch", "wrong_stop"):
            document = example(name)
            on = document.circuit.inputs[:1]
            found, states = node([["waves", data_of(document), on]])[0], tracing.trace_layout(document.layout, on, 0,
                                                                                              10 ** 6).states
            marks = [(wave["wire"], tuple(wave["cell"]), *mark) for wave in found for mark in wave["marks"]]
            ports = [(part.name, part.cell, 0 if part.kind == "in" else document.layout.steps, part.kind)
                     for part in document.layout.parts if part.kind in ("in", "out")]
            stops = [(stop.name, (stop.x, stop.y), stop.time, "stop") for module in document.certificate.modules
                     for stop in module.stops]
            self.assertEqual(sorted(marks), sorted({*ports, *stops}), name)
            for wave in found:
                self.assertEqual(wave["live"], [tuple(wave["cell"]) in state for state in states], (name, wave["wire"]))
                spans = [any(start <= time < end for start, end in wave["spans"]) for time in range(len(states))]
                self.assertEqual(wave["live"], spans)

    def test_wrong_outputs_come_first(self) -> None:
        """The outputs that differ come before those that don't, each in the order of the layout."""
        document = many_outputs(48, [5, 17, 40])
        found = node([["results", data_of(document), document.circuit.inputs]])[0]
        self.assertEqual(found[:4], [["w5", False], ["w17", False], ["w40", False], ["w0", True]])
        self.assertEqual(len(found), 48)


class Large(unittest.TestCase):
    """What makes pages of large layouts quick, and what the modules of a certificate say."""

    def test_what_differs_from_the_mirrors(self) -> None:
        """A run knows it after steps, jumps and steps back, in layouts whose mirrors fall apart too."""
        layouts = [(example(name), []) for name in ("fredkin_gate", "head_on")] + [
            (support.read_document("layout 20 20 200\nmirror 6 6 1 1\nmirror 10 4 3 2\nball 4 2\nball 12 12\nend\n"),
             []),
            (support.read_document("layout 24 24 300\nmirror 2 1 2 2\nmirror 12 9 2 2\nball 4 2\nend\n"), [])]
        for document, on in layouts:
            times = [3, 4, 2, document.layout.steps, 1, document.layout.steps // 2, 0, 130, 64, 65]
            found = node([["cellsUnlikeMirrors", data_of(document), on, times]])[0]
            self.assertEqual([known for known, _ in found], [wanted for _, wanted in found])
            self.assertTrue(any(wanted for _, wanted in found) or not document.layout.of_kind("ball"))

    def test_filed_by_squares(self) -> None:
        """Each rectangle and each piece is found in each range that has one of its cells."""
        chance = random.Random(random.randrange(10**6))
        boxes = [[chance.randrange(1000), chance.randrange(1000), chance.randrange(1, 300), chance.randrange(1, 300)]
                 for _ in range(12)]
        pieces = []
        for _ in range(12):
            x, y, far, dx, dy = chance.randrange(400, 600), chance.randrange(400,
                                                                             600), chance.randrange(400), chance.choice(
                                                                                 (-1, 1)), chance.choice((-1, 1))
            pieces.append([x, y, x + dx * far, y + dy * far])
        cells = [[(x, y), (x + w - 1, y + h - 1)] for x, y, w, h in boxes]
        cells += [[(x + (u > x) * k - (u < x) * k, y + (v > y) * k - (v < y) * k) for k in range(0, abs(u - x) + 1, 37)]
                  + [(u, v)] for x, y, u, v in pieces]
        jobs = [(number, cell) for number, found in enumerate(cells) for cell in found]
        for (number, cell), found in zip(jobs, node([["filed", boxes, pieces, [*cell, *cell]] for _, cell in jobs])):
            self.assertIn(number, found, (cell, boxes, pieces))
        self.assertEqual(node([["filed", boxes, pieces, [3000, 3000, 3100, 3100]]])[0], [])

    def test_wire_at_a_place(self) -> None:
        """The nearest way is found with its wire, its gates and the time; far from all ways there is none."""
        circuit = {"inputs": ["p", "q"], "outputs": ["c"],
                   "gates": [{"gate": "switch", "parameter": None, "ins": ["p", "q"], "outs": ["c", "y", "z"]}]}
        ways = {"sampled": "",
                "wires": [{"name": "p", "equal": ["c"], "level": 0,
                           "pieces": [10, 10, 200, 200, 5, 200, 200, 190, 210, 195]},
                          {"name": "y", "equal": [], "level": 1, "pieces": [10, 200, 200, 10, 0]}]}
        near, crossing, far = node([["wireAt", ways, circuit, [50.4, 49.8], 2], ["wireAt", ways, circuit, [12, 198], 2],
                                    ["wireAt", ways, circuit, [60, 30], 2]])
        self.assertEqual(near, ["p, c: an input, made by switch 0, goes to switch 0, an output, level 0; flies from "
                                "time 5 to 205", [45], [10, 10, 191, 201], 0])
        self.assertEqual(crossing,
                         ["y: made by switch 0, level 1; flies from time 0 to 190", [2], [10, 10, 191, 191], 1])
        self.assertIsNone(far)

    def test_squares_add_their_part_of_each_pixel(self) -> None:
        """Many squares are drawn into pixels: each pixel is as opaque as the part of it that they cover, in their
        colour. What is outside is left out."""
        place = {"width": 5, "height": 3, "left": 0.5, "top": 0.5, "scale": 1}
        rows = node([["squares", place, [1, 1, 5, 2, -3, 0], {"side": 1}],
                     ["squares", place | {"width": 4}, [1, 1], {"side": 1.5, "isWhole": True}]])
        parts = [[[int(word[:2], 16) for word in row] for row in found] for found in rows]
        self.assertEqual(parts, [[[64, 64, 0, 0, 0], [64, 64, 0, 0, 64], [0, 0, 0, 0, 64]],
                                 [[255, 128, 0, 0], [128, 64, 0, 0], [0, 0, 0, 0]]])
        self.assertEqual({word[2:] for row in rows[0] for word in row}, {"563412"})

    def test_names_of_many_ports(self) -> None:
        """A layout of more ports than are placed at once shows the names of all that are seen, where they are however
        the picture is moved, and each once."""
        data, scale = data_of(many_outputs(300, [])), 24
        shown = []
        for left in (500, 510):
            root = ET.fromstring(node([["scene", data, [], 0, {"scale": scale, "left": left, "top": 0,
                                                               "pointed": None}]])[0])
            shown.append({part.text: float(part.get("x")) + left * scale for part in root.iter(f"{SVG}text")
                          if "→" in (part.text or "")})
            names = [f"→w{index}" for index in range(300) if left <= 4 * index + 2 < left + 900 / scale - 1]
            self.assertEqual([name for name in names if name not in shown[-1]], [])
        both = shown[0].keys() & shown[1].keys()
        self.assertGreater(len(both), 10)
        for name in both:
            self.assertAlmostEqual(shown[0][name], shown[1][name], delta=0.1)

    def test_tiles_take_their_time(self) -> None:
        """A first frame makes what there is time for, and shows the coarsest tile where the others are missing; later
        frames make each once."""
        place = {"scale": 1.0, "left": 0, "top": 0, "wide": 1200, "high": 900}
        found = node([["tiles", {"width": 4096, "height": 4096}, place, 5]])[0]
        self.assertEqual((found["level"], found["wanted"]), (0, 6))
        self.assertFalse(found["isFirst"])
        self.assertEqual(found["firstCopies"], 6)
        self.assertLess(found["first"], 7)
        self.assertEqual(found["drawn"], 7)
        quick = node([["tiles", {"width": 4096, "height": 4096}, place, 0]])[0]
        self.assertEqual((quick["isFirst"], quick["drawn"], quick["frames"]), (True, 7, 1))

    def test_lines_of_a_time(self) -> None:
        """At each time the lines are those of the certificate; those of borders are filed at the first odd time."""
        for name in ("four_modules", "timed_modules", "machine_full_adder"):
            document = example(name)
            steps, modules = document.layout.steps, document.certificate.modules
            times = [*range(0, steps + 1, 2), *range(1, steps + 1, 2)]
            found = node([["linesAt", data_of(document), times]])[0]
            for time, (lines, is_filed) in zip(times, found):
                wanted = [["stop", module.number, *stop.cell, stop.name] for module in modules for stop in module.stops
                          if stop.time == time]
                wanted += [["edge", module.number, *line.cell, line.signal] for module in modules
                           for line in module.edges
                           if line.time == time or line.time is None and time % 2 and time < steps]
                self.assertEqual(sorted(line for line in lines if line[0] != "halo"), sorted(wanted), (name, time))
                self.assertEqual(is_filed, time % 2 == 1)

    def test_modules_of_cells(self) -> None:
        """The module of a cell is found among those near it."""
        boxes = [(x, y, 16, 16) for y in range(0, 320, 16) for x in range(0, 320, 16)] + [(320, 0, 200, 320)]
        cells = [(0, 0), (15, 15), (16, 0), (127, 128), (319, 319), (320, 0), (519, 319), (520, 0)]
        found = node([["modulesAt", [{"box": box} for box in boxes], cells]])[0]
        self.assertEqual(found, [[number for number, (u, v, w, h) in enumerate(boxes)
                                  if u <= x < u + w and v <= y < v + h] for x, y in cells])


class Sources(unittest.TestCase):
    """The sources of the page and of the studio."""

    def test_functions_are_short(self) -> None:
        """No function has 40 lines."""
        for folder in FOLDERS:
            count, long = support.long_functions(folder)
            self.assertEqual((count > 100, long), (True, []))

    def test_no_html_from_texts(self) -> None:
        """No script makes HTML or code from a text."""
        for path in (path for folder in FOLDERS for path in folder.glob("*.js")):
            self.assertIsNone(re.search(r"innerHTML|outerHTML|insertAdjacentHTML|document\.write|\beval\(|new "
                                        r"Function|DOMParser|srcdoc|setAttribute\(\"on", path.read_text()), path)
