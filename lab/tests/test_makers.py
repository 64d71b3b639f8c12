"""What the lab writes: certificates, spellings, JSON, pattern files and pictures."""

import hashlib
import random
import re
import shutil
import subprocess
import tempfile
import unittest
import xml.etree.ElementTree as ET
from collections import Counter
from pathlib import Path
from unittest import mock

import support
from bbmlab_core.certify.certifier import (CertificateMaker, ImpossibleModuleError, CertificateOptions, certified_text,
                                           checked_grid_boxes)
from bbmlab_core.host.terminal import LabError
from bbmlab_core.physics.simulation import layout_run
from bbmlab_core.pictures import golly
from bbmlab_core.pictures.drawing import cell_centre, module_elements
from bbmlab_core.texts import json_form
from bbmlab_core.texts.certificates import Module
from bbmlab_core.texts.layouts import Box
from bbmlab_core.texts.reports import parse_report
from bbmlab_core.texts.spelling import spell_text

# Examples, and grids by which they have a certificate.
GRIDS = [("fredkin_gate", (14, 14)), ("full_adder", (26, 34)), ("timed_modules", (4, 4)), ("gate_and_mirror", (8, 12)),
         ("not_gate", (6, 6)),
         ("delay_line", (4, 4)), ("there_and_back", (2, 2)), ("meeting", (4, 4)), ("head_on_bundle", (4, 4))]


def design(name: str) -> support.Document:
    """Returns the circuit and the layout of an example."""
    return support.read_document(support.text_of(name).split("certificate ")[0], "design")


class Certificates(support.InRoom):
    """`certify`."""

    def test_the_program_says_yes(self) -> None:
        """What is made of examples gets a yes, in both versions and with both ways to cut."""
        for name, grid in GRIDS:
            for version in (1, 2):
                for cuts in ("safe", "auto"):
                    text = by_grid(name, grid, CertificateOptions(version, cuts))
                    with self.subTest(f"{name} {grid} {version} {cuts}"):
                        self.assertIn("verdict yes", support.checked(text))

    def test_plain_has_one_module(self) -> None:
        """`--plain` makes one module without edge lines, and it gets a yes."""
        ended = support.lab("certify", "--plain", support.example("fredkin_gate"))
        self.assertEqual((ended.stdout.count("module "), ended.stdout.count("edge ")), (1, 0))
        self.assertIn("verdict yes", support.checked(ended.stdout))

    def test_says_why_there_is_none(self) -> None:
        """Where a cell has the value of no wire, that is said with time and cell: here c without x goes to (8, 10)."""
        with self.assertRaisesRegex(LabError, r"at time 1 the cell \(8, 10\) is live with `c` on, and no wire of the "
                                    r"circuit is true in just"):
            by_grid("fredkin_gate", (10, 10), CertificateOptions())

    def test_no_box_is_tried_twice(self) -> None:
        """If no certificate is found no box was tried twice, though both orders of cuts lead to it."""
        right, tried = CertificateMaker.module_for_box, Counter[Box]()
        for name, cell in (("machine_full_adder", (40, 40)), ("machine_half_adder", (30, 20))):
            def module(self: CertificateMaker, box: Box, cell: tuple[int, int] = cell) -> Module:
                """Makes no module of the boxes with a cell."""
                tried[box] += 1
                if box.has(cell):
                    raise ImpossibleModuleError("not here")
                return right(self, box)

            with (self.subTest(name), mock.patch.object(CertificateMaker, "module_for_box", module),
                  self.assertRaisesRegex(LabError, "no certificate was found: not here")):
                tried.clear()
                certified_text(design(name), None, CertificateOptions())
            self.assertGreater(len(tried), 20)
            self.assertEqual(max(tried.values()), 1)

    def test_wires_with_equal_values(self) -> None:
        """If no certificate is found, wires that have the values of an earlier one are counted: here b and c are true
        if and only if a is."""
        text = "circuit\ninput a\nsource 1 -> k\nswitch a k -> b c d\noutput b\noutput c\noutput d\nend\n"
        routed = support.lab("route", "-", "--program", support.program(), text=text).stdout
        document = support.read_document(routed.split("certificate ")[0], "design")
        with mock.patch.object(CertificateMaker, "module_for_box", side_effect=ImpossibleModuleError("not here")):
            with self.assertRaisesRegex(LabError, "not here. 2 of 5 wires have the values of an earlier one in all 2 "
                                        "choices of the inputs, as `b` has those of `a`"):
                certified_text(document, None, CertificateOptions())
            with self.assertRaisesRegex(LabError, "not here$"):
                certified_text(support.read_document("circuit\ninput a\noutput a\nend\nlayout 8 8 0\nin a 4 4\nout a 4 "
                                                     "4\nend\n", "design"), None, CertificateOptions())

    def test_own_boxes_avoid_cells_without_a_wire(self) -> None:
        """Without a grid the lab finds boxes by itself, though a grid of 10 by 10 cells has no certificate."""
        for name, _ in GRIDS:
            for version in (1, 2):
                text = certified_text(design(name), None, CertificateOptions(version))
                with self.subTest(f"{name} {version}"):
                    self.assertIn("verdict yes", support.checked(text))

    def test_many_inputs(self) -> None:
        """With 360 inputs no assignment can be tried by itself; the certificate gets a yes, and its stops and its boxes
        can be kept."""
        text = (support.TOP / "conformance" / "data" / "trains_36_cut_v1.txt").read_text()
        file, boxes = self.room / "trains.txt", self.room / "boxes.txt"
        file.write_text(text.split("certificate ")[0])
        ended = support.lab("certify", str(file), BBMCHECK=support.program())
        self.assertIn("the program says yes", ended.stderr)
        boxes.write_text("".join(f"module {x} {y} 32 32\n" for y in range(0, 512, 32) for x in range(0, 512, 32)))
        ended = support.lab("certify", "--boxes", str(boxes), str(file), BBMCHECK=support.program())
        self.assertEqual((ended.returncode, ended.stdout.count("\nmodule ")), (0, 256))

    def test_auto_uses_fewer_gates(self) -> None:
        """Cuts at wires that come in use fewer gates somewhere than safe cuts."""
        safe, auto = (by_grid("gate_and_mirror", (8, 12), CertificateOptions(2, cuts)) for cuts in ("safe", "auto"))
        self.assertLess(auto.count("\nuse "), safe.count("\nuse "))

    def test_own_stops_are_kept(self) -> None:
        """The stops of the old certificate are those of the new one."""
        text = support.text_of("timed_modules")
        ended = support.lab("certify", support.example("timed_modules"), BBMCHECK=support.program())
        stops = [sorted(line for line in one.splitlines() if line.startswith("stop ")) for one in (text, ended.stdout)]
        self.assertEqual(stops[0], stops[1])

    def test_status_without_a_verdict(self) -> None:
        """Without a yes of the program the status is not 0, even if the program ends with status 0.

        The bundle is written all the same.
        """
        for program, message in (("/no/such/program", "was not checked"), (shutil.which("true"), "gave no verdict")):
            if program is None:
                self.skipTest("there is no command `true`")
            ended = support.lab("certify", "--program", program, support.example("not_gate"))
            with self.subTest(program):
                self.assertEqual(ended.returncode, 4)
                self.assertIn(message, ended.stderr)
                self.assertNotIn("says yes", ended.stderr)
                self.assertIn("\ncertificate 2\n", ended.stdout)


def by_grid(name: str, grid: tuple[int, int], plan: CertificateOptions) -> str:
    """Returns an example with a certificate whose boxes are those of a grid."""
    document = design(name)
    assert document.layout is not None
    return certified_text(document, checked_grid_boxes(document.layout, *grid), plan)


class Spelling(unittest.TestCase):
    """`fmt`."""

    def test_good_texts_stay(self) -> None:
        """A text that the program takes stays as it is."""
        for case in support.worked_cases():
            if case.status in (0, 1) and len(case.input) < 20000:
                with self.subTest(case.name):
                    self.assertEqual(spell_text(support.decode_latin1(case.input)).text,
                                     support.decode_latin1(case.input))

    def test_free_texts_come_back(self) -> None:
        """A text with comments, odd spaces, other line ends and shuffled lists of modules comes back."""
        chooser = random.Random(7)
        for name in ("gate_and_mirror", "four_modules", "timed_modules", "full_adder"):
            text = support.text_of(name)
            with self.subTest(name):
                self.assertEqual(spell_text(roughened(text, chooser)).text, text)

    def test_a_refused_text_is_mended(self) -> None:
        """`fmt` on a Windows text is what the program takes."""
        text = "\ufeff" + support.text_of("head_on").replace("\n", "\r\n")
        ended = support.lab("fmt", "-", text=text.encode())
        self.assertEqual(ended.stdout, support.text_of("head_on"))


def roughened(text: str, chooser: random.Random) -> str:
    """Returns a text with comments and odd spaces, and with the edge, halo and stop lines of each module shuffled."""
    lines, run = [], []
    for line in [*text.splitlines(), ""]:
        if line.startswith(("edge ", "halo ", "stop ")):
            run.append(line)
            continue
        chooser.shuffle(run)
        lines += [*run, line]
        run = []
    rough = [f"  {line.replace(' ', chooser.choice([' ', '  ', chr(9)]))} # note {index}" for index,
             line in enumerate(lines) if line]
    return "\xef\xbb\xbf# first\r\n\r\n" + "\r\n".join(rough) + "\r\n\r\n"


class Json(unittest.TestCase):
    """`json` and back, and pattern files."""

    def test_back_to_the_same_text(self) -> None:
        """Each text that is taken comes back from JSON to the byte."""
        for case in support.worked_cases():
            if case.status in (0, 1) and len(case.input) < 20000:
                document = support.document_of(case)
                with self.subTest(case.name):
                    self.assertEqual(json_form.text_from_json(json_form.document_json_text(document, None)),
                                     document.text)

    def test_report_is_in_it(self) -> None:
        """The report is in the document with its verdict and its lines."""
        report = parse_report("bbmcheck 1\ncertificate " + "0" * 64 + "\nmodules 1\nverdict no\nlocal 0 end 3 2 2 2\n")
        text = json_form.document_json_text(support.read_document(support.text_of("wrong_border")), report)
        self.assertIn('"verdict": "no"', text)
        self.assertIn('"assignment": 2', text)

    def test_there_and_back(self) -> None:
        """A layout comes back from its pattern file, and so do its live cells."""
        for name in ("head_on", "off_a_mirror", "full_adder"):
            document = support.read_document(support.text_of(name))
            lines = document.text[document.text.index("layout "):].split("\nend\n")[0].split("\n") + ["end"]
            live = layout_run(document.layout, ["p"]).field.live_cells_under()
            text = golly.golly_text(document.layout, live, ["p"], lines)
            with self.subTest(name):
                self.assertEqual(golly.layout_text_from_golly(text), "\n".join(lines) + "\n")
                self.assertEqual(golly.live_cells(golly.read_golly_states(text)[0]), live)

    def test_same_states_as_golly(self) -> None:
        """Golly's run of a pattern file has our live cells at each of some times."""
        if shutil.which("bgolly") is None:
            self.skipTest("Golly is not installed (apt-get install golly)")
        for name, on in (("head_on", ["p", "q"]), ("off_a_mirror", ["a"]), ("fredkin_gate", ["c", "x"]),
                         ("full_adder", ["a", "b"])):
            document = support.read_document(support.text_of(name))
            for time in range(0, document.layout.steps + 1, max(1, document.layout.steps // 5)):
                run = layout_run(document.layout, on)
                run.run_to(time)
                with self.subTest(f"{name} at {time}"):
                    self.assertEqual(golly_run(document, on, time), run.field.live_cells_under())

    def test_free_patterns_keep_their_phase(self) -> None:
        """Live cells without comments become balls whose blocks are even ones."""
        section = golly.layout_text_from_golly("x = 2, y = 2, rule = BBM-Margolus-emulated\nCB$2B!\n")
        self.assertEqual(section, "layout 6 6 0\nball 2 2\nend\n")


def golly_run(document: support.Document, on: list[str], time: int) -> set:
    """Returns the live cells that Golly has at a time."""
    start = layout_run(document.layout, on).field.live_cells_under()
    with tempfile.TemporaryDirectory() as room:
        before, after = Path(room) / "before.rle", Path(room) / "after.rle"
        before.write_text(golly.golly_text(document.layout, start, on, []))
        if time == 0:
            after = before
        else:
            subprocess.run(["bgolly", "-q", "-q", "-a", "RuleLoader", "-s", "/usr/share/golly/Rules/", "-m", str(time),
                            "-o", str(after), str(before)], check=True, capture_output=True)
        # bgolly does not write where the pattern lies; its dead margin stays as it was.
        place = f"#CXRLE Pos={-golly.DEAD_MARGIN_CELLS},{-golly.DEAD_MARGIN_CELLS}\n"
        return golly.live_cells(golly.read_golly_states(place + after.read_text())[0])


class Pictures(unittest.TestCase):
    """`draw`."""

    def test_pictures_are_svg(self) -> None:
        """A picture has the mirrors, ports and balls of the layout."""
        ended = support.lab("draw", support.example("gate_and_mirror"), "--on", "p,q", "--time", "2")
        root = ET.fromstring(ended.stdout)
        classes = [part.get("class") for part in root.iter() if part.get("class")]
        self.assertEqual((classes.count("mirror"), classes.count("in"), classes.count("out"), classes.count("ball")),
                         (1, 2, 4, 2))

    def test_equal_wires_share_a_way(self) -> None:
        """The legend names the wires that are always equal: in a switch the output d is c.

        A ball of two cells has its name once.
        """
        ended = support.lab("draw", "--ways", support.example("machine_switch"))
        # The legend comes last.
        names = [part.text for part in list(ET.fromstring(ended.stdout))[-1].iter() if part.tag.endswith("text")]
        self.assertEqual(names, ["c, d", "x", "y", "z", "no wire"])
        self.assertEqual([ended.stdout.count(f">{name}<") for name in ("→c", "→x", "d→", "y→", "z→")], [1] * 5)
        # The tail of c, and the head of d, which flies left and up.
        names = {part.text: (float(part.get("x")), float(part.get("y"))) for part in ET.fromstring(ended.stdout).iter()
                 if part.get("class") == "name"}
        layout = support.read_document(support.text_of("machine_switch")).layout
        for mark, kind, best in (("→c", "in", min), ("d→", "out", min)):
            cells = [part.cell for part in layout.of_kind(kind) if part.name == mark.strip("→")]
            self.assertEqual(names[mark][0], cell_centre(best(cells))[0])

    def test_large_layouts_have_large_letters(self) -> None:
        """Letters grow with the layout, and many modules have no numbers."""
        small, large = (support.lab("draw", "--ways", support.example(name)).stdout
                        for name in ("machine_fredkin", "machine_full_adder"))
        self.assertNotIn("g.plan text{font-size", small)
        size = float(re.search(r"g\.plan text\{font-size:([\d.]+)px", large)[1])
        self.assertAlmostEqual(size, 7 * 144 / 64, delta=0.1)
        modules = [Module(Box(2 * number, 0, 2, 2), number=number) for number in range(65)]
        self.assertIn("text", "".join(module_elements(modules[:64])))
        self.assertNotIn("text", "".join(module_elements(modules)))

    def test_faults_are_marked(self) -> None:
        """The cells of a report's faults are marked. A report of another certificate is refused."""
        file = support.example("wrong_border")
        section = b"certificate" + Path(file).read_bytes().split(b"\ncertificate", 1)[1]
        for digest, status, count in [(hashlib.sha256(section).hexdigest(), 0, 2), ("0" * 64, 4, 0)]:
            with self.subTest(digest), tempfile.NamedTemporaryFile("w", suffix=".report") as report:
                report.write(f"bbmcheck 1\ncertificate {digest}\nmodules 4\nverdict no\nlocal 0 end 3 2 2 2\nborder 0 "
                             "1 4 4\n")
                report.flush()
                ended = support.lab("draw", file, "--report", report.name)
                self.assertEqual((ended.returncode, ended.stdout.count('class="fault"')), (status, count))

    def test_ring_and_halo(self) -> None:
        """The ring of a box of four by two cells has all of them, and its halo has sixteen."""
        self.assertEqual((len(Box(2, 2, 4, 2).ring()), len(Box(2, 2, 4, 2).halo())), (8, 16))
