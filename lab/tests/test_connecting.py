"""Connecting an output and an input of a layout: what is led gets a yes and computes the connected circuit, and what
cannot be led is said in words.
"""

import subprocess
import sys
import tempfile
import time
import unittest
from pathlib import Path
from unittest import mock

import support
from bbmlab_core.host.program import open_program
from bbmlab_core.host.terminal import LabError
from bbmlab_core.physics import standard_cells
from bbmlab_core.physics.simulation import layout_run
from bbmlab_core.studio import connecting, machines
from bbmlab_core.studio.connecting import ConnectedText, connect_ports
from bbmlab_core.studio.verdicts import VerdictFinder
from bbmlab_core.texts.documents import Document, read_document

RUN = "import sys; from bbmlab_core.studio.connecting import main; sys.exit(main())"
ORDER = ("mirror", "ball", "in", "out", "waste")


def cell_lines(x: int, y: int, rename: dict[str, str]) -> list[str]:
    """Returns the lines of a layout of the standard cell `not` at a place, with other wires."""
    found = []
    for part in standard_cells.layout_and_circuit(standard_cells.read_cell("not").document)[0].parts:
        size = f" {part.width} {part.height}" if part.kind == "mirror" else ""
        name = f" {rename[part.name]}" if part.name else ""
        found.append(f"{part.kind}{name} {part.x + x} {part.y + y}{size}")
    return found


def two_nots(width: int, height: int, first: tuple[int, int], second: tuple[int, int]) -> str:
    """Returns a layout with the cell `not` twice: from `a` to `z`, and from `b` to `q`."""
    lines = cell_lines(*first, {"a": "a", "z": "z"}) + cell_lines(*second, {"b": "b", "a": "b", "z": "q"})
    lines.sort(key=lambda line: ORDER.index(line.split(" ")[0]))
    circuit = ["circuit", "input a", "input b", "source 1 -> k", "source 1 -> l", "switch b l -> e x q",
               "switch a k -> d y z", "output z", "output q", "spill d", "spill y", "spill e", "spill x", "end"]
    return "\n".join([*circuit, f"layout {width} {height} 37", *lines, "end"]) + "\n"


def connected(text: str, output: str = "z", given: str = "b", seconds: float = 60) -> ConnectedText:
    """Returns the connection of two ports."""
    return connect_ports(text, (output, given), time.monotonic() + seconds, 1)


class Connecting(unittest.TestCase):
    """The texts that the lab makes, which balls belong to one machine, and the process that the studio runs."""

    def assert_is_buffer(self, text: str) -> Document:
        """Asserts that the program says yes to a text, and that two NOT gates in a row copy `a` to `q`."""
        verdict = VerdictFinder(text, open_program(support.program()), 60).verdict()
        self.assertEqual(verdict.verdict, "yes", verdict.words)
        document = read_document(text, "design")
        self.assertEqual((document.circuit.inputs, document.circuit.outputs), (("a",), ("q",)))
        for on in ([], ["a"]):
            run = layout_run(document.layout, on)
            self.assertTrue(run.run_to(document.layout.steps))
            outs = {part.cell for part in document.layout.of_kind("out")}
            self.assertEqual(outs <= run.field.live_cells_under(), bool(on))
        return document

    def test_two_gates_in_a_row(self) -> None:
        """An output feeds the input of a gate next to it, above it and below it; parts keep their mirrors."""
        for width, height, first, second in ((200, 160, (20, 60), (120, 70)), (44, 100, (0, 0), (0, 50)),
                                             (100, 44, (50, 0), (0, 0))):
            text = two_nots(width, height, first, second)
            with self.subTest(width=width, first=first):
                made = connected(text)
                document = self.assert_is_buffer(made.text())
                self.assertGreater(len(document.layout.of_kind("mirror")), text.count("mirror "))

    def test_room_in_the_layout(self) -> None:
        """A layout with much free room does not grow, and a full one does."""
        for text, is_grown in ((two_nots(320, 320, (100, 180), (180, 100)), False),
                               (two_nots(88, 44, (0, 0), (44, 0)), True)):
            layout = read_document(text, "design").layout
            made = connected(text)
            self.assertEqual((made.width, made.height) != (layout.width, layout.height), is_grown)

    def test_straight_ahead(self) -> None:
        """A ball that flies straight into the input needs no mirror on its way, and no spare steps."""
        text = two_nots(400, 400, (60, 200), (140, 102))
        run = machines.MachineRun(read_document(text, "design"))
        out = next(end.ball for end in run.ends if end.name == "z")
        goal = next(port.ball for port in run.starts if port.wire == "b")
        # `not` takes its input falling, and gives its output rising: it is reflected first.
        self.assertNotEqual((out.dx, out.dy), (goal.dx, goal.dy))
        flipped = connecting.PortConnection(read_document(text, "design"), "z", "b")
        flipped.goal = out.after_flight(40).shifted_by(0, 0, -out.time - 40)
        self.assertEqual(flipped.possible_delays()[0], out.time + 40)

    def test_gates_come_in_order(self) -> None:
        """The circuit lists a gate after those that it takes wires from, and the input's wire is the output's."""
        section = connecting.PortConnection(read_document(two_nots(200, 160, (20, 60), (120, 70)), "design"), "z",
                                            "b").circuit_section()
        self.assertLess(section.index("switch a k -> d y z"), section.index("switch z l -> e x q"))
        self.assertNotIn("input b", section)
        self.assertNotIn("output z", section)

    def test_why_not(self) -> None:
        """What cannot be connected is said: a loop, a name that is no port, one machine, single cells and no room."""
        text = two_nots(200, 160, (20, 60), (120, 70))
        head_on = ("circuit\ninput p\ninput q\noutput p\noutput q\nend\nlayout 40 40 12\nin p 10 10\nin p 8 8\n"
                   "in q 21 21\nin q 23 23\nout p 9 22\nout p 11 20\nout q 22 9\nout q 20 11\nend\n")
        single = ("circuit\ninput p\ninput q\noutput p\noutput q\nend\nlayout 40 40 8\nin p 2 2\nin q 30 2\n"
                  "out p 10 10\nout q 38 10\nend\n")
        for own, ports, words in ((text, ("z", "a"), "loop"), (text, ("q", "b"), "loop"),
                                  (text, ("e", "b"), "no output"),
                                  (head_on, ("p", "q"), "The times do not fit"), (single, ("p", "q"), "two cells"),
                                  ("circuit\nlayout 2 2\n", ("p", "q"), "cannot be read")):
            with self.subTest(ports=ports, words=words), self.assertRaises(LabError) as caught:
                connected(own, *ports)
            self.assertIn(words, str(caught.exception))
        with mock.patch.object(connecting, "MARGINS_BY_ATTEMPT", (0,)), self.assertRaises(LabError) as caught:
            connected(two_nots(88, 44, (0, 0), (44, 0)), seconds=2)
        self.assertIn("There is no room", str(caught.exception))

    def test_two_machines(self) -> None:
        """The balls of one gate are one machine, and those of another gate another one."""
        run = machines.MachineRun(read_document(two_nots(200, 160, (20, 60), (120, 70)), "design"))
        left = {run.machine_of_ball(number) for number, port in enumerate(run.starts) if port.ball.x < 90}
        right = {run.machine_of_ball(number) for number, port in enumerate(run.starts) if port.ball.x > 90}
        self.assertEqual((len(left), len(right), left & right), (1, 1, set()))

    def test_too_many_moves(self) -> None:
        """A run that takes too long is refused in words."""
        with mock.patch.object(machines, "MAX_RUN_MOVES", 100), self.assertRaises(LabError) as caught:
            machines.MachineRun(read_document(two_nots(200, 160, (20, 60), (120, 70)), "design"))
        self.assertIn("more than 100 moves", str(caught.exception))

    def run_with(self, text: str, program: str) -> tuple[int, str, bytes | None]:
        """Runs it, and returns its status, what it said, and the text that it wrote."""
        with tempfile.TemporaryDirectory() as room:
            source, target = Path(room, "text.txt"), Path(room, "made.txt")
            source.write_text(text)
            words = [sys.executable, "-c", RUN, str(source), str(target), "z", "b", "60", "1", program]
            ended = subprocess.run(words, capture_output=True, text=True, cwd=support.LAB, check=False)
            return ended.returncode, ended.stderr, target.read_bytes() if target.exists() else None

    def test_only_a_yes_is_written(self) -> None:
        """What the program says yes to is written; without its yes nothing is."""
        text = two_nots(200, 160, (20, 60), (120, 70))
        status, said, made = self.run_with(text, support.program())
        self.assertEqual(status, 0, said)
        self.assertIn("the program says yes", said)
        self.assertIn(b"switch z l -> e x q", made or b"")
        # A program that gives no verdict.
        status, said, made = self.run_with(text, "/bin/true")
        self.assertEqual((status, made), (1, None), said)
        self.assertIn("the verdict would be unknown", said)
