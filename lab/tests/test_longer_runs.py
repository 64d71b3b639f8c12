"""How much earlier the balls of a standard cell can start, and for how long they fly on after the end, as docs/CELLS.md
says.
"""

import itertools
import unittest

import support
from bbmlab_core.host.program import ask_program
from bbmlab_core.physics.longer_runs import free_steps_before_and_after
from bbmlab_core.texts.circuits import values_and_undefined_gate
from bbmlab_core.texts.documents import read_document
from bbmlab_core.texts.layouts import Cell
from bbmlab_core.physics.standard_cells import StandardCell, cell_names, layout_and_circuit, longer_runs_text, read_cell

# The cells in which not every longer run is good: the most steps by which all balls can start earlier, and for which
# they fly on.
LIMITS = {"uninteract": (1, None), "unswitch": (3, None), "fredkin_inverse": (5, None), "cswap_inverse": (5, None),
          "fredkin": (None, 7),
          "cswap": (None, 7), "or": (None, 7), "xor": (8, 0), "half_adder": (8, 0), "full_adder": (0, 0)}
# How much is tried of a cell without a limit.
MANY = 31


def flown(cell: Cell, time: int, steps: int) -> Cell:
    """Returns where a ball of one cell is some steps later."""
    dx, dy = (1 if (value + time) % 2 == 0 else -1 for value in cell)
    return cell[0] + steps * dx, cell[1] + steps * dy


def longer_layout(cell: StandardCell, before: int, after: int) -> str:
    """Returns a layout in which the cell's balls start `before` steps earlier and fly on for `after` steps.

    It is moved by numbers that are odd if `before` is, so that all blocks stay.
    """
    layout, _ = layout_and_circuit(cell.document)
    room = before + after + (after % 2) + 2
    lines = [f"layout {(layout.width + 2 * room + 1) // 2 * 2} {(layout.height + 2 * room + 1) // 2 * 2} "
             f"{layout.steps + before + after}"]
    for part in layout.parts:
        x, y = part.cell
        if part.kind == "mirror":
            lines.append(f"mirror {x + room} {y + room} {part.width} {part.height}")
            continue
        x, y = flown((x, y), 0, -before) if part.kind in ("ball", "in") else flown((x, y), layout.steps, after)
        lines.append(" ".join([part.kind, *([part.name] if part.name else []), str(x + room), str(y + room)]))
    return "\n".join([*lines, "end", ""])


def is_good(program: str, cell: StandardCell, before: int, after: int) -> bool:
    """Returns whether a program's run of the longer layout ends as it asks, under all inputs."""
    text = longer_layout(cell, before, after)
    _, circuit = layout_and_circuit(cell.document)
    layout = read_document(text, "layout").layout
    if layout is None:
        return False
    mirrors, wastes = set(layout.mirror_cells()), {part.cell for part in layout.of_kind("waste")}
    for bits in itertools.product((False, True), repeat=len(circuit.inputs)):
        on = {wire for wire, bit in zip(circuit.inputs, bits) if bit}
        assign = "\n".join(["assign", *(f"on {name}" for name in sorted(on)), "end", ""])
        answer = ask_program(program, "run", (text + assign).encode())
        live = {(int(x), int(y)) for x,
                y in (line.split() for line in answer.output.splitlines()[1:])} if answer.status == 0 else set()
        values, _ = values_and_undefined_gate(circuit, on)
        outs = {part.cell for part in layout.of_kind("out") if values[part.name or ""]}
        if live - wastes != mirrors | outs:
            return False
    return True


class LongerRuns(unittest.TestCase):
    """The two figures of each cell."""

    def test_figures(self) -> None:
        """The lab finds the limits above, and no other."""
        for name in cell_names():
            layout, circuit = layout_and_circuit(read_cell(name).document)
            with self.subTest(name):
                self.assertEqual(free_steps_before_and_after(circuit, layout), LIMITS.get(name, (None, None)))

    def test_the_program_agrees(self) -> None:
        """The program runs each cell well up to its limits, and not one step beyond."""
        program = support.program()
        for name in cell_names():
            cell = read_cell(name)
            for place, limit in enumerate(LIMITS.get(name, (None, None))):
                steps = MANY if limit is None else limit
                with self.subTest(name, place=place):
                    self.assertTrue(is_good(program, cell, *((steps, 0) if place == 0 else (0, steps))))
                    if limit is not None:
                        self.assertFalse(is_good(program, cell, *((steps + 1, 0) if place == 0 else (0, steps + 1))))

    def test_a_mirror_on_the_way(self) -> None:
        """A mirror on an input's track, or on an output's, is noticed."""
        text = read_cell("turn_left").document.text
        for mirror, wanted in (("mirror 1 0 2 2", (0, None)), ("mirror 19 4 2 2", (None, 0))):
            document = read_document(text.replace("\nmirror ", f"\n{mirror}\nmirror ", 1))
            self.assertIsNone(document.refusal)
            layout, circuit = layout_and_circuit(document)
            with self.subTest(mirror):
                self.assertEqual(free_steps_before_and_after(circuit, layout), wanted)

    def test_words(self) -> None:
        """The list says both figures."""
        said = {}
        for name in ("switch", "uninteract", "or", "full_adder"):
            layout, circuit = layout_and_circuit(read_cell(name).document)
            said[name] = longer_runs_text(circuit, layout)
        self.assertEqual(said, {
            "switch": "balls can start any number of steps further back, and fly on after the end",
            "uninteract": "balls can start at most 1 step further back, and fly on after the end",
            "or": "balls can start any number of steps further back, and fly on for 7 steps after the end",
            "full_adder": "balls cannot start further back, and are disturbed in the first step after the end"})
