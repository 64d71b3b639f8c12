"""Cells that are joined by hand, by the steps of docs/GUIDE.md ("Join two cells by hand"), and two waves through a cell
(docs/FAQ.md).
"""

import tempfile
import unittest
from dataclasses import dataclass
from pathlib import Path
from typing import Callable, NamedTuple

import support
from bbmlab_core.host.program import ask_program
from bbmlab_core.physics.simulation import WholeRun, cell_of, key_of, required_end_tables
from bbmlab_core.texts.circuits import Circuit, evaluate_all
from bbmlab_core.texts.documents import read_document
from bbmlab_core.texts.layouts import Cell, Layout
from bbmlab_core.physics.standard_cells import CellPort, layout_and_circuit, read_cell

KINDS = ("mirror", "ball", "in", "out", "waste")
# Dead cells around a joined layout.
MARGIN = 4


class Line(NamedTuple):
    """A line of a layout: its kind, its name if it has one, its upper left cell, its width and its height."""

    kind: str
    name: str | None
    cell: Cell
    width: int = 1
    height: int = 1


@dataclass
class Joint:
    """Two cells, the output of the first that is the input of the second, and a ball of the first that a mirror turns
    some steps later."""

    first: str
    output: str
    second: str
    input: str
    aside: str | None = None
    steps: int = 8


JOINTS = [Joint("delay_10", "b", "collision", "p"), Joint("turn_left", "a", "switch", "x"),
          Joint("not", "z", "fredkin", "c", "y"),
          Joint("collision", "a", "and", "b", "b"), Joint("and", "y", "or", "a", "z")]


def flown(cell: Cell, time: int, steps: int) -> Cell:
    """Returns where a ball of one cell is some steps later."""
    dx, dy = (1 if (value + time) % 2 == 0 else -1 for value in cell)
    return cell[0] + steps * dx, cell[1] + steps * dy


def port_of(name: str, wire: str, roles: tuple[str, ...]) -> CellPort:
    """Returns a port of a cell."""
    return next(port for port in read_cell(name).ports if port.name == wire and port.role in roles)


def lines_of(layout: Layout) -> list[Line]:
    """Returns the lines of a layout."""
    return [Line(part.kind, part.name, part.cell, part.width, part.height) for part in layout.parts]


def turned(port: CellPort, steps: int, last: int) -> tuple[Line, list[Cell]]:
    """Returns an upright mirror that turns a ball some steps after it left, by the table of docs/PHYSICS.md, and its
    cells at the last time."""
    (x, y), time = (port.lead[0] + steps * port.dx, port.lead[1] + steps * port.dy), port.time + steps
    mirror = Line("mirror", None, (x + 1 if port.dx > 0 else x - 2, y - 2 if port.dy > 0 else y - 1), 2, 4)
    dx, dy, left = -port.dx, port.dy, last - time
    lead = x + port.dx + left * dx, y - 2 * port.dy + left * dy
    return mirror, [lead, (lead[0] - 2 * dx, lead[1] - 2 * dy)]


def gate_lines(circuit: Circuit, renamed: Callable[[str], str]) -> list[str]:
    """Returns the gate lines of a circuit, with other names of wires."""
    lines = []
    for gate in circuit.gates:
        parameter = [] if gate.parameter is None else [str(gate.parameter)]
        lines.append(" ".join([gate.kind, *parameter, *map(renamed, gate.ins), "->", *map(renamed, gate.outs)]))
    return lines


def joined_circuit(joint: Joint) -> str:
    """Returns the circuit: the gates of the first cell, then those of the second, whose other wires get the prefix
    `v_`."""
    first, second = (layout_and_circuit(read_cell(name).document)[1] for name in (joint.first, joint.second))

    def own(wire: str) -> str:
        """Returns the name that a wire of the second cell gets."""
        return joint.output if wire == joint.input else f"v_{wire}"

    lines = [f"input {wire}" for wire in first.inputs] + [f"input {own(wire)}" for wire in second.inputs
                                                          if wire != joint.input]
    lines += [*gate_lines(first, lambda wire: wire), *gate_lines(second, own)]
    lines += [f"output {wire}" for wire in first.outputs if wire
              != joint.output] + [f"output {own(wire)}" for wire in second.outputs]
    lines += [f"spill {wire}" for wire in first.spills] + [f"spill {own(wire)}" for wire in second.spills]
    return "\n".join(["circuit", *lines, "end", ""])


def joined(joint: Joint, k: int) -> str:
    """Returns the joined circuit and layout, in which the ball flies k steps from the first cell to the second."""
    first, second = (layout_and_circuit(read_cell(name).document)[0] for name in (joint.first, joint.second))
    leaves, comes = port_of(joint.first, joint.output, ("out",)), port_of(joint.second, joint.input, ("in",))
    right, down = leaves.lead[0] + k * leaves.dx - comes.lead[0], leaves.lead[1] + k * leaves.dy - comes.lead[1]
    later = leaves.time + k - comes.time
    last = max(second.steps + later, first.steps)
    lines: list[Line] = []
    ignored: set[Cell] = set()
    if joint.aside is not None:
        port = port_of(joint.first, joint.aside, ("out", "spill"))
        mirror, cells = turned(port, joint.steps, last)
        is_output = port.role == "out"
        lines = [mirror,
                 *(Line("out" if is_output else "waste", joint.aside if is_output else None, cell) for cell in cells)]
        ignored = {flown((port.lead[0] - back * port.dx, port.lead[1] - back * port.dy), port.time,
                         first.steps - port.time) for back in (0, 2)}
    for kind, name, cell, width, height in lines_of(first):
        if kind in ("out", "waste"):
            if name == joint.output or cell in ignored:
                continue
            cell = flown(cell, first.steps, last - first.steps)
        lines.append(Line(kind, name, cell, width, height))
    for kind, name, cell, width, height in lines_of(second):
        if kind == "in" and name == joint.input:
            continue
        if kind in ("ball", "in"):
            cell = flown(cell, 0, -later)
        elif kind in ("out", "waste"):
            cell = flown(cell, second.steps, last - later - second.steps)
        lines.append(Line(kind, name and f"v_{name}", (cell[0] + right, cell[1] + down), width, height))
    return joined_circuit(joint) + layout_text(lines, last)


def layout_text(lines: list[Line], steps: int) -> str:
    """Returns a layout with these lines, moved by even numbers so that all is inside."""
    columns, rows = [line.cell[0] for line in lines], [line.cell[1] for line in lines]
    dx, dy = (MARGIN - min(columns)) // 2 * 2 + 2, (MARGIN - min(rows)) // 2 * 2 + 2
    width = max(line.cell[0] + line.width for line in lines) + dx + MARGIN
    height = max(line.cell[1] + line.height for line in lines) + dy + MARGIN
    texts = [f"layout {width + width % 2} {height + height % 2} {steps}"]
    for kind, name, (x, y), w, h in sorted(lines, key=lambda line: KINDS.index(line.kind)):
        size = [str(w), str(h)] if kind == "mirror" else []
        texts.append(" ".join([kind, *([name] if name else []), str(x + dx), str(y + dy), *size]))
    return "\n".join([*texts, "end", ""])


def waves(name: str, distance: int) -> str:
    """Returns a circuit and a layout that let two waves of inputs through a cell: the second starts some steps further
    back."""
    layout, circuit = layout_and_circuit(read_cell(name).document)
    lines: list[Line] = []
    for kind, wire, cell, width, height in lines_of(layout):
        if kind == "mirror":
            lines.append(Line(kind, wire, cell, width, height))
            continue
        early, late = (cell, flown(cell, 0, -distance)) if kind in ("ball",
                                                                    "in") else (flown(cell, layout.steps, distance),
                                                                                cell)
        lines += [Line(kind, wire, early), Line(kind, wire and f"{wire}_2", late)]
    return doubled(circuit) + layout_text(lines, layout.steps + distance)


def doubled(circuit: Circuit) -> str:
    """Returns a circuit with each gate twice."""
    lines = [f"input {wire}{wave}" for wave in ("", "_2") for wire in circuit.inputs]
    lines += [*gate_lines(circuit, lambda wire: wire), *gate_lines(circuit, lambda wire: wire + "_2")]
    lines += [f"{kind} {wire}{wave}" for kind, wires in (("output", circuit.outputs), ("spill", circuit.spills))
              for wave in ("", "_2") for wire in wires]
    return "\n".join(["circuit", *lines, "end", ""])


def ends_well(text: str) -> bool:
    """Returns whether the lab's run of a layout ends as it asks, under all inputs."""
    document = read_document(text, "design")
    layout, circuit = document.layout, document.circuit
    if document.refusal or layout is None or circuit is None:
        return False
    values = evaluate_all(circuit)
    run = WholeRun(layout, values.tables, values.full)
    if not run.run_to(layout.steps):
        return False
    wanted = required_end_tables(layout, values.tables, values.full)
    cells = wanted.keys() | {cell_of(key) for key in run.field.live}
    return all(wanted.get(cell, 0) in (None, run.field.live.get(key_of(cell), 0)) for cell in cells)


def verdict(text: str) -> str:
    """Returns what the program says of a design with a certificate by `certify`."""
    with tempfile.TemporaryDirectory() as folder:
        path = Path(folder, "design.txt")
        path.write_text(text)
        bundle = support.lab("certify", "--program", support.program(), str(path)).stdout
    return ask_program(support.program(), "check", bundle.encode()).output


class Joining(unittest.TestCase):
    """Two cells, one after the other."""

    def test_joined_cells(self) -> None:
        """Cells that are joined by the steps of the guide get a yes."""
        support.program()
        for joint in JOINTS:
            with self.subTest(joint=f"{joint.first} into {joint.second}"):
                self.assertIn("\nverdict yes\n", verdict(joined(joint, 20)))

    def test_a_parallel_ball(self) -> None:
        """A ball that flies parallel to the joined one disturbs the second cell, however far it is, and an upright
        mirror helps."""
        for joint in JOINTS:
            if joint.aside is None:
                continue
            for k in (20, 40, 60, 80):
                with self.subTest(joint=f"{joint.first} into {joint.second}", k=k):
                    self.assertTrue(ends_well(joined(joint, k)))
                    self.assertFalse(ends_well(joined(Joint(joint.first, joint.output, joint.second, joint.input), k)))


class Waves(unittest.TestCase):
    """Two waves of inputs through one cell."""

    def test_two_waves(self) -> None:
        """Waves of some distance get a yes, and nearer ones disturb each other."""
        support.program()
        for name, good, bad in (("delay_10", 6, 2), ("switch", 20, 18)):
            with self.subTest(name):
                self.assertIn("\nverdict yes\n", verdict(waves(name, good)))
                self.assertFalse(ends_well(waves(name, bad)))


if __name__ == "__main__":
    unittest.main()
