"""The standard cells: their yes, what they compute, and what `bbmlab cells` says of their ports."""

import itertools
import subprocess
import sys

import support
from bbmlab_core.host.program import ask_program
from bbmlab_core.physics.simulation import layout_run
from bbmlab_core.texts.circuits import values_and_undefined_gate
from bbmlab_core.texts.layouts import Cell, Layout
from bbmlab_core.physics.standard_cells import CELLS_FOLDER, CELL_DESCRIPTIONS, cell_names, read_cell

# The Boolean function of a cell with constants and garbage: for each output its value at the inputs.
FUNCTIONS = {
    "not": {"z": lambda on: not on["a"]},
    "fan_out": {"d": lambda on: on["a"], "y": lambda on: on["a"]},
    "and": {"y": lambda on: on["a"] and on["b"]},
    "or": {"u": lambda on: on["a"] or on["b"]},
    "xor": {"sum": lambda on: on["a"] != on["b"]},
    "half_adder": {"sum": lambda on: sum(on.values()) % 2 == 1, "carry": lambda on: sum(on.values()) > 1},
    "full_adder": {"sum": lambda on: sum(on.values()) % 2 == 1, "carry": lambda on: sum(on.values()) > 1},
}


def states_of(layout: Layout, on: set[str]) -> list[set[Cell]]:
    """Returns the live cells at each time."""
    run = layout_run(layout, on)
    states = [run.field.live_cells_under()]
    while run.time < layout.steps:
        assert run.step(), "a ball left"
        states.append(run.field.live_cells_under())
    return states


class Cells(support.Case):
    """The files of lab/cells, what the cells compute, their ports, and `bbmlab cells`."""

    def test_each_gets_a_yes(self) -> None:
        """The program says yes to each cell, and each file is a cell of the list."""
        program = support.program()
        self.assertEqual({path.stem for path in CELLS_FOLDER.glob("*.txt")}, set(cell_names()))
        self.assertEqual(set(cell_names()), set(CELL_DESCRIPTIONS))
        for name in cell_names():
            with self.subTest(name):
                self.assertIn("\nverdict yes\n",
                              ask_program(program, "check", (CELLS_FOLDER / f"{name}.txt").read_bytes()).output)

    def test_another_gate_gets_a_no(self) -> None:
        """A Fredkin cell is no cell of `cswap`, and a switch with a mirror less is none."""
        program = support.program()
        fredkin, switch = ((CELLS_FOLDER / f"{name}.txt").read_text() for name in ("fredkin", "switch"))
        mirror = next(line for line in switch.splitlines() if line.startswith("mirror"))
        for text in (fredkin.replace("\nfredkin ", "\ncswap "), switch.replace(mirror + "\n", "")):
            self.assertIn("\nverdict no\n", ask_program(program, "check", text.encode()).output)

    def test_they_are_what_the_script_makes(self) -> None:
        """`make_cells --check` finds no difference."""
        ended = subprocess.run([sys.executable, str(support.LAB / "make_cells"), "--check"], capture_output=True,
                               text=True, check=False)
        self.assertEqual((ended.returncode, ended.stdout), (0, ""))

    def test_functions(self) -> None:
        """The circuit of a cell with constants and garbage has the values of its Boolean function."""
        for name, outputs in FUNCTIONS.items():
            circuit = read_cell(name).document.circuit
            for bits in itertools.product((False, True), repeat=len(circuit.inputs)):
                on = dict(zip(circuit.inputs, bits))
                values, undefined = values_and_undefined_gate(circuit, {wire for wire, value in on.items() if value})
                with self.subTest(name, on=on):
                    self.assertIsNone(undefined)
                    self.assertEqual({wire: values[wire] for wire in circuit.outputs},
                                     {wire: rule(on) for wire, rule in outputs.items()})

    def test_ports(self) -> None:
        """At a port's time its ball is there if and only if the wire is true, and it flies in the port's direction.

        An input flies so in the step before, and an output or garbage in the step after.
        """
        for name in cell_names():
            cell = read_cell(name)
            circuit, layout = cell.document.circuit, cell.document.layout
            for bits in itertools.product((False, True), repeat=len(circuit.inputs)):
                on = {wire for wire, bit in zip(circuit.inputs, bits) if bit}
                values, _ = values_and_undefined_gate(circuit, on)
                states = states_of(layout, on)
                for port in cell.ports:
                    step = 1 if port.role in ("out", "spill") else -1
                    (x, y), later = port.lead, states[port.time + step]
                    with self.subTest(name, on=on, port=port.name):
                        for back in (0, 2):
                            place = x - back * port.dx, y - back * port.dy
                            self.assertEqual(place in states[port.time], values[port.name])
                            if values[port.name]:
                                self.assertIn((place[0] + step * port.dx, place[1] + step * port.dy), later)

    def test_sizes(self) -> None:
        """Constants are balls of two cells, and each source 1 has one."""
        for name in cell_names():
            cell = read_cell(name)
            sources = [gate for gate in cell.document.circuit.gates if gate.kind == "source" and gate.parameter == 1]
            with self.subTest(name):
                self.assertEqual(cell.constants, len(sources))
                self.assertEqual(len(cell.document.layout.of_kind("ball")), 2 * len(sources))

    def test_list(self) -> None:
        """The list names each cell with its ports, and one cell is a part of the list."""
        listed, one = support.lab("cells"), support.lab("cells", "switch")
        self.assertEqual((listed.returncode, one.returncode), (0, 0))
        self.assertIn(one.stdout, listed.stdout + "\n")
        for name in cell_names():
            self.assertIn(f"\n{name} ", "\n" + listed.stdout)

    def test_forms(self) -> None:
        """`--bundle` writes the file, `--svg` a picture, and an unknown name is a wrong word."""
        self.assertEqual(support.lab("cells", "fredkin", "--bundle").stdout, (CELLS_FOLDER / "fredkin.txt").read_text())
        self.assertIn("<svg ", support.lab("cells", "turn_left", "--svg").stdout)
        self.assert_ends(2, "cells", "../cells/switch", err="there is no cell")
        self.assertEqual(support.lab("cells", "--svg").returncode, 2)
