"""The released machines of examples/machines: what they compute, by the lab's run under sampled inputs and by the
program.
"""

import lzma
import random
import subprocess
import sys
import unittest

import support
from bbmlab_core.physics.simulation import WholeRun, key_of
from bbmlab_core.texts.circuits import Circuit, values_and_undefined_gate
from bbmlab_core.texts.documents import Document, read_document
from bbmlab_core.texts.layouts import Layout

sys.path.insert(0, str(support.TOP / "bench"))
from random_circuits import ripple_adder  # noqa: E402

MACHINES = support.EXAMPLES / "machines"
# The most bytes of all bundles together.
MAX_BYTES = 1_000_000
SAMPLES = 64


OUTPUTS = {"adder_4": ["s0", "s1", "s2", "s3", "c4"], "adder_8": [f"s_{bit}" for bit in range(9)],
           "multiplier_4": [f"p_{bit}" for bit in range(8)]}


def outputs_of(name: str, on: set[str]) -> dict[str, bool]:
    """Returns the outputs of a machine by arithmetic with the numbers whose bits are inputs, the lowest first."""
    mark, width = ("", 4) if name == "adder_4" else ("_", int(name[-1]))
    a, b = (sum(1 << bit for bit in range(width) if f"{letter}{mark}{bit}" in on) for letter in "ab")
    result = a * b if name == "multiplier_4" else a + b + ("c0" in on)
    return {output: bool(result >> bit & 1) for bit, output in enumerate(OUTPUTS[name])}


class Machines(unittest.TestCase):
    """Each machine by arithmetic."""

    def text(self, name: str) -> str:
        """Returns the bundle of a machine."""
        return lzma.decompress((MACHINES / f"{name}.txt.xz").read_bytes()).decode("ascii")

    def read(self, name: str) -> tuple[Document, Circuit, Layout]:
        """Returns the circuit and the layout of a machine, without its certificate."""
        document = read_document(self.text(name).partition("certificate 2\n")[0], "design")
        self.assertIsNone(document.refusal)
        assert document.circuit and document.layout
        return document, document.circuit, document.layout

    def choices(self, circuit: Circuit, seed: int) -> list[set[str]]:
        """Returns choices of the inputs: none, all, and others at random."""
        chance = random.Random(seed)
        return [set(), set(circuit.inputs)] + [{name for name in circuit.inputs if chance.random() < 0.5}
                                               for _ in range(SAMPLES - 2)]

    def test_circuits_compute_their_arithmetic(self) -> None:
        """The circuit of each machine adds or multiplies."""
        for name in OUTPUTS:
            _, circuit, _ = self.read(name)
            for on in self.choices(circuit, random.randrange(10**6)):
                values, missing = values_and_undefined_gate(circuit, on)
                self.assertIsNone(missing)
                self.assertEqual({wire: values[wire] for wire in circuit.outputs}, outputs_of(name, on), (name, on))

    def test_balls_compute_their_arithmetic(self) -> None:
        """The balls of the layout end as the arithmetic says, in sampled choices of the inputs at once."""
        seed = random.randrange(10**6)
        for name in OUTPUTS:
            _, circuit, layout = self.read(name)
            choices = self.choices(circuit, seed)
            tables = {wire: sum(1 << column for column, on in enumerate(choices) if wire in on)
                      for wire in circuit.inputs}
            run = WholeRun(layout, tables, (1 << SAMPLES) - 1)
            self.assertTrue(run.run_to(layout.steps))
            for part in layout.of_kind("out"):
                wanted = sum(1 << column for column, on in enumerate(choices) if outputs_of(name, on)[part.name or ""])
                self.assertEqual(run.field.live.get(key_of(part.cell), 0), wanted, (name, part, seed))

    def test_circuits_are_those_of_the_sources(self) -> None:
        """The bundles have the circuits that the makers give to the router."""
        sources = {"adder_4": ripple_adder(4)}
        for name in ("adder_8", "multiplier_4"):
            sources[name] = support.lab("route", "--circuit-only", str(MACHINES / f"{name}.blif")).stdout
        for name, text in sources.items():
            self.assertTrue(self.text(name).removeprefix("limits 2\n").startswith(text), name)

    def test_size(self) -> None:
        """All bundles together are below a megabyte."""
        self.assertLess(sum(path.stat().st_size for path in MACHINES.glob("*.xz")), MAX_BYTES)
        self.assertEqual({path.name.partition(".")[0] for path in MACHINES.glob("*.xz")}, set(OUTPUTS))

    def test_program_says_yes(self) -> None:
        """Each machine gets a yes."""
        path = support.program_of_limits_2()
        for name in OUTPUTS:
            ended = subprocess.run([path, "check"], input=self.text(name).encode(), capture_output=True, check=False)
            self.assertEqual((ended.returncode, ended.stdout.decode().splitlines()[3]), (0, "verdict yes"), name)
