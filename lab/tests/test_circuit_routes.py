"""Circuits of examples/circuits, routed: the program says yes to each.

`bench/circuits` routes the large ones too, which takes minutes.
"""

import tempfile
from pathlib import Path

import support

CIRCUITS = support.EXAMPLES / "circuits"
# Each of these took less than ten seconds on a busy machine.
ROUTED = ["4mod5.real", "decoder_2.blif", "ham3.real", "majority_3.gates", "peres.real", "rd32.real", "reverse_3.real",
          "toffoli.real"]


class Routed(support.Case):
    """Netlists that become bundles with a yes."""

    def test_examples(self) -> None:
        """The bundle begins with the circuit of the netlist, a note says how the mapping was compared, and the verdict
        is yes."""
        program = support.program()
        for name in ROUTED:
            path = str(CIRCUITS / name)
            with self.subTest(name), tempfile.TemporaryDirectory() as room:
                bundle = Path(room) / "b.txt"
                done = self.assert_ends(0, "route", path, "-o", str(bundle), BBMCHECK=program)
                self.assertRegex(done.stderr, r"bbmlab: The circuit has the outputs of the netlist in all [0-9]+ "
                                 r"choices of the inputs\.")
                self.assertIn("verdict yes", done.stderr)
                self.assertTrue(bundle.read_text().startswith(support.lab("circuit", path).stdout))

    def test_machine(self) -> None:
        """A counter of four bits for one cycle, and for two cycles from 0."""
        program = support.program()
        for words in (["--cycles", "1"], ["--cycles", "2", "--state", "initial"]):
            self.assert_ends(0, "route", *words, str(CIRCUITS / "counter_4.blif"), BBMCHECK=program, err="verdict yes")
