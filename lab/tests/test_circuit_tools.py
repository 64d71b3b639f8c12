"""`bbmlab circuit`, `table`, `stats` and `equal`, and the circuits of examples/circuits."""

import itertools
import random
import shutil
import subprocess
import unittest

import support
from bbmlab_core.circuits import circuit_forms, truth
from bbmlab_core.circuits.netlists import ReadingOptions, map_netlist
from bbmlab_core.texts.circuits import values_and_undefined_gate
from support import circuit_of
from test_reworking import random_text

CIRCUITS = support.EXAMPLES / "circuits"


def number(bits: list[int]) -> int:
    """Returns a number by its bits, from the lowest to the highest."""
    return sum(bit << at for at, bit in enumerate(bits))


class Forms(support.InRoom):
    """A circuit in BLIF and Verilog is the same circuit, and what the commands print."""

    def test_blif_is_read_back(self) -> None:
        """The BLIF of a random circuit, mapped back, has the same table."""
        chance = random.Random(82)
        for _ in range(20):
            circuit = circuit_of(random_text(chance, 4))
            if set(circuit.inputs) & set(circuit.outputs):
                continue
            back = circuit_of(map_netlist(circuit_forms.blif_text(circuit)).text)
            for bits in itertools.product((False, True), repeat=len(circuit.inputs)):
                mine, _ = values_and_undefined_gate(circuit, {name for name, bit in zip(circuit.inputs, bits) if bit})
                theirs, _ = values_and_undefined_gate(back, {name for name, bit in zip(back.inputs, bits) if bit})
                self.assertEqual([mine[name] for name in circuit.outputs], [theirs[name] for name in back.outputs])

    def test_yosys_and_abc_agree(self) -> None:
        """yosys reads the Verilog and the BLIF, and abc says that they are equivalent to the source."""
        if not shutil.which("yosys") or not (shutil.which("berkeley-abc") or shutil.which("yosys-abc")):
            self.skipTest("there is no yosys and abc (Debian: yosys berkeley-abc)")
        abc = shutil.which("berkeley-abc") or "yosys-abc"
        chance = random.Random(4)
        for number in range(40):
            circuit = circuit_of(random_text(chance, 6))
            if set(circuit.inputs) & set(circuit.outputs):
                continue
            (self.room / "a.blif").write_text(circuit_forms.blif_text(circuit))
            (self.room / "b.v").write_text(circuit_forms.verilog_text(circuit))
            subprocess.run(["yosys", "-q", "-p", "read_verilog b.v; synth -flatten -noabc; write_blif b.blif"],
                           cwd=self.room, check=True)
            said = subprocess.run([abc, "-c", "cec a.blif b.blif"], cwd=self.room, capture_output=True, text=True,
                                  check=False).stdout
            self.assertIn("Networks are equivalent", said, (number, said))

    def test_dot_has_each_wire(self) -> None:
        """The graph has an arrow for each wire, and is read by dot where it is there."""
        circuit = circuit_of(random_text(random.Random(3), 6))
        text = circuit_forms.dot_text(circuit)
        self.assertEqual(text.count(" -> "), len(circuit.wires))
        if shutil.which("dot"):
            subprocess.run(["dot", "-Tsvg"], input=text.encode(), check=True, stdout=subprocess.DEVNULL)

    def test_table_has_all_rows(self) -> None:
        """The rows of a half adder, and one row."""
        text = support.lab("table", support.example("half_adder")).stdout
        self.assertEqual(text, "a b | sum carry\n0 0 |   0     0\n0 1 |   1     0\n1 0 |   1     0\n1 1 |   0     1\n")
        self.assertEqual(support.lab("table", "--csv", "--on", "b", support.example("half_adder")).stdout,
                         "a,b,sum,carry\n0,1,1,0\n")
        failed = support.lab("table", "--on", "q", support.example("half_adder"))
        self.assertEqual((failed.returncode, failed.stderr), (2, "bbmlab: q is no input\n"))

    def test_rows_without_values_name_the_gate(self) -> None:
        """An inverse gate outside of its rows."""
        text = "circuit\ninput c\ninput y\ninput z\nunswitch c y z -> d x\noutput d\noutput x\nend\n"
        lines = support.lab("table", "-", text=text).stdout.splitlines()
        self.assertEqual(lines[3], "0 1 0 | gate 0 (unswitch) has no row")
        self.assertEqual(lines[7], "1 1 0 | 1 1")

    def test_stats(self) -> None:
        """The figures of a circuit and of a bundle were counted by hand."""
        figures = dict(line.rsplit(None, 1) for line in support.lab("stats",
                                                                    support.example("half_adder")).stdout.splitlines())
        self.assertEqual({key.strip(): value for key, value in figures.items()}, {
            "inputs": "2", "outputs": "2", "constants": "1", "garbage": "3", "gates": "3", "interact": "1",
            "switch": "1", "unswitch": "1",
            "depth": "3", "width": "6"})
        text = support.lab("stats", support.example("gate_and_mirror")).stdout
        for line in ("layout           16 by 12", "area             192", "area times steps 1152", "mirror cells     8",
                     "modules          2"):
            self.assertIn(line, text)

    def test_standard_input(self) -> None:
        """A netlist and a circuit on standard input are read once:

        `stats` read a netlist twice, and found nothing the second time.
        """
        text = "input a b\nand a b -> c\noutput c\n"
        for command in ("circuit", "table", "stats"):
            done = support.lab(command, "-", text=text)
            self.assertEqual((done.returncode, done.stderr), (
                0, "bbmlab: The circuit has the outputs of the netlist in all 4 choices of the inputs.\n"))
        self.assertIn("inputs", support.lab("stats", "-", text="circuit\ninput a\noutput a\nend\n").stdout)

    def test_equal(self) -> None:
        """Equal circuits, circuits that differ at one row, and other ports."""
        turned = support.text_of("half_adder").replace("output sum\noutput carry\n", "output carry\noutput sum\n")
        other = ("circuit\ninput a\ninput b\nsource 0 -> z\nfredkin a b z -> x carry y\noutput carry\noutput x\n"
                 "spill y\nend\n")
        wrong = "circuit\ninput a\ninput b\ndelay 1 a -> sum\ndelay 1 b -> carry\noutput sum\noutput carry\nend\n"
        for text, status, said in ((turned, 0, "equal in all 4 choices of the inputs\n"),
                                   (other, 1, "not equal: only one of them has the output sum\n"),
                                   (wrong, 1, "not equal: with b on, sum differs\n")):
            self.assert_ends(status, "equal", support.example("half_adder"), "-", text=text, stdout=said)

    def test_depth_and_width(self) -> None:
        """Figures of small circuits."""
        circuit = circuit_of("circuit\ninput a\nsource 1 -> k\nswitch a k -> b c d\ninteract b c -> e f g h\n"
                             + "".join(f"output {name}\n" for name in "efgh") + "spill d\nend\n")
        self.assertEqual((truth.circuit_depth(circuit), truth.peak_wire_count(circuit)), (2, 5))


class Examples(unittest.TestCase):
    """The circuits of examples/circuits compute what their first lines say."""

    def rows(self, name: str, cycles: int | None = None) -> list[tuple[list[int], list[int]]]:
        """Returns the inputs and the outputs of each row."""
        circuit = circuit_of(map_netlist((CIRCUITS / name).read_text(), reading=ReadingOptions(None, cycles)).text)
        found = []
        for bits in itertools.product((0, 1), repeat=len(circuit.inputs)):
            values, _ = values_and_undefined_gate(circuit, {name for name, bit in zip(circuit.inputs, bits) if bit})
            found.append((list(bits), [int(values[name]) for name in circuit.outputs]))
        return found

    def test_functions(self) -> None:
        """Counting, reversing, adding, and a majority."""
        for ins, outs in self.rows("rd32.real"):
            self.assertEqual(outs[0] + 2 * outs[1], sum(ins))
        for ins, outs in self.rows("reverse_3.real"):
            self.assertEqual(outs, [ins[0], *(ins[:0:-1] if ins[0] else ins[1:])])
        for (a0, a1, b0, b1), (s0, s1, carry) in self.rows("adder_2.qasm"):
            self.assertEqual(s0 + 2 * s1 + 4 * carry, a0 + 2 * a1 + b0 + 2 * b1)
        for ins, outs in self.rows("adder_4.qasm"):
            self.assertEqual(number(outs), number(ins[:4]) + number(ins[4:]))
        for name, least in (("majority_5.pla", 3), ("majority_3.gates", 2)):
            for ins, outs in self.rows(name):
                self.assertEqual(outs, [int(sum(ins) >= least)])
        for ins, outs in self.rows("parity_8.gates"):
            self.assertEqual(outs, [sum(ins) % 2])
        for (enable, a, b), outs in self.rows("decoder_2.blif"):
            self.assertEqual(outs, [int(enable and at == a + 2 * b) for at in range(4)])

    def test_reversible_functions(self) -> None:
        """The functions of Maslov's benchmarks, by their tables, and the gates of Peres and Toffoli."""
        tables = {"3_17.real": [7, 1, 4, 3, 0, 2, 6, 5], "ham3.real": [0, 7, 4, 3, 2, 5, 1, 6]}
        for name, table in tables.items():
            for ins, outs in self.rows(name):
                self.assertEqual(number(outs), table[number(ins)])
        for ins, outs in self.rows("hwb4.real"):
            # The word turns left: bit 0 becomes the bit whose place is the number of ones.
            turn = sum(ins) % 4
            self.assertEqual(outs, (ins[-turn:] + ins[:-turn]) if turn else ins)
        for ins, outs in self.rows("4mod5.real"):
            self.assertEqual(outs, [int(number(ins) % 5 == 0)])
        for (a, b, c), outs in self.rows("peres.real"):
            self.assertEqual(outs, [a, a ^ b, c ^ a & b])
        for (a, b, c), outs in self.rows("toffoli.real"):
            self.assertEqual(outs, [a, b, c ^ a & b])

    def test_tables(self) -> None:
        """The digits on seven segments, and the S-box of PRESENT with a key."""
        digits = [" _ | ||_|", "     |  |", " _  _||_ ", " _  _| _|", "   |_|  |", " _ |_  _|", " _ |_ |_|",
                  " _   |  |", " _ |_||_|", " _ |_| _|"]
        for ins, (a, b, c, d, e, f, g) in self.rows("seven_segments.pla"):
            digit = number(ins[::-1])
            signs = [" ", "_" if a else " ", " ", "|" if f else " ", "_" if g else " ", "|" if b else " ",
                     "|" if e else " ", "_" if d else " ", "|" if c else " "]
            self.assertEqual("".join(signs), digits[digit] if digit < 10 else " " * 9)
        for ins, outs in self.rows("sbox.blif"):
            self.assertEqual(number(outs[::-1]), int("C56B90AD3EF84712"[number(ins[3::-1]) ^ number(ins[:3:-1])], 16))

    def test_machines(self) -> None:
        """A counter and a shift register with feedback, for some cycles, from each state."""
        for cycles in (1, 4):
            for ins, outs in self.rows("counter_4.blif", cycles):
                counted = [(number(ins) + at) % 16 for at in range(cycles + 1)]
                self.assertEqual([number(outs[4 * at:4 * at + 4][::-1]) for at in range(cycles)]
                                 + [number(outs[4 * cycles:])], counted)
        for ins, outs in self.rows("lfsr_4.blif", 3):
            states = [ins]
            for _ in range(3):
                *_, c, d = states[-1]
                states.append([c ^ d, *states[-1][:3]])
            self.assertEqual([outs[4 * at:4 * at + 4][::-1] for at in range(3)] + [outs[12:]], states)
