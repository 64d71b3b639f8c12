"""RevLib's .real, OpenQASM, PLA and AIGER, mapped to circuits.

The expected values come from simulators of their own in this file.
"""

import itertools
import random
import unittest

import support
from bbmlab_core.circuits.netlists import NetlistError, NetlistFormat, guessed_netlist_format, map_netlist, read_netlist
from bbmlab_core.texts.circuits import values_and_undefined_gate

# A gate of the simulators: controls with their values, and one target, or two that change places.
Gate = tuple[list[tuple[int, bool]], list[int]]


def run_gates(gates: list[Gate], bits: list[bool]) -> list[bool]:
    """Returns the bits of the lines after gates."""
    bits = list(bits)
    for controls, targets in gates:
        if all(bits[line] == value for line, value in controls):
            if len(targets) == 1:
                bits[targets[0]] = not bits[targets[0]]
            else:
                one, other = targets
                bits[one], bits[other] = bits[other], bits[one]
    return bits


def random_gates(chance: random.Random, lines: int, count: int, may_flip: bool = True) -> list[Gate]:
    """Returns random gates on lines."""
    gates: list[Gate] = []
    for _ in range(count):
        places = chance.sample(range(lines), chance.randint(2, min(lines, 4)))
        targets = 1 if may_flip and chance.random() < 0.6 else 2
        if targets == 1 and chance.random() < 0.2:
            places = places[:1]
        elif not may_flip:
            places = places[:chance.choice((2, 3))]
        controls = [(line, chance.random() < 0.8 or not may_flip) for line in places[:-targets]]
        gates.append((controls, places[-targets:]))
    return gates


def real_text(chance: random.Random, lines: int, gates: list[Gate]) -> tuple[str, list[str], list[str]]:
    """Returns a .real text of gates, and its constants and garbage by lines."""
    constants = [chance.choice("---01") for _ in range(lines)]
    if "-" not in constants:
        constants[0] = "-"
    garbage = [chance.choice("--1") for _ in range(lines)]
    if "-" not in garbage:
        garbage[-1] = "-"
    names = [f"x{line}" for line in range(lines)]
    head = ["# a comment", ".version 2.0", f".numvars {lines}", f".variables {' '.join(names)}",
            f".constants {''.join(constants)}", f".garbage {''.join(garbage)}", ".begin"]
    rows = []
    for controls, targets in gates:
        words = [f"{'' if value else '-'}x{line}" for line, value in controls] + [f"x{line}" for line in targets]
        rows.append(f"{'t' if len(targets) == 1 else 'f'}{len(words)} {' '.join(words)}")
    return "\n".join([*head, *rows, ".end", ""]), constants, garbage


def qasm_text(chance: random.Random, lines: int, gates: list[Gate], version: int) -> str:
    """Returns an OpenQASM text of gates."""
    rows = ["OPENQASM 2.0;", 'include "qelib1.inc";',
            f"qreg q[{lines}];"] if version == 2 else ["OPENQASM 3;", f"qubit[{lines}] q; // lines"]
    rows.append("gate pair a, b { cx a, b; barrier a; cx a, b; }")
    for controls, targets in gates:
        names = [f"q[{line}]" for line, _ in controls] + [f"q[{line}]" for line in targets]
        if version == 3 and any(not value for _, value in controls):
            modifiers = "".join(f"{'' if value else 'neg'}ctrl @ " for _, value in controls)
            rows.append(f"{modifiers}{'x' if len(targets) == 1 else 'swap'} {', '.join(names)};")
            continue
        low = [f"q[{line}]" for line, value in controls if not value]
        rows += [f"x {name};" for name in low]
        if len(targets) == 2 and len(controls) > 1:
            # A swap under several controls is three gates.
            one, other = names[-2:]
            rows += [f"cx {other},{one};", f"mcx {','.join([*names[:-2], one, other])};", f"cx {other},{one};"]
        else:
            word = ["x", "cx", "ccx", "c3x"][len(controls)] if len(targets) == 1 else ["swap", "cswap"][len(controls)]
            rows.append(f"{word} {','.join(names)};")
        rows += [f"x {name};" for name in low]
        if chance.random() < 0.2:
            rows.append("pair q[0],q[1];")
    return "\n".join(rows) + "\n"


class Mapped(unittest.TestCase):
    """The table of a source is that of its circuit, and what is no netlist of bits gets a sentence."""

    def compare(self, text: str, inputs: list[int], kept: list[int], gates: list[Gate], starts: list[bool]) -> None:
        """Compares a text's circuit with its gates under all inputs."""
        with support.FEW_TRIES:
            circuit = support.circuit_of(map_netlist(text).text)
        for bits in itertools.product((False, True), repeat=len(inputs)):
            begun = list(starts)
            for line, bit in zip(inputs, bits):
                begun[line] = bit
            values, undefined = values_and_undefined_gate(circuit,
                                                          {name for name, bit in zip(circuit.inputs, bits) if bit})
            self.assertIsNone(undefined)
            ended = run_gates(gates, begun)
            self.assertEqual([values[name] for name in circuit.outputs], [ended[line] for line in kept], text)

    def compare_real(self, chance: random.Random, lines: int, gates: list[Gate]) -> str:
        """Writes gates as RevLib's file, with constants and garbage, compares its circuit, and returns the text."""
        text, constants, garbage = real_text(chance, lines, gates)
        inputs, kept = ([line for line, sign in enumerate(signs) if sign == "-"] for signs in (constants, garbage))
        self.compare(text, inputs, kept, gates, [sign == "1" for sign in constants])
        return text

    def test_real(self) -> None:
        """RevLib's files, with constants, garbage and negative controls."""
        chance = random.Random(2026)
        for _ in range(60):
            lines = chance.randint(2, 4)
            self.compare_real(chance, lines, random_gates(chance, lines, chance.randint(0, 6)))

    def test_qasm(self) -> None:
        """OpenQASM 2 and 3."""
        chance = random.Random(1130)
        for number in range(60):
            lines = chance.randint(2, 4)
            gates = random_gates(chance, lines, chance.randint(1, 6))
            text = qasm_text(chance, lines, gates, 2 + number % 2)
            self.compare(text, list(range(lines)), list(range(lines)), gates, [False] * lines)

    def test_exchanges_map_one_to_one(self) -> None:
        """A network of Fredkin gates has one gate `fredkin` for each, and nothing else but delays for names."""
        chance = random.Random(7)
        for _ in range(40):
            lines = chance.randint(3, 5)
            gates = random_gates(chance, lines, chance.randint(1, 8), may_flip=False)
            words = [gate.kind for gate in map_netlist(self.compare_real(chance, lines, gates)).circuit.gates]
            self.assertEqual(words.count("fredkin"), sum(len(controls) == 1 for controls, _ in gates))
            self.assertLessEqual(set(words), {"fredkin", "source", "delay"})

    def test_peres(self) -> None:
        """The gate of Peres and its inverse."""
        gates: list[Gate] = [([(0, True), (1, True)], [2]), ([(0, True)], [1])]
        for word, own in (("p", gates), ("pi", gates[::-1])):
            text = f".numvars 3\n.variables a b c\n.begin\n{word} a b c\n.end\n"
            self.compare(text, [0, 1, 2], [0, 1, 2], own, [False] * 3)

    def test_registers_and_measurements(self) -> None:
        """Whole registers, a reset at the start, a definition, and measured qubits alone as outputs."""
        text = """OPENQASM 2.0;
            include "qelib1.inc"; /* two
            lines */
            qreg a[2]; qreg b[2]; qreg z[1]; creg c[2];
            gate maj x,y,w { cx w,y; cx w,x; ccx x,y,w; }
            reset z[0];
            cx a,b;
            maj a[0],b[0],z[0];
            measure b -> c;"""
        gates: list[Gate] = [([(0, True)], [2]), ([(1, True)], [3]), ([(4, True)], [2]), ([(4, True)], [0]),
                             ([(0, True), (2, True)], [4])]
        self.compare(text, [0, 1, 2, 3], [2, 3], gates, [False] * 5)

    def values(self, text: str) -> list[tuple[int, ...]]:
        """Returns the outputs for all inputs, the first input changing last."""
        with support.FEW_TRIES:
            circuit = support.circuit_of(map_netlist(text).text)
        rows = [values_and_undefined_gate(circuit, on)[0] for on in support.choices(circuit.inputs)]
        return [tuple(int(row[name]) for name in circuit.outputs) for row in rows]

    def test_pla(self) -> None:
        """Two-level logic: the sum and the carry of three bits."""
        rows = [f"{a}{b}{c} {(a + b + c) % 2}{int(a + b + c > 1)}" for a, b, c in itertools.product((0, 1), repeat=3)]
        text = "\n".join([".i 3", ".o 2", ".ilb a b c", ".ob s co", ".p 8", *rows, ".e", ""])
        self.assertEqual(self.values(text),
                         [((a + b + c) % 2, int(a + b + c > 1)) for a, b, c in itertools.product((0, 1), repeat=3)])
        self.assertEqual(self.values(".i 2\n.o 1\n1- 1\n-1 1\n00 -\n"), [(0,), (1,), (1,), (1,)])

    def test_aiger(self) -> None:
        """A half adder in both forms, with symbols, an inverted output and a constant."""
        ascii_text = "aag 5 2 0 4 3\n2\n4\n10\n6\n7\n1\n6 2 4\n8 3 5\n10 9 7\ni0 x\ni1 y\no0 s\no1 c\n"
        wanted = [((x + y) % 2, x & y, 1 - (x & y), 1) for x, y in itertools.product((0, 1), repeat=2)]
        self.assertEqual(self.values(ascii_text), wanted)
        # The same in binary: each gate is two differences.
        binary = "aig 5 2 0 4 3\n10\n6\n7\n1\n" + "".join(map(chr, (2, 2, 3, 2, 1, 2)))
        self.assertEqual(self.values(binary), wanted)

    def test_sentences(self) -> None:
        """Each wrong text, and what its sentence says."""
        real = ".numvars 2\n.variables a b\n.begin\n{}\n.end\n"
        qasm = "OPENQASM 2.0;\nqreg q[3];\n{}\n"
        for text, said in (
            (real.format("v a b"), "Line 4: `v` is a square root of NOT, a quantum gate"),
            (real.format("t3 a b"), "Line 4: `t3` takes 3"),
            (real.format("t2 a c"), "Line 4: `c` is no variable"),
            (real.format("t2 a a"), "Line 4: the gate names `a` twice"),
            (real.format("t2 a -b"), "Line 4: a target has no `-`"), (real.format("g a b"), "Line 4: `g` is no gate"),
            (".numvars 3\n.variables a b\n.begin\n.end\n", "Line 3: `.numvars` says 3"),
            (".numvars 1\n.variables a\n.begin\n", "without"),
            (".numvars 1\n.variables a\n.constants 2\n.begin\n.end\n", "Line 4: `.constants`"),
            (qasm.format("h q[0];"), "Line 3: `h` is no gate that bits can follow"),
            (qasm.format("cx q[0],q[3];"), "Line 3: `q[3]` is beyond"),
            (qasm.format("rx(0.5) q[0];"), "Line 3: `rx` is no gate"), (qasm.format("if (c==1) x q[0];"), "Line 3"),
            (qasm.format("x q[0]"), "has no `;`"),
            (qasm.format("creg c[1]; measure q[0] -> c[0]; x q[0];"), "after it was measured"),
            (qasm.format("x q[0]; reset q[0];"), "loses its bit"),
            (qasm.format("gate f a { f a; } f q[0];"), "call too many others"),
            (qasm.format("cx q[0],q[0];"), "names `q[0]` twice"),
            (".i 2\n.o 1\n111 1\n", "Line 3: a row has 2"), (".i x\n.o 1\n", "Line 1: `.i` takes a number"),
            ("aag 1 0 1 0 0\n2 3\n", "stores 1 bit: say for how many cycles"),
            ("aag 1 0 1 0 0\n2 3 5\n", "Line 2: the first value of a latch"),
            ("aag 1 1 0 1 0\n2\n9\n", "above those of the header"), ("aig 3 1 0 1 2\n2\n\x02", "ends early"),
        ):
            with self.assertRaises(NetlistError, msg=text) as found:
                map_netlist(text)
            self.assertIn(said, str(found.exception), text)

    def test_formats_are_told_by_content(self) -> None:
        """The first words and the lines tell the format."""
        for text, form in ((".numvars 1\n.variables a\n.begin\n.end\n", NetlistFormat.REAL),
                           ("// x\n/* y\n*/ OPENQASM 3;\n", NetlistFormat.QASM),
                           ("qreg q[1];", NetlistFormat.QASM), (".i 1\n.o 1\n1 1\n.e\n", NetlistFormat.PLA),
                           ("aag 0 0 0 0 0\n", NetlistFormat.AIGER),
                           (".model m\n.inputs a\n", NetlistFormat.BLIF), ("circuit\ninput a\n", None)):
            self.assertEqual(guessed_netlist_format(text), form, text)

    def test_large_and_hostile(self) -> None:
        """Deep definitions, many calls and large numbers end soon."""
        doubling = "".join(f"gate g{k} a,b {{ g{k - 1} a,b; g{k - 1} a,b; }}\n" for k in range(1, 40))
        text = "OPENQASM 2.0;\nqreg q[2];\ngate g0 a,b { cx a,b; }\n" + doubling + "g39 q[0],q[1];\n"
        with self.assertRaisesRegex(NetlistError, "call too many others"):
            read_netlist(text)
        many = "".join(f"gate g{number} a {{ x a; }}\n" for number in range(10_001))
        with self.assertRaisesRegex(NetlistError, "Line 10002: more than 10000 gates are defined"):
            read_netlist("OPENQASM 2.0;\n" + many)
        # Counting the lines before each statement anew took minutes for such a text.
        with self.assertRaisesRegex(NetlistError, "Line 200003"):
            read_netlist("OPENQASM 3;\nqubit q;\n" + "x q;\n" * 400_000)
        for text in ("OPENQASM 2.0;\nqreg q[999999999];\n", ".i 999999999\n.o 1\n", "aag 999999999 999999999 0 0 0\n",
                     ".numvars 1\n.variables a\n.begin\n" + "t1 a\n" * 70_000 + ".end\n"):
            with self.assertRaises(NetlistError):
                read_netlist(text)
