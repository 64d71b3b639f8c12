"""Netlists: BLIF and yosys JSON, mapped to circuits.

The expected values come from an evaluator of its own in this file.
"""

import itertools
import json
import random
import subprocess
import tempfile
import unittest
from pathlib import Path
from typing import Any, Callable
from unittest import mock

import support
from bbmlab_core.circuits.cones import cone_for_inverse_gate
from bbmlab_core.circuits.netlists import (NetlistError, NetlistFormat, circuit_text_from_netlist_text,
                                           guessed_netlist_format, map_netlist)
from bbmlab_core.texts.circuits import Circuit, evaluate_gates, values_and_undefined_gate

# Fewer tries than users get, which save time: each try is one that a search can end with.
FEW_TRIES = mock.patch("bbmlab_core.circuits.netlists.search.MAX_MAPPING_TRIES", 60)
ADDER = support.EXAMPLES / "two_bit_adder.v"
# The cells of yosys, after its cell library: the ports and the value of Y.
CELLS: dict[str, tuple[str, Callable[..., bool]]] = {
    "$_BUF_": ("A", lambda a: a), "$_NOT_": ("A", lambda a: not a),
    "$_AND_": ("AB", lambda a, b: a and b), "$_NAND_": ("AB", lambda a, b: not (a and b)),
    "$_OR_": ("AB", lambda a, b: a or b), "$_NOR_": ("AB", lambda a, b: not (a or b)),
    "$_XOR_": ("AB", lambda a, b: a != b), "$_XNOR_": ("AB", lambda a, b: a == b),
    "$_ANDNOT_": ("AB", lambda a, b: a and not b), "$_ORNOT_": ("AB", lambda a, b: a or not b),
    "$_MUX_": ("ABS", lambda a, b, s: b if s else a), "$_NMUX_": ("ABS", lambda a, b, s: not (b if s else a)),
    "$_AOI3_": ("ABC", lambda a, b, c: not (a and b or c)), "$_OAI3_": ("ABC", lambda a, b, c: not ((a or b) and c)),
    "$_AOI4_": ("ABCD", lambda a, b, c, d: not (a and b or c and d)),
    "$_OAI4_": ("ABCD", lambda a, b, c, d: not ((a or b) and (c or d))),
}


def blif_values(text: str, inputs: dict[str, bool]) -> dict[str, bool]:
    """Returns the values of the nets of a BLIF text whose tables come in order, by its rows."""
    values, tables = dict(inputs), list[tuple[list[str], list[list[str]]]]()
    for words in (line.split() for line in text.splitlines()):
        if words[:1] == [".names"]:
            tables.append((words[1:], []))
        elif words and words[0][0] in "01-":
            tables[-1][1].append(words)
    for names, rows in tables:
        bits = "".join("1" if values[name] else "0" for name in names[:-1])
        fits = any(all(sign in ("-", bit) for sign, bit in zip(row[0] if len(row) > 1 else "", bits)) for row in rows)
        values[names[-1]] = bool(rows) and fits == (rows[0][-1] == "1")
    return values


def made_by_yosys(verilog: Path, write: str) -> str:
    """Returns the netlist that yosys makes of a file; skips the test where it is not installed."""
    support.require("yosys", "yosys")
    with tempfile.TemporaryDirectory() as room:
        made = Path(room) / "made"
        steps = f"read_verilog {verilog}; synth -flatten; abc -g AND,XOR,MUX; opt_clean; {write} {made}"
        subprocess.run(["yosys", "-q", "-p", steps], check=True, timeout=60)
        return made.read_text()


def words_of(text: str, keyword: str) -> list[str]:
    """Returns the words of the lines of a text that begin with a keyword."""
    return [word for line in text.splitlines() if line.split()[:1] == [keyword] for word in line.split()[1:]]


def circuit_of(text: str) -> Circuit:
    """Returns the circuit that a netlist is mapped to, as the lab reads it."""
    return support.circuit_of(circuit_text_from_netlist_text(text))


def random_table(chooser: random.Random, name: str, known: list[str]) -> list[str]:
    """Returns a table node over known nets."""
    inputs = chooser.sample(known, min(len(known), chooser.choice((1, 2, 2, 2, 3, 3, 4, 9))))
    value = chooser.choice("0111")
    rows = {"".join(chooser.choice("01-") for _ in inputs) for _ in range(chooser.randint(1, 4))}
    return [" ".join([".names", *inputs, name]), *(f"{row} {value}" for row in sorted(rows))]


def random_blif(chooser: random.Random) -> str:
    """Returns a random netlist of at most six inputs."""
    known = [f"i{index}" for index in range(chooser.randint(1, 6))]
    lines, inputs = list[str](), list(known)
    for index in range(chooser.randint(1, 14)):
        lines += random_table(chooser, f"n{index}", known)
        known.append(f"n{index}")
    outputs = chooser.sample(known[len(inputs):], chooser.randint(1, min(5, len(known) - len(inputs))))
    return "\n".join([".model random", " ".join([".inputs", *inputs]), " ".join([".outputs", *outputs]), *lines, ".end",
                      ""])


class Equivalence(support.InRoom):
    """The circuit computes what the netlist says."""

    def compare(self, text: str, values_of: Callable[[dict[str, bool]], dict[str, bool]], inputs: list[str],
                outputs: list[str]) -> None:
        """Compares a mapped netlist with its values at all inputs, and asks that each inverse gate has a row there and
        a cone."""
        circuit = circuit_of(text)
        tables = evaluate_gates(circuit, circuit.inputs, list(range(len(circuit.gates))))
        self.assertEqual(len(circuit.inputs), len(inputs))
        self.assertEqual(set(tables.defined_columns_by_gate.values()) - {tables.full}, set(),
                         "an inverse gate has no row at some inputs")
        for number, bits in enumerate(itertools.product((False, True), repeat=len(inputs))):
            # The first input is bit 0 of an assignment.
            wanted = values_of(dict(zip(inputs, bits[::-1])))
            found = {name: bool(tables.tables[wire] >> number & 1) for name, wire in zip(outputs, circuit.outputs)}
            self.assertEqual(found, {name: bool(wanted[name]) for name in outputs}, f"inputs {bits[::-1]}")
        for gate in circuit.gates:
            if gate.is_inverse:
                self.assertIsNotNone(cone_for_inverse_gate(circuit, gate.number), f"gate {gate.number}")

    @FEW_TRIES
    def test_random_netlists(self) -> None:
        """Random netlists of tables agree with their rows at all inputs."""
        seed = random.SystemRandom().randrange(1 << 32)
        chooser = random.Random(seed)
        for number in range(60):
            text = random_blif(chooser)
            with self.subTest(f"seed {seed}, netlist {number}"):
                self.compare(text, lambda on: blif_values(text, on), words_of(text, ".inputs"),
                             words_of(text, ".outputs"))

    @FEW_TRIES
    def test_each_simple_cell(self) -> None:
        """Each simple cell of yosys agrees with its rule, alone and with all its inputs connected to one net."""
        for kind, (ports, rule) in CELLS.items():
            for is_one in (False, True):
                names = "A" if is_one else ports
                text = json.dumps(cell_document(kind, {port: names.index(port) if not is_one else 0 for port in ports},
                                                names))
                with self.subTest(kind, one_net=is_one):
                    self.compare(text, lambda on: {"Y": rule(*(on["A" if is_one else port] for port in ports))},
                                 list(names), ["Y"])

    @FEW_TRIES
    def test_luts(self) -> None:
        """A `$lut` gives the bit of its table at the number of its inputs, the first input lowest."""
        chooser = random.Random(11)
        for width in (1, 2, 3, 4, 5):
            table = chooser.randrange(1 << (1 << width))
            text = json.dumps(lut_document(width, table))
            inputs = [f"A[{index}]" for index in range(width)] if width > 1 else ["A"]
            with self.subTest(width=width, table=table):
                self.compare(text,
                             lambda on: {"Y": bool(table >> sum(on[name] << index for index,
                                                                name in enumerate(inputs)) & 1)},
                             inputs, ["Y"])

    def test_a_deep_netlist(self) -> None:
        """A chain of 3000 XOR tables with one net, which a product with this net absorbs, is mapped without deep
        recursion."""
        tables = "".join(f".names a n{number} n{number + 1}\n10 1\n01 1\n" for number in range(3000))
        text = f".model m\n.inputs a n0\n.outputs y\n{tables}.names a n3000 y\n11 1\n.end\n"
        circuit = circuit_of(text)
        for a, b in itertools.product((False, True), repeat=2):
            on = {name for name, value in (("a", a), ("n0", b)) if value}
            self.assertEqual(values_and_undefined_gate(circuit, on)[0]["y"], a and b)

    def test_constants_copies_and_plain_wires(self) -> None:
        """Constant outputs, an input that is several outputs, and unused inputs."""
        text = (".model m\n.inputs a b\n.outputs zero one a2 a3 na\n.names zero\n.names one\n1\n"
                ".names a a2\n1 1\n.names a a3\n1 1\n.names a na\n0 1\n.end\n")
        self.compare(text, lambda on: {"zero": False, "one": True, "a2": on["a"], "a3": on["a"], "na": not on["a"]},
                     ["a", "b"], ["zero", "one", "a2", "a3", "na"])

    def test_verilog_by_yosys(self) -> None:
        """The two-bit adder in Verilog, through yosys, adds: as BLIF and as JSON."""
        inputs, outputs = ["a0", "a1", "b0", "b1"], ["s0", "s1", "s2"]
        for write in ("write_blif", "write_json"):
            with self.subTest(write):
                self.compare(made_by_yosys(ADDER, write), sum_values, inputs, outputs)

    def test_formats_agree_on_bits(self) -> None:
        """BLIF and JSON name the bits of a port alike, whichever way its indices run."""
        source = self.room / "bits.v"
        source.write_text("module bits (input [0:2] a, input [6:4] b, output [1:0] y);\n"
                          "assign y = {a[0] & b[4], a[2] | b[6]};\nendmodule\n")
        for write in ("write_blif", "write_json"):
            circuit = circuit_of(made_by_yosys(source, write))
            with self.subTest(write):
                self.assertEqual(set(circuit.inputs), {"a_0", "a_1", "a_2", "b_4", "b_5", "b_6"})
                for on, wanted in (({"a_0", "b_4"}, {"y_1"}), ({"a_2"}, {"y_0"}), ({"b_6"}, {"y_0"}),
                                   ({"a_0", "a_1", "b_5"}, set())):
                    values, _ = values_and_undefined_gate(circuit, on)
                    self.assertEqual({wire for wire in circuit.outputs if values[wire]}, wanted, on)

    @FEW_TRIES
    def test_wide_adder_at_samples(self) -> None:
        """A ripple adder of ten bits adds, at random inputs and at the extremes."""
        seed = random.SystemRandom().randrange(1 << 32)
        chooser, width = random.Random(seed), 10
        circuit = circuit_of(ripple_adder_blif(width))
        pairs = [(0, 0), (1023, 1), (1023, 1023),
                 *((chooser.randrange(1024), chooser.randrange(1024)) for _ in range(100))]
        for left, right in pairs:
            on = {f"{name}{index}" for name, number in (("a", left), ("b", right)) for index in range(width)
                  if number >> index & 1}
            values, undefined = values_and_undefined_gate(circuit, on)
            with self.subTest(seed=seed, left=left, right=right):
                self.assertIsNone(undefined)
                self.assertEqual(sum(values[f"s{index}"] << index for index in range(width + 1)), left + right)

    @FEW_TRIES
    def test_without_joins(self) -> None:
        """If no inverse gate has a cone, the circuit has no inverse gate, and still computes the netlist."""
        chooser = random.Random(5)
        texts = [full_adder_blif(), *(random_blif(chooser) for _ in range(10))]
        with mock.patch("bbmlab_core.circuits.netlists.search.cone_for_inverse_gate", return_value=None):
            for number, text in enumerate(texts):
                with self.subTest(number):
                    self.assertFalse(any(gate.is_inverse for gate in circuit_of(text).gates))
                    self.compare(text, lambda on: blif_values(text, on), words_of(text, ".inputs"),
                                 words_of(text, ".outputs"))

    def test_adder_is_small(self) -> None:
        """A full adder takes two XORs of three gates and one join, so seven gates, and two constants."""
        text = full_adder_blif()
        gates = [gate.kind for gate in circuit_of(text).gates]
        self.assertLessEqual((len(gates) - gates.count("source"), gates.count("source")), (7, 2))
        self.compare(text, lambda on: {"s": sum(on.values()) % 2 == 1, "t": sum(on.values()) > 1}, ["a", "b", "c"],
                     ["s", "t"])


def sum_values(on: dict[str, bool]) -> dict[str, bool]:
    """Returns the bits of the sum of two numbers of two bits."""
    total = on["a0"] + 2 * on["a1"] + on["b0"] + 2 * on["b1"]
    return {f"s{index}": bool(total >> index & 1) for index in range(3)}


def full_adder_blif() -> str:
    """Returns a full adder: a sum s and a carry t."""
    rows = "".join(f"{row} 1\n" for row in ("001", "010", "100", "111"))
    return f".model f\n.inputs a b c\n.outputs s t\n.names a b c s\n{rows}.names a b c t\n11- 1\n1-1 1\n-11 1\n.end\n"


def ripple_adder_blif(width: int) -> str:
    """Returns an adder of two numbers of some bits: a, b and the sum s, with carries t."""
    lines = [".model r", f".inputs {' '.join(f'{name}{index}' for name in 'ab' for index in range(width))}",
             f".outputs {' '.join(f's{index}' for index in range(width + 1))}", ".names t0"]
    for index in range(width):
        after = f"s{width}" if index == width - 1 else f"t{index + 1}"
        lines += [f".names a{index} b{index} t{index} s{index}", "001 1", "010 1", "100 1", "111 1",
                  f".names a{index} b{index} t{index} {after}", "11- 1", "1-1 1", "-11 1"]
    return "\n".join([*lines, ".end", ""])


def cell_document(kind: str, nets: dict[str, int], inputs: str) -> dict[str, Any]:
    """Returns a module with one cell. `nets` are the numbers of its input nets, from 0."""
    ports = {name: {"direction": "input", "bits": [2 + index]} for index, name in enumerate(inputs)}
    ports["Y"] = {"direction": "output", "bits": [99]}
    connections = {**{port: [2 + net] for port, net in nets.items()}, "Y": [99]}
    return {"modules": {"m": {"ports": ports, "cells": {"one": {"type": kind, "connections": connections}}}}}


def lut_document(width: int, table: int) -> dict[str, Any]:
    """Returns a module with one `$lut`."""
    bits = list(range(2, 2 + width))
    ports = {"A": {"direction": "input", "bits": bits}, "Y": {"direction": "output", "bits": [99]}}
    parameters = {"WIDTH": f"{width:032b}", "LUT": f"{table:0{1 << width}b}"}
    cell = {"type": "$lut", "parameters": parameters, "connections": {"A": bits, "Y": [99]}}
    return {"modules": {"m": {"attributes": {"top": "1"}, "ports": ports, "cells": {"one": cell}}}}


MODEL = ".model m\n.inputs a\n.outputs y\n"
# Texts that cannot be mapped, and what the sentence says.
REFUSED = {
    "a loop": (MODEL + ".names a z y\n11 1\n.names y z\n1 1\n.end\n", "depends on itself"),
    "a latch": (MODEL + ".latch a y re c 0\n.end\n", "stores 1 bit: say for how many cycles"),
    "a latch at a level": (MODEL + ".latch a y ah c 0\n.end\n", "Line 4: the latch `y` changes while its control is 1"),
    "a short latch": (MODEL + ".latch a\n.end\n", "Line 4: a latch is"),
    "a library cell": (MODEL + ".gate nand2 A=a B=a Y=y\n.end\n", "a cell of a library"),
    "a part": (MODEL + ".subckt $_DFF_P_ D=a Q=y\n.end\n", "Flatten the netlist"),
    "two models": (MODEL + ".names a y\n1 1\n.end\n.model n\n.end\n", "second model"),
    "no driver": (MODEL + ".end\n", "Nothing drives the net `y`"),
    "two drivers": (MODEL + ".names a y\n1 1\n.names a y\n0 1\n.end\n", "two drivers"),
    "a driven input": (".model m\n.inputs a\n.outputs a\n.names a\n1\n.end\n", "is an input, and a table drives it"),
    "a wrong row": (MODEL + ".names a y\n11 1\n.end\n", "Line 5: a row of this table"),
    "mixed rows": (MODEL + ".names a y\n1 1\n0 0\n.end\n", "rows for both"),
    "a free row": (MODEL + "1 1\n.end\n", "is a row, and no `.names` line"),
    "an unknown word": (MODEL + ".nemas a y\n1 1\n.end\n", "no line of BLIF that is read"),
    "an input named twice": (".model m\n.inputs a a\n.outputs y\n.names a y\n1 1\n", "named twice"),
    "no netlist": ("circuit\nend\n", "none of the netlists that are read"),
    "a long text": (MODEL + "#" * 16_777_216, "longer than 16777216 bytes"),
    "no JSON": ("{", "not JSON"),
    "deep JSON": ('{"modules":' + "[" * 100_000, "not JSON"),
    "no modules": ("{}", "no member `modules`"),
    "a latch of yosys": (json.dumps(cell_document("$_DLATCH_P_", {"D": 0}, "D")),
                         "stores a bit and is no simple flip-flop"),
    "a reset without a clock": (json.dumps(cell_document("$_DFF_PP0_", {"D": 0}, "D")), "is set without its clock"),
    "a large flip-flop": (json.dumps(cell_document("$dff", {"D": 0}, "D")), "stores a bit and is no simple flip-flop"),
    "a flip-flop": (json.dumps(cell_document("$_DFF_P_", {"D": 0}, "D")), "no member `Q`"),
    "an unknown cell": (json.dumps(cell_document("$add", {"A": 0, "B": 1}, "AB")), "no simple cell"),
    "a loose port": (json.dumps(cell_document("$_AND_", {"A": 0}, "A")), "no member `B`"),
    "two modules": ('{"modules": {"m": {}, "n": {}}}', "2 modules"),
    "too many gates": (MODEL + "".join(f".names {'a' if not i else f'n{i - 1}'} b{i} n{i}\n11 1\n" for i in range(4000))
                       + ".names n3999 y\n1 1\n", "Nothing drives|at most 1024"),
}


def wide_xor(count: int) -> str:
    """Returns a chain of XOR tables over `count` inputs."""
    names = [f"i{index}" for index in range(count)]
    lines = [f".names {'i0' if index == 1 else f'x{index - 1}'} i{index} {'y' if index == count - 1 else f'x{index}'}\n"
             "10 1\n01 1\n"
             for index in range(1, count)]
    return f".model m\n.inputs {' '.join(names)}\n.outputs y\n{''.join(lines)}.end\n"


class Command(support.Case):
    """`bbmlab route` with netlists."""

    def test_circuit_only(self) -> None:
        """`--circuit-only` writes the circuit of a netlist, and says which names it changed.

        It writes a circuit section as it is.
        """
        ended = support.lab("route", "--circuit-only", support.example("two_bit_adder").replace(".txt", ".blif"))
        self.assertEqual((ended.returncode, words_of(ended.stdout, "input")), (0, ["a_0", "a_1", "b_0", "b_1"]))
        self.assertIn("`a[0]` is `a_0`", ended.stderr)
        again = support.lab("route", "--circuit-only", "-", text=ended.stdout)
        self.assertEqual((again.returncode, again.stdout, again.stderr), (0, ended.stdout, ""))

    def test_a_wrong_netlist(self) -> None:
        """A netlist that cannot be mapped ends with status 1 and its sentence."""
        text, sentence = REFUSED["a loop"]
        self.assert_ends(1, "route", "--circuit-only", "-", text=text, stdout="", err=sentence)

    def test_verilog_gets_a_yes(self) -> None:
        """Verilog, through yosys and the router, gets a yes from the program."""
        netlist = made_by_yosys(ADDER, "write_json")
        self.assert_ends(0, "route", "-", "--effort", "120", "--program", support.program(), text=netlist,
                         err="verdict yes")


class Sentences(unittest.TestCase):
    """What cannot be mapped gets a sentence; names that are not legal are changed, and the notes say so."""

    def test_what_cannot_be_mapped(self) -> None:
        """Each text is refused with its sentence."""
        for name, (text, sentence) in REFUSED.items():
            with self.subTest(name):
                self.assertRaisesRegex(NetlistError, sentence, circuit_text_from_netlist_text, text)

    def test_a_circuit_too_large(self) -> None:
        """A chain that needs more than 16,384 gates is refused with the limit, and so are 20,000 copies of one input.

        Smaller ones get the line.
        """
        copies = [f"y{index}" for index in range(20_000)]
        fan_out = f".model m\n.inputs a\n.outputs {' '.join(copies)}\n" + "".join(f".names a {name}\n1 1\n"
                                                                                  for name in copies)
        for text in (wide_xor(4200), wide_xor(40_000), fan_out):
            with self.subTest(len(text)):
                self.assertRaisesRegex(NetlistError, "A circuit has at most 16384", circuit_text_from_netlist_text,
                                       text)
        for count, front in ((250, "circuit\n"), (700, "limits 2\ncircuit\n")):
            self.assertTrue(circuit_text_from_netlist_text(wide_xor(count)).startswith(front))

    def test_names(self) -> None:
        """Names become legal and stay different, and a note names each change."""
        text = (".model m\n.inputs A[0] a_0 9 " + "x" * 40 + "\n.outputs Sum\n.names A[0] a_0 9 " + "x" * 40
                + " Sum\n1111 1\n.end\n")
        mapped = map_netlist(text)
        names = words_of(mapped.text, "input") + words_of(mapped.text, "output")
        self.assertEqual(len(set(names)), 5)
        for name in names:
            self.assertRegex(name, r"\A[a-z][a-z0-9_]{0,31}\Z")
        for wanted in ("A[0]", "9", "Sum"):
            self.assertTrue(any(f"`{wanted}`" in note for note in mapped.notes), mapped.notes)

    def test_formats_are_told_apart(self) -> None:
        """BLIF, JSON and a circuit section are told apart by their first words."""
        for text, form in ((MODEL, NetlistFormat.BLIF), ("# by hand\n\n.inputs a\n", NetlistFormat.BLIF),
                           (" {}", NetlistFormat.YOSYS_JSON), ("circuit\n", None), ("", None)):
            with self.subTest(text):
                self.assertIs(guessed_netlist_format(text), form)

    def test_same_text_each_time(self) -> None:
        """The same netlist gets the same circuit."""
        self.assertEqual(circuit_text_from_netlist_text(full_adder_blif()),
                         circuit_text_from_netlist_text(full_adder_blif()))
