"""Texts of plain gates, such as `and a b -> c`. The expected values come from an evaluator of its own in this file."""

import itertools
import random
from typing import Callable

import support
from bbmlab_core.circuits.netlists import NetlistError, NetlistFormat, guessed_netlist_format, map_netlist
from bbmlab_core.texts.circuits import values_and_undefined_gate

RULES: dict[str, Callable[[list[bool]], bool]] = {
    "and": all, "or": any, "xor": lambda bits: sum(bits) % 2 == 1, "nand": lambda bits: not all(bits),
    "nor": lambda bits: not any(bits),
    "xnor": lambda bits: sum(bits) % 2 == 0, "not": lambda bits: not bits[0], "buf": lambda bits: bits[0],
    "mux": lambda bits: bits[1] if bits[0] else bits[2],
}


def random_text(chance: random.Random) -> tuple[str, list[str], list[tuple[str, list[str], str]], list[str]]:
    """Returns a text of gates, its inputs, its gates and its outputs."""
    inputs = [f"i{at}" for at in range(chance.randint(1, 5))]
    wires, gates = list(inputs), list[tuple[str, list[str], str]]()
    for at in range(chance.randint(1, 10)):
        word = chance.choice(list(RULES))
        count = 1 if word in ("not", "buf") else 3 if word == "mux" else chance.choice((2, 2, 2, 3, 5))
        gates.append((word, [chance.choice(wires) for _ in range(count)], f"w{at}"))
        wires.append(f"w{at}")
    outputs = chance.sample(wires, chance.randint(1, min(4, len(wires))))
    lines = [f"{word}  {' '.join(ins)} -> {out} # a gate" for word, ins, out in gates]
    head = ["circuit"] if chance.random() < 0.5 else ["# comment", ""]
    tail = ["end"] if chance.random() < 0.5 else []
    return "\n".join([*head, f"input {' '.join(inputs)}", *lines, *(f"output {name}" for name in outputs), *tail,
                      ""]), inputs, gates, outputs


class Gates(support.InRoom):
    """The circuit of a text has the values of its gates, and wrong texts get a sentence with the line."""

    def test_random_texts(self) -> None:
        """Random gates, wires that are used many times or never, and inputs that are outputs."""
        chance = random.Random(82)
        for _ in range(60):
            text, inputs, gates, outputs = random_text(chance)
            self.assertIs(guessed_netlist_format(text), NetlistFormat.GATES)
            with support.FEW_TRIES:
                circuit = support.circuit_of(map_netlist(text).text)
            for bits in itertools.product((False, True), repeat=len(inputs)):
                values = dict(zip(inputs, bits))
                for word, ins, out in gates:
                    values[out] = RULES[word]([values[name] for name in ins])
                own, undefined = values_and_undefined_gate(circuit,
                                                           {name for name, bit in zip(circuit.inputs, bits) if bit})
                self.assertIsNone(undefined)
                self.assertEqual([own[name] for name in circuit.outputs], [values[name] for name in outputs], text)

    def test_conservative_gates(self) -> None:
        """The gates of circuit sections keep their meaning, and their wires may be used twice."""
        text = ("input c x\ninput y\nsource 1 -> k\nfredkin c x y -> d u v\nswitch c k -> e copy inverse\ninteract x y "
                "-> p q r s\n"
                "and d e -> both\nxor p s -> zero\n" + "".join(f"output {name}\n"
                                                               for name in "u v copy inverse p q r both zero".split()))
        circuit = support.circuit_of(map_netlist(text, NetlistFormat.GATES).text)
        for c, x, y in itertools.product((False, True), repeat=3):
            values, _ = values_and_undefined_gate(circuit,
                                                  {name for name, bit in (("c", c), ("x", x), ("y", y)) if bit})
            wanted = [x if c else y, y if c else x, c, not c, x and y, y and not x, x and not y, c, False]
            self.assertEqual([values[name] for name in circuit.outputs], wanted)

    def test_a_circuit_section_stays(self) -> None:
        """A text with conservative gates alone is no text of plain gates, and neither is one with a layout."""
        for name in ("half_adder", "machine_fredkin", "fredkin_gate"):
            self.assertIsNone(guessed_netlist_format(support.text_of(name)))
        self.assertIsNone(guessed_netlist_format("circuit\ninput a\ninput b\nand a b -> c\noutput c\nend\n"
                                                 "layout 2 2 0\nend\n"))

    def test_sentences(self) -> None:
        """Each wrong line, and what its sentence says."""
        for line, said in (
            ("and a -> c", "Line 3: `and` takes 2 before the arrow and 1 behind it, and has 1 and 1."),
            ("and a q -> c", "Line 3: no earlier line defines `q`"),
            ("not a b -> c", "Line 3: `not` takes 1"), ("and a b -> a", "Line 3: `a` is defined already"),
            ("and a b -> C", "Line 3: `C` is no name"),
            ("and a b c", "Line 3: `and a b c` is no line"),
            ("unswitch a b b -> c d", "Line 3: `unswitch` has no values for some"),
            ("andor a b -> c", "Line 3: `andor` is no gate"), ("source 2 -> c", "Line 3: `source` takes 0 or 1"),
            ("output", "Line 3: `output` takes names"),
            ("output a\noutput a", "Line 4: the output `a` is named twice"), ("end\noutput a", "Line 4 follows `end`"),
            ("not a -> c", "names no output"),
        ):
            with self.assertRaises(NetlistError, msg=line) as found:
                map_netlist(f"circuit\ninput a b\n{line}\n", NetlistFormat.GATES)
            self.assertIn(said, str(found.exception))

    def test_wrong_lines_are_still_told(self) -> None:
        """A wrong gate line of such a text is refused as one, and not as a line of a circuit section; Windows' line
        ends are read."""
        for line, said in (("AND a b -> c", "Line 4: `AND` is no gate. These are and, or"),
                           ("and a,b -> c", "Line 4: no earlier line defines `a,b`")):
            text = f"circuit\r\ninput a b\r\nnot a -> d\r\n{line}\r\noutput c\r\nend\r\n"
            for given in (text, text.replace("not a -> d\r\n", "\r\n")):
                with self.assertRaises(NetlistError) as found:
                    map_netlist(given)
                self.assertIn(said, str(found.exception))

    def test_explain_names_the_command(self) -> None:
        """`explain` says what reads such a text: as a hint behind the line `circuit`, which the program refuses, or
        else in one line."""
        path = self.room / "a.txt"
        path.write_text("input a\nnot a -> b\noutput b\n")
        said = support.lab("explain", str(path))
        self.assertEqual((said.returncode, said.stderr), (
            1, f"bbmlab: {path}: this is a text of plain gates: `bbmlab circuit` and `route` read it\n"))
        said = support.lab("explain", "-", text="circuit\ninput a\nnot a -> b\noutput b\nend\n",
                           BBMCHECK=support.program())
        self.assertIn("`bbmlab circuit` writes a circuit of a text of such gates", " ".join(said.stdout.split()))

    def test_large_files(self) -> None:
        """Files of 50 MB end with a sentence and status 1, in bounded time and memory."""
        path = self.room / "large"
        for head, line in (("input a\nnot a -> b\n", "not a -> c\n"), (".model m\n.inputs a\n", ".names a b\n"),
                           ("{", "{"), ("OPENQASM 3;\n", "x q;\n"),
                           ("aig 9 9 9 9 9\n", "\x01"), (".numvars 1\n.variables a\n", "t1 a\n"),
                           (".i 1\n.o 1\n", "1 1\n"), (" ", " "), ("/*", "*"), ("//\n", "//\n")):
            path.write_text(head + line * (50_000_000 // len(line)))
            done = self.assert_ends(1, "circuit", str(path), seconds=200, memory=1_500_000_000, stdout="")
            self.assertRegex(done.stderr, r"\Abbmlab: [^\n]+\n\Z")
