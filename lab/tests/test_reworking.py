"""`bbmlab circuit --inverse`, `--clean` and `--simplify`. The values come from an evaluator of its own in this file."""

import itertools
import random
import tempfile
import unittest

import support
from bbmlab_core.circuits.cleaning import clean
from bbmlab_core.circuits.cones import cone_for_inverse_gate
from bbmlab_core.circuits.gate_lines import reread_circuit
from bbmlab_core.circuits.inverting import inverse
from bbmlab_core.circuits.simplifying import simplify
from bbmlab_core.commands import circuits as circuit_commands
from bbmlab_core.host.terminal import LabError
from bbmlab_core.texts.sections import section_text_with_limits
from support import circuit_of

FORWARD = {"source": (0, 1), "fredkin": (3, 3), "cswap": (3, 3), "interact": (2, 4), "switch": (2, 3), "delay": (1, 1)}


def outputs_of(word: str, number: int, ins: list[bool]) -> list[bool] | None:
    """Returns the outputs of a gate by the table of docs/FORMATS.md, or None where it has no row."""
    a, b, c, d = (ins + [False] * 4)[:4]
    if word in ("fredkin", "cswap"):
        return [a, b, c] if a == (word == "fredkin") else [a, c, b]
    if word == "unswitch":
        return None if a and c or b and not a else [a, b or c]
    if word == "uninteract":
        return {(0, 0, 0, 0): [False, False], (0, 1, 0, 0): [False, True], (0, 0, 1, 0): [True, False],
                (1, 0, 0, 1): [True, True]}.get((a, b, c, d))
    return {"source": [bool(number)], "delay": [a], "switch": [a, a and b, b and not a],
            "interact": [a and b, b and not a, a and not b, a and b]}[word]


def values_of(text: str, on: tuple[bool, ...]) -> dict[str, bool] | None:
    """Returns the values of a circuit section's wires, or None if a gate has no row."""
    values, todo = dict[str, bool](), list(on)
    for line in text.splitlines():
        words = line.split()
        if words[0] == "input":
            values[words[1]] = todo.pop(0)
        elif "->" in words:
            number = int(words.pop(1)) if words[0] in ("source", "delay") else 0
            at = words.index("->")
            outs = outputs_of(words[0], number, [values[name] for name in words[1:at]])
            if outs is None:
                return None
            values.update(zip(words[at + 1:], outs))
    return values


def names(text: str, keyword: str) -> list[str]:
    """Returns the names of the lines of one kind."""
    return [line.split()[1] for line in text.splitlines() if line.startswith(f"{keyword} ")]


def random_text(chance: random.Random, count: int) -> str:
    """Returns a circuit of gates that have rows everywhere, and of inverse gates behind the gates that they undo."""
    wires = [f"i{at}" for at in range(chance.randint(1, 4))]
    lines, made = [f"input {name}" for name in wires], 0
    for _ in range(count):
        word = chance.choice(list(FORWARD))
        uses, makes = FORWARD[word]
        if uses > len(wires):
            continue
        ins, outs = chance.sample(wires, uses), [f"w{made + at}" for at in range(makes)]
        made += makes
        lines.append(" ".join([word, *([chance.choice("01")] if word == "source" else ["3"] if word == "delay" else []),
                               *ins, "->", *outs]))
        if word in ("switch", "interact") and chance.random() < 0.3:
            back = [f"w{made + at}" for at in range(uses)]
            made += uses
            lines.append(" ".join(["un" + word, *outs, "->", *back]))
            outs = back
        wires = [name for name in wires if name not in ins] + outs
    outs = [name for name in wires if chance.random() < 0.5] or wires[:1]
    return "\n".join(["circuit", *lines, *(f"output {name}" for name in outs),
                      *(f"spill {name}" for name in wires if name not in outs), "end", ""])


def reversible_text(chance: random.Random) -> str:
    """Returns a circuit that exchanges its inputs, with constants that come back, which are its garbage."""
    wires = [f"i{at}" for at in range(chance.randint(2, 5))]
    lines, made = [f"input {name}" for name in wires], 0
    spills: list[str] = []
    for _ in range(chance.randint(1, 8)):
        kind = chance.choice(("fredkin", "cswap", "sandwich", "lent", "pair"))
        a, b, c = chance.sample(wires, 3) if len(wires) > 2 else (wires[0], wires[1], "")
        n = [f"w{made + at}" for at in range(12)]
        made += 12
        if kind in ("fredkin", "cswap") and c:
            lines.append(f"{kind} {a} {b} {c} -> {n[0]} {n[1]} {n[2]}")
            wires = [name for name in wires if name not in (a, b, c)] + n[:3]
        elif kind == "sandwich":
            lines += [f"switch {a} {b} -> {n[0]} {n[1]} {n[2]}", f"delay 2 {n[1]} -> {n[3]}",
                      f"unswitch {n[0]} {n[3]} {n[2]} -> {n[4]} {n[5]}"]
            wires = [name for name in wires if name not in (a, b)] + n[4:6]
        elif kind == "pair":
            lines += [f"interact {a} {b} -> {n[0]} {n[1]} {n[2]} {n[3]}",
                      f"uninteract {n[0]} {n[1]} {n[2]} {n[3]} -> {n[4]} {n[5]}"]
            wires = [name for name in wires if name not in (a, b)] + n[4:6]
        elif kind == "lent":
            lines += [f"source {chance.choice('01')} -> {n[0]}", f"fredkin {a} {n[0]} {b} -> {n[1]} {n[2]} {n[3]}",
                      f"fredkin {n[1]} {n[2]} {n[3]} -> {n[4]} {n[5]} {n[6]}"]
            wires = [name for name in wires if name not in (a, b)] + [n[4], n[6]]
            spills.append(n[5])
    return "\n".join(["circuit", *lines, *(f"output {name}" for name in wires), *(f"spill {name}" for name in spills),
                      "end", ""])


def constants_first(text: str) -> str:
    """Returns a text with its constants before all other gates."""
    lines = text.splitlines(keepends=True)
    at = 1 + len(names(text, "input"))
    return "".join([*lines[:at], *(line for line in lines if line.startswith("source")),
                    *(line for line in lines[at:] if not line.startswith("source"))])


class Inverse(unittest.TestCase):
    """The inverse computes inputs from outputs, and the command compares it with the circuit before."""

    def test_random_circuits(self) -> None:
        """Circuits that exchange their inputs: the inverse leads back, with constants and garbage exchanged."""
        chance, kinds = random.Random(82), set[str]()
        for _ in range(120):
            text = reversible_text(chance)
            back = section_text_with_limits(inverse(circuit_of(text)))
            self.assertEqual(names(back, "input"), names(text, "output"))
            self.assertEqual(names(back, "output"), names(text, "input"))
            self.assertEqual(len(names(back, "spill")), text.count("source"))
            self.assertEqual(back.count("source"), len(names(text, "spill")))
            for bits in itertools.product((False, True), repeat=len(names(text, "input"))):
                values = values_of(text, bits)
                assert values is not None
                found = values_of(back, tuple(values[name] for name in names(text, "output")))
                assert found is not None
                self.assertEqual(tuple(found[name] for name in names(text, "input")), bits)
            again = section_text_with_limits(inverse(circuit_of(back)))
            self.assertEqual(again, constants_first(text))
            self.assertEqual(section_text_with_limits(inverse(reread_circuit(inverse(circuit_of(again))))), again)
            kinds |= {line.split()[0] for line in back.splitlines()}
        self.assertGreaterEqual(kinds,
                                {"source", "fredkin", "cswap", "switch", "unswitch", "interact", "uninteract", "delay"})

    def test_refused(self) -> None:
        """Garbage that changes, rows that would lack, and constants that would not come back."""
        for body, said in (
            ("input c\ninput x\nswitch c x -> d y z\noutput d\noutput y\noutput z",
             "gate 0 (`unswitch`, line 5) has no row"),
            ("input c\ninput x\nswitch c x -> d y z\noutput d\noutput y\nspill z",
             "the garbage `z` is 1 with x on and 0 with no input on"),
            ("input c\ninput x\nsource 0 -> k\nfredkin c x k -> d u v\noutput d\noutput u\noutput v",
             "the constant `k` comes back as 1 and not as 0"),
            ("input c\ninput y\ninput z\nunswitch c y z -> d x\noutput d\noutput x",
             "the circuit has no values at some inputs: gate 0"),
        ):
            with self.assertRaises(LabError) as found:
                inverse(circuit_of(f"circuit\n{body}\nend\n"))
            self.assertIn(said, str(found.exception))
            self.assertEqual(found.exception.status, 1)

    def test_command(self) -> None:
        """The command writes the inverse, and refuses with status 1 and the file's name."""
        text = "circuit\ninput a\ninput b\ninput c\nfredkin a b c -> x y z\noutput z\noutput x\noutput y\nend\n"
        done = support.lab("circuit", "--inverse", "-", text=text)
        self.assertEqual(done.stdout, "circuit\ninput z\ninput x\ninput y\nfredkin x y z -> a b c\noutput a\n"
                         "output b\noutput c\nend\n")
        self.assertEqual(done.stderr, "bbmlab: the new circuit was compared with the one before in all 8 choices of "
                         "the inputs\n")
        with tempfile.NamedTemporaryFile("w", suffix=".txt") as file:
            file.write("circuit\ninput a\nspill a\nend\n")
            file.flush()
            done = support.lab("circuit", "--inverse", file.name)
        self.assertEqual((done.returncode, done.stdout), (1, ""))
        self.assertRegex(done.stderr, r"\Abbmlab: \S+: there is no inverse: the garbage `a` is 1 with a on and 0 with "
                         r"no input on")

    def test_wrong_circuits_are_found(self) -> None:
        """A wrong inverse and a wrong smaller circuit get a sentence, and a right one the inputs that were tried."""
        before = circuit_of("circuit\ninput a\ninput b\nsource 0 -> k\nfredkin a b k -> x y z\nfredkin x y z -> c d e\n"
                            "output c\noutput d\nspill e\nend\n")
        wrong = circuit_of("circuit\ninput a\ninput b\ndelay 1 b -> c\ndelay 1 a -> d\noutput c\noutput d\nend\n")
        right = circuit_of("circuit\ninput a\ninput b\ndelay 1 a -> c\ndelay 1 b -> d\noutput c\noutput d\nend\n")
        back = circuit_of("circuit\ninput c\ninput d\ndelay 1 d -> a\ndelay 1 c -> b\noutput a\noutput b\nend\n")
        self.assertEqual(circuit_commands.require_agreement(simplify, before, right), "in all 4 choices of the inputs")
        for change, after, said in ((simplify, wrong, "with a on, c differs"),
                                    (inverse, back, "it does not give `a` back")):
            with self.assertRaisesRegex(LabError, f"the new circuit is wrong: {said}. This is a fault of the lab"):
                circuit_commands.require_agreement(change, before, after)


class Clean(support.InRoom):
    """Computing, copying and undoing leaves no garbage but the inputs and constants."""

    def test_random_circuits(self) -> None:
        """The outputs, their complements, the inputs that come back, and a cone for each inverse gate of the second
        half."""
        chance, inverse_count = random.Random(1982), 0
        for _ in range(100):
            text = random_text(chance, chance.randint(1, 12))
            circuit = circuit_of(text)
            cleaned = section_text_with_limits(clean(circuit))
            ends, kept = names(cleaned, "spill"), names(text, "output")
            self.assertEqual(names(cleaned, "output")[:len(kept)], kept)
            rows = []
            for bits in itertools.product((False, True), repeat=len(names(text, "input"))):
                values, found = values_of(text, bits), values_of(cleaned, bits)
                assert values is not None and found is not None
                self.assertEqual([found[name] for name in kept], [values[name] for name in kept])
                self.assertTrue(all(found[name] != found[name[:-4]] for name in names(cleaned, "output")[len(kept):]))
                rows.append((bits, [found[name] for name in ends]))
            restored = [column for column in zip(*(bits for bits, _ in rows))]
            for column in zip(*(row for _, row in rows)):
                self.assertTrue(column in restored or len(set(column)) == 1, cleaned)
            found_circuit = circuit_of(cleaned)
            own = sum(gate.is_inverse for gate in circuit.gates)
            late = [gate.number for gate in found_circuit.gates if gate.is_inverse][own:]
            inverse_count += len(late)
            self.assertNotIn(None, [cone_for_inverse_gate(found_circuit, number) for number in late])
        self.assertGreater(inverse_count, 100)

    def test_deep_circuits_use_fredkin_gates(self) -> None:
        """Gates whose inverse no cone keeps are replaced, so that the other ones are kept."""
        lines, last = ["circuit", *(f"input i{at}" for at in range(9)), "input a0"], "a0"
        for at in range(90):
            lines += [f"switch {last} i{at % 9}{'' if at < 9 else '_' + str(at - 9)} -> c{at} i{at % 9}_{at} s{at}",
                      f"interact s{at} c{at} -> p{at} a{at + 1} r{at} t{at}"]
            last = f"a{at + 1}"
        wires = [f"i{at % 9}_{at}" for at in range(81, 90)] + [name for at in range(90)
                                                               for name in (f"p{at}", f"r{at}", f"t{at}")]
        text = "\n".join([*lines, f"output {last}", *(f"spill {name}" for name in wires), "end", ""])
        result = reread_circuit(clean(circuit_of(text)))
        words = [gate.kind for gate in result.gates]
        self.assertGreater(words.count("fredkin"), 0)
        self.assertGreater(words.count("unswitch") + words.count("uninteract"), 0)
        self.assertNotIn(None, [cone_for_inverse_gate(result, gate.number) for gate in result.gates if gate.is_inverse])

    def test_routed(self) -> None:
        """A clean half adder, routed, gets a yes, and its modules keep each inverse gate."""
        program = support.program()
        path, bundle = self.room / "c.txt", self.room / "b.txt"
        self.assert_ends(0, "circuit", "--clean", support.example("half_adder"), "-o", str(path))
        self.assert_ends(0, "route", str(path), "-o", str(bundle), BBMCHECK=program)
        lines = bundle.read_text().splitlines()
        inverse_gates = [line for line in lines if line.startswith(("unswitch", "uninteract"))]
        self.assertEqual(len({line for line in lines if line.startswith("keep ")}), len(inverse_gates))
        self.assertGreater(len(inverse_gates), 2)


class Simplify(unittest.TestCase):
    """Fewer gates, the same outputs."""

    def test_random_circuits(self) -> None:
        """Random circuits keep their outputs, and get no more gates but for constants."""
        chance, before, after = random.Random(3), 0, 0
        for _ in range(150):
            text = random_text(chance, chance.randint(1, 14))
            small = section_text_with_limits(simplify(circuit_of(text)))
            self.assertEqual(names(small, "input"), names(text, "input"))
            self.assertEqual(names(small, "output"), names(text, "output"))
            for bits in itertools.product((False, True), repeat=len(names(text, "input"))):
                values, found = values_of(text, bits), values_of(small, bits)
                assert values is not None and found is not None
                self.assertEqual([found[name] for name in names(text, "output")],
                                 [values[name] for name in names(text, "output")], text)
            before += sum("->" in line and "source" not in line for line in text.splitlines())
            after += sum("->" in line and "source" not in line for line in small.splitlines())
            self.assertEqual(section_text_with_limits(simplify(circuit_of(small))), small)
        self.assertLess(after, before)

    def test_by_hand(self) -> None:
        """Each rule, with the gates that are left."""
        for inputs, body, left in (
            ("ab", "source 1 -> k\nfredkin k a b -> c x y\noutput x\nspill c\nspill y", ["delay 1 a -> x"]),
            ("ab", "source 0 -> k\nfredkin a b k -> c x y\noutput c\noutput x\noutput y", ["switch a b -> c x y"]),
            ("a", "source 1 -> k\ninteract k a -> p q r s\noutput p\noutput r\noutput s\nspill q",
             ["source 1 -> k", "switch a k -> p s r"]),
            ("ab", "switch a b -> c y z\nunswitch c y z -> d x\noutput d\noutput x",
             ["delay 1 a -> d", "delay 1 b -> x"]),
            ("ab", "interact a b -> p q r s\nuninteract p q r s -> d x\noutput d\noutput x",
             ["delay 1 a -> d", "delay 1 b -> x"]),
            ("abe", "fredkin a b e -> c x y\ncswap c x y -> d u v\noutput u\noutput v\nspill d",
             ["delay 1 e -> u", "delay 1 b -> v"]),
            ("abef", "switch a b -> c y z\nfredkin c e f -> d u v\noutput y\noutput d\nspill u\nspill v\nspill z",
             ["switch a b -> d y z"]),
            ("a", "source 1 -> k\nsource 1 -> l\nswitch a k -> c y z\nswitch c l -> d u v\noutput y\noutput v\noutput "
             "d\nspill z\nspill u",
             ["source 1 -> k", "switch a k -> d y v"]),
        ):
            text = "\n".join(["circuit", *(f"input {name}" for name in inputs), body, "end", ""])
            lines = section_text_with_limits(simplify(circuit_of(text))).splitlines()
            self.assertEqual([line for line in lines if "->" in line], left, text)

    def test_refused(self) -> None:
        """A circuit without values at some inputs has nothing to keep."""
        with self.assertRaisesRegex(LabError, "no values at some inputs"):
            simplify(circuit_of("circuit\ninput c\ninput y\ninput z\nunswitch c y z -> d x\noutput d\noutput x\nend\n"))
