"""Keeps of inverse gates: what is found shows the row, what is necessary is so, and the fewest wires are the fewest."""

import itertools
import random
import sys
import unittest

import support
from bbmlab_core.circuits.cones import cone_for_inverse_gate
from bbmlab_core.circuits.keeps import KeepSearch, search_keeping_cone, why_not_kept
from bbmlab_core.texts.certificates import MAX_CUTS, MAX_USES
from bbmlab_core.texts.circuits import Circuit, evaluate_gates
from support import circuit_of as read_circuit

sys.path.insert(0, str(support.TOP / "bench"))
from random_circuits import made_circuit  # noqa: E402


def lacks_a_row(circuit: Circuit, gates: list[int]) -> bool:
    """Whether the last of some gates lacks a row under an assignment of the wires that come to them, while the others
    have theirs."""
    made = {wire for number in gates for wire in circuit.gates[number].outs}
    cuts = sorted({wire for number in gates for wire in circuit.gates[number].ins} - made)
    rows = evaluate_gates(circuit, cuts, gates).defined_columns_by_gate
    return bool((rows[gates[-2]] if len(gates) > 1 else (1 << (1 << len(cuts))) - 1) & ~rows[gates[-1]])


class Keeps(unittest.TestCase):
    """Keeps that the greedy cone does not give."""

    def test_found_keeps_show_the_row(self) -> None:
        """Some gates without a greedy keep get one, within the limits of a module, under which no row is missing; the
        others are said to get none."""
        found = missed = 0
        for seed in range(1, 7):
            circuit = read_circuit(made_circuit("any", 100, 8, seed))
            for gate in circuit.gates:
                if not gate.is_inverse or cone_for_inverse_gate(circuit, gate.number):
                    continue
                cone = search_keeping_cone(circuit, gate.number)
                if cone is None:
                    missed += 1
                    self.assertIn("cannot be kept", why_not_kept(circuit, gate.number))
                    continue
                found += 1
                cuts, uses = cone
                self.assertEqual((uses[-1], uses), (gate.number, sorted(set(uses))))
                made = {wire for number in uses for wire in circuit.gates[number].outs}
                self.assertEqual(set(cuts), {wire for number in uses for wire in circuit.gates[number].ins} - made)
                self.assertLessEqual((len(cuts) <= MAX_CUTS, len(uses) <= MAX_USES), (True, True))
                self.assertFalse(lacks_a_row(circuit, uses))
        self.assertGreater(found, 2)
        self.assertGreater(missed, 0)

    def test_necessary_gates(self) -> None:
        """In small circuits the necessary gates are those without which some row is missing, by all assignments; more
        gates never show less."""
        count, seed = 0, random.randrange(10**6)
        for index in range(40):
            circuit = read_circuit(made_circuit("any", 24, 5, seed + index))
            for gate in (gate for gate in circuit.gates if gate.is_inverse):
                search = KeepSearch(circuit, gate.number)
                every = [*search.before, gate.number]
                wanted = {number for number in search.before
                          if lacks_a_row(circuit, [own for own in every if own != number])}
                self.assertLessEqual(set(search.necessary_gates()), wanted, f"seed {seed + index}")
                count += len(search.necessary_gates())
        self.assertGreater(count, 40)

    def test_fewest_wires(self) -> None:
        """No set of gates around a core has fewer wires that come to it, by all sets of gates before it."""
        chance, larger = random.Random(7), 0
        for index in range(30):
            circuit = read_circuit(made_circuit("forward", 9, 4, index))
            search = KeepSearch(circuit, 8)
            core = frozenset({8, *chance.sample(search.before, min(len(search.before), 1))})
            _, cone = circuit.cone_inputs_and_gates([wire for number in core for wire in circuit.gates[number].ins])
            others = [number for number in cone if number not in core]
            sets = (core | set(more) for count in range(len(others) + 1)
                    for more in itertools.combinations(others, count))
            least = min(len(search.wires_into(gates)) for gates in sets)
            found = search.gates_inside_minimum_cut(core)
            self.assertTrue(core <= found)
            self.assertEqual(len(search.wires_into(found)), least, index)
            larger += len(search.wires_into(core)) > least
        self.assertGreater(larger, 3)

    def test_why(self) -> None:
        """If a row follows only from more gates than a module can use, that is said: here 70 delays of a wire that a
        switch made."""
        delays = "\n".join(f"delay 1 q{number} -> q{number + 1}" for number in range(70))
        text = (f"circuit\ninput a\ninput b\nswitch a b -> p q0 r\n{delays}\nunswitch p q70 r -> c d\noutput c\noutput "
                "d\nend\n")
        circuit = read_circuit(text)
        self.assertIsNone(search_keeping_cone(circuit, 71))
        self.assertIn(f"at least {MAX_USES} gates before it", why_not_kept(circuit, 71))
