#!/usr/bin/env python3
"""random_circuits.py KIND GATES INPUTS SEED: writes a random circuit for the router to standard output.

KIND is one of the names of KINDS below, or `ripple` (a ripple adder of GATES bits), `multiply` (two numbers of two
bits) or `wide` (layers of switches: GATES of them on INPUTS inputs). Inverse gates get inputs at which they always have
a row.
"""

import argparse
import random
import sys
from pathlib import Path

sys.path.insert(0, str(Path(__file__).resolve().parent.parent / "lab"))
sys.dont_write_bytecode = True
from bbmlab_core.texts.gates import GATE_SIZES, INVERSE_GATES, gate_tables, input_tables  # noqa: E402

EACH_GATE = ["switch", "interact", "fredkin", "cswap", "unswitch", "uninteract", "delay", "source"]
KINDS = {
    "any": EACH_GATE,
    "switch": ["switch"],
    "interact": ["interact"],
    "forward": ["switch", "interact"],
    "inverse": ["switch", "interact", "unswitch", "uninteract"],
    "fredkin": ["fredkin", "cswap"],
}
MAX_LIVE = 16


class Maker:
    """Makes a circuit gate by gate. `live` are the wires that nothing consumes yet."""

    def __init__(self, inputs):
        self.inputs = list(inputs)
        self.live, self.lines, self.count = list(self.inputs), [], 0
        # Tables over all inputs, by which inverse gates are chosen: too large for many inputs.
        has_tables = len(self.inputs) <= 12
        self.full = (1 << (1 << len(self.inputs))) - 1 if has_tables else 0
        self.tables = dict(zip(self.inputs, input_tables(len(self.inputs)))) if has_tables else None
        # The outputs of each switch and interact that are live together: what an inverse gate may take.
        self.groups = {"switch": [], "interact": []}

    def add(self, word, ins, parameter=None, outs=None):
        """Adds a gate, and returns the wires that it makes."""
        if outs is None:
            outs = [f"w{self.count + index}" for index in range(GATE_SIZES[word][1])]
            self.count += len(outs)
        number = [] if parameter is None else [str(parameter)]
        self.lines.append(" ".join([word, *number, *ins, "->", *outs]))
        self.live = [wire for wire in self.live if wire not in ins] + outs
        if self.tables is not None:
            rows, _ = gate_tables(word, parameter, [self.tables[wire] for wire in ins], self.full)
            self.tables.update((wire, table & self.full) for wire, table in zip(outs, rows))
        if word in self.groups:
            self.groups[word].append(outs)
        return outs

    def text(self, outputs):
        """Writes the circuit. Live wires that are no outputs are spilled."""
        lines = [f"input {wire}" for wire in self.inputs] + self.lines + [f"output {wire}" for wire in outputs]
        return "\n".join(["circuit", *lines, *(f"spill {wire}" for wire in self.live if wire not in outputs),
                          "end"]) + "\n"

    def inverse_inputs(self, word, chance):
        """Returns inputs at which an inverse gate always has a row, or None if none were found."""
        groups = [group for group in self.groups[INVERSE_GATES[word]] if set(group) <= set(self.live)]
        if groups and chance.random() < 0.8:
            return chance.choice(groups)
        size = GATE_SIZES[word][0]
        for _ in range(200 if self.tables is not None and len(self.live) >= size else 0):
            ins = chance.sample(self.live, size)
            tables = [self.tables[wire] for wire in ins]
            if gate_tables(word, None, tables,
                           self.full)[1] & self.full == self.full and sum(table != 0 for table in tables) >= 2:
                return ins
        return None


def random_circuit(words, gates, inputs, seed, most_delay=60):
    """Returns a circuit of random gates of some kinds."""
    chance, maker = random.Random(seed), Maker(f"i{index}" for index in range(inputs))
    while len(maker.lines) < gates:
        word = chance.choice(words)
        size = GATE_SIZES[word][0]
        others = [other for other in words if other not in ("switch", "interact", "source")]
        if word in ("switch", "interact") and others and len(maker.live) + 2 > MAX_LIVE:
            word = chance.choice(others)
            size = GATE_SIZES[word][0]
        if word in INVERSE_GATES:
            ins = maker.inverse_inputs(word, chance)
            if ins is None:
                word, size, ins = INVERSE_GATES[word], 2, None
        else:
            ins = None
        if ins is None:
            if len(maker.live) < size:
                continue
            ins = chance.sample(maker.live, size)
        maker.add(word, ins, {"source": chance.randrange(2), "delay": chance.randint(1, most_delay)}.get(word))
    outputs = [wire for wire in maker.live if chance.random() < 0.6] or maker.live[:1]
    return maker.text(outputs)


def full_adder(maker, a, b, carry, total, carry_out):
    """Adds a full adder of five Fredkin gates, as in examples/full_adder.txt."""
    one, zero = maker.add("source", [], 1)[0], maker.add("source", [], 0)[0]
    a, one, zero = maker.add("fredkin", [a, one, zero])
    _, _, differ = maker.add("fredkin", [b, one, zero])
    one, zero = maker.add("source", [], 1)[0], maker.add("source", [], 0)[0]
    carry, plain, inverted = maker.add("fredkin", [carry, one, zero])
    differ, _, _ = maker.add("fredkin", [differ, carry, a], outs=[f"{total}_d", carry_out, f"{total}_e"])
    maker.add("fredkin", [differ, inverted, plain], outs=[f"{total}_f", total, f"{total}_g"])


def ripple_adder(bits):
    """Returns a ripple adder of two numbers and a carry."""
    maker = Maker([f"{name}{bit}" for bit in range(bits) for name in "ab"] + ["c0"])
    for bit in range(bits):
        full_adder(maker, f"a{bit}", f"b{bit}", f"c{bit}", f"s{bit}", f"c{bit + 1}")
    return maker.text([f"s{bit}" for bit in range(bits)] + [f"c{bits}"])


def copied(maker, wire):
    """Adds a Fredkin gate that copies a wire, and returns the two copies and the inverse."""
    one, zero = maker.add("source", [], 1)[0], maker.add("source", [], 0)[0]
    return maker.add("fredkin", [wire, one, zero])


def half_adder(maker, a, b):
    """Adds a half adder of two Fredkin gates and a switch, and returns sum and carry."""
    first, second, inverse = copied(maker, b)
    a, total, _ = maker.add("fredkin", [a, inverse, second])
    _, carry, _ = maker.add("switch", [a, first])
    return total, carry


def multiplier():
    """Returns a multiplier of two numbers of two bits: four products by switches, and two half adders."""
    maker = Maker(["a0", "a1", "b0", "b1"])
    products = {}
    factors = {bit: f"a{bit}" for bit in (0, 1)}
    for column in (0, 1):
        for row, copy in zip((0, 1), copied(maker, f"b{column}")):
            factors[row], products[row, column], _ = maker.add("switch", [factors[row], copy])
    low, carry = half_adder(maker, products[1, 0], products[0, 1])
    high, top = half_adder(maker, products[1, 1], carry)
    return maker.text([products[0, 0], low, high, top])


def wide_layers(gates, inputs):
    """Returns layers of switches: the first on all inputs, each further one on half of the wires of the layer before.
    """
    maker = Maker(f"i{index}" for index in range(inputs))
    layer = list(maker.inputs)
    while len(maker.lines) < gates and len(layer) > 1:
        following = []
        for left, right in zip(layer[::2], layer[1::2]):
            if len(maker.lines) < gates:
                following += maker.add("switch", [left, right])[1:2]
        layer = following
    return maker.text(list(maker.live))


def straight_delay(steps):
    """Returns a delay of some steps before a switch."""
    maker = Maker(["a", "b"])
    (late,) = maker.add("delay", ["a"], steps)
    maker.add("switch", [late, "b"])
    return maker.text(list(maker.live))


def made_circuit(kind, gates, inputs, seed):
    """Returns a circuit by the words of the command."""
    special = {"ripple": lambda: ripple_adder(gates), "multiply": multiplier,
               "wide": lambda: wide_layers(gates, inputs)}
    return special[kind]() if kind in special else random_circuit(KINDS[kind], gates, inputs, seed)


def main():
    """Writes the circuit that the words ask for."""
    reader = argparse.ArgumentParser(usage=__doc__)
    reader.add_argument("kind", choices=[*KINDS, "ripple", "multiply", "wide"])
    for name in ("gates", "inputs", "seed"):
        reader.add_argument(name, type=int)
    given = reader.parse_args()
    sys.stdout.write(made_circuit(given.kind, given.gates, given.inputs, given.seed))


if __name__ == "__main__":
    main()
