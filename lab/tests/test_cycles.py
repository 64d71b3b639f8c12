"""Machines that store bits, unrolled for some cycles.

The expected values come from the rules of each machine, or from an evaluator in this file.
"""

import itertools
import random
import subprocess
from pathlib import Path
from typing import Callable

import support
from bbmlab_core.circuits.netlists import NetlistError, ReadingOptions, map_netlist
from bbmlab_core.texts.circuits import Circuit, values_and_undefined_gate
from test_netlists import blif_values, random_table

INITIAL = False
COUNTER = """module counter(input clk, input up, input clear, output reg [2:0] q);
  initial q = 3'd5;
  always @(posedge clk) if (clear) q <= 3'd2; else if (up) q <= q + 1;
endmodule
"""


def circuit_of(text: str, cycles: int, has_state_ports: bool = True) -> Circuit:
    """Returns the circuit of a machine."""
    with support.FEW_TRIES:
        return support.circuit_of(map_netlist(text, reading=ReadingOptions(None, cycles, has_state_ports)).text)


def yosys(room: Path, verilog: str, steps: str) -> None:
    """Writes a machine to a folder, and lets yosys make a netlist of it there."""
    (room / "c.v").write_text(verilog)
    subprocess.run(["yosys", "-q", "-p", f"read_verilog c.v; synth -flatten; abc -g AND,XOR,MUX; {steps}"], cwd=room,
                   check=True)


def outputs_of(circuit: Circuit, on: set[str]) -> dict[str, bool]:
    """Returns the values of the outputs."""
    values, undefined = values_and_undefined_gate(circuit, on)
    assert undefined is None
    return {name: values[name] for name in circuit.outputs}


class Cycles(support.InRoom):
    """Latches of BLIF and AIGER, and flip-flops of yosys."""

    def test_random_machines(self) -> None:
        """Random logic between latches, for one to four cycles, with the state at ports."""
        chance = random.Random(82)
        for _ in range(30):
            inputs, stored = [f"i{at}" for at in range(chance.randint(0, 2))], [f"q{at}"
                                                                                for at in range(chance.randint(1, 2))]
            known, lines = [*inputs, *stored], list[str]()
            for at in range(chance.randint(2, 6)):
                lines += random_table(chance, f"n{at}", known)
                known.append(f"n{at}")
            made = [name for name in known if name[0] == "n"]
            data, outputs = {name: chance.choice(known) for name in stored}, chance.sample(made, 2)
            latches = [f".latch {data[name]} {name} re clk 3" for name in stored]
            text = "\n".join([".model m", f".inputs clk {' '.join(inputs)}", f".outputs {' '.join(outputs)}", *latches,
                              *lines, ".end", ""])
            tables, cycles = "\n".join(lines), chance.randint(1, 4)
            circuit = circuit_of(text, cycles)
            for _ in range(12):
                state = {name: chance.random() < 0.5 for name in stored}
                given = [{name: chance.random() < 0.5 for name in inputs} for _ in range(cycles)]
                on = {f"{name}_start" for name, bit in state.items() if bit}
                on |= {f"{name}_{cycle}" for cycle, bits in enumerate(given) for name, bit in bits.items() if bit}
                wanted = {}
                for cycle, bits in enumerate(given):
                    values = blif_values(tables, {**bits, **state})
                    wanted.update((f"{name}_{cycle}", bool(values[name])) for name in outputs)
                    state = {name: bool(values[net]) for name, net in data.items()}
                wanted.update((f"{name}_end", bit) for name, bit in state.items())
                self.assertEqual(outputs_of(circuit, on & set(circuit.inputs)), wanted, text)

    def test_lfsr(self) -> None:
        """A shift register with feedback begins with its first values: x^3 + x^2 + 1 has the period 7."""
        text = ".model lfsr\n.outputs a\n.latch f a 1\n.latch a b 0\n.latch b c 0\n.names b c f\n01 1\n10 1\n.end\n"
        for cycles in (1, 3, 7):
            state = [True, False, False]
            for _ in range(cycles):
                state = [state[1] != state[2], *state[:2]]
            found = outputs_of(circuit_of(text, cycles, INITIAL), set())
            self.assertEqual([found[f"{name}_end"] for name in "abc"], state)
        self.assertEqual(state, [True, False, False])

    def test_refused(self) -> None:
        """What cannot be unrolled gets a sentence."""
        model = ".model m\n.inputs clk d\n.outputs q\n"
        for text, reading, said in (
            (model + ".latch d q re clk 2\n.end\n", ReadingOptions(None, 2, INITIAL), "`q` has no first value"),
            (model + ".latch d q re clk 2\n.latch q r fe clk 2\n.end\n", ReadingOptions(None, 2),
             "different clocks or edges"),
            (model + ".latch d q re clk 2\n.latch q r re d 2\n.end\n", ReadingOptions(None, 2),
             "different clocks or edges"),
            (model + ".latch d q re x 2\n.names clk x\n0 1\n.end\n", ReadingOptions(None, 2), "Logic makes the clock"),
            (model + ".latch y q re clk 2\n.names clk d y\n11 1\n.end\n", ReadingOptions(None, 2),
             "also used as a bit"),
            (model + ".latch d q re clk 2\n.latch d q re clk 2\n.end\n", ReadingOptions(None, 2), "Two stored bits"),
            (model + ".latch d q re clk 2\n.names d q\n1 1\n.end\n", ReadingOptions(None, 2),
             "driven by a latch or an input and by logic"),
            (model + ".latch d q re clk 2\n.end\n", ReadingOptions(None, 999_999), "too many"),
            (model + ".latch x q re clk\n.end\n", ReadingOptions(None, 1), "Nothing drives"),
            (model + ".names d q\n1 1\n.end\n", ReadingOptions(None, 2), "no cycles"),
            (model + ".latch d q\n.end\n", ReadingOptions(), "say for how many cycles"),
        ):
            with self.assertRaises(NetlistError, msg=text) as found:
                map_netlist(text, reading=reading)
            self.assertIn(said, str(found.exception))

    def compare(self, circuit: Circuit, follower: Callable[[int, dict[str, bool]], int], inputs: list[str],
                cycles: int) -> None:
        """Compares a machine of three bits with the number that follows, for all states and all inputs."""
        for start, bits in itertools.product(range(8), itertools.product((False, True), repeat=len(inputs) * cycles)):
            given = [dict(zip(inputs, bits[at * len(inputs):])) for at in range(cycles)]
            on = {f"q_{at}__start" for at in range(3) if start >> at & 1}
            on |= {f"{name}_{cycle}" for cycle, own in enumerate(given) for name, bit in own.items() if bit}
            number, wanted = start, dict[str, bool]()
            for cycle, own in enumerate(given):
                wanted.update((f"q_{at}__{cycle}", bool(number >> at & 1)) for at in range(3))
                number = follower(number, own)
            wanted.update((f"q_{at}__end", bool(number >> at & 1)) for at in range(3))
            # An input that is an output at once has a delay, and so an output of another name.
            found = outputs_of(circuit, on)
            self.assertEqual({name: found[name] for name in wanted if name in found},
                             {name: bit for name, bit in wanted.items() if name in found})
            self.assertGreaterEqual(len(set(wanted) & set(found)), 3)

    def test_yosys(self) -> None:
        """A counter with an enable and a reset, by yosys: as JSON and as BLIF, with and without merged resets."""
        support.require("yosys", "yosys")

        def follower(number: int, given: dict[str, bool]) -> int:
            """Returns the next number."""
            return 2 if given["clear"] else (number + given["up"]) % 8

        kinds = set[str]()
        for steps, write in (("", "write_json c.json"), ("negedge", "write_json c.json"),
                             ("dfflegalize -cell $_DFF_P_ 01; opt_clean; abc -g AND,XOR,MUX;", "write_json c.json"),
                             ("dfflegalize -cell $_DFFE_PN_ 01; opt_clean; abc -g AND,XOR,MUX;",
                              "write_json c.json"),
                             ("dfflegalize -cell $_SDFFCE_PN?N_ 01; opt_clean; abc -g AND,XOR,MUX;",
                              "write_json c.json"),
                             ("dfflegalize -cell $_DFF_P_ 01; opt_clean; abc -g AND,XOR,MUX;",
                              "write_blif c.json")):
            verilog = COUNTER.replace("posedge", "negedge") if steps == "negedge" else COUNTER
            yosys(self.room, verilog, f"{steps.removeprefix('negedge')} opt_clean; {write}")
            text = (self.room / "c.json").read_text()
            kinds |= {word for word in ("$_SDFFE_PP0P_", "$_SDFFE_PP1P_", "$_DFF_P_", "$_SDFFE_NP0P_", "$_DFFE_PN_",
                                        "$_SDFFCE_PN0N_", "$_SDFFCE_PN1N_", ".latch") if word in text}
            for cycles in (1, 2):
                self.compare(circuit_of(text, cycles), follower, ["up", "clear"], cycles)
        self.assertGreaterEqual(len(kinds), 5, kinds)

    def test_first_values_of_yosys(self) -> None:
        """The counter begins with 5, as its Verilog says."""
        support.require("yosys", "yosys")
        yosys(self.room, COUNTER, "opt_clean; write_json c.json")
        circuit = circuit_of(Path(self.room, "c.json").read_text(), 2, INITIAL)
        found = outputs_of(circuit, {"up_0", "up_1"})
        self.assertEqual([found[f"q_{at}__end"] for at in range(3)], [True, True, True])

    def test_aiger(self) -> None:
        """A counter of two bits in both forms, with first values and names."""
        ascii_text = "aag 5 1 2 1 2\n2\n4 11 1\n6 7\n10\n8 4 6\n10 5 7\ni0 en\nl0 low\nl1 high\no0 none\n"
        binary = "aig 5 1 2 1 2\n11 1\n7\n10\n" + "".join(map(chr, (2, 2, 3, 2))) + "i0 en\nl0 low\nl1 high\no0 none\n"
        for text in (ascii_text, binary):
            for cycles in (1, 2, 3):
                state, wanted = (True, False), dict[str, bool]()
                for cycle in range(cycles):
                    low, high = state
                    none = not low and not high
                    wanted[f"none_{cycle}"] = none
                    state = (not none, not high)
                wanted.update(low_end=state[0], high_end=state[1])
                self.assertEqual(outputs_of(circuit_of(text, cycles, INITIAL), set()), wanted)
