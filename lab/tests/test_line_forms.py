"""`circuit --to real|qasm|aiger`, and what abc and yosys say of mappings. The simulators are this file's own."""

import itertools
import random
import re
import shutil
import subprocess

import support
from bbmlab_core.circuits import aiger_form, circuit_forms, line_forms
from bbmlab_core.circuits.netlists import map_netlist
from bbmlab_core.texts.circuits import Circuit
from support import circuit_of
from test_gate_text import random_text as random_gate_text
from test_netlists import random_blif
from test_reversible import Gate, qasm_text, random_gates, real_text
from test_reworking import names, random_text, values_of


def run_real(text: str, on: dict[str, bool]) -> dict[str, bool]:
    """Returns the outputs of a .real text by their names."""
    rows = [line.split() for line in text.splitlines() if not line.startswith("#")]
    heads = {row[0]: row[1:] for row in rows if row[0][0] == "."}
    values = {line: on[name] if sign == "-" else sign == "1" for line, name,
              sign in zip(heads[".variables"], heads[".inputs"], heads[".constants"][0])}
    for word, *lines in (row for row in rows if row[0][0] != "."):
        count = 2 if word[0] == "f" else 1
        assert int(word[1:]) == len(lines) and word[0] in "tf"
        if all(values[line] for line in lines[:-count]):
            one, other = lines[-count], lines[-1]
            values[one], values[other] = (values[other],
                                          values[one]) if count == 2 else (not values[one], not values[one])
    return {name: values[line] for line, name, sign in zip(heads[".variables"], heads[".outputs"], heads[".garbage"][0])
            if sign == "-"}


def run_qasm(text: str, on: dict[str, bool]) -> dict[str, bool]:
    """Returns the measured bits of an OpenQASM text by their names."""
    values, bits = dict[str, bool](), dict[str, bool]()
    for line in text.splitlines()[2:]:
        words = re.findall(r"\w+", line)
        if words[0] == "qubit":
            values[words[1]] = on.get(words[1].removesuffix("_"), False)
        elif words[0] == "reset":
            values[words[1]] = False
        elif words[0] in ("x", "cx", "ccx"):
            values[words[-1]] ^= all(values[name] for name in words[1:-1])
        elif words[0] == "cswap" and values[words[1]]:
            values[words[2]], values[words[3]] = values[words[3]], values[words[2]]
        elif words[1:2] == ["measure"]:
            bits[words[0]] = values[words[2]]
        else:
            assert words[0] in ("bit", "cswap"), line
    return bits


def run_aiger(text: str, bits: tuple[bool, ...]) -> list[bool]:
    """Returns the outputs of a binary AIGER file."""
    head, rest = text.split("\n", 1)
    most, inputs, latches, outputs, gates = map(int, head.split()[1:])
    assert head.startswith("aig ") and latches == 0 and most == inputs + gates
    wanted = [int(line) for line in rest.split("\n", outputs)[:outputs]]
    body, at, values = rest.split("\n", outputs)[outputs], 0, [False, *bits]
    for number in range(inputs + 1, most + 1):
        literals = [2 * number]
        for _ in range(2):
            difference = shift = 0
            while True:
                byte, at = ord(body[at]), at + 1
                difference, shift = difference | (byte & 127) << shift, shift + 7
                if byte < 128:
                    break
            literals.append(literals[-1] - difference)
        assert literals[0] > literals[1] >= literals[2]
        values.append(all(values[literal >> 1] != bool(literal & 1) for literal in literals[1:]))
    return [values[literal >> 1] != bool(literal & 1) for literal in wanted]


class Written(support.InRoom):
    """A circuit in another form has its outputs, by a simulator of that form."""

    def test_random_circuits(self) -> None:
        """All gates, constants and garbage."""
        chance, words = random.Random(82), set[str]()
        for _ in range(120):
            text = random_text(chance, chance.randint(1, 12))
            inputs, outputs, circuit = names(text, "input"), names(text, "output"), circuit_of(text)
            words |= {gate.kind for gate in circuit.gates}
            real, qasm, aiger = line_forms.real_text(circuit), line_forms.qasm_text(circuit), aiger_form.aiger_text(
                circuit)
            for bits in itertools.product((False, True), repeat=len(inputs)):
                values = values_of(text, bits)
                assert values is not None
                wanted, on = {name: values[name] for name in outputs}, dict(zip(inputs, bits))
                self.assertEqual(run_real(real, on), wanted, text)
                # An output that is an input is measured into a bit of another name.
                self.assertEqual(sorted(run_qasm(qasm, on).items()),
                                 sorted((f"{name}_2" if name in inputs else name, bit) for name, bit in wanted.items()))
                self.assertEqual(run_aiger(aiger, bits), list(wanted.values()))
        self.assertEqual(words, {"source", "fredkin", "cswap", "interact", "switch", "delay", "unswitch", "uninteract"})

    def test_reserved_words(self) -> None:
        """Wires that are called as gates of OpenQASM get other names."""
        circuit = circuit_of("circuit\ninput x\ninput cx\nswitch x cx -> y z measure\noutput y\noutput z\noutput "
                             "measure\nend\n")
        text = line_forms.qasm_text(circuit)
        self.assertEqual(run_qasm(text, {"x": True, "cx": True}), {"y_": True, "z_": True, "measure_": False})
        self.assertIn("qubit x_;\nqubit cx_;\n", text)

    def test_commands(self) -> None:
        """Each form is written by the command, and read by it again."""
        for form in ("blif", "aiger", "real", "qasm"):
            path = str(self.room / form)
            self.assertEqual(support.lab("circuit", "--to", form, support.example("half_adder"), "-o",
                                         path).returncode, 0)
            done = support.lab("equal", support.example("half_adder"), path)
            self.assertEqual((done.returncode, done.stdout), (0, "equal in all 4 choices of the inputs\n"), form)


def gates_blif(gates: list[Gate], lines: int, starts: list[str], ends: list[str]) -> str:
    """Returns gates on lines in BLIF, with the names of the circuit's ports."""
    rows, now = list[str](), [f"v{line}" for line in range(lines)]
    inputs = [line for line in range(lines) if starts[line] == "-"]
    for line, sign in enumerate(starts):
        rows += [f".names {'x' + str(line) if sign == '-' else ''} v{line}", {"-": "1 1", "1": "1", "0": ""}[sign]]
    for at, (controls, targets) in enumerate(gates):
        low, high = (now[target] for target in (targets * 2)[:2])
        nets, all_on = [now[line] for line, _ in controls], "".join(str(int(value)) for _, value in controls)
        rows += [f".names {' '.join([*nets, f'on{at}'])}", f"{all_on} 1".strip()]
        for number, target in enumerate(targets):
            own, other = (low, high) if number == 0 else (high, low)
            now[target] = f"n{at}_{target}"
            rows += [f".names on{at} {own} {now[target]}", "01 1",
                     "10 1"] if len(targets) == 1 else [f".names on{at} {own} {other} {now[target]}", "01- 1", "1-1 1"]
    outs = [line for line in range(lines) if ends[line] == "-"]
    rows += [row for line in outs for row in (f".names {now[line]} o{line}", "1 1")]
    return "\n".join([".model m", f".inputs {' '.join(f'x{line}' for line in inputs)}",
                      f".outputs {' '.join(f'o{line}' for line in outs)}", *rows, ".end", ""])


def mapped(text: str) -> Circuit:
    """Returns the circuit of a netlist, after few tries."""
    with support.FEW_TRIES:
        return circuit_of(map_netlist(text).text)


class Judged(support.InRoom):
    """abc and yosys say that a circuit is equivalent to its source.

    Without them the lab's own comparison and the simulators remain.
    """

    def setUp(self) -> None:
        """Looks for the programs."""
        self.abc = shutil.which("berkeley-abc") or shutil.which("yosys-abc")
        if self.abc is None or not shutil.which("yosys"):
            self.skipTest("there is no abc and yosys (Debian: berkeley-abc yosys)")
        super().setUp()

    def require_equivalent(self, source: str, text: str, form: str = "blif") -> None:
        """Asks abc whether a source in BLIF and a mapped circuit are equivalent."""
        self.file("a.blif", source)
        self.file(f"b.{form}", text)
        said = subprocess.run([str(self.abc), "-c", f"cec a.blif b.{form}"], cwd=self.room, capture_output=True,
                              text=True, check=False).stdout
        self.assertIn("Networks are equivalent", said, source)

    def test_abc_of_blif_and_gates(self) -> None:
        """Random BLIF and plain gates, each against its circuit in BLIF and in AIGER."""
        chance, compared = random.Random(5), 0
        for number in range(20):
            text = random_blif(chance) if number % 2 else random_gate_text(chance)[0]
            if number % 2 and not self.is_read(text):
                continue
            compared += 1
            circuit = mapped(text)
            if not number % 2:
                ports = set(circuit.inputs) & set(circuit.outputs)
                self.assertFalse(ports)
            source = text if number % 2 else gate_blif(text, circuit.outputs)
            self.require_equivalent(source, circuit_forms.blif_text(circuit))
            self.require_equivalent(source, aiger_form.aiger_text(circuit), "aig")
        self.assertGreaterEqual(compared, 16)

    def is_read(self, text: str) -> bool:
        """Whether abc reads a BLIF text. It ends by an assertion of its own at some tables that are always 1."""
        (self.room / "c.blif").write_text(text)
        return subprocess.run([str(self.abc), "-c", "read c.blif; strash"], cwd=self.room, capture_output=True,
                              check=False).returncode == 0

    def test_abc_of_lines(self) -> None:
        """Random .real and OpenQASM texts, whose gates this file writes in BLIF."""
        chance = random.Random(6)
        for number in range(16):
            lines = chance.randint(2, 5)
            gates = random_gates(chance, lines, chance.randint(1, 7))
            if number % 2:
                text, starts, ends = real_text(chance, lines, gates)
            else:
                text, starts, ends = qasm_text(chance, lines, gates, 3), ["-"] * lines, ["-"] * lines
            self.require_equivalent(gates_blif(gates, lines, starts, ends),
                                    renamed_blif(circuit_forms.blif_text(mapped(text)), starts, ends))

    def test_yosys(self) -> None:
        """yosys proves the Verilog of a circuit equivalent to its source in BLIF."""
        chance = random.Random(7)
        for _ in range(4):
            source = random_blif(chance)
            self.file("a.blif", source)
            self.file("b.v", circuit_forms.verilog_text(mapped(source)))
            steps = ("read_blif a.blif; rename -top gold; design -stash gold; read_verilog b.v; rename -top gate; "
                     "proc; design -stash gate; "
                     "design -copy-from gold -as gold gold; design -copy-from gate -as gate gate; equiv_make gold gate "
                     "equiv; hierarchy -top equiv; "
                     "opt_clean; equiv_simple; equiv_status -assert")
            done = subprocess.run(["yosys", "-p", steps], cwd=self.room, capture_output=True, text=True, check=False)
            self.assertEqual(done.returncode, 0, source + done.stdout[-1500:] + done.stderr)
            self.assertIn("Equivalence successfully proven!", done.stdout)


def gate_blif(text: str, outputs: list[str]) -> str:
    """Returns a text of plain gates in BLIF: a table of all rows for each gate. Outputs get the names of the circuit's.
    """
    rows, rules = list[str](), {"and": all, "or": any, "nand": lambda b: not all(b), "nor": lambda b: not any(b),
                                "xor": lambda b: sum(b) % 2,
                                "xnor": lambda b: 1 - sum(b) % 2, "not": lambda b: not b[0], "buf": lambda b: b[0],
                                "mux": lambda b: b[1] if b[0] else b[2]}
    wanted = iter(outputs)
    inputs: list[str] = []
    for line in text.splitlines():
        words = line.partition("#")[0].split()
        if words[:1] == ["input"]:
            inputs = words[1:]
        elif words[:1] == ["output"]:
            rows += [f".names n_{words[1]} {next(wanted)}", "1 1"]
        elif "->" in words:
            ins = words[1:-2]
            rows.append(" ".join([".names", *(f"n_{name}" for name in ins), f"n_{words[-1]}"]))
            rows += ["".join(map(str, bits)) + " 1" for bits in itertools.product((0, 1), repeat=len(ins))
                     if rules[words[0]](bits)]
    rows += [row for name in inputs for row in (f".names {name} n_{name}", "1 1")]
    return "\n".join([".model m", f".inputs {' '.join(inputs)}", f".outputs {' '.join(outputs)}", *rows, ".end", ""])


def renamed_blif(text: str, starts: list[str], ends: list[str]) -> str:
    """Returns a circuit in BLIF with the ports `x` and `o` of its lines."""
    rows = text.splitlines()
    ins, outs = rows[1].split()[1:], rows[2].split()[1:]
    inputs, outputs = ([f"{stem}{line}" for line, sign in enumerate(signs) if sign == "-"] for stem,
                       signs in (("x", starts), ("o", ends)))
    body = [re.sub(r"[a-z_0-9]+", lambda word: f"c_{word[0]}", row[7:]) if row.startswith(".names") else row
            for row in rows[3:]]
    tables = [f".names {own}" if row.startswith(".names") else row for row, own in zip(rows[3:], body)][:-1]
    joins = [row for outer, inner in zip(inputs, ins) for row in (f".names {outer} c_{inner}", "1 1")]
    joins += [row for outer, inner in zip(outputs, outs) for row in (f".names c_{inner} {outer}", "1 1")]
    return "\n".join([".model m", f".inputs {' '.join(inputs)}", f".outputs {' '.join(outputs)}", *tables, *joins,
                      ".end", ""])
