"""A circuit as a network of Toffoli and Fredkin gates on lines, in RevLib's `.real` and in OpenQASM 3.

`fredkin` and `cswap` are one Fredkin gate. `switch` is one with a line that begins with 0, and `unswitch` the same
turned round, whose line ends with 0. `interact` is a Toffoli gate and three controlled NOTs on two such lines. A delay
is no gate. Lines that end with 0 are lent again.
"""

from ..texts.circuits import Circuit, Gate
from .netlists.naming import NameBook

# Words that no qubit of OpenQASM 3 can be called: its keywords, and the gates of `stdgates.inc`.
QASM_KEYWORDS = set("""angle array barrier bit bool box break cal case complex const continue cal ch cp cphase creg crx
cry crz cswap ctrl cu cx cy cz ccx def default defcal defcalgrammar delay duration durationof else end euler export
extern false float for gate gphase h i id if im in include input int inv let measure mod mutable negctrl nop opaque
output p phase phi pi pow pragma qreg qubit readonly reset return rx ry rz s sdg sizeof stretch swap switch sx t tau
tdg true u u1 u2 u3 uint void while x y z""".split())


class LineNetwork:
    """Gates on lines.

    A step is the lines of its controls and those of its targets: two that change places, or one that is inverted.
    """

    def __init__(self, circuit: Circuit) -> None:
        self.circuit = circuit
        self.book = NameBook()
        self.book.taken.update(circuit.wires)
        self.lines = list(circuit.inputs)
        self.constants: dict[str, int] = {}
        self.steps: list[tuple[list[str], list[str]]] = []
        # The line of each wire, and lines that are 0 again.
        self.at = {name: name for name in circuit.inputs}
        self.free: list[str] = []
        for gate in circuit.gates:
            self.add_gate(gate)
        self.ends = {self.at[name]: name for name in circuit.outputs}

    def add_constant_line(self, name: str, bit: int) -> str:
        """Adds a line that begins with a constant."""
        self.lines.append(name)
        self.constants[name] = bit
        return name

    def take_zero_line(self) -> str:
        """Returns a line that is 0."""
        return self.free.pop() if self.free else self.add_constant_line(self.book.fresh_name("zero"), 0)

    def add_gate(self, gate: Gate) -> None:
        """Adds the steps of a gate."""
        ins, word = [self.at[name] for name in gate.ins], gate.kind
        if word == "source":
            outs = [self.add_constant_line(gate.outs[0], gate.parameter or 0)]
        elif word == "delay":
            outs = ins
        elif word in ("fredkin", "cswap"):
            control, one, other = ins
            self.steps.append(([control], [one, other]))
            outs = [control, other, one] if word == "fredkin" else ins
        elif word == "switch":
            control, other = ins
            outs = [control, self.take_zero_line(), other]
            self.steps.append(([control], [other, outs[1]]))
        elif word == "unswitch":
            control, high, low = ins
            self.steps.append(([control], [low, high]))
            outs = [control, low]
            self.free.append(high)
        elif word == "interact":
            one, other = ins
            both, again = self.take_zero_line(), self.take_zero_line()
            self.steps += [([one, other], [both]), ([both], [again]), ([both], [one]), ([both], [other])]
            outs = [both, other, one, again]
        else:
            both, other, one, again = ins
            self.steps += [([both], [one]), ([both], [other]), ([both], [again]), ([one, other], [both])]
            outs = [one, other]
            self.free += [both, again]
        self.at.update(zip(gate.outs, outs))


def real_text(circuit: Circuit) -> str:
    """Returns the circuit as a `.real` file. Garbage are the lines that are no outputs."""
    network = LineNetwork(circuit)
    lines, constants, ends = network.lines, network.constants, network.ends
    head = ["# A circuit of conservative logic: f3 is a Fredkin gate, and t2 and t3 are Toffoli gates.", ".version 2.0",
            f".numvars {len(lines)}", " ".join([".variables", *lines]),
            " ".join([".inputs", *(str(constants.get(line, line)) for line in lines)]),
            " ".join([".outputs", *(ends.get(line, "g") for line in lines)]),
            ".constants " + "".join(str(constants.get(line, "-")) for line in lines),
            ".garbage " + "".join("-" if line in ends else "1" for line in lines), ".begin"]
    steps = [" ".join([f"{'f' if len(targets) == 2 else 't'}{len(controls) + len(targets)}", *controls, *targets])
             for controls, targets in network.steps]
    return "\n".join([*head, *steps, ".end", ""])


def qasm_text(circuit: Circuit) -> str:
    """Returns the circuit in OpenQASM 3: a qubit for each line, and a bit for each output.

    A reserved word gets `_` at its end.
    """
    network = LineNetwork(circuit)
    book = NameBook()
    book.taken.update(QASM_KEYWORDS)
    def fresh_qubit_name(name: str) -> str:
        """Returns a new name that is no reserved word."""
        return book.fresh_name(f"{name}_" if name in QASM_KEYWORDS else name)

    qubits = {line: fresh_qubit_name(line) for line in circuit.inputs}
    bits = {line: fresh_qubit_name(name) for line, name in network.ends.items()}
    qubits.update((line, fresh_qubit_name(line)) for line in network.constants)
    words = {(0, 1): "x", (1, 1): "cx", (2, 1): "ccx", (1, 2): "cswap"}
    rows = ["OPENQASM 3.0;", 'include "stdgates.inc";', *(f"qubit {name};" for name in qubits.values()),
            *(f"bit {name};" for name in bits.values())]
    for line, bit in network.constants.items():
        rows += [f"reset {qubits[line]};", *([f"x {qubits[line]};"] if bit else [])]
    rows += [f"{words[len(controls), len(targets)]} {', '.join(qubits[line] for line in controls + targets)};"
             for controls, targets in network.steps]
    return "\n".join([*rows, *(f"{bits[line]} = measure {qubits[line]};" for line in bits), ""])
