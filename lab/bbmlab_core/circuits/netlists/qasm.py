"""Reads OpenQASM 2 and 3 as far as bits can follow: networks of NOT, Toffoli and Fredkin gates (Cross et al. 2017 and
2022).
"""

import re
from dataclasses import dataclass
from typing import Iterator

from .model import MAX_PORTS, NetlistError
from .reversible import Control, ReversibleNetlist, ReversibleNetlistBuilder, require_distinct_lines

COMMENT_PATTERN = re.compile(r"//[^\n]*|/\*.*?\*/", re.DOTALL)
# The gates that are known: how many controls each has, and how many targets.
KNOWN_GATES = {"x": (0, 1), "cx": (1, 1), "CX": (1, 1), "cnot": (1, 1), "ccx": (2, 1), "toffoli": (2, 1), "c3x": (3, 1),
               "c4x": (4, 1), "swap": (0, 2), "cswap": (1, 2), "fredkin": (1, 2), "id": (0, 1)}
REGISTER_PATTERN = re.compile(r"(?:(qreg|creg)\s+(\w+)\s*\[\s*(\d+)\s*\]|(qubit|bit)\s*(?:\[\s*(\d+)\s*\])?\s*(\w+))\Z")
MEASUREMENT_PATTERN = re.compile(r"(?:measure\s+(.+?)\s*->\s*(.+)|(.+?)\s*=\s*measure\s+(.+))\Z", re.DOTALL)
CALL_PATTERN = re.compile(r"((?:(?:neg)?ctrl(?:\s*\(\s*\d+\s*\))?\s*@\s*)*)(\w+)\s*(\([^)]*\))?\s+(.+)\Z", re.DOTALL)
CONTROL_MODIFIER_PATTERN = re.compile(r"(neg)?ctrl(?:\s*\(\s*(\d+)\s*\))?\s*@")
DEFINITION_PATTERN = re.compile(r"gate\s+(\w+)\s*(\([^)]*\))?\s*([\w\s,]+?)\s*\{(.*)\}\Z", re.DOTALL)
OPERAND_PATTERN = re.compile(r"(\w+)(?:\s*\[\s*(\d+)\s*\])?\Z")
MAX_CALL_DEPTH = 64
MAX_CALLS = 200_000
MAX_DEFINITIONS = 10_000


@dataclass(frozen=True)
class GateDefinition:
    """A gate of the file: its arguments, and its statements with their lines."""

    arguments: list[str]
    body: list[tuple[int, str]]


def numbered_statements(text: str, first: int = 1) -> Iterator[tuple[int, str]]:
    """Yields each statement with the number of its line. A block in braces belongs to the statement before it."""
    text = COMMENT_PATTERN.sub(lambda found: re.sub(r"[^\n]", " ", found[0]), text)
    start = depth = 0
    # The line at which the next statement can begin: counted on, since counting from the first line each time takes
    # quadratic time.
    line = first
    for found in re.finditer(r"[{};]", text):
        depth += {"{": 1, "}": -1, ";": 0}[found[0]]
        if depth <= 0:
            part = text[start:found.end()].rstrip(";")
            number = line + part[:len(part) - len(part.lstrip())].count("\n")
            line += text.count("\n", start, found.end())
            start = found.end()
            if part.strip():
                yield number, part.strip()
    if text[start:].strip():
        raise NetlistError(f"Line {line}: `{text[start:].strip()[:30]}` has no `;`.")


class QasmReader:
    """Reads the statements of a file."""

    def __init__(self) -> None:
        self.builder = ReversibleNetlistBuilder()
        self.registers: dict[str, list[str]] = {}
        self.bits: dict[str, list[str]] = {}
        self.definitions: dict[str, GateDefinition] = {}
        self.measured: dict[str, str] = {}
        self.touched: set[str] = set()
        self.zeros: set[str] = set()
        self.todo: list[tuple[list[Control], str, list[str]]] = []
        self.calls = 0

    def read_statement(self, number: int, words: str) -> None:
        """Reads a statement."""
        keyword = (re.match(r"\w+", words) or [""])[0]
        if keyword in ("OPENQASM", "include", "barrier"):
            return
        if (register := REGISTER_PATTERN.match(words)) is not None:
            self.add_register(number, register)
        elif (definition := DEFINITION_PATTERN.match(words)) is not None:
            self.define_gate(number, definition)
        elif (measure := MEASUREMENT_PATTERN.match(words)) is not None:
            self.note_measurement(number, measure[1] or measure[4], measure[2] or measure[3])
        elif keyword == "reset":
            self.read_reset(number, words[5:].strip())
        elif (call := CALL_PATTERN.match(words)) is not None and "{" not in words:
            self.add_broadcast_calls(number, call)
        else:
            raise NetlistError(f"Line {number}: `{words[:40]}` is no statement that bits can follow.")

    def add_register(self, number: int, found: re.Match[str]) -> None:
        """Adds the lines of a quantum register, or a register of bits."""
        kind, name, size = found[1] or found[4], found[2] or found[6], found[3] or found[5]
        if name in self.registers or name in self.bits:
            raise NetlistError(f"Line {number}: `{name}` is declared twice.")
        if int(size or 1) + sum(map(len, self.registers.values())) > MAX_PORTS:
            raise NetlistError(f"Line {number}: a circuit has at most {MAX_PORTS} wires.")
        names = [name] if size is None else [f"{name}[{index}]" for index in range(int(size))]
        (self.registers if kind in ("qreg", "qubit") else self.bits)[name] = names

    def define_gate(self, number: int, found: re.Match[str]) -> None:
        """Notes the definition of a gate."""
        name, arguments = found[1], [word.strip() for word in found[3].split(",")]
        if found[2] and found[2][1:-1].strip():
            raise NetlistError(f"Line {number}: the gate `{name}` has an angle, and no bits can compute it.")
        if len(self.definitions) >= MAX_DEFINITIONS:
            raise NetlistError(f"Line {number}: more than {MAX_DEFINITIONS} gates are defined.")
        self.definitions[name] = GateDefinition(arguments, list(numbered_statements(found[4], number)))

    def elements_of_operands(self, number: int, words: str, registers: dict[str, list[str]]) -> list[list[str]]:
        """Returns the elements of each operand."""
        result = []
        for word in words.split(","):
            found = OPERAND_PATTERN.match(word.strip())
            names = registers.get(found[1]) if found else None
            if found is None or names is None:
                raise NetlistError(f"Line {number}: `{word.strip()[:40]}` is no register.")
            if found[2] is not None and int(found[2]) >= len(names):
                raise NetlistError(f"Line {number}: `{word.strip()}` is beyond the {len(names)} of its register.")
            result.append(names if found[2] is None else [names[int(found[2])]])
        return result

    def note_measurement(self, number: int, qubits: str, bits: str) -> None:
        """Notes the bits that hold lines at the end."""
        [lines] = self.elements_of_operands(number, qubits, self.registers)
        [names] = self.elements_of_operands(number, bits, self.bits)
        if len(lines) != len(names):
            raise NetlistError(f"Line {number}: {len(lines)} qubits and {len(names)} bits.")
        self.measured.update(zip(lines, names))

    def read_reset(self, number: int, words: str) -> None:
        """Makes lines constants 0, before any gate acts on them."""
        for line in [line for lines in self.elements_of_operands(number, words, self.registers) for line in lines]:
            if line in self.touched:
                raise NetlistError(f"Line {number}: `reset` of `{line}` after a gate loses its bit, which no "
                                   "reversible gate does.")
            self.zeros.add(line)

    def add_broadcast_calls(self, number: int, found: re.Match[str]) -> None:
        """Adds a call, for each place of registers that are named as a whole."""
        operands = self.elements_of_operands(number, found[4], self.registers)
        sizes = {len(lines) for lines in operands if len(lines) > 1}
        if len(sizes) > 1:
            raise NetlistError(f"Line {number}: the registers have {' and '.join(map(str, sorted(sizes)))} elements.")
        for place in range(max(sizes, default=1)):
            lines = [lines[place if len(lines) > 1 else 0] for lines in operands]
            self.add_call(number, (found[1], found[2], found[3] or ""), lines, 0)

    def add_call(self, number: int, gate: tuple[str, str, str], lines: list[str], depth: int) -> None:
        """Adds a call of a gate on lines."""
        modifiers, name, angles = gate
        late = next((line for line in lines if line in self.measured), None)
        if late is not None:
            raise NetlistError(f"Line {number}: a gate acts on `{late}` after it was measured.")
        self.calls += 1
        if depth > MAX_CALL_DEPTH or self.calls > MAX_CALLS:
            raise NetlistError(f"Line {number}: the definitions of gates call too many others.")
        require_distinct_lines(number, lines)
        controls: list[Control] = []
        for is_negative, count in CONTROL_MODIFIER_PATTERN.findall(modifiers):
            taken, lines = lines[:int(count or 1)], lines[int(count or 1):]
            controls += [(line, not is_negative) for line in taken]
        if name in self.definitions and not controls:
            self.add_definition_calls(number, self.definitions[name], lines, depth)
        else:
            self.add_gate(number, name, controls, lines, bool(angles.strip("() ")))

    def add_definition_calls(self, number: int, definition: GateDefinition, lines: list[str], depth: int) -> None:
        """Adds the calls of a gate's definition."""
        if len(lines) != len(definition.arguments):
            raise NetlistError(f"Line {number}: the gate takes {len(definition.arguments)} qubits, and {len(lines)} "
                               "are named.")
        names = dict(zip(definition.arguments, lines))
        for inner, words in definition.body:
            found = CALL_PATTERN.match(words)
            if words.startswith("barrier"):
                continue
            arguments = [word.strip() for word in found[4].split(",")] if found else []
            if found is None or any(word not in names for word in arguments):
                raise NetlistError(f"Line {inner}: `{words[:40]}` is no call of a gate on the arguments.")
            self.add_call(inner, (found[1], found[2], found[3] or ""), [names[word] for word in arguments], depth + 1)

    def add_gate(self, number: int, name: str, controls: list[Control], lines: list[str], has_angle: bool) -> None:
        """Adds a known gate with more controls."""
        own, targets = KNOWN_GATES.get(name, (len(lines) - 1, 1) if name in ("mcx", "mct") else (-1, 0))
        if own < 0 or has_angle:
            raise NetlistError(f"Line {number}: `{name}` is no gate that bits can follow. These are x, cx, ccx, c3x, "
                               "c4x, mcx, swap and cswap.")
        if len(lines) != own + targets or not lines:
            raise NetlistError(f"Line {number}: `{name}` takes {own + targets} qubits, and {len(lines)} are named.")
        self.touched.update(lines, (line for line, _ in controls))
        if name != "id":
            self.todo.append((controls + [(line, True) for line in lines[:own]], "swap" if targets == 2 else "x",
                              lines[own:]))

    def finish_netlist(self) -> ReversibleNetlist:
        """Returns the netlist. Without a measurement each qubit is an output."""
        for line in (line for lines in self.registers.values() for line in lines):
            if line in self.zeros:
                self.builder.add_constant(line, False)
            else:
                self.builder.add_input(line, line)
        if not self.builder.netlist.lines:
            raise NetlistError("The file declares no qubit.")
        for controls, kind, lines in self.todo:
            if kind == "swap":
                self.builder.add_swap(controls, lines[0], lines[1])
            else:
                self.builder.add_not(controls, lines[0])
        if len(set(self.measured.values())) != len(self.measured):
            raise NetlistError("Two qubits are measured into one bit.")
        ends = {line: self.measured.get(line) if self.measured else line for line in self.builder.netlist.lines}
        return self.builder.finish_netlist(ends)


def read_qasm(text: str) -> ReversibleNetlist:
    """Returns the netlist of an OpenQASM file. Raises NetlistError at the first statement that bits cannot follow."""
    reader = QasmReader()
    for number, words in numbered_statements(text):
        reader.read_statement(number, words)
    return reader.finish_netlist()
