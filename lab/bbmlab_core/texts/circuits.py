"""The circuit section: its values, its reader, and the tables of its wires."""

import random
from dataclasses import dataclass, field, replace
from functools import cached_property, partial
from typing import Any, Iterable, Sequence

from .gates import GATE_SIZES, INVERSE_GATES, TruthTable, gate_tables, input_tables
from .lines import SectionReader, TextLines, forms_by_keyword, later_kinds, match_line, section_text

MAX_DELAY = 4096
# The gates whose line has a number: the bit of a source, or the steps of a delay.
KINDS_WITH_PARAMETER = ("source", "delay")
KIND_ORDER = ["input", "gate", "output", "spill"]
LATER_KINDS = later_kinds(KIND_ORDER)


@dataclass(frozen=True)
class Gate:
    """A gate line. The parameter is the bit of a `source` or the steps of a `delay`.

    `number` is its place among the gates of its circuit, and `line` that in the text from which it was read, or 0.
    """

    kind: str
    ins: tuple[str, ...]
    outs: tuple[str, ...]
    parameter: int | None = None
    number: int = field(default=0, compare=False, repr=False)
    line: int = field(default=0, compare=False, repr=False)

    @property
    def is_inverse(self) -> bool:
        """Whether the gate turns back another one, and so has no row at some values."""
        return self.kind in INVERSE_GATES

    def __str__(self) -> str:
        """Writes the line."""
        parameter = () if self.parameter is None else (str(self.parameter),)
        return " ".join((self.kind, *parameter, *self.ins, "->", *self.outs))


def gate_from_values(kind: str, values: Sequence[Any], number: int = 0, line: int = 0) -> Gate:
    """Returns the gate of a line, by the values of the placeholders of its form."""
    parameter, names = (values[0], values[1:]) if kind in KINDS_WITH_PARAMETER else (None, values)
    count = GATE_SIZES[kind][0]
    return Gate(kind, tuple(names[:count]), tuple(names[count:]), parameter, number, line)


@dataclass(frozen=True)
class Circuit:
    """A circuit section."""

    inputs: tuple[str, ...] = ()
    gates: tuple[Gate, ...] = ()
    outputs: tuple[str, ...] = ()
    spills: tuple[str, ...] = ()

    def __post_init__(self) -> None:
        """Numbers the gates."""
        if any(gate.number != number for number, gate in enumerate(self.gates)):
            numbered = tuple(replace(gate, number=number) for number, gate in enumerate(self.gates))
            object.__setattr__(self, "gates", numbered)

    def input(self, *names: str) -> "Circuit":
        """Returns the circuit with more inputs."""
        return replace(self, inputs=(*self.inputs, *names))

    def gate(self, line: str) -> "Circuit":
        """Returns the circuit with one more gate, written as its line. Raises ValueError if it is no gate line."""
        found = match_line(line, CircuitReader.forms)
        if found is None or found[0] not in GATE_SIZES:
            raise ValueError(f"{line!r} is no line of a gate")
        return replace(self, gates=(*self.gates, gate_from_values(*found)))

    def output(self, *names: str) -> "Circuit":
        """Returns the circuit with more outputs."""
        return replace(self, outputs=(*self.outputs, *names))

    def spill(self, *names: str) -> "Circuit":
        """Returns the circuit with more spills."""
        return replace(self, spills=(*self.spills, *names))

    def __str__(self) -> str:
        """Writes the section."""
        return section_text(["circuit", *(f"input {name}" for name in self.inputs), *map(str, self.gates),
                             *(f"output {name}" for name in self.outputs), *(f"spill {name}" for name in self.spills)])

    @cached_property
    def wires(self) -> dict[str, int]:
        """The wires in order of definition, each with its place among them."""
        return {name: place for place, name in enumerate([*self.inputs, *(name for gate in self.gates
                                                                          for name in gate.outs)])}

    @cached_property
    def maker(self) -> dict[str, Gate]:
        """The gate that makes each wire but the inputs."""
        return {name: gate for gate in self.gates for name in gate.outs}

    def cone_inputs_and_gates(self, wires: Iterable[str],
                              stop_at: frozenset[str] = frozenset()) -> tuple[list[str], list[int]]:
        """Returns the free wires and the gates from which `wires` follow. Free are inputs and the wires of `stop_at`.
        """
        todo, free, used = list(wires), set(), set()
        while todo:
            wire = todo.pop()
            gate = self.maker.get(wire)
            if gate is None or wire in stop_at:
                free.add(wire)
            elif gate.number not in used:
                used.add(gate.number)
                todo += gate.ins
        return sorted(free, key=self.rank), sorted(used)

    def rank(self, wire: str) -> int:
        """Returns a key that sorts wires in order of definition."""
        return self.wires[wire]


@dataclass
class WireTables:
    """Tables of wires over assignments of some free wires, and where each gate has a row.

    A bit of a table is a column. If `is_all`, column A is assignment A, and there is one for each choice of the free
    wires. Else the columns are samples.
    """

    free: list[str]
    full: TruthTable
    tables: dict[str, TruthTable]
    # The columns at which each gate and all gates before it have a row.
    defined_columns_by_gate: dict[int, TruthTable]
    is_all: bool = True

    def true_free_wires(self, column: int) -> list[str]:
        """Returns the free wires that are true in a column."""
        return [name for name in self.free if self.tables[name] >> column & 1]

    @cached_property
    def defined_columns(self) -> TruthTable:
        """The columns at which all gates have a row."""
        defined = self.full
        for table in self.defined_columns_by_gate.values():
            defined &= table
        return defined

    @property
    def tried_choices_words(self) -> str:
        """In how many choices of the inputs something was tried, in words."""
        count = self.full.bit_length()
        if self.is_all:
            return "in the one choice of the inputs" if count == 1 else f"in all {count} choices of the inputs"
        return f"in {count} sampled choices of the inputs"


def evaluate_gates(circuit: Circuit, free: Sequence[str], gates: Iterable[int]) -> WireTables:
    """Returns the tables of the free wires and of the outputs of `gates`, in order of gates, over all assignments."""
    full = (1 << (1 << len(free))) - 1
    return evaluate_under_tables(circuit, dict(zip(free, input_tables(len(free)))), full, gates)


def evaluate_all(circuit: Circuit) -> WireTables:
    """Returns the tables of all wires in all choices of the inputs."""
    return evaluate_gates(circuit, circuit.inputs, range(len(circuit.gates)))


def evaluate_all_or_samples(circuit: Circuit, most_inputs: int, samples: int) -> WireTables:
    """Returns the tables of all wires in all choices of up to `most_inputs` inputs, or in samples if they are more."""
    return evaluate_all(circuit) if len(circuit.inputs) <= most_inputs else evaluate_samples(circuit, samples)


def sampled_tables(names: Sequence[str], count: int, first: Iterable[str] = (), seed: int = 1) -> dict[str, TruthTable]:
    """Returns a table for each of some free wires in `count` sampled choices of them. In the first choice those of
    `first` are on.

    Among the samples are all wires off, all on, and many with one wire on or one off. The others are random, some with
    many ones and some with few, so that wires that are seldom true or seldom false differ from constants.
    """
    chance, number, all_on = random.Random(seed), len(names), (1 << len(names)) - 1
    chosen = set(first)
    columns = [number_from_bits("1" if name in chosen else "0" for name in names), 0, all_on]
    some = range(number) if number <= count // 8 else sorted(chance.sample(range(number), count // 8))
    columns += [flip ^ 1 << index for index in some for flip in (0, all_on)]
    for index in range(count - len(columns)):
        share = (0.5, 0.5, 0.25, 0.75, 0.1, 0.9, 0.03, 0.97)[index % 8]
        columns.append(number_from_bits("1" if chance.random() < share else "0" for _ in range(number)))
    # The columns of a list of rows, by their digits: a shift for each bit would take quadratic time.
    rows = [f"{column:0{number}b}"[::-1] for column in columns]
    return dict(zip(names, map(number_from_bits, zip(*rows))))


def number_from_bits(bits: Iterable[str]) -> int:
    """Returns a number by its binary digits, from the lowest to the highest."""
    return int("".join(bits)[::-1] or "0", 2)


def evaluate_samples(circuit: Circuit, count: int, first: Iterable[str] = ()) -> WireTables:
    """Returns the tables of all wires in `count` sampled choices of the inputs.

    In the first choice the inputs of `first` are on.
    """
    tables = sampled_tables(circuit.inputs, count, first)
    values = evaluate_under_tables(circuit, tables, (1 << count) - 1, range(len(circuit.gates)))
    values.is_all = False
    return values


def evaluate_under_tables(circuit: Circuit, free: dict[str, TruthTable], full: TruthTable,
                          gates: Iterable[int]) -> WireTables:
    """Returns the tables of wires that follow from those of the free wires by `gates`, in order of gates.

    `full` has all columns.
    """
    tables = dict(free)
    defined, rows = full, {}
    for number in gates:
        gate = circuit.gates[number]
        outs, has_row = gate_tables(gate.kind, gate.parameter, [tables[name] for name in gate.ins], full)
        defined &= has_row
        rows[number] = defined
        tables.update((name, table & defined) for name, table in zip(gate.outs, outs))
    return WireTables(list(free), full, tables, rows)


def values_and_undefined_gate(circuit: Circuit, on: set[str]) -> tuple[dict[str, bool], int | None]:
    """Returns the value of each wire under one assignment, and the first gate without a row, behind which there are
    none."""
    values = {name: name in on for name in circuit.inputs}
    for gate in circuit.gates:
        outs, has_row = gate_tables(gate.kind, gate.parameter, [int(values[name]) for name in gate.ins], 1)
        if not has_row:
            return values, gate.number
        values.update((name, bool(table)) for name, table in zip(gate.outs, outs))
    return values, None


class CircuitReader(SectionReader):
    """Reads a circuit section."""

    name = "circuit"

    def __init__(self, lines: TextLines) -> None:
        super().__init__(lines)
        self.inputs: list[str] = []
        self.gates: list[Gate] = []
        self.outputs: list[str] = []
        self.spills: list[str] = []
        # The line at which each wire is defined, and the one at which it is consumed.
        self.defined: dict[str, int] = {}
        self.consumed: dict[str, int] = {}

    def section_so_far(self) -> Circuit:
        """Returns the circuit, of a text that is refused what came before."""
        return Circuit(tuple(self.inputs), tuple(self.gates), tuple(self.outputs), tuple(self.spills))

    def read_input(self, name: str) -> None:
        """Reads a line `input`."""
        self.require_kind_order("input", LATER_KINDS)
        self.require_wire_room([name])
        self.define_wires([name])
        self.inputs.append(name)

    def read_output(self, name: str) -> None:
        """Reads a line `output`."""
        self.require_kind_order("output", LATER_KINDS)
        self.consume_wires([name])
        self.outputs.append(name)

    def read_spill(self, name: str) -> None:
        """Reads a line `spill`."""
        self.consume_wires([name])
        self.spills.append(name)

    def read_gate(self, *values: Any, kind: str) -> None:
        """Reads a gate line of any kind."""
        self.require_kind_order("gate", LATER_KINDS)
        gate = gate_from_values(kind, values, len(self.gates), self.lines.taken)
        if kind == "delay" and not 1 <= (gate.parameter or 0) <= MAX_DELAY:
            self.lines.refuse(2, "delay_limit", number=gate.parameter)
        self.require_wire_room(gate.outs)
        if len(self.gates) == self.lines.limits.max_gates:
            self.lines.refuse(2, "gate_count", limits=self.lines.limits)
        self.consume_wires(gate.ins)
        self.define_wires(gate.outs)
        self.gates.append(gate)
        self.kind_lines["gate"] = self.lines.taken

    def read_end(self) -> None:
        """Reads the line `end`, at which each wire is consumed."""
        unused = [name for name in self.defined if name not in self.consumed]
        if unused:
            self.lines.refuse(11, "wire_not_consumed", names=unused, defined=dict(self.defined))

    def require_wire_room(self, outs: Sequence[str]) -> None:
        """Refuses the line that would pass the limit of wires."""
        if len(self.defined) + len(outs) > self.lines.limits.max_wires:
            self.lines.refuse(2, "wire_count", limits=self.lines.limits)

    def consume_wires(self, names: Iterable[str]) -> None:
        """Consumes wires from the left, each of which is defined and not yet consumed."""
        for name in names:
            if name not in self.defined:
                self.lines.refuse(3, "wire_not_defined", name=name, known=list(self.defined))
            if name in self.consumed:
                self.lines.refuse(5, "wire_consumed", name=name, at=self.consumed[name])
            self.consumed[name] = self.lines.taken

    def define_wires(self, names: Iterable[str]) -> None:
        """Defines wires from the left, none of which is defined yet."""
        for name in names:
            if name in self.defined:
                self.lines.refuse(4, "wire_defined", name=name, at=self.defined[name])
            self.defined[name] = self.lines.taken

    readers = {
        "circuit": SectionReader.read_line_without_values, "input NAME": read_input,
        "source BIT -> NAME": partial(read_gate, kind="source"),
        "fredkin A B C -> D E F": partial(read_gate, kind="fredkin"),
        "cswap A B C -> D E F": partial(read_gate, kind="cswap"),
        "interact A B -> C D E F": partial(read_gate, kind="interact"),
        "switch A B -> C D E": partial(read_gate, kind="switch"),
        "delay N A -> B": partial(read_gate, kind="delay"),
        "unswitch A B C -> D E": partial(read_gate, kind="unswitch"),
        "uninteract A B C D -> E F": partial(read_gate, kind="uninteract"),
        "output NAME": read_output, "spill NAME": read_spill, "end": read_end}
    forms = forms_by_keyword(*readers)
