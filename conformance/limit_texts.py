"""Texts at each limit of docs/FORMATS.md and one beyond it, made when they are asked for.

LIMITS lists the limits. `text_of` makes the text for one value of a limit, with the line `limits 2` or without it. No
number here comes from a program: `tools/oracle/make_limit_answers.py` compares what the plain Python programs answer
with the table of limits.
"""
from collections.abc import Callable, Iterable, Iterator
from dataclasses import dataclass
from typing import NamedTuple

FRONT_LINE = "limits 2"
Lines = Iterable[str]


class Value(NamedTuple):
    """A value of a limit, and the largest side of a layout in the kind of text that it is for."""

    number: int
    side: int


@dataclass(frozen=True)
class Limit:
    """A limit: its last value without the line and with it, the text for a value, and the commands that read it.

    `step` leads from the last value to the next one. A `huge` text takes hundreds of MiB at the larger last value.
    """

    name: str
    first: int
    second: int
    make: Callable[[Value], Lines]
    commands: tuple[str, ...]
    step: int = 1
    huge: bool = False

    def values(self) -> list[int]:
        """Returns the last values and those one beyond."""
        return sorted({self.first, self.first + self.step, self.second, self.second + self.step})


BUNDLE = ("check", "modules", "migrate")
SIDES = {False: 512, True: 4096}
BOX_SIDE = 64


# ---- parts of texts

def numbered(letter: str, count: int) -> list[str]:
    """Returns names with a letter and a number."""
    return [f"{letter}{number}" for number in range(count)]


def bundle(circuit: Lines, layout: Lines, certificate: Lines, version: int = 2) -> Iterator[str]:
    """Yields the lines of a bundle from those between the headers and ends of its sections. The layout has its header.
    """
    yield from ("circuit", *circuit, "end")
    yield from layout
    yield from ("end", f"certificate {version}")
    yield from certificate
    yield "end"


def spans(length: int, most: int) -> Iterator[tuple[int, int]]:
    """Yields the first number and the length of pieces of a length, each as long as it may be."""
    for first in range(0, length, most):
        yield first, min(most, length - first)


def boxes(width: int, height: int, most: int = BOX_SIDE) -> Iterator[str]:
    """Yields modules that cover a layout, as large as they may be."""
    for y, h in spans(height, most):
        for x, w in spans(width, most):
            yield f"module {x} {y} {w} {h}"


def one_module(width: int, height: int, circuit: Lines, lines: Lines, steps: int = 0) -> Iterator[str]:
    """Yields a bundle with one module, the whole layout, and these lines in it."""
    return bundle(circuit, [f"layout {width} {height} {steps}"], [f"module 0 0 {width} {height}", *lines])


def run_of(header: str, parts: Lines = ()) -> Iterator[str]:
    """Yields a layout and an assign section without names."""
    yield header
    yield from parts
    yield from ("end", "assign", "end")


# ---- layouts

def width(value: Value) -> Lines:
    """A layout that is so wide, with a ball in its last column."""
    return run_of(f"layout {value.number} 2 0", [f"ball {value.number - 1} 1"])


def height(value: Value) -> Lines:
    """The same with the height."""
    return run_of(f"layout 2 {value.number} 0", [f"ball 1 {value.number - 1}"])


def bundle_width(value: Value) -> Lines:
    """A bundle whose layout is so wide, with a line at the border of the last two modules."""
    last = (value.number - 1) // BOX_SIDE * BOX_SIDE
    return bundle([], [f"layout {value.number} 6 2", f"mirror {last - 1} 2 2 2"],
                  mirror_lines(value.number, 6, (last, 2), across=True), 1)


def bundle_height(value: Value) -> Lines:
    """The same with the height."""
    last = (value.number - 1) // BOX_SIDE * BOX_SIDE
    return bundle([], [f"layout 6 {value.number} 2", f"mirror 2 {last - 1} 2 2"],
                  mirror_lines(6, value.number, (2, last), across=False), 1)


def mirror_lines(w: int, h: int, cell: tuple[int, int], across: bool) -> Iterator[str]:
    """Yields modules, and the lines of a mirror of two by two over the border of the last two, whose second part begins
    at this cell."""
    x, y = cell
    before = [(x - 1, y), (x - 1, y + 1)] if across else [(x, y - 1), (x + 1, y - 1)]
    behind = [(x, y), (x, y + 1)] if across else [(x, y), (x + 1, y)]
    places = list(boxes(w, h))
    for number, place in enumerate(places):
        yield place
        if number >= len(places) - 2:
            ends = (before, behind) if number == len(places) - 2 else (behind, before)
            for kind, cells in zip(("edge", "halo"), ends):
                yield from (f"{kind} * {u} {v} 1" for u, v in cells)


def square(value: Value) -> Lines:
    """A bundle whose layout has this width and height."""
    return bundle([], [f"layout {value.number} {value.number} 1"], boxes(value.number, value.number))


def mirror_width(value: Value) -> Lines:
    """A mirror that is so wide, in the widest layout of the text."""
    return run_of(f"layout {value.side} 2 0", [f"mirror 0 1 {value.number} 1"])


def mirror_height(value: Value) -> Lines:
    """The same with the height."""
    return run_of(f"layout 2 {value.side} 0", [f"mirror 1 0 1 {value.number}"])


def mirror_beyond(value: Value) -> Lines:
    """A mirror that is so wide, one column of which is outside the widest layout of the text."""
    return run_of(f"layout {value.side} 2 0", [f"mirror {max(value.side - value.number + 1, 0)} 1 {value.number} 1"])


def steps_of_run(value: Value) -> Lines:
    """A ball between two mirrors, for so many steps."""
    return run_of(f"layout 16 16 {value.number}", ["mirror 3 4 2 2", "mirror 11 10 2 2", "ball 6 6"])


def steps_of_bundle(value: Value) -> Lines:
    """Two modules with a stop at the last time, and an edge line at the last odd time."""
    odd = value.number - 1 - value.number % 2
    lines = ["use 0", f"edge {odd} 1 2 z", f"stop {value.number} z 1 1", "module 2 0 2 4", "use 0"]
    return bundle(["source 0 -> z", "spill z"], [f"layout 4 4 {value.number}"], ["module 0 0 2 4", *lines])


def stop_time(value: Value) -> Lines:
    """A stop at such a time, in a layout of the most steps that the text may have."""
    steps = 65_536 if value.side == SIDES[False] else 1_048_576
    return one_module(2, 2, ["source 0 -> z", "spill z"], ["use 0", f"stop {value.number} z 1 1"], steps)


def edge_time(value: Value) -> Lines:
    """An edge line one time before, in such a layout."""
    steps = 65_536 if value.side == SIDES[False] else 1_048_576
    lines = ["module 0 0 2 4", "use 0", f"edge {value.number - 1} 1 2 z", "module 2 0 2 4", "use 0"]
    return bundle(["source 0 -> z", "spill z"], [f"layout 4 4 {steps}"], lines)


# ---- circuits

def assigned(lines: Lines) -> Iterator[str]:
    """Yields a circuit and an assign section without names."""
    yield from ("circuit", *lines, "end", "assign", "end")


def wires(value: Value) -> Lines:
    """So many inputs, which are outputs too."""
    names = numbered("w", value.number)
    return assigned([*(f"input {name}" for name in names), *(f"output {name}" for name in names)])


def wires_by_a_gate(value: Value) -> Lines:
    """The same, of which a gate makes the last four."""
    names, made = numbered("w", value.number - 4), numbered("g", 4)
    free = names[2:] + made
    return assigned([*(f"input {name}" for name in names), f"interact w0 w1 -> {' '.join(made)}",
                     *(f"output {name}" for name in free)])


def forked(inputs: list[str], count: int) -> tuple[list[str], list[str]]:
    """Returns so many gates that make four wires of two, and the wires that are free behind them, in order of
    definition."""
    gates, free, first = [], list(inputs), 0
    for number in range(count):
        made = [f"g{number}_{place}" for place in range(4)]
        gates.append(f"interact {free[first]} {free[first + 1]} -> {' '.join(made)}")
        free += made
        first += 2
    return gates, free[first:]


def wires_of_bundle(value: Value) -> Lines:
    """So many wires by gates that make four, and a module that uses the last gate."""
    count = (value.number - 4) // 4
    inputs = numbered("i", value.number - 4 * count)
    gates, free = forked(inputs, count)
    cuts = gates[-1].split(" ")[1:3]
    circuit = [*(f"input {name}" for name in inputs), *gates, *(f"spill {name}" for name in free)]
    ports = [f"in {name} {2 * number} 0" for number, name in enumerate(inputs)]
    known = [f"cut {name}" for name in dict.fromkeys([*inputs, *cuts])]
    waste = [f"waste {2 * number} 0" for number in range(len(inputs))]
    return bundle(circuit, ["layout 16 2 0", *ports, *waste], ["module 0 0 16 2", *known, f"use {count - 1}"])


def gates(value: Value) -> Lines:
    """So many gates, each a source."""
    names = numbered("g", value.number)
    return assigned([*(f"source {number % 2} -> {name}" for number, name in enumerate(names)),
                     *(f"output {name}" for name in names)])


def gates_in_a_row(value: Value) -> Lines:
    """An input, and so many delays in a row."""
    names = numbered("g", value.number + 1)
    row = [f"delay {1 + number % 4096} {name} -> {following}" for number,
           (name, following) in enumerate(zip(names, names[1:]))]
    return assigned(["input g0", *row, f"output {names[-1]}"])


def gates_of_bundle(value: Value) -> Lines:
    """So many gates, of which a module keeps the last one."""
    return one_module(2, 2, kept_gates(value.number), kept_lines(value.number - 1))


def gate_beyond(value: Value) -> Lines:
    """A module that uses the last gate and the one after it, which is none."""
    last = value.number - 1
    sources = numbered("s", value.number)
    circuit = [*(f"source 0 -> {name}" for name in sources), *(f"spill {name}" for name in sources)]
    return one_module(2, 2, circuit, [f"use {last}", f"use {last + 1}"])


def kept_gates(count: int) -> list[str]:
    """Returns a circuit of so many gates, the last of which is an inverse gate."""
    sources = numbered("s", count - 1)
    return [*(f"source 0 -> {name}" for name in sources), f"unswitch {' '.join(sources[-3:])} -> d x",
            *(f"spill {name}" for name in [*sources[:-3], "d", "x"])]


def kept_lines(last: int) -> list[str]:
    """Returns the lines of a module that keeps the last gate."""
    return [*(f"use {number}" for number in range(last - 3, last + 1)), f"keep {last}"]


def wire_twice(value: Value) -> Lines:
    """So many inputs, the last of which has the first one's name."""
    return assigned(f"input {name}" for name in [*numbered("w", value.number - 1), "w0"])


def gate_of_unknown(value: Value) -> Lines:
    """So many gates, the last of which takes a wire that is not there."""
    return assigned([*(f"source 0 -> {name}" for name in numbered("g", value.number - 1)), "delay 1 z -> y"])


def delay(value: Value) -> Lines:
    """A delay of so many steps."""
    return assigned(["input a", f"delay {value.number} a -> b", "output b"])


# ---- certificates

def modules(value: Value) -> Lines:
    """So many modules of two by two, but for as many of four by two as fill the last rows."""
    rows, places = small_boxes(value.number)
    return bundle([], [f"layout 512 {2 * rows} 1"], places)


def small_boxes(count: int) -> tuple[int, list[str]]:
    """Returns so many modules that cover so many rows of 256 boxes of two by two, and the rows."""
    rows = -(-count // 256)
    doubles = 256 * rows - count
    cells = [(2 * (number % 256), 2 * (number // 256)) for number in range(256 * rows)]
    places = [f"module {x} {y} 4 2" for x, y in cells[:2 * doubles:2]] + [f"module {x} {y} 2 2" for x,
                                                                          y in cells[2 * doubles:]]
    return rows, places


def module_over_another(value: Value) -> Lines:
    """So many modules, the last of which lies over the first."""
    _, places = small_boxes(value.number - 1)
    return bundle([], ["layout 512 512 1"], [*places, places[0]])


def module_without_a_wire(value: Value) -> Lines:
    """So many modules, the last of which doesn't know the wire of its port, and one more."""
    rows, places = small_boxes(value.number)
    port = f"510 {2 * rows - 1}"
    return bundle(["input a", "output a"], [f"layout 512 {2 * rows} 1", f"in a {port}", f"out a {port}"],
                  [*places, places[0]])


def box_width(value: Value) -> Lines:
    """A module that is so wide."""
    return one_module(value.number, 2, [], [])


def box_height(value: Value) -> Lines:
    """A module that is so high."""
    return one_module(2, value.number, [], [])


def cuts(value: Value) -> Lines:
    """So many cuts of a module."""
    names = numbered("c", value.number)
    sources = [*(f"source 0 -> {name}" for name in names), *(f"spill {name}" for name in names)]
    return one_module(2, 2, sources, [f"cut {name}" for name in names])


def uses(value: Value) -> Lines:
    """So many gates that a module uses."""
    names = numbered("c", value.number)
    sources = [*(f"source 0 -> {name}" for name in names), *(f"spill {name}" for name in names)]
    return one_module(2, 2, sources, [f"use {number}" for number in range(value.number)])


def module_lines(value: Value) -> Lines:
    """So many edge, halo and stop lines of a module. All say that a cell is dead."""
    edges = [f"edge {2 * (number // 32) + 1} {32 + number % 32} 32 z" for number in range(65_000)]
    halos = [f"halo {2 * (number // 32) + 1} {32 + number % 32} 31 z" for number in range(500)]
    ends = [f"stop {number} z 40 40" for number in range(value.number - 65_500)]
    middle = ["module 32 32 32 32", "use 0", *edges, *halos, *ends]
    others = [f"module {x} {y} 32 32" for y in (0, 32, 64) for x in (0, 32, 64) if (x, y) != (32, 32)]
    return bundle(["source 0 -> z", "spill z"], ["layout 96 96 4096"], [*middle, *others], 1)


# ---- words

def name_length(value: Value) -> Lines:
    """A name of so many bytes."""
    name = "n" * value.number
    return assigned([f"input {name}", f"output {name}"])


def digits(value: Value) -> Lines:
    """A number of so many digits."""
    return run_of("layout 2 2 0", [f"ball {'9' * value.number} 0"])


# ---- bytes

def front_bytes(value: Value) -> int:
    """Returns how many bytes of a text come before its first section."""
    return len(FRONT_LINE) + 1 if value.side == SIDES[True] else 0


def ports(side: int) -> Iterator[str]:
    """Yields the lines of input and output cells, one after another, each with a hole for its name."""
    return (f"{word} %s {x} {y}" for word in ("in", "out") for y in range(side) for x in range(side))


def text_bytes(value: Value) -> Lines:
    """A layout of cells with long names, so many bytes long with its assign section and the line in front of it, if it
    has one."""
    begin, end = f"layout {value.side} {value.side} 0", ["end", "assign", "end"]
    room = value.number - front_bytes(value) - sum(len(line) + 1 for line in [begin, *end])
    yield begin
    longest, lines = 32, ports(value.side)
    for line in lines:
        size = len(line) - 1 + longest
        if room < 3 * size:
            break
        yield line % ("a" * longest)
        room -= size
    for count, line in zip((3, 2, 1), lines):
        # the last three lines share what is left
        length = room // count - len(line) + 1
        assert 1 <= length <= longest, length
        yield line % ("b" * length)
        room -= len(line) - 1 + length
    yield from end


def one_line(value: Value) -> Lines:
    """One line, so many bytes long with the line in front of it, if it has one."""
    return ["a" * (value.number - 1 - front_bytes(value))]


def nearly_front(value: Value) -> Lines:
    """The same with a line that begins as `limits 2` and goes on."""
    begin = f"{FRONT_LINE} "
    return [begin + "a" * (value.number - 1 - len(begin) - front_bytes(value))]


LIMITS = [
    Limit("width", 512, 4096, width, ("run",), 2),
    Limit("height", 512, 4096, height, ("run",), 2),
    Limit("bundle_width", 512, 4096, bundle_width, BUNDLE, 2),
    Limit("bundle_height", 512, 4096, bundle_height, BUNDLE, 2),
    Limit("square", 512, 4096, square, BUNDLE, 2),
    Limit("mirror_width", 512, 4096, mirror_width, ("run",)),
    Limit("mirror_height", 512, 4096, mirror_height, ("run",)),
    Limit("mirror_beyond", 512, 4096, mirror_beyond, ("run",)),
    Limit("steps_of_run", 65_536, 1_048_576, steps_of_run, ("run",)),
    Limit("steps_of_bundle", 65_536, 1_048_576, steps_of_bundle, BUNDLE),
    Limit("stop_time", 65_536, 1_048_576, stop_time, BUNDLE),
    Limit("edge_time", 65_536, 1_048_576, edge_time, BUNDLE, 2),
    Limit("wires", 4096, 65_000, wires, ("value",)),
    Limit("wires_by_a_gate", 4096, 65_000, wires_by_a_gate, ("value",)),
    Limit("wires_of_bundle", 4096, 65_000, wires_of_bundle, BUNDLE),
    Limit("gates", 1024, 16_384, gates, ("value",)),
    Limit("gates_in_a_row", 1024, 16_384, gates_in_a_row, ("value",)),
    Limit("gates_of_bundle", 1024, 16_384, gates_of_bundle, BUNDLE),
    Limit("gate_beyond", 1024, 16_384, gate_beyond, ("check",)),
    Limit("modules", 1024, 65_536, modules, BUNDLE),
    # the order of the tests on the line that is over the limit
    Limit("wire_twice", 4096, 65_000, wire_twice, ("value",)),
    Limit("gate_of_unknown", 1024, 16_384, gate_of_unknown, ("value",)),
    Limit("module_over_another", 1024, 65_536, module_over_another, ("check",)),
    Limit("module_without_a_wire", 1024, 65_536, module_without_a_wire, ("check",)),
    Limit("text_bytes", 16_777_216, 268_435_456, text_bytes, ("run",), huge=True),
    Limit("one_line", 16_777_216, 268_435_456, one_line, ("run", "value", *BUNDLE), huge=True),
    Limit("nearly_front", 16_777_216, 268_435_456, nearly_front, ("check",), huge=True),
    # limits that the line does not change
    Limit("delay", 4096, 4096, delay, ("value",)),
    Limit("box_width", 64, 64, box_width, ("check",), 2),
    Limit("box_height", 64, 64, box_height, ("check",), 2),
    Limit("cuts", 12, 12, cuts, ("check",)),
    Limit("uses", 64, 64, uses, ("check",)),
    Limit("module_lines", 65_536, 65_536, module_lines, BUNDLE),
    Limit("name_length", 32, 32, name_length, ("value",)),
    Limit("digits", 9, 9, digits, ("run",)),
]


def text_of(limit: Limit, number: int, has_front: bool) -> bytes:
    """Makes the text for a value of a limit."""
    lines = limit.make(Value(number, SIDES[has_front]))
    front = [FRONT_LINE] if has_front else []
    return "".join(f"{line}\n" for part in (front, lines) for line in part).encode()
