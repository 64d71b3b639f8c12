#!/usr/bin/env python3
"""make_hostile.py KIND [half|full|half_2|full_2] > text, or make_hostile.py --list

Writes a text that costs as much as it can for its size, at half its size or (left out) at its full one. The last two
sizes begin with the line `limits 2`: 256 MiB, or the largest count of what makes the text costly. It is the same text
each time. Nothing here depends on the program's output. `bench/README.md` says what each text costs. Each kind is one
function below, with the commands that read its text.
"""
import random
import sys
from collections.abc import Iterable, Iterator
from dataclasses import dataclass

MASK = (1 << 64) - 1
LETTERS = b"abcdefghijklmnopqrstuvwxyz0123456789_"


Lines = Iterable[str]


@dataclass(frozen=True)
class Scale:
    """The size of a text: whose limits it reaches, and whether it is half a text."""

    is_second: bool
    is_half: bool

    @property
    def longest(self) -> int:
        return self.of(16 << 20, 256 << 20)

    @property
    def side(self) -> int:
        return 4096 if self.is_second else 512

    @property
    def height(self) -> int:
        return self.of(512, 4096)

    def of(self, first: int, second: int) -> int:
        """Returns the number for these limits, or half of it for half a text."""
        number = second if self.is_second else first
        return number // 2 if self.is_half else number

    def fixed(self, first: int, second: int) -> int:
        """Returns the number for these limits, for half a text too."""
        return second if self.is_second else first

    def begin(self) -> Lines:
        """Returns the line in front of the text, if it has one."""
        return ["limits 2"] if self.is_second else []


SCALES = {"half": Scale(False, True), "full": Scale(False, False), "half_2": Scale(True, True),
          "full_2": Scale(True, False)}


def joined(*parts: Lines) -> Iterator[str]:
    """Yields the text of some parts, each of which is some lines."""
    return (line + "\n" for part in parts for line in part)


def cells(w, h):
    return ((x, y) for y in range(h) for x in range(w))


def boxes(w, h, a, b):
    return ((x, y, a, b) for y in range(0, h, b) for x in range(0, w, a))


def bundle(scale, layout, parts, modules, circuit=(), version=1):
    middle = ["end", "layout %d %d %d" % layout]
    return joined(scale.begin(), ["circuit"], circuit, middle, parts, ["end", f"certificate {version}"], modules,
                  ["end"])


def ring(x, y, w, h):
    return [(u, v) for v in range(y, y + h) for u in range(x, x + w) if u in (x, x + w - 1) or v in (y, y + h - 1)]


def edge_cells(w, h, box):
    return [(u, v) for u, v in ring(*box) if 0 < u < w - 1 and 0 < v < h - 1]


def halo_cells(w, h, box):
    x, y, a, b = box
    return [(u, v) for u, v in ring(x - 1, y - 1, a + 2, b + 2) if 0 <= u < w and 0 <= v < h]


def timed(kind, places, steps, most, signal):
    """The first lines of one kind for these cells, by time: at most so many."""
    most = min(most, len(places) * (steps // 2))
    return [f"{kind} {2 * (k // len(places)) + 1} {u} {v} {signal}" for k in range(most) for u,
            v in [places[k % len(places)]]]


def stops(places, most, name):
    """The first stop lines of a wire for these cells, by time from 0 on: at most so many."""
    return [f"stop {k // len(places)} {name} {u} {v}" for k in range(most) for u, v in [places[k % len(places)]]]


# ---- names and cells whose hashes fall together

def fold(a, b):
    product = a * b
    return (product & MASK) ^ (product >> 64)


START, FACTOR = 0x243F6A8885A308D3, 0x9E3779B97F4A7C15


def table_hash(state):
    return (state ^ state >> 32) & 0xFFFFFFFF


def alike_names(count, is_alike, length=8):
    """Names that a table with the kit's fixed hash would keep in few places: they differ in their last letters, and
    their hash, which takes a name byte by byte, is tested."""
    found, by = [], FACTOR ^ 2
    begun = fold(START ^ length, FACTOR ^ 16)
    last = [(letter, letter * 0x10101) for letter in LETTERS]
    number = 0
    while len(found) < count:
        head, rest = bytearray(b"a"), number
        for _ in range(length - 2):
            head.append(LETTERS[rest % 37])
            rest //= 37
        number += 1
        state = begun
        for letter in head:
            state = fold(state ^ letter * 0x10101, by)
        for letter, spread in last:
            product = (state ^ spread) * by
            if is_alike(table_hash((product & MASK) ^ (product >> 64))):
                found.append((head + bytes([letter])).decode())
    return found[:count]


def alike_cells(w, h, count):
    """Cells that a table with the kit's fixed hash would keep in few places: those with the least hashes by the table's
    own size."""
    groups = 1
    while 9 * groups < count:
        groups *= 2

    def place(cell):
        state = START
        for number in cell:
            state = fold(state ^ (number | number << 32), FACTOR ^ 8)
        return table_hash(state) & groups - 1

    return sorted(sorted(cells(w, h), key=place)[:count], key=lambda cell: cell[::-1])


# ---- run

def run_names(scale):
    """run: as many input cells as there are cells, each with a name of its own, all on."""
    height = scale.of(512, 992)
    return named_inputs(scale, height, lambda: (f"name_of_an_input__{k:06d}" for k in range(scale.side * height)))


def run_alike_names(scale):
    """run: the same with names whose hashes fall together."""
    height = scale.of(512, 256)
    names = alike_names(scale.side * height, lambda hashed: hashed & 0x7FFF < 512)
    return named_inputs(scale, height, lambda: names)


def named_inputs(scale, height, names):
    ins = (f"in {name} {x} {y}" for name, (x, y) in zip(names(), cells(scale.side, height)))
    head = "layout %d %d 0" % (scale.side, height)
    return joined(scale.begin(), [head], ins, ["end", "assign"], (f"on {name}" for name in names()), ["end"])


def run_ports(scale):
    """run: each cell an input and an output, with long names, and none on."""
    height = scale.of(512, 992)
    ins = (f"in i{k:07d} {x} {y}" for k, (x, y) in enumerate(cells(scale.side, height)))
    outs = (f"out name_of_an_output_{k:06d} {x} {y}" for k, (x, y) in enumerate(cells(scale.side, height)))
    return joined(scale.begin(), [f"layout {scale.side} {height} 4096"], ins, outs, ["end", "assign", "end"])


def run_mirrors(scale):
    """run: each cell but the corners a mirror of its own, and 4096 steps."""
    side, height = scale.side, scale.of(512, 3072)
    lines = (f"mirror {x} {y} 1 1" for x, y in cells(side, height) if x not in (0, side - 1)
             or y not in (0, height - 1))
    return joined(scale.begin(), [f"layout {side} {height} 4096"], lines, ["end", "assign", "end"])


def run_balls(scale):
    """run: balls in every other cell at random inside a wall, 4096 steps."""
    side, height, rng = scale.side, scale.height, random.Random(1984)
    walls = [(2, 1, side - 4, 2), (2, height - 3, side - 4, 2), (2, 3, 2, height - 6), (side - 4, 3, 2, height - 6)]
    balls = (f"ball {x} {y}" for y in range(3, height - 3) for x in range(4, side - 4) if rng.random() < 0.5)
    return joined(scale.begin(), [f"layout {side} {height} 4096"], ("mirror %d %d %d %d" % wall for wall in walls),
                  balls, ["end", "assign", "end"])


# ---- any command

def one_line(scale):
    """any: one line of the longest text."""
    front = [*joined(scale.begin())]
    return [*front, "a" * (scale.longest - 1 - sum(map(len, front))) + "\n"]


def spaces(scale):
    """any: the same of spaces, each of which ends a word."""
    front = [*joined(scale.begin())]
    return [*front, "input" + " " * (scale.longest - 6 - sum(map(len, front))) + "\n"]


# ---- value

def value_wide(scale):
    """value: as many inputs as there may be wires, with the longest names, all outputs and all on."""
    return wide_value(scale, long_names(scale, scale.of(4096, 65_000)))


def value_alike(scale):
    """value: the same with names whose hashes fall together, tags included."""
    return wide_value(scale, alike_wires(scale, scale.of(4096, 65_000)))


def long_names(scale, count):
    """Names of 32 bytes."""
    return [f"a_name_of_thirty_two_{k:011d}" if scale.is_second else f"a_name_of_thirty_two_bytes__{k:04d}"
            for k in range(count)]


def wide_value(scale, names):
    parts = ([f"{word} {name}" for name in names] for word in ("input", "output"))
    return joined(scale.begin(), ["circuit"], *parts, ["end", "assign"], [f"on {name}" for name in names], ["end"])


def alike_wires(scale, count):
    """Names whose hashes fall together; for the second limits without their tags, since so many take long to find."""
    return alike_names(count, lambda hashed: hashed & 0x1FF < 8 and (scale.is_second or hashed >> 24 == 0x55))


# ---- check and modules: reading, borders

def borders(scale):
    """check, migrate, modules: 15 MiB of lines at single times, for 64 modules of 64 by 64. A mirror lies over each
    border of two modules in a row, and is named at every odd time, so the verdict is yes. With `limits 2`, 250 MiB for
    4096 modules."""
    steps, width, height, side = scale.fixed(3800, 790), scale.side, scale.height, 64
    mirrors = ((x - 2, y + 21, 4, 2) for y in range(0, height, side) for x in range(side, width, side))

    def modules():
        for x, y, w, h in boxes(width, height, side, side):
            yield f"module {x} {y} {w} {h}"
            sides = [(x, x - 1)] * (x > 0) + [(x + w - 1, x + w)] * (x + w < width)
            for kind, which in (("edge", 0), ("halo", 1)):
                places = [(pair[which], row) for row in (y + 21, y + 22) for pair in sides]
                yield from timed(kind, places, steps, 65536, "1")

    return bundle(scale, (width, height, steps), ("mirror %d %d %d %d" % mirror for mirror in mirrors), modules())


def most_lines(scale):
    """check, migrate, modules: as many lines as 16 MiB have: short ones, for 1008 modules of 4 by 2.

    With `limits 2`, for 65,536.
    """
    w, h, steps = scale.fixed(96, 1024), scale.of(84, 512), scale.fixed(92, 19)

    def modules():
        for box in boxes(w, h, 4, 2):
            yield "module %d %d %d %d" % box
            for kind, places in (("edge", edge_cells(w, h, box)), ("halo", halo_cells(w, h, box))):
                yield from timed(kind, places, steps, 65536, "1")

    return bundle(scale, (w, h, steps), [], modules())


def neighbours(scale):
    """check: 12 modules of 64 by 64 with the most edge lines, each among 132 modules of 2 by 2, which all look at its
    lines. With `limits 2`, 204 such modules."""
    return among_small(scale, ["module %d %d %d %d"], "1")


def near_edges(scale):
    """check, migrate, modules: the same in version 2, with a wire that each module cuts."""
    return among_small(scale, ["module %d %d %d %d", "cut z"], "z", ["source 0 -> z", "spill z"], 2)


def among_small(scale, begin, signal, circuit=(), version=1):
    """Modules of 64 by 64 among ones of 2 by 2, each with these lines at its begin, and the most edge lines of each
    large one."""
    across, down, most = scale.fixed(4, 17), scale.fixed(3, 12), scale.of(65536, 65536)
    w, h, steps = 66 * across + 2, 66 * down + 2, 4096
    large = [(66 * i + 2, 66 * j + 2, 64, 64) for j in range(down) for i in range(across)]
    taken = {(x, y) for a, b, _, _ in large for y in range(b, b + 64, 2) for x in range(a, a + 64, 2)}
    small = [box for box in boxes(w, h, 2, 2) if box[:2] not in taken]

    def modules():
        for box in large + small:
            yield "\n".join(begin) % box
            if box[2] == 64:
                yield from timed("edge", edge_cells(w, h, box), steps, most, signal)

    return bundle(scale, (w, h, steps), [], modules(), circuit, version)


def most_edges(scale):
    """check, migrate, modules: as many edge lines of version 2 as 16 MiB have, of 1008 modules of 4 by 2 that all cut
    their wire. With `limits 2`, of 65,536."""
    w, h, steps = scale.fixed(96, 1024), scale.of(84, 512), scale.fixed(264, 48)

    def modules():
        for box in boxes(w, h, 4, 2):
            yield from ("module %d %d %d %d" % box, "cut z")
            yield from timed("edge", edge_cells(w, h, box), steps, 65536, "z")

    return bundle(scale, (w, h, steps), [], modules(), ["source 0 -> z", "spill z"], 2)


def stars(scale):
    """check: halo lines with a `*`, and edge lines that say the same at all odd times but the last."""
    steps, width, height, side, each = scale.fixed(4096, 1060), scale.side, scale.height, 64, 6

    def modules():
        for x, y, w, h in boxes(width, height, side, side):
            yield f"module {x} {y} {w} {h}"
            rows = range(y + 10, y + 10 + each)
            if 0 < x + w < width:
                yield from (f"edge {t} {x + w - 1} {row} 1" for t in range(1, steps - 2, 2) for row in rows)
            if x > 0:
                yield from (f"halo * {x - 1} {row} 1" for row in rows)

    return bundle(scale, (width, height, steps), [], modules())


def forked(names, sources):
    """A circuit with these wires: so many sources, and gates that make four wires of two."""
    circuit, free, first = [f"source 0 -> {name}" for name in names[:sources]], names[:sources], 0
    for k in range(sources, len(names), 4):
        circuit.append("interact %s %s -> %s %s %s %s" % (*free[first:first + 2], *names[k:k + 4]))
        free += names[k:k + 4]
        first += 2
    return circuit + [f"spill {name}" for name in free[first:]]


def cuts_and_uses(scale):
    """check, migrate, modules: the most modules with the most cuts and used gates, with long names."""
    names = long_names(scale, 22 + 4 * scale.fixed(1001, 16_244))
    cuts, uses = [f"cut {name}" for name in names[-26:-14]], [f"use {number}" for number in range(64)]
    height = scale.height
    modules = (line for box in boxes(scale.side, height, 16, 16) for line in ["module %d %d %d %d" % box, *cuts, *uses])
    return bundle(scale, (scale.side, height, 1), [], modules, forked(names, 22))


def one_wire_each(scale):
    """check, migrate, modules: the most modules and the most wires, of which each module cuts one: not the first ones.
    """
    names = [f"w{k}" for k in range(scale.fixed(4086, 64_998))]
    last, height = len(names) - 1, scale.height
    modules = (line for k, box in enumerate(boxes(scale.side, height, 16, 16))
               for line in ["module %d %d %d %d" % box, f"cut w{last - k % 1000}"])
    return bundle(scale, (scale.side, height, 1), [], modules, forked(names, 2))


def alike_lines(scale):
    """check, migrate, modules: 14 MiB of lines that name the last of 4086 wires, whose hashes fall together."""
    names = alike_wires(scale, scale.fixed(4086, 64_998))

    def modules():
        for box in boxes(scale.side, scale.height, 64, 64):
            yield from ("module %d %d %d %d" % box, f"cut {names[-1]}")
            yield from timed("edge", edge_cells(scale.side, scale.height, box), 4096, scale.fixed(9500, 2400),
                             names[-1])

    return bundle(scale, (scale.side, scale.height, 4096), [], modules(), forked(names, 2))


def most_stops(scale):
    """check, migrate, modules: the most stop lines of 16 modules, of a wire that is false at cells that are dead: a
    yes. The modules have 24 or 26 columns and rows, so that the lines are short. With `limits 2`, of 216 modules."""
    across, down = scale.fixed(4, 18), scale.of(4, 12)

    def modules():
        for (y, b), (x, a) in ((row, column) for row in pieces(down) for column in pieces(across)):
            yield from (f"module {x} {y} {a} {b}", "use 0")
            yield from stops([(x + u, y + v) for u, v in cells(a, b)], 65536, "z")

    return bundle(scale, (25 * across, 25 * down, 128), [], modules(), ["source 0 -> z", "spill z"])


def pieces(count):
    """So many pieces of a side, of 24 and 26 cells in turn: where each begins, and how long it is."""
    return [(25 * k - k % 2, 24 + 2 * (k % 2)) for k in range(count)]


def alike_stops(scale):
    """check, migrate, modules: the same as alike_lines with stop lines in place of edge lines."""
    names = alike_wires(scale, scale.fixed(4086, 64_998))

    def modules():
        for box in boxes(scale.side, scale.height, 64, 64):
            yield from ("module %d %d %d %d" % box, f"cut {names[-1]}")
            yield from stops(edge_cells(scale.side, scale.height, box), scale.fixed(9500, 2400), names[-1])

    return bundle(scale, (scale.side, scale.height, 4096), [], modules(), forked(names, 2))


def same_ports(side, height):
    """The lines of an input and an output of the same name at each cell."""
    return (f"{word} a {x} {y}" for word in ("in", "out") for x, y in cells(side, height))


def same_port(scale):
    """check, migrate, modules: each cell an input and an output of the same name."""
    height = scale.of(512, 2048)
    modules = (line for box in boxes(scale.side, height, 16, 16) for line in ["module %d %d %d %d" % box, "cut a"])
    return bundle(scale, (scale.side, height, 0), same_ports(scale.side, height), modules, ["input a", "output a"])


def most_memory(scale):
    """check, migrate, modules: the same, and border lines up to 16 MiB."""
    side, height = scale.side, scale.of(512, 1024)

    def modules():
        for box in boxes(side, height, 16, 16):
            yield from ("module %d %d %d %d" % box, "cut a")
            yield from timed("edge", edge_cells(side, height, box), 4096, scale.fixed(270, 200), "1")
            yield from timed("halo", halo_cells(side, height, box), 4096, scale.fixed(270, 200), "1")

    return bundle(scale, (side, height, 4096), same_ports(side, height), modules(), ["input a", "output a"])


def alike_places(scale):
    """check, migrate, modules: balls and waste cells whose hashes fall together."""
    side, height = scale.fixed(512, 2048), scale.of(512, 2048)
    chosen = alike_cells(side, height, side * height // 4)
    u, v = min(set(cells(side, height)) - set(chosen))
    parts = [f"ball {x} {y}" for x, y in chosen] + [f"in a {u} {v}",
                                                    f"out a {u} {v}"] + [f"waste {x} {y}" for x, y in chosen]
    modules = (line for box in boxes(side, height, 16, 16) for line in ["module %d %d %d %d" % box, "cut a"])
    return bundle(scale, (side, height, 0), parts, modules, ["input a", "output a"])


def many_modules(scale):
    """check, migrate, modules: the most modules without lines on the largest layout."""
    return bundle(scale, (scale.side, scale.height, 0), [],
                  ("module %d %d %d %d" % box for box in boxes(scale.side, scale.height, 16, 16)))


# ---- check: runs of modules

def unlike(w, box, is_second):
    """Waste cells that no other box of this size has, so that no two modules have one shape: two, or with the second
    limits up to 16."""
    x, y, a, b = box
    number = (y // b) * (w // a) + x // a
    if is_second:
        return [(x + bit, y) for bit in range(16) if number >> bit & 1]
    one, other = number % (a * b), (a * b - 1 - number // (a * b))
    return sorted({(x + one % a, y + one // a), (x + other % a, y + other // a)})


def runs_of(scale, height, side, steps, lines=0, cuts=10):
    """Modules of these sides that run to the end without a fault, with so many cuts, each of another shape; with so
    many lines each."""
    w, wires = scale.side, range(cuts)
    circuit = [*(f"source {k % 2} -> w{k}" for k in wires), "source 0 -> z", *(f"spill w{k}" for k in wires), "spill z"]
    wastes = sorted(cell for box in boxes(w, height, *side) for cell in unlike(w, box, scale.is_second))

    def modules():
        for box in boxes(w, height, *side):
            yield from ("module %d %d %d %d" % box, *(f"cut w{k}" for k in wires), f"use {cuts}")
            for kind, places in (("edge", edge_cells(w, height, box)), ("halo", halo_cells(w, height, box))):
                yield from timed(kind, places, steps, lines // 2, "z")

    return bundle(scale, (w, height, steps), (f"waste {x} {y}" for x, y in wastes), modules(), circuit)


def long_runs(scale):
    """check: 1024 modules of 64 by 4 cells, each of another shape, with ten cuts, that run for 4096 steps.

    With `limits 2`, 65,536 modules.
    """
    return runs_of(scale, scale.height, (64, 4), 4096)


def square_runs(scale):
    """check: the same of 64 modules of 64 by 64, or 4096."""
    return runs_of(scale, scale.height, (64, 64), 4096)


def flat_runs(scale):
    """check: the same of 1024 modules of 64 by 2, or 65,536, on half the layout."""
    return runs_of(scale, scale.height // 2, (64, 2), 4096)


def long_runs_with_lines(scale):
    """check: 1024 modules of 64 by 4, with ten cuts and 4096 steps, and 15 MiB of lines that are all dead.

    With `limits 2`, 65,536.
    """
    return runs_of(scale, scale.height, (64, 4), 4096, scale.fixed(830, 190))


CUTS = [f"w{k}" for k in range(12)]


def crowded(scale, steps, gates, parts):
    """Modules of 4 by 64 with twelve cuts, which use these gates and have a `*` line for each cell of ring and halo.
    Half of the cells, at random, have a part of these."""
    w, h, rng = scale.side, scale.of(512, 1664), random.Random(1984)
    placed = sorted((f"{rng.choice(parts)} {x} {y}" for x, y in cells(w, h) if rng.random() < 0.5),
                    key=lambda line: line[0])

    def modules():
        for box in boxes(w, h, 4, 64):
            yield from ("module %d %d %d %d" % box, *(f"cut {name}" for name in CUTS),
                        *(f"use {k}" for k in range(len(gates))))
            for kind, places in (("edge", edge_cells(w, h, box)), ("halo", halo_cells(w, h, box))):
                yield from (f"{kind} * {x} {y} {rng.choice(CUTS)}" for x, y in places)

    ends = [name for gate in gates if "switch" in gate for name in gate.split(" -> ")[1].split()]
    circuit = [*(f"input {name}" for name in CUTS), *gates, *(f"spill {name}" for name in ends)]
    return bundle(scale, (w, h, steps), placed, modules(), circuit)


def never_defined(scale):
    """check: 1024 modules of 4 by 64 with balls at random, twelve cuts and the most steps, which use an inverse gate
    that has no row under any assignment. With `limits 2`, 26,624 modules."""
    gates = ["source 1 -> a", "source 0 -> b", "source 1 -> c", "unswitch a b c -> d e"]
    gates += [f"switch {CUTS[2 * k]} {CUTS[2 * k + 1]} -> x{k} y{k} z{k}" for k in range(6)]
    return crowded(scale, scale.fixed(65_536, 1_048_576), gates, [f"in {name}" for name in CUTS] + ["ball"] * 12)


def once_defined(scale):
    """check: the same with inverse gates that have rows if all cuts are false, and with balls only if a cut is true: no
    fault ends a run."""
    gates = [f"source 1 -> one{k}" for k in range(6)]
    gates += [f"unswitch {CUTS[2 * k]} {CUTS[2 * k + 1]} one{k} -> x{k} y{k}" for k in range(6)]
    return crowded(scale, scale.fixed(65_536, 1_048_576), gates, [f"in {name}" for name in CUTS])


def streams(scale, w, h, steps):
    """Modules of 4 by 64 that balls cross from the upper left to the lower right at all times, each diagonal under a
    cut of its own. Only the modules in the first and the last column have a fault before the last time. Each cell of
    ring and halo has a `*` line."""
    rng = random.Random(1984)
    wires = {box: {c: rng.choice(CUTS) for c in range(-2, 64, 2) if (box[1] or c > 0) and (box[1] + 64 < h or c < 60)}
             for box in boxes(w, h, 4, 64)}
    ins = {(x + k, y + k + c): name for (x, y, _, _), named in wires.items() for c,
           name in named.items() for k in (0, 2) if 0 <= k + c < 64}

    def modules():
        for box in boxes(w, h, 4, 64):
            yield from ("module %d %d %d %d" % box, *(f"cut {name}" for name in CUTS), "use 0")
            for kind, places in (("edge", edge_cells(w, h, box)), ("halo", halo_cells(w, h, box))):
                for x, y in places:
                    is_in = kind == "edge" or x < box[0] or y < box[1]
                    yield (f"{kind} * {x} {y} "
                           f"{wires[box].get(y - box[1] - x + box[0], 'z') if x % 2 and y % 2 and is_in else 'z'}")

    circuit = [*(f"input {name}" for name in CUTS), "source 0 -> z", *(f"spill {name}" for name in [*CUTS, "z"])]
    return bundle(scale, (w, h, steps), (f"in {name} {x} {y}" for (x, y), name in ins.items()), modules(), circuit)


def longest_runs(scale):
    """check: four modules of 4 by 64 with twelve cuts that balls cross for the most steps, beside two that end early at
    a fault."""
    return streams(scale, 16 if scale.is_half else 24, 64, scale.fixed(65_536, 1_048_576))


def many_long_runs(scale):
    """check: 1008 modules of the same for 256 steps, beside sixteen that end early at a fault.

    With `limits 2`, 41,000 for 16 steps.
    """
    return streams(scale, scale.side, scale.of(512, 2560), scale.fixed(256, 16))


KINDS = [run_names, run_alike_names, run_ports, run_mirrors, run_balls, one_line, spaces, value_wide, value_alike,
         borders, most_lines,
         neighbours, near_edges, most_edges, stars, cuts_and_uses, one_wire_each, alike_lines, most_stops, alike_stops,
         same_port, most_memory, alike_places, many_modules, long_runs, square_runs, flat_runs,
         long_runs_with_lines, never_defined, once_defined, longest_runs, many_long_runs]


def write(text: Iterable[str], longest: int) -> None:
    """Writes a text in pieces, and makes sure that it is no longer than it may be."""
    size, waiting = 0, []
    for piece in text:
        size += len(piece)
        waiting.append(piece)
        if len(waiting) == 100_000:
            sys.stdout.write("".join(waiting))
            waiting.clear()
    sys.stdout.write("".join(waiting))
    assert size <= longest, size


def main() -> None:
    by_name = {kind.__name__: kind for kind in KINDS}
    if sys.argv[1:] == ["--list"]:
        print("".join(f"{name}: {' '.join((kind.__doc__ or '').split())}\n" for name, kind in by_name.items()), end="")
        return
    size = sys.argv[2] if len(sys.argv) == 3 else "full"
    if len(sys.argv) not in (2, 3) or sys.argv[1] not in by_name or size not in SCALES:
        sys.exit(__doc__)
    write(by_name[sys.argv[1]](SCALES[size]), SCALES[size].longest)


main()
