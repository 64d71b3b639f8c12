"""`run`, `value`, `modules` and `migrate` once more, in plain Python and straight from docs/FORMATS.md: no code is
shared with the program.

answer(command, text) gives the exit status and what is written for a text of bytes. Reading takes time in proportion to
the text and to the area of its layout.
"""
import collections
import re
from typing import NamedTuple

NUMBER = re.compile(rb"(0|[1-9][0-9]{0,8})\Z")
NAME = re.compile(rb"[a-z][a-z0-9_]{0,31}\Z")
HEADER, ITEM, END = "header", "item", "end"


class Limits(NamedTuple):
    """The largest numbers and counts of a text, as far as its first line decides them (docs/FORMATS.md, "Limits")."""

    side: int
    steps: int
    modules: int
    gates: int
    wires: int
    text_bytes: int


FIRST_LIMITS = Limits(side=512, steps=65_536, modules=1024, gates=1024, wires=4096, text_bytes=16_777_216)
SECOND_LIMITS = Limits(side=4096, steps=1_048_576, modules=65_536, gates=16_384, wires=65_000, text_bytes=268_435_456)
# The line that chooses the second ones, if a text begins with it.
FRONT_LINE = b"limits 2\n"


def limits_of(text: bytes) -> Limits:
    """Returns the limits that hold for a text, or for each text that begins with these bytes, if there are nine of
    them."""
    return SECOND_LIMITS if text.startswith(FRONT_LINE) else FIRST_LIMITS


class Refused(Exception):
    """A line and a code."""


def numbers(words):
    """The numbers that all these words are, or None."""
    return [int(w) for w in words] if all(NUMBER.match(w) for w in words) else None


class Lines:
    def __init__(self, text):
        self.limits = limits_of(text)
        self.parts = text.split(b"\n")
        self.taken = 1 if text.startswith(FRONT_LINE) else 0

    def take(self):
        if self.taken == len(self.parts) - 1:
            raise Refused(self.taken + 1, 12)
        self.taken += 1
        return self.parts[self.taken - 1].split(b" ")

    def finish(self):
        if self.parts[self.taken:] != [b""]:
            raise Refused(self.taken + 1, 12)


def read_section(lines, section):
    kind = None
    while kind != END:
        words = lines.take()
        form = section.form(words)
        if form is None:
            raise Refused(lines.taken, 1)
        if (form[0] == HEADER) != (kind is None):
            raise Refused(lines.taken, 6)
        kind = form[0]
        code = getattr(section, kind)(*form[1:])
        if code:
            raise Refused(lines.taken, code)
    return section


# ---- layouts

PARTS = [b"mirror", b"ball", b"in", b"out", b"waste"]


class Area:
    """The cells of a rectangle, each free or taken, in a byte each."""

    def __init__(self, w: int, h: int) -> None:
        self.w, self.cells = w, bytearray(w * h)

    def take(self, x: int, y: int, w: int, h: int) -> bool:
        """Takes the cells of a box inside the rectangle, if all of them are free. Returns whether they were."""
        rows = [slice(v * self.w + x, v * self.w + x + w) for v in range(y, y + h)]
        if any(any(self.cells[row]) for row in rows):
            return False
        for row in rows:
            self.cells[row] = bytes([1]) * w
        return True

    def is_full(self) -> bool:
        return 0 not in self.cells


class Layout:
    def __init__(self, limits, known=None):
        """known: which names an `in` and an `out` may have and must have, or None where any name is good."""
        self.limits, self.rank, self.known = limits, 0, known
        # live: the cells of mirrors and balls; ports: by kind the name of each cell
        self.live, self.ports = set(), {b"in": {}, b"out": {}}

    def form(self, words):
        word, rest = words[0], words[1:]
        if words == [b"end"]:
            return (END,)
        if word == b"layout" and len(rest) == 3 and numbers(rest):
            return (HEADER, *numbers(rest))
        if word not in PARTS:
            return None
        named = word in (b"in", b"out")
        name = rest.pop(0) if named and rest else None
        count = 4 if word == b"mirror" else 2
        if named and not (name and NAME.match(name)) or len(rest) != count or numbers(rest) is None:
            return None
        return (ITEM, PARTS.index(word), name, numbers(rest))

    def header(self, w, h, steps):
        self.w, self.h, self.steps = w, h, steps
        if not all(2 <= side <= self.limits.side and side % 2 == 0 for side in (w, h)) or steps > self.limits.steps:
            return 2
        # the cells that are taken at the start, and those that are at the end
        self.begun, self.ended = Area(w, h), Area(w, h)
        return None

    def item(self, rank, name, at):
        x, y, w, h = at if rank == 0 else (*at, 1, 1)
        if rank < self.rank:
            return 6
        if not (1 <= w <= self.limits.side and 1 <= h <= self.limits.side):
            return 2
        if self.known and name and name not in self.known[PARTS[rank]]:
            return 3
        if x + w > self.w or y + h > self.h:
            return 7
        if not (self.begun if rank < 3 else self.ended).take(x, y, w, h):
            return 7
        self.rank = rank
        if rank == 0:
            # no `out` and no waste cell comes before a mirror
            self.ended.take(x, y, w, h)
        self.live |= cells_of(x, y, w, h) if rank < 2 else set()
        if name:
            self.ports[PARTS[rank]][x, y] = name
        return None

    def end(self):
        having = {kind: set(ports.values()) for kind, ports in self.ports.items()}
        return 11 if self.known and any(self.known[kind] - having[kind] for kind in having) else None


def stepped(live, time):
    """The live cells after the step from that time: each block of two by two cells by the rule."""
    odd = time % 2
    corners = {((x - odd) // 2 * 2 + odd, (y - odd) // 2 * 2 + odd) for x, y in live}
    after = set()
    for x, y in corners:
        block = [(x, y), (x + 1, y), (x, y + 1), (x + 1, y + 1)]
        bits = [cell in live for cell in block]
        if sum(bits) == 1:
            bits.reverse()
        elif bits in ([True, False, False, True], [False, True, True, False]):
            bits = [not bit for bit in bits]
        after |= {cell for cell, bit in zip(block, bits) if bit}
    return after


def run(text):
    lines = Lines(text)
    layout = read_section(lines, Layout(lines.limits))
    ins = layout.ports[b"in"]
    on = read_section(lines, Assign(set(ins.values()))).on
    lines.finish()
    live = layout.live | {cell for cell, name in ins.items() if name in on}
    for time in range(layout.steps):
        live = stepped(live, time)
        if any(not (0 <= x < layout.w and 0 <= y < layout.h) for x, y in live):
            return 1, b"left %d\n" % (time + 1)
    rows = sorted(live, key=lambda cell: (cell[1], cell[0]))
    return 0, b"cells %d\n" % len(rows) + b"".join(b"%d %d\n" % cell for cell in rows)


# ---- circuits

LONE = {b"input": 0, b"output": 2, b"spill": 3}
GATES = {b"source": (0, 1), b"fredkin": (3, 3), b"cswap": (3, 3), b"interact": (2, 4), b"switch": (2, 3),
         b"delay": (1, 1), b"unswitch": (3, 2), b"uninteract": (4, 2)}
INVERSE = (b"unswitch", b"uninteract")
# the outputs of a gate at its inputs; an inverse gate has the rows of the other one, read backwards, and else None
ROWS = {
    b"fredkin": lambda c, x, y: [c, x, y] if c else [c, y, x],
    b"cswap": lambda c, x, y: [c, y, x] if c else [c, x, y],
    b"interact": lambda p, q: [p and q, q and not p, p and not q, p and q],
    b"switch": lambda c, x: [c, c and x, x and not c],
    b"delay": lambda a: [a],
    b"unswitch": lambda c, y, z: [c, y or z] if not (z if c else y) else None,
    b"uninteract": lambda *ins: {(0, 0, 0, 0): [False, False], (0, 1, 0, 0): [False, True], (0, 0, 1, 0): [True, False],
                                 (1, 0, 0, 1): [True, True]}.get(ins),
}


class Circuit:
    def __init__(self, limits):
        self.limits = limits
        # wires: each with its number, in order of definition
        self.rank, self.wires, self.used, self.inputs, self.gates, self.outputs = 0, {}, set(), [], [], []

    def form(self, words):
        word, rest = words[0], words[1:]
        if words in ([b"circuit"], [b"end"]):
            return (HEADER if word == b"circuit" else END,)
        if word in LONE:
            if len(rest) != 1 or not NAME.match(rest[0]):
                return None
            return (ITEM, LONE[word], word, None, *(([], rest) if word == b"input" else (rest, [])))
        if word not in GATES:
            return None
        number = None
        if word in (b"source", b"delay"):
            number = numbers(rest[:1])
            if not number or word == b"source" and number[0] > 1:
                return None
            rest = rest[1:]
        uses, defines = GATES[word]
        ins, arrow, outs = rest[:uses], rest[uses:uses + 1], rest[uses + 1:]
        if arrow != [b"->"] or len(outs) != defines or not all(NAME.match(name) for name in ins + outs):
            return None
        return (ITEM, 1, word, number and number[0], ins, outs)

    def header(self):
        return None

    def item(self, rank, word, number, ins, outs):
        if rank < self.rank:
            return 6
        if word == b"delay" and not 1 <= number <= 4096:
            return 2
        if len(self.wires) + len(outs) > self.limits.wires or rank == 1 and len(self.gates) == self.limits.gates:
            return 2
        for name in ins:
            if name not in self.wires:
                return 3
            if name in self.used:
                return 5
            self.used.add(name)
        for name in outs:
            if name in self.wires:
                return 4
            self.wires[name] = len(self.wires)
        self.rank = rank
        self.inputs += outs if rank == 0 else []
        self.gates += [(word, number, ins, outs)] if rank == 1 else []
        self.outputs += ins if rank == 2 else []
        return None

    def end(self):
        return 11 if set(self.wires) - self.used else None


def value(text):
    lines = Lines(text)
    circuit = read_section(lines, Circuit(lines.limits))
    on = read_section(lines, Assign(set(circuit.inputs))).on
    lines.finish()
    values = {name: name in on for name in circuit.inputs}
    undefined = None
    for gate, (word, number, ins, outs) in enumerate(circuit.gates):
        row = [number == 1] if word == b"source" else ROWS[word](*(values[name] for name in ins))
        if row is None:
            undefined = gate
            break
        values.update(zip(outs, row))
    told = b"".join(b"%s %d\n" % (name, values[name]) for name in circuit.wires if name in values)
    return (0, told) if undefined is None else (1, told + b"undefined %d\n" % undefined)


# ---- assign sections

class Assign:
    def __init__(self, known):
        self.known, self.on = known, set()

    def form(self, words):
        if words in ([b"assign"], [b"end"]):
            return (HEADER if words == [b"assign"] else END,)
        if len(words) == 2 and words[0] == b"on" and NAME.match(words[1]):
            return (ITEM, words[1])
        return None

    def header(self):
        return None

    def item(self, name):
        if name not in self.known:
            return 3
        if name in self.on:
            return 4
        self.on.add(name)
        return None

    def end(self):
        return None


# ---- certificates

KINDS = [b"cut", b"use", b"keep", b"edge", b"halo", b"stop"]


def cells_of(x, y, w, h):
    return {(u, v) for u in range(x, x + w) for v in range(y, y + h)}


def ring_of(x, y, w, h):
    return {(u, v) for u in range(x, x + w) for v in (y, y + h - 1)} | {(u, v) for u in (x, x + w - 1)
                                                                        for v in range(y, y + h)}


def grown(box, by):
    """The box with so many more cells at each side."""
    x, y, w, h = box
    return x - by, y - by, w + 2 * by, h + 2 * by


def has_cell(box, x, y):
    left, top, w, h = box
    return left <= x < left + w and top <= y < top + h


def is_ring_cell(box, x, y):
    return has_cell(box, x, y) and not has_cell(grown(box, -1), x, y)


class Module:
    def __init__(self, box):
        self.box = box
        # by kind what its lines say: names, gate numbers, and pairs of a place and a signal
        self.lines = {kind: [] for kind in KINDS}
        # the cells that * lines name
        self.held = {b"edge": set(), b"halo": set()}
        self.rank, self.local = 0, set()

    @property
    def cells(self):
        return cells_of(*self.box)

    @property
    def halo(self):
        """The cells outside the box that touch it, also those outside the rectangle."""
        return ring_of(*grown(self.box, 1))

    def border_count(self):
        return sum(len(self.lines[kind]) for kind in (b"edge", b"halo", b"stop"))


class Certificate:
    def __init__(self, circuit, layout):
        self.limits, self.layout, self.wires = layout.limits, layout, circuit.wires
        self.gates = [(ins, outs) for _, _, ins, outs in circuit.gates]
        self.inverse = {number for number, (word, *_) in enumerate(circuit.gates) if word in INVERSE}
        self.rectangle = 0, 0, layout.w, layout.h
        self.version, self.modules, self.covered = None, [], Area(layout.w, layout.h)
        # the edge lines of all modules for each cell
        self.edges_at = collections.defaultdict(list)

    def form(self, words):
        word, rest = words[0], words[1:]
        if words == [b"end"]:
            return (END,)
        if word == b"certificate" and len(rest) == 1 and numbers(rest):
            return (HEADER, *numbers(rest))
        if word == b"module" and len(rest) == 4 and numbers(rest):
            return (ITEM, self.module, numbers(rest))
        if word == b"cut" and len(rest) == 1 and NAME.match(rest[0]):
            return (ITEM, self.cut, rest[0])
        if word == b"use" and len(rest) == 1 and numbers(rest):
            return (ITEM, self.use, *numbers(rest))
        if word == b"keep" and len(rest) == 1 and numbers(rest):
            return (ITEM, self.keep, *numbers(rest))
        if word in (b"edge", b"halo") and len(rest) == 4:
            time, *at, signal = rest
            if (time == b"*" or numbers([time])) and numbers(at) and (signal == b"1" or NAME.match(signal)):
                return (ITEM, self.border, word, None if time == b"*" else int(time), *numbers(at), signal)
        if word == b"stop" and len(rest) == 4:
            time, name, *at = rest
            if numbers([time]) and NAME.match(name) and numbers(at):
                return (ITEM, self.stop, int(time), name, *numbers(at))
        return None

    def header(self, version):
        self.version = version
        return None if version in (1, 2) else 2

    def item(self, line, *words):
        return line(*words)

    def module(self, box):
        x, y, w, h = box
        if self.lacks_a_port():
            return 11
        if any(side % 2 or not 2 <= side <= 64 for side in (w, h)) or len(self.modules) == self.limits.modules:
            return 2
        if x % 2 or y % 2 or x + w > self.layout.w or y + h > self.layout.h:
            return 8
        if not self.covered.take(*box):
            return 8
        self.modules.append(Module(box))
        return None

    def is_out_of_place(self, kind):
        return not self.modules or KINDS.index(kind) < self.modules[-1].rank

    def cut(self, name):
        if self.is_out_of_place(b"cut"):
            return 6
        module = self.modules[-1]
        if len(module.lines[b"cut"]) == 12:
            return 2
        if name not in self.wires:
            return 3
        if name in module.local:
            return 4
        module.local.add(name)
        return self.take(b"cut", name)

    def use(self, gate):
        if self.is_out_of_place(b"use") or gate <= max(self.modules[-1].lines[b"use"], default=-1):
            return 6
        module = self.modules[-1]
        if len(module.lines[b"use"]) == 64:
            return 2
        if gate >= len(self.gates):
            return 3
        ins, outs = self.gates[gate]
        if set(ins) - module.local:
            return 9
        if set(outs) & module.local:
            return 4
        module.local |= set(outs)
        return self.take(b"use", gate)

    def keep(self, gate):
        if self.is_out_of_place(b"keep") or gate <= max(self.modules[-1].lines[b"keep"], default=-1):
            return 6
        if gate not in self.inverse:
            return 3
        if gate not in self.modules[-1].lines[b"use"]:
            return 9
        return self.take(b"keep", gate)

    def is_place(self, module, kind, x, y):
        """Whether an `edge` or `halo` line of the module may name the cell."""
        if kind == b"edge":
            return is_ring_cell(module.box, x, y) and not is_ring_cell(self.rectangle, x, y)
        return has_cell(self.rectangle, x, y) and is_ring_cell(grown(module.box, 1), x, y)

    def border(self, kind, time, x, y, signal):
        # a * line comes before every line with a time
        place = (-1 if time is None else time, y, x)
        if kind == b"halo" and self.version == 2:
            return 1
        if self.is_out_of_place(kind):
            return 6
        module = self.modules[-1]
        if module.lines[kind] and place <= module.lines[kind][-1][0]:
            return 6
        if module.border_count() == 65536:
            return 2
        if not self.is_place(module, kind, x, y):
            return 10
        if time is not None:
            if time % 2 == 0 or time >= self.layout.steps or (-1, y, x) in module.held[kind]:
                return 10
        if signal != b"1":
            if signal not in self.wires:
                return 3
            if signal not in module.local:
                return 9
        if time is None:
            module.held[kind].add(place)
        if kind == b"edge":
            self.edges_at[x, y].append((place, signal))
        return self.take(kind, (place, signal))

    def stop(self, time, name, x, y):
        place = (time, y, x)
        if self.is_out_of_place(b"stop"):
            return 6
        module = self.modules[-1]
        if module.lines[b"stop"] and place <= module.lines[b"stop"][-1][0]:
            return 6
        if module.border_count() == 65536:
            return 2
        if time > self.layout.steps or not has_cell(module.box, x, y):
            return 10
        if name not in self.wires:
            return 3
        if name not in module.local:
            return 9
        return self.take(b"stop", (place, name))

    def take(self, kind, what):
        module = self.modules[-1]
        module.lines[kind].append(what)
        module.rank = KINDS.index(kind)
        return None

    def lacks_a_port(self):
        """Whether the last module doesn't know the wire of a port in its box."""
        ports = self.layout.ports.values()
        return any(cell in kind and kind[cell] not in module.local for module in self.modules[-1:]
                   for cell in module.cells for kind in ports)

    def beside(self, module):
        """The edge lines of all modules for the cells of this one's halo, in order. Without an odd time there are none.
        """
        if self.layout.steps < 2:
            return []
        return sorted(line for cell in module.halo for line in self.edges_at.get(cell, ()))

    def lacks_a_wire(self):
        """Whether in version 2 a module doesn't know the wire of an edge line beside it."""
        return self.version == 2 and any(
            signal != b"1" and signal not in module.local for module in self.modules for _,
            signal in self.beside(module))

    def end(self):
        return 11 if self.lacks_a_port() or not self.covered.is_full() or self.lacks_a_wire() else None


def read_bundle(text):
    """The certificate, and the lines of its section."""
    lines = Lines(text)
    circuit = read_section(lines, Circuit(lines.limits))
    known = {b"in": set(circuit.inputs), b"out": set(circuit.outputs)}
    layout = read_section(lines, Layout(lines.limits, known))
    first = lines.taken
    certificate = read_section(lines, Certificate(circuit, layout))
    lines.finish()
    return certificate, lines.parts[:first], lines.parts[first:lines.taken]


def migrate(text):
    _, before, section = read_bundle(text)
    kept = [line for line in section[1:] if not line.startswith(b"halo ")]
    return 0, b"".join(line + b"\n" for line in [*before, b"certificate 2", *kept])


def modules(text):
    certificate, _, _ = read_bundle(text)
    rows = [(number, *module.box, *(len(module.lines[kind]) for kind in KINDS if kind != b"keep"))
            for number, module in enumerate(certificate.modules)]
    return 0, b"".join(b"module %d %d %d %d %d cuts %d gates %d edges %d halos %d stops %d\n" % row for row in rows)


def answer(command: str, text: bytes) -> tuple[int, bytes]:
    try:
        return {"run": run, "value": value, "modules": modules, "migrate": migrate}[command](text)
    except Refused as refused:
        return 3, b"refused %d %d\n" % refused.args
