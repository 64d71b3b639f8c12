#!/usr/bin/env python3
"""make_gates.py grid [WIDTH HEIGHT] | channel: writes a bundle of 512 by 512 cells in 1024 modules of 16 by 16 cells,
which gets a yes. It is the same bundle each time.

grid: 256 collisions of two balls, each in the corner of four modules, 15 steps. channel: 16 channels of two long
mirrors, in each of which three balls of two cells run to the right over the borders of modules, 440 steps. A grid of up
to 4096 by 4096 cells begins with the line `limits 2`, and has collisions at five of eight such corners, since more
would make too many wires.
"""
import sys
from collections import defaultdict

EXTENT, SIDE = 512, 16


def turned(live, time, mirrors):
    """One step of the block rule for live cells beside mirrors, which stay."""
    corners = {(x - (x + time) % 2, y - (y + time) % 2) for x, y in live}
    after = set()
    for x, y in corners:
        block = [(x, y), (x + 1, y), (x, y + 1), (x + 1, y + 1)]
        bits = [cell in live or cell in mirrors for cell in block]
        if sum(bits) == 1:
            bits.reverse()
        elif bits in ([True, False, False, True], [False, True, True, False]):
            bits = [not bit for bit in bits]
        after.update(cell for cell, bit in zip(block, bits) if bit and cell not in mirrors)
    return after


def ways(live, steps, mirrors=frozenset()):
    """The live cells at each time, without the mirrors."""
    times = [live]
    for time in range(steps):
        times.append(turned(times[-1], time, mirrors))
    return times


def owner(x, y):
    return x // SIDE, y // SIDE


class Bundle:
    """A bundle in the making. A module's cuts, used gates and lines are kept by the module's place."""

    def __init__(self, steps, width=EXTENT, height=EXTENT):
        self.steps, self.width, self.height = steps, width, height
        self.circuit, self.layout = defaultdict(list), defaultdict(list)
        self.cuts, self.uses = defaultdict(set), defaultdict(set)
        self.edges, self.halos = defaultdict(set), defaultdict(set)

    def watchers(self, x, y):
        """The other modules that have the cell in their halo."""
        around = {owner(x + dx, y + dy) for dx in (-1, 0, 1) for dy in (-1, 0, 1)} - {owner(x, y)}
        return [(u, v) for u, v in around if 0 <= u < self.width // SIDE and 0 <= v < self.height // SIDE]

    def know(self, module, wires, gate=None):
        self.cuts[module] |= set(wires)
        if gate is not None:
            self.uses[module].add(gate)

    def add_line(self, time, x, y, signal):
        """The edge line, the halo lines beside it, and the modules that have one."""
        others = self.watchers(x, y)
        if others:
            self.edges[owner(x, y)].add((time, y, x, signal))
        for other in others:
            self.halos[other].add((time, y, x, signal))
        return [owner(x, y), *others] if others else []

    def lines(self):
        yield from ["limits 2"] if max(self.width, self.height) > EXTENT else []
        yield "circuit"
        for part in ("input", "gate", "output"):
            yield from self.circuit[part]
        yield from ("end", f"layout {self.width} {self.height} {self.steps}")
        for part in ("mirror", "in", "out"):
            yield from self.layout[part]
        yield from ("end", "certificate 1")
        for module in ((u, v) for v in range(self.height // SIDE) for u in range(self.width // SIDE)):
            yield f"module {module[0] * SIDE} {module[1] * SIDE} {SIDE} {SIDE}"
            yield from (f"cut {name}" for name in sorted(self.cuts[module]))
            yield from (f"use {gate}" for gate in sorted(self.uses[module]))
            for kind, found in (("edge", self.edges), ("halo", self.halos)):
                for time, y, x, signal in sorted(found[module]):
                    yield f"{kind} {time or '*'} {x} {y} {signal}"
        yield "end"


def corners(width, height):
    """Where the collisions of a grid are."""
    found = [(x, y) for y in range(SIDE, height, 2 * SIDE) for x in range(SIDE, width, 2 * SIDE)]
    return found if max(width, height) <= EXTENT else [corner for number, corner in enumerate(found) if number % 8 < 5]


def grid(width=EXTENT, height=EXTENT):
    """Each collision is at the corner of four modules, which all know its inputs and use its gate."""
    bundle = Bundle(15, width, height)
    for gate, (x, y) in enumerate(corners(width, height)):
        p, q = f"p{gate}", f"q{gate}"
        a, b, c, d = (f"{letter}{gate}" for letter in "abcd")
        starts = {p: (x - 2, y - 2), q: (x + 1, y + 1)}
        runs = {names: ways({starts[name] for name in names}, bundle.steps) for names in ((), (p,), (q,), (p, q))}
        # a signal by the sets of inputs under which it is true
        signals = {((p,), (p, q)): p, ((q,), (p, q)): q, ((p, q),): a, ((q,),): b, ((p,),): c}
        bundle.circuit["input"] += [f"input {p}", f"input {q}"]
        bundle.circuit["gate"].append(f"interact {p} {q} -> {a} {b} {c} {d}")
        bundle.circuit["output"] += [f"output {name}" for name in (a, b, c, d)]
        bundle.layout["in"] += [f"in {name} {u} {v}" for name, (u, v) in starts.items()]
        for module in {owner(x - dx, y - dy) for dx in (0, 1) for dy in (0, 1)}:
            bundle.know(module, [p, q], gate)
        for time in range(1, bundle.steps, 2):
            for u, v in set().union(*(run[time] for run in runs.values())):
                bundle.add_line(time, u, v, signals[tuple(names for names, run in runs.items() if (u, v) in run[time])])
        ends = {}
        for u, v in sorted(set().union(*(run[-1] for run in runs.values()))):
            name = signals[tuple(names for names, run in runs.items() if (u, v) in run[-1])]
            name = d if name == a and a in ends.values() else name
            ends[u, v] = name
        bundle.layout["out"] += [f"out {name} {u} {v}" for (u, v), name in ends.items()]
    return bundle


def channel():
    """Each module knows the balls that come into its box or past it."""
    bundle = Bundle(440)
    for row in range(EXTENT // 32):
        top = 32 * row
        mirrors = [(2, top + 3, EXTENT - 4, 2), (2, top + 27, EXTENT - 4, 2)]
        fixed = {(x, y) for a, b, w, h in mirrors for y in range(b, b + h) for x in range(a, a + w)}
        bundle.layout["mirror"] += ["mirror %d %d %d %d" % mirror for mirror in mirrors]
        for x, y in fixed:
            bundle.add_line(0, x, y, "1")
        for ball in range(3):
            name = f"i{3 * row + ball}"
            cells = [(8 + 12 * ball, top + 10), (6 + 12 * ball, top + 8)]
            bundle.circuit["input"].append(f"input {name}")
            bundle.circuit["output"].append(f"output {name}")
            bundle.layout["in"] += [f"in {name} {x} {y}" for x, y in cells]
            times = ways(set(cells), bundle.steps, fixed)
            bundle.layout["out"] += [f"out {name} {x} {y}" for x, y in sorted(times[-1])]
            for x, y in [*cells, *times[-1]]:
                bundle.know(owner(x, y), [name])
            for time in range(1, bundle.steps, 2):
                for x, y in times[time]:
                    for module in bundle.add_line(time, x, y, name):
                        bundle.know(module, [name])
    return bundle


def main(words):
    if words == ["channel"]:
        made = channel()
    elif words[:1] == ["grid"] and len(words) in (1, 3):
        made = grid(*map(int, words[1:]))
    else:
        sys.exit(__doc__)
    sys.stdout.writelines(line + "\n" for line in made.lines())


main(sys.argv[1:])
