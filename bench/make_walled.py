#!/usr/bin/env python3
"""make_walled.py SIDE CUTS STEPS BALLS: writes a bundle of 512 by 512 cells in modules of SIDE by SIDE cells, which
gets a yes. It is the same bundle each time.

Mirrors wall each module off. Inside the walls there are some more mirrors, an input cell for each of CUTS cuts, and
BALLS constant balls, which run for all steps. Each module is another one. Every cell inside that is no mirror is waste,
so whatever is live there at the end is no fault.
"""
import random
import sys

EXTENT = 512


def cells_of(x, y, w, h):
    return [(u, v) for v in range(y, y + h) for u in range(x, x + w)]


def module(rng, side, x, y, count):
    """The mirrors, the cells inside that are free, and as many of them for inputs and balls."""
    top, bottom, left, right = y + 1, y + side - 3, x + 2, x + side - 4
    mirrors = [
        (left, top, right + 2 - left, 2), (left, bottom, right + 2 - left, 2),
        (left, top + 2, 2, bottom - top - 2), (right, top + 2, 2, bottom - top - 2),
    ]
    lit = {cell for mirror in mirrors for cell in cells_of(*mirror)}
    inside = cells_of(left + 2, top + 2, right - left - 2, bottom - top - 2)
    for _ in range(side // 16):
        mirror = (rng.randrange(left + 2, right - 2, 2), rng.randrange(top + 2, bottom - 2, 2), 2, 2)
        if lit.isdisjoint(cells_of(*mirror)):
            mirrors.append(mirror)
            lit.update(cells_of(*mirror))
    free = [cell for cell in inside if cell not in lit]
    shuffled = free[:]
    rng.shuffle(shuffled)
    return mirrors, free, [shuffled.pop() for _ in range(count)]


def bundle(side, cuts, steps, balls):
    rng = random.Random(f"bench {side} {cuts} {steps} {balls}")
    names = [f"i{number}" for number in range(cuts)]
    mirrors, constants, ins, wastes, modules = [], [], [], [], []
    for y in range(0, EXTENT, side):
        for x in range(0, EXTENT, side):
            own, free, starts = module(rng, side, x, y, cuts + balls)
            mirrors += ["mirror %d %d %d %d" % mirror for mirror in own]
            ins += [f"in {name} {u} {v}" for name, (u, v) in zip(names, starts)]
            constants += [f"ball {u} {v}" for u, v in starts[cuts:]]
            wastes += [f"waste {u} {v}" for u, v in free]
            modules += [f"module {x} {y} {side} {side}", *(f"cut {name}" for name in names)]
    lines = ["circuit", *(f"input {name}" for name in names), *(f"spill {name}" for name in names), "end"]
    lines += [f"layout {EXTENT} {EXTENT} {steps}", *mirrors, *constants, *ins, *wastes, "end", "certificate 1",
              *modules, "end"]
    return "".join(line + "\n" for line in lines)


sys.stdout.write(bundle(*(int(word) for word in sys.argv[1:])))
