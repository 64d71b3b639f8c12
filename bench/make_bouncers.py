#!/usr/bin/env python3
"""make_bouncers.py SIDE STEPS [APART] [--extent WIDTH HEIGHT]: writes a bundle of 512 by 512 cells in modules of SIDE
by SIDE cells, which gets a yes. It is the same bundle each time. A larger one, up to 4096 by 4096 cells, begins with
the line `limits 2`.

Balls run to and fro on diagonals that are APART columns apart (24 by default), each between two mirrors of its own,
over the borders of modules. Each ball is an input that ends as an output of the same name. So the layout is mostly
empty, and most of the text is border lines.
"""
import argparse
import random
import sys
from collections import defaultdict

# Without the line `limits 2`.
MAX_EXTENT = 512


def cells_of(x, y):
    """A mirror of two by two cells."""
    return [(u, v) for v in (y, y + 1) for u in (x, x + 1)]


def turned(live, time):
    """One step of the block rule."""
    corners = {(x - (x + time) % 2, y - (y + time) % 2) for x, y in live}
    after = set()
    for x, y in corners:
        block = [(x, y), (x + 1, y), (x, y + 1), (x + 1, y + 1)]
        ul, ur, ll, lr = (cell in live for cell in block)
        if (ul or lr) and not (ur or ll):
            block = [cell for cell, is_live in zip(block, (lr, False, False, ul))
                     if is_live] if ul != lr else [block[1], block[2]]
        elif (ur or ll) and not (ul or lr):
            block = [cell for cell, is_live in zip(block, (False, ll, ur, False))
                     if is_live] if ur != ll else [block[0], block[3]]
        else:
            block = [cell for cell in block if cell in live]
        after.update(block)
    return after


def way(start, mirrors, steps):
    """Where the ball is at each time."""
    fixed = {cell for mirror in mirrors for cell in cells_of(*mirror)}
    live, cells, seen = fixed | {start}, [], {}
    for time in range(steps + 1):
        (cell,) = live - fixed
        if (cell, time % 2) in seen and cell == start and time % 2 == 0:
            return [cells[t % time] for t in range(steps + 1)]
        seen[cell, time % 2] = time
        cells.append(cell)
        live = turned(live, time)
    return cells


def is_inside(x, y, side):
    """Whether a mirror there is away from the borders of modules."""
    return 4 <= x % side <= side - 6 and 4 <= y % side <= side - 6


def first_inside(y, diagonal, down, side, height):
    """The first even row from y on where a mirror that is `down` rows off is away from the borders of modules, or one
    outside."""
    return next((v for v in range(y, height, 2) if is_inside(v + diagonal, v + down, side)), height)


def tracks(rng, side, apart, extent):
    """The start of each ball and its two mirrors."""
    width, height = extent
    for diagonal in range(-height + 64, width - 64, apart):
        at = max(8, 8 - diagonal)
        end = min(height, width - diagonal) - 8
        while at + 40 < end:
            # the ball comes back at its start from a mirror above it, and at the other end from one below it
            top = first_inside(at + at % 2, diagonal, -1, side, height)
            bottom = first_inside(top + 2 * rng.randrange(16, 48), diagonal, 1, side, height)
            if bottom + 8 >= end:
                break
            yield (top + 2 + diagonal, top + 2), [(top + diagonal, top - 1), (bottom + diagonal, bottom + 1)]
            at = bottom + 12


def beside(cell, side, extent):
    """The modules that have a cell in their ring or halo: its own first, and those around it."""
    x, y = cell
    own = (x // side, y // side)
    around = {((x + dx) // side, (y + dy) // side) for dx in (-1, 0, 1) for dy in (-1, 0, 1)} - {own}
    across, down = extent[0] // side, extent[1] // side
    return own, [(u, v) for u, v in around if 0 <= u < across and 0 <= v < down]


def bundle(rng, side, steps, apart, extent):
    edges, halos, known = defaultdict(list), defaultdict(list), defaultdict(set)
    mirrors, ins, outs = [], [], []
    for number, (start, own) in enumerate(tracks(rng, side, apart, extent)):
        name = f"i{number}"
        cells = way(start, own, steps)
        mirrors += own
        ins.append((name, start))
        outs.append((name, cells[-1]))
        for cell in (start, cells[-1]):
            known[beside(cell, side, extent)[0]].add(number)
        for time in range(1, steps, 2):
            at, others = beside(cells[time], side, extent)
            if others:
                x, y = cells[time]
                edges[at].append((time, y, x, name))
                known[at].add(number)
                for other in others:
                    halos[other].append((time, y, x, name))
                    known[other].add(number)
    width, height = extent
    lines = ["limits 2"] if max(extent) > MAX_EXTENT else []
    lines += ["circuit", *(f"input {name}" for name, _ in ins), *(f"output {name}" for name, _ in outs), "end"]
    lines += [f"layout {width} {height} {steps}", *(f"mirror {x} {y} 2 2" for x, y in mirrors)]
    lines += [f"in {name} {x} {y}" for name, (x, y) in ins] + [f"out {name} {x} {y}" for name,
                                                               (x, y) in outs] + ["end", "certificate 1"]
    for v in range(height // side):
        for u in range(width // side):
            lines.append(f"module {u * side} {v * side} {side} {side}")
            lines += [f"cut i{number}" for number in sorted(known[u, v])]
            lines += [f"edge {time} {x} {y} {name}" for time, y, x, name in sorted(edges[u, v])]
            lines += [f"halo {time} {x} {y} {name}" for time, y, x, name in sorted(halos[u, v])]
    return "".join(line + "\n" for line in [*lines, "end"])


def main():
    reader = argparse.ArgumentParser(usage=__doc__)
    reader.add_argument("side", type=int)
    reader.add_argument("steps", type=int)
    reader.add_argument("apart", type=int, nargs="?", default=24)
    reader.add_argument("--extent", type=int, nargs=2, default=(MAX_EXTENT, MAX_EXTENT))
    given = reader.parse_args()
    sys.stdout.write(bundle(random.Random(1984), given.side, given.steps, given.apart, given.extent))


main()
