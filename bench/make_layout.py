#!/usr/bin/env python3
"""make_layout.py balls COUNT STEPS | make_layout.py lines BYTES

Writes a text for `bbmcheck run`, the same one each time.

balls: a layout of 512 by 512 cells with a frame of mirrors that nothing passes, and COUNT balls at random cells inside
it, for STEPS steps; no name is on.
lines: a layout of `in` and `out` lines with names of 32 bytes, cut off at BYTES bytes, so that it is refused at the
end.
"""
import random
import sys


def balls(count, steps):
    free = [(x, y) for y in range(3, 509) for x in range(2, 510)]
    out = [f"layout 512 512 {steps}"]
    out += ["mirror 0 1 2 510", "mirror 510 1 2 510", "mirror 2 1 508 2", "mirror 2 509 508 2"]
    out += [f"ball {x} {y}" for x, y in random.Random(1984).sample(free, count)]
    return "\n".join(out + ["end", "assign", "end", ""])


def lines(size):
    out = ["layout 512 512 4096"]
    for kind in ("in", "out"):
        for y in range(512):
            for x in range(512):
                out.append(f"{kind} {'n' * 24}_{x:03}_{y:03} {x} {y}")
    return ("\n".join(out) + "\n")[:size]


def main(words):
    if len(words) == 3 and words[0] == "balls":
        sys.stdout.write(balls(int(words[1]), int(words[2])))
    elif len(words) == 2 and words[0] == "lines":
        sys.stdout.write(lines(int(words[1])))
    else:
        sys.exit(__doc__)


main(sys.argv[1:])
