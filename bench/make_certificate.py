#!/usr/bin/env python3
"""make_certificate.py: writes a bundle for `bbmcheck modules`, the same one each time, of more than 15 and less than 16
MiB.

The layout has 512 by 512 cells and 4096 steps. Its 1024 modules, of 16 by 16, have each some cuts and used gates of a
circuit of about a thousand gates, and some hundreds of edge and halo lines at random places, times and local wires. It
has no stop lines and no inverse gates.
"""
import os
import random
import sys

HERE = os.path.dirname(os.path.realpath(__file__))
sys.dont_write_bytecode = True
sys.path.insert(0, os.path.join(os.path.dirname(HERE), "tools", "oracle"))
import random_bundle  # noqa: E402

BOXES = [(x, y, 16, 16) for y in range(0, 512, 16) for x in range(0, 512, 16)]
random_bundle.INVERSE = random_bundle.BACK = {}
text = random_bundle.bundle(random.Random(1982), 512, 512, BOXES, steps=4096, inputs=8, gates=1000, mirrors=100, cuts=1,
                            lines=355)
text = b"".join(line for line in text.splitlines(keepends=True) if not line.startswith(b"stop "))
assert 15 << 20 <= len(text) < 16 << 20
sys.stdout.buffer.write(text)
