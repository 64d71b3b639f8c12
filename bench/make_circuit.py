#!/usr/bin/env python3
"""make_circuit.py: writes a text for `bbmcheck value` at the limits, 1023 collision gates and 4094 wires with names of
32 bytes, and both inputs on."""
from collections import deque

FREE = deque()
LINES = ["circuit"]


def wire():
    wire.count += 1
    return f"{'w' * 27}_{wire.count:04}"


wire.count = 0
for _ in range(2):
    FREE.append(wire())
    LINES.append(f"input {FREE[-1]}")
ON = list(FREE)
for _ in range(1023):
    used = [FREE.popleft() for _ in range(2)]
    made = [wire() for _ in range(4)]
    FREE.extend(made)
    LINES.append(f"interact {' '.join(used)} -> {' '.join(made)}")
LINES += [f"output {name}" for name in FREE]
LINES += ["end", "assign", *(f"on {name}" for name in ON), "end", ""]
print("\n".join(LINES), end="")
