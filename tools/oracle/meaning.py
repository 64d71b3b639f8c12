"""What the whole run of an accepted bundle is to end with, from its circuit alone: no step is made here.

ends(text) gives, for each assignment of the circuit's inputs, the text for `run`, the cells that are to be live at the
end, and the waste cells, of which nothing is said.
"""
from itertools import product

from reference import FRONT_LINE, Circuit, Lines, ROWS, read_section


def values_of(circuit, on):
    values = {name: name in on for name in circuit.inputs}
    for word, number, ins, outs in circuit.gates:
        row = [number == 1] if word == b"source" else ROWS[word](*(values[name] for name in ins))
        values.update(zip(outs, row))
    return values


def sections(text):
    """The circuit's and the layout's lines, each as a text of its own with the same limits."""
    front = FRONT_LINE if text.startswith(FRONT_LINE) else b""
    circuit, rest = text.split(b"\nend\n", 1)
    layout = rest.split(b"\nend\n", 1)[0]
    return circuit + b"\nend\n", front + layout + b"\nend\n"


def read_circuit(text):
    """The circuit of a text that begins with it."""
    lines = Lines(text)
    return read_section(lines, Circuit(lines.limits))


def cells_named(layout, word):
    """The cells of all lines of a kind, each with the name of its port, if it has one."""
    for line in layout.split(b"\n"):
        words = line.split(b" ")
        if words[0] != word:
            continue
        name = words[1] if word in (b"in", b"out") else None
        x, y, *sides = map(int, words[2:] if name else words[1:])
        w, h = sides or (1, 1)
        for v in range(y, y + h):
            for u in range(x, x + w):
                yield name, (u, v)


def ends(text):
    circuit_text, layout = sections(text)
    circuit = read_circuit(circuit_text)
    mirrors = {cell for _, cell in cells_named(layout, b"mirror")}
    wastes = {cell for _, cell in cells_named(layout, b"waste")}
    outs = list(cells_named(layout, b"out"))
    for bits in product((False, True), repeat=len(circuit.inputs)):
        on = [name for name, bit in zip(circuit.inputs, bits) if bit]
        values = values_of(circuit, on)
        live = mirrors | {cell for name, cell in outs if values[name]}
        yield layout + b"assign\n" + b"".join(b"on %s\n" % name for name in on) + b"end\n", live, wastes
