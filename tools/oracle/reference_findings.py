"""The least faults of a bundle's modules, in plain Python and straight from the definitions: a module is run by itself
under one assignment after another, its live cells are a set, and all of its faults are made before the least is taken.

least_fault(circuit, layout, module) gives the time, the kind's number, y, x and the assignment, or None;
least_keep(circuit, module) the number of a gate and the assignment, or None.
"""
import collections

from reference import PARTS, ROWS, Layout, cells_of, ring_of, stepped

KINDS = ["edge", "stop", "end"]


class Pattern(Layout):
    """A layout with the cells of its mirrors and its waste cells."""

    def __init__(self, limits, known):
        super().__init__(limits, known)
        self.cells = {part: set() for part in PARTS}

    def item(self, rank, name, at):
        code = super().item(rank, name, at)
        if code is None:
            self.cells[PARTS[rank]] |= cells_of(*(at if rank == 0 else (*at, 1, 1)))
        return code


def local_values(circuit, module, assignment):
    """Cut i has the value of bit i; the outputs of the used gates follow by their rows. The signal `1` is always true.
    Beside the values stands the first gate that has no row, behind which there are none, or None."""
    values = {name: bool(assignment >> i & 1) for i, name in enumerate(module.lines[b"cut"])}
    for number in module.lines[b"use"]:
        word, bit, ins, outs = circuit.gates[number]
        row = [bit == 1] if word == b"source" else ROWS[word](*(values[name] for name in ins))
        if row is None:
            return values, number
        values.update(zip(outs, row))
    return values | {b"1": True}, None


def by_time(lines):
    """For each time the cells and signals of its lines; those of `*` lines have time -1."""
    found = collections.defaultdict(list)
    for (time, y, x), signal in lines:
        found[time].append(((x, y), signal))
    return found


def true_cells(lines, time, values):
    """The cells whose edge or halo signal at an odd time is true, by the lines of one kind."""
    return {cell for when in (-1, time) for cell, signal in lines.get(when, ()) if values[signal]}


def true_ports(ports, module, values):
    """The ports of one kind in the module's box whose wire is true."""
    return {cell for cell in module.cells if cell in ports and values[ports[cell]]}


def start_of(layout, module, values):
    return layout.live & module.cells | true_ports(layout.ports[b"in"], module, values)


def wanted_at_end(layout, module, values):
    return layout.cells[b"mirror"] & module.cells | true_ports(layout.ports[b"out"], module, values)


def stop_faults(stops, values, time, live):
    """The stops of this time whose cell is not live exactly where the wire is true."""
    for (x, y), name in stops.get(time, ()):
        if ((x, y) in live) != values[name]:
            yield time, 1, y, x


def faults_under(layout, module, values):
    """All faults under one assignment: the time, the kind's number, y and x."""
    live, ring, cells = start_of(layout, module, values), ring_of(*module.box), module.cells
    edges, halos, stops = (by_time(module.lines[kind]) for kind in (b"edge", b"halo", b"stop"))
    for time in range(layout.steps):
        yield from stop_faults(stops, values, time, live)
        if time % 2 == 0:
            live = stepped(live, time)
            continue
        differ = live & ring ^ true_cells(edges, time, values)
        yield from ((time, 0, y, x) for x, y in differ)
        live = stepped(live | true_cells(halos, time, values), time) & cells
    yield from stop_faults(stops, values, layout.steps, live)
    differ = (live ^ wanted_at_end(layout, module, values)) - layout.cells[b"waste"]
    yield from ((layout.steps, 2, y, x) for x, y in differ)


def least_fault(circuit, layout, module):
    faults = set()
    for assignment in range(1 << len(module.lines[b"cut"])):
        values, undefined = local_values(circuit, module, assignment)
        if undefined is None:
            faults |= {(*fault, assignment) for fault in faults_under(layout, module, values)}
    return min(faults, default=None)


def least_keep(circuit, module):
    """Of the gates that the module keeps, each that is the first without a row under some assignment."""
    firsts = ((local_values(circuit, module, assignment)[1], assignment)
              for assignment in range(1 << len(module.lines[b"cut"])))
    return min(((gate, assignment) for gate, assignment in firsts if gate in module.lines[b"keep"]), default=None)
