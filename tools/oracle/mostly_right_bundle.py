"""Random small bundles whose border lines and ports are mostly right: the whole pattern is run first, under each
assignment of the inputs, and what a cell then carries is looked for among the wires of its module. Some lines are made
wrong afterwards."""
import collections

from random_bundle import INVERSE, gates_of, kept_of, ring, tiles
from reference import ROWS, stepped

# The most inputs; how often a module's lines of a kind are made wrong; how often a cell that is live at the end is left
# out; and whether neighbours name a wire alike where several have one value.
Mood = collections.namedtuple("Mood", "inputs wrong forgotten steady")
WILD, CALM, RENAMED = Mood(10, 0.3, 0.15, False), Mood(1, 0, 0, True), Mood(1, 0, 0, False)


def cells_of(x, y, w, h):
    return {(u, v) for u in range(x, x + w) for v in range(y, y + h)}


class Tables:
    """For each wire its table: bit a is its value under assignment a of the inputs. Where a gate has no row its wires
    are false, and some gate is undefined."""

    def __init__(self, inputs, gates):
        self.full, self.is_defined = (1 << (1 << len(inputs))) - 1, True
        self.of = {name: sum(1 << a for a in range(1 << len(inputs)) if a >> k & 1) for k, name in enumerate(inputs)}
        for line, ins, outs in gates:
            kind, number = line.split(" ")[:2]
            if kind == "source":
                self.of[outs[0]] = self.full * int(number)
                continue
            rows = [ROWS[kind.encode()](*(self.of[wire] >> a & 1 == 1 for wire in ins))
                    for a in range(self.full.bit_length())]
            self.is_defined = self.is_defined and None not in rows
            self.of.update((wire, sum(row[k] << a for a, row in enumerate(rows) if row)) for k, wire in enumerate(outs))


def mirrors_of(rng, width, height):
    """Boxes apart from each other, most of them whole blocks, which stay as they are."""
    boxes, taken = [], set()
    for _ in range(rng.choice([0, 0, 1, 2])):
        w, h = rng.choice([(2, 2), (2, 2), (2, 2), (1, 2), (1, 1)])
        box = (rng.randint(0, width - w), rng.randint(0, height - h), w, h)
        if not taken & cells_of(*box):
            boxes.append(box)
            taken |= cells_of(*box)
    return boxes


def still_mirrors(rng, width, height):
    """Some boxes of two by two that stay as they are, and lie in two modules where the rows between them part modules.
    """
    places = [(x, y, 2, 2) for y in range(1, height - 2, 2) for x in range(0, width, 2)]
    return rng.sample(places, min(len(places), rng.randint(1, 3)))


def start_cells(rng, free, names, is_dense):
    """Cells of balls, and one or two of each input, all apart.

    Where it is dense, a third to a sixth of the cells are balls.
    """
    free = rng.sample(sorted(free), len(free))
    ins = [(name, free.pop()) for name in names]
    count = len(free) // rng.choice([3, 4, 6]) if is_dense else rng.choice([0, 0, 1, 2])
    balls = [free.pop() for _ in range(count) if free]
    ins += [(name, free.pop()) for name in names if free and rng.random() < 0.3]
    return balls, ins


def history_of(tables, fixed, ins, steps):
    """At each time, for each cell that is live under some assignment those under which it is."""
    history = [{} for _ in range(steps + 1)]
    for a in range(tables.full.bit_length()):
        live = set(fixed) | {cell for name, cell in ins if tables.of[name] >> a & 1}
        for time, seen in enumerate(history):
            for cell in live:
                seen[cell] = seen.get(cell, 0) | 1 << a
            live = stepped(live, time)
    return history


def locals_of(rng, names, gates, kept):
    """All inputs are cut, or the outputs of some gates in place of them and of what made them. So many of the inverse
    gates that are used are kept."""
    cuts, used, local = list(names), [], set(names)
    rng.shuffle(cuts)
    for number, (_, ins, outs) in enumerate(gates):
        if local.issuperset(ins) and rng.random() < 0.9:
            used.append(number)
            local.update(outs)
        elif len(cuts) < 3 and not local.intersection(outs):
            cuts.append(outs[0])
            local.add(outs[0])
    return cuts, used, sorted(local), kept_of(rng, gates, used, kept)


def are_kept(gates, known):
    """Whether each inverse gate is kept by some module."""
    kept = {number for *_, numbers in known for number in numbers}
    return all(number in kept for number, (line, _, _) in enumerate(gates) if line.split(" ")[0] in INVERSE)


def signal_for(rng, tables, local, table, steady):
    """A local signal with this table, or any where there is none."""
    same = [wire for wire in local if tables.of[wire] == table] + ["1"] * (table == tables.full)
    if steady and same:
        return same[-1] if same[-1] == "1" else same[0]
    return rng.choice(same or [*local, "1"])


def right_lines(rng, tables, local, cells, history, steady):
    """By place the signals of these cells. A place has time -1 where it is every odd time."""
    odd = range(1, len(history) - 1, 2)
    lines = {}
    for x, y in sorted(cells):
        carried = [history[time].get((x, y), 0) for time in odd]
        if carried and carried[0] and len(set(carried)) == 1 and rng.random() < 0.7:
            lines[-1, y, x] = signal_for(rng, tables, local, carried[0], steady)
            continue
        lines |= {(time, y, x): signal_for(rng, tables, local, table, steady) for time,
                  table in zip(odd, carried) if table}
    return lines


def make_wrong(rng, lines, local, cells, steps):
    """Drops a line, gives one another signal, or adds one."""
    way = rng.randrange(3)
    if lines and way < 2:
        place = rng.choice(sorted(lines))
        if way == 0:
            del lines[place]
        else:
            lines[place] = rng.choice([*local, "1"])
    elif cells and steps > 1:
        x, y = rng.choice(sorted(cells))
        if (-1, y, x) not in lines:
            lines[rng.randrange(1, steps, 2), y, x] = rng.choice([*local, "1"])


def right_stops(rng, tables, local, box, history, steady):
    """By place the wires that some cells of the box carry at some times.

    Where it is steady, wires of one value follow each other in time.
    """
    stops, steps, inside = {}, len(history) - 1, cells_of(*box)
    seen = [(time, y, x) for time in range(steps + 1) for x, y in sorted(inside & set(history[time]))]
    for time, y, x in sorted(rng.sample(seen, min(len(seen), rng.choice([0, 1, 2, 4])))):
        same = [wire for wire in local if tables.of[wire] == history[time][x, y]]
        if same:
            stops[time, y, x] = same[time * len(same) // (steps + 1)] if steady else rng.choice(same)
    return stops


def timed(rng, gates, stops, mood):
    """The lines of the gates, with numbers that the stops show to be right for most delays, and whether they do for
    all."""
    times, lines, all_right = {}, [], True
    for (time, _, _), wire in stops:
        times.setdefault(wire, []).append(time)
    for line, ins, outs in gates:
        kind, _, *rest = line.split(" ")
        if kind == "delay":
            gap = min(times[outs[0]]) - max(times[ins[0]]) if ins[0] in times and outs[0] in times else 0
            is_right = gap > 0 and rng.random() > mood.wrong
            line, all_right = " ".join([kind, str(gap), *rest]) if is_right else line, all_right and is_right
        lasts = {max(times[wire]) for wire in ins if wire in times}
        lines.append(line)
        all_right = all_right and len(lasts) < 2
    return lines, all_right


def module_lines(rng, tables, box, places, known, history, mood):
    """The lines, and of the stops their places and wires."""
    x, y, w, h = box
    cuts, used, local, kept = known
    rim, inside = places
    texts = ["module %d %d %d %d" % box, *(f"cut {wire}" for wire in cuts), *(f"use {number}" for number in used)]
    texts += [f"keep {number}" for number in kept]
    halo = ring(x - 1, y - 1, w + 2, h + 2) & inside
    for kind, cells in (("edge", ring(*box) - rim), ("halo", halo)):
        lines = right_lines(rng, tables, local, cells, history, mood.steady)
        if rng.random() < mood.wrong:
            make_wrong(rng, lines, local, cells, len(history) - 1)
        texts += [f"{kind} {'*' if time < 0 else time} {x} {y} {signal}"
                  for (time, y, x), signal in sorted(lines.items())]
    stops = right_stops(rng, tables, local, box, history, mood.steady)
    if rng.random() < mood.wrong / 2:
        x, y, w, h = box
        if local:
            wire = rng.choice(local)
            stops[rng.randint(0, len(history) - 1), rng.randrange(y, y + h), rng.randrange(x, x + w)] = wire
    texts += [f"stop {time} {wire} {x} {y}" for (time, y, x), wire in sorted(stops.items())]
    return texts, [*stops.items()]


def end_cells(rng, tables, owners, solid, free, last, mood):
    """Waste cells, and wires at cells where they are carried at the last time; now and then at a cell where they are
    not."""
    wastes, outs = [], []
    for cell, table in sorted(last.items()):
        if cell in owners and cell not in solid:
            same = [wire for wire in free if wire in owners[cell] and tables.of[wire] == table]
            if same and rng.random() < 0.7:
                outs.append((rng.choice(same), cell))
            elif rng.random() < 1 - mood.forgotten:
                wastes.append(cell)
    others = sorted(set(owners) - solid - set(last))
    if others and rng.random() < mood.wrong:
        cell = rng.choice(others)
        local = [wire for wire in free if wire in owners[cell]]
        if local and rng.random() < 0.7:
            outs.append((rng.choice(local), cell))
        else:
            wastes.append(cell)
    return wastes, outs


def reaches(history, rim):
    """Whether a cell of the rim is live at an odd time, where no line may say so."""
    return any(rim & set(seen) for seen in history[1:-1:2])


def mostly_right_bundle(rng, is_dense=False, mood=WILD):
    """The bundle's text: sides of modules of 2 to 8, and at most three cuts a module, now and then up to ten. Calm
    bundles mostly get a yes, and of renamed ones many a no by a border alone."""
    width, height, steps = 2 * rng.randint(2, 6), 2 * rng.randint(2, 6), rng.choice([0, 1, 2, 3, 4, 5, 8, 12])
    steps = max(steps, 3) if mood is RENAMED else steps
    many = rng.randint(4, 10) if rng.random() < 0.03 else 0
    names = [f"i{k}" for k in range(min(many or rng.choice([0, 1, 2, 2, 3]), mood.inputs))]
    _, free, gates = gates_of(rng, names, rng.choice([0, 1, 2, 3, 4]))
    if mood is RENAMED:
        gates, free = gates + [("source 1 -> again", [], ["again"])], [*free, "again"]
    tables, inside = Tables(names, gates), cells_of(0, 0, width, height)
    mirrors = mirrors_of(rng, width, height) if mood is not RENAMED else still_mirrors(rng, width, height)
    solid = set().union(*(cells_of(*mirror) for mirror in mirrors))
    balls, ins = start_cells(rng, inside - solid, names, is_dense)
    history = history_of(tables, solid | set(balls), ins, steps)
    if mood is not WILD and reaches(history, ring(0, 0, width, height)):
        return mostly_right_bundle(rng, is_dense, mood)
    boxes = tiles(rng, 0, 0, width, height, 2 if mood is RENAMED else rng.choice([2, 4, 8, 8]))
    kept = rng.choice([1, 1, 0.8, 0]) if mood is WILD else 1
    known = [locals_of(rng, names, gates, kept) for _ in boxes]
    if mood is not WILD and not (tables.is_defined and are_kept(gates, known)):
        return mostly_right_bundle(rng, is_dense, mood)
    owners = {cell: local for box, (_, _, local, _) in zip(boxes, known) for cell in cells_of(*box)}
    wastes, outs = end_cells(rng, tables, owners, solid, free, history[-1], mood)
    modules = [module_lines(rng, tables, box, (ring(0, 0, width, height), inside), what, history, mood) for box,
               what in zip(boxes, known)]
    gate_lines, are_right = timed(rng, gates, [stop for _, stops in modules for stop in stops], mood)
    if mood is not WILD and not are_right:
        return mostly_right_bundle(rng, is_dense, mood)
    outputs = sorted({wire for wire, _ in outs})
    texts = ["circuit", *(f"input {name}" for name in names), *gate_lines]
    texts += [f"output {wire}" for wire in outputs] + [f"spill {wire}" for wire in free
                                                       if wire not in outputs] + ["end"]
    texts += [f"layout {width} {height} {steps}", *("mirror %d %d %d %d" % box for box in mirrors)]
    texts += ["ball %d %d" % cell for cell in balls] + ["in %s %d %d" % (name, *cell) for name, cell in ins]
    texts += ["out %s %d %d" % (wire, *cell) for wire, cell in outs] + ["waste %d %d" % cell
                                                                        for cell in wastes] + ["end"]
    texts += ["certificate 1", *(line for lines, _ in modules for line in lines)]
    return "".join(text + "\n" for text in texts + ["end"]).encode()
