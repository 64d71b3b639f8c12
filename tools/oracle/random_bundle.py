"""Random bundles that `modules` takes: the same one each time for the same random numbers."""

from reference import FRONT_LINE

# how many wires a gate uses and makes
GATES = {"source": (0, 1), "fredkin": (3, 3), "cswap": (3, 3), "interact": (2, 4), "switch": (2, 3), "delay": (1, 1)}
# those that have no row at some inputs, and what each turns back
INVERSE = {"unswitch": (3, 2), "uninteract": (4, 2)}
BACK = {"switch": "unswitch", "interact": "uninteract"}


def tiles(rng, x, y, w, h, most):
    """Boxes that tile the rectangle, of even sides of at most `most`: it is cut at random places."""
    ways = [along for along, side in (("x", w), ("y", h)) if side > 2]
    if max(w, h) <= most and (not ways or rng.random() < 0.3):
        return [(x, y, w, h)]
    if rng.choice(ways) == "x":
        part = 2 * rng.randrange(1, w // 2)
        return tiles(rng, x, y, part, h, most) + tiles(rng, x + part, y, w - part, h, most)
    part = 2 * rng.randrange(1, h // 2)
    return tiles(rng, x, y, w, part, most) + tiles(rng, x, y + part, w, h - part, most)


def gates_of(rng, inputs, count):
    """The wires, those that no gate uses, and the gates: their lines, the wires that they use and those that they make.
    Now and then a gate is turned back by the next one."""
    kinds = GATES | INVERSE
    wires, free, gates, kind = list(inputs), list(inputs), [], None
    while len(gates) < count:
        is_turned = kind in BACK and rng.random() < 0.5
        kind = BACK[kind] if is_turned else rng.choice([kind for kind, (uses, _) in kinds.items() if uses <= len(free)])
        uses, makes = kinds[kind]
        if len(wires) + makes > 4096:
            break
        # wires made lately, so that gates hang together
        ins = [free.pop(k - uses if is_turned else rng.randrange(max(0, len(free) - 8), len(free)))
               for k in range(uses)]
        outs = [f"w{len(wires) + k}" for k in range(makes)]
        wires += outs
        free += outs
        number = {"source": [str(rng.randrange(2))], "delay": [str(rng.randint(1, 4096))]}.get(kind, [])
        gates.append((" ".join([kind, *number, *ins, "->", *outs]), ins, outs))
    return wires, free, gates


def locals_of(rng, asked, wires, gates, least):
    """Returns at least this many wires to cut, those asked for among them, and gates to use, in order."""
    cuts, used, local = list(asked), [], set(asked)
    most_cuts, most_used = rng.randint(max(least, len(cuts)), 10), rng.choice([1, 4, 16, 64])
    first = rng.randrange(len(gates)) if gates else 0
    for number, (_, ins, outs) in list(enumerate(gates))[first:]:
        need = [wire for wire in ins if wire not in local]
        if len(used) == most_used:
            break
        if len(cuts) + len(need) <= most_cuts and rng.random() < 0.9:
            cuts += need
            used.append(number)
            local.update(need + outs)
    others = [wire for wire in rng.sample(wires, min(len(wires), 10)) if wire not in local]
    return cuts + others[:rng.randint(max(0, least - len(cuts)), most_cuts - len(cuts))], used


def kept_of(rng, gates, used, chance):
    """Of the inverse gates that are used each by this chance."""
    return [number for number in used if gates[number][0].split(" ")[0] in INVERSE and rng.random() < chance]


def ring(x, y, w, h):
    return {(u, v) for u in range(x, x + w) for v in range(y, y + h) if u in (x, x + w - 1) or v in (y, y + h - 1)}


def border_lines(rng, kind, cells, local, steps, count):
    """At most count lines, about one in eight of them with `*`."""
    cells = sorted(cells)
    held = set(rng.sample(cells, rng.randint(0, min(count // 8 + 1, count, len(cells)))))
    places, moving = {(-1, y, x) for x, y in held}, [cell for cell in cells if cell not in held]
    for _ in range(count - len(held) if moving and steps > 1 else 0):
        x, y = rng.choice(moving)
        places.add((rng.randrange(1, steps, 2), y, x))
    for time, y, x in sorted(places):
        signal = rng.choice(local) if local and rng.random() < 0.8 else "1"
        yield f"{kind} {'*' if time < 0 else time} {x} {y} {signal}"


def stop_lines(rng, box, local, steps, count):
    """At most count stops of local wires, at any times and cells of the box."""
    x, y, w, h = box
    places = {(rng.randrange(steps + 1), y + rng.randrange(h), x + rng.randrange(w))
              for _ in range(count)} if local else set()
    for time, v, u in sorted(places):
        yield f"stop {time} {rng.choice(local)} {u} {v}"


def layout_lines(rng, width, height, steps, mirrors, ins, outs):
    """ins and outs: pairs of a wire and the cells from which its own is taken."""
    begun, ended, lines = set(), set(), [f"layout {width} {height} {steps}"]
    for _ in range(mirrors):
        w, h = (min(2 * rng.randint(1, 3), side) for side in (width, height))
        x, y = rng.randrange(width - w + 1), rng.randrange(height - h + 1)
        cells = {(u, v) for u in range(x, x + w) for v in range(y, y + h)}
        if not cells & begun and len(begun) < width * height // 8:
            begun |= cells
            ended |= cells
            lines.append(f"mirror {x} {y} {w} {h}")
    anywhere = [(x, y) for y in range(height) for x in range(width)]
    ports = [("ball", "", anywhere)] * (mirrors // 2) + [("in", " " + wire, cells) for wire, cells in ins]
    ports += [("out", " " + wire, cells) for wire, cells in outs] + [("waste", "", anywhere)] * (mirrors // 2)
    for kind, name, cells in ports:
        taken = begun if kind in ("ball", "in") else ended
        free = [cell for cell in cells if cell not in taken]
        if free:
            x, y = rng.choice(free)
            taken.add((x, y))
            lines.append(f"{kind}{name} {x} {y}")
        elif name:
            return None
    return lines + ["end"]


def second_version(text):
    """The text in version 2, without halo lines."""
    lines = text.replace(b"\ncertificate 1\n", b"\ncertificate 2\n").split(b"\n")
    return b"\n".join(line for line in lines if not line.startswith(b"halo "))


def behind_line_or_not(rng, text):
    """The text itself, or the text behind the line `limits 2`."""
    return FRONT_LINE + text if rng.random() < 0.5 else text


# For each line of a layout or a certificate with a cell, which word is its x.
X_WORDS = {b"mirror": 1, b"ball": 1, b"in": 2, b"out": 2, b"waste": 1, b"module": 1, b"edge": 2, b"halo": 2, b"stop": 3}


def moved(text, by):
    """The same bundle so many columns to the right, and modules without lines to the left of it."""
    found, height = [], 0
    for line in text.splitlines():
        words = line.split(b" ")
        if words[0] == b"layout":
            height = int(words[2])
            words[1] = b"%d" % (int(words[1]) + by)
        elif words[0] in X_WORDS and len(words) > 2:
            at = X_WORDS[words[0]]
            words[at] = b"%d" % (int(words[at]) + by)
        found.append(b" ".join(words))
        if words[0] == b"certificate":
            found += [b"module %d 0 %d %d" % (x, min(64, by - x), height) for x in range(0, by, 64)]
    return b"".join(line + b"\n" for line in found)


def bundle(rng, width, height, boxes, steps, inputs, gates, mirrors, cuts, lines):
    """The bundle's text, or None where a port found no cell. cuts is the least that a module has; gates, mirrors and
    lines are the most that there are, lines of the edge lines of a module and of its halo lines."""
    names = [f"i{k}" for k in range(inputs)]
    wires, free, gates = gates_of(rng, names, gates)
    asked = [[] for _ in boxes]
    for name in names:
        rng.choice(asked).append(name)
    if max(map(len, asked)) > 10:
        return None
    rim, certificate, places = ring(0, 0, width, height), ["certificate 1"], {}
    for box, wanted in zip(boxes, asked):
        x, y, w, h = box
        cut, used = locals_of(rng, wanted, wires, gates, min(cuts, len(wires)))
        local = cut + [wire for number in used for wire in gates[number][2]]
        for wire in local:
            places.setdefault(wire, []).append(box)
        certificate += [f"module {x} {y} {w} {h}", *(f"cut {wire}" for wire in cut),
                        *(f"use {number}" for number in used)]
        certificate += [f"keep {number}" for number in kept_of(rng, gates, used, 0.5)]
        edge = ring(*box) - rim
        halo = {(u, v) for u, v in ring(x - 1, y - 1, w + 2, h + 2) if 0 <= u < width and 0 <= v < height}
        for kind, cells in (("edge", edge), ("halo", halo)):
            certificate += border_lines(rng, kind, cells, local, steps, lines)
        certificate += stop_lines(rng, box, local, steps, rng.randint(0, lines))

    def home(wire):
        x, y, w, h = rng.choice(places[wire])
        return [(u, v) for v in range(y, y + h) for u in range(x, x + w)]

    outputs = [wire for wire in free if wire in places and rng.random() < 0.7]
    spills = [wire for wire in free if wire not in set(outputs)]
    ins, outs = [(wire, home(wire)) for wire in names], [(wire, home(wire)) for wire in outputs]
    layout = layout_lines(rng, width, height, steps, mirrors, ins, outs)
    if layout is None:
        return None
    circuit = ["circuit", *(f"input {name}" for name in names), *(line for line, _, _ in gates)]
    circuit += [f"output {wire}" for wire in outputs] + [f"spill {wire}" for wire in spills] + ["end"]
    return "".join(line + "\n" for line in circuit + layout + certificate + ["end"]).encode()
