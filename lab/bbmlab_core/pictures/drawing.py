"""`bbmlab draw`: a layout as an SVG picture, with its balls at a time or their ways over all times."""

from dataclasses import dataclass, field
from html import escape
from typing import Sequence

from ..physics.simulation import TruthTable
from ..texts.certificates import Module
from ..texts.circuits import Circuit, evaluate_all, evaluate_samples, sampled_tables
from ..texts.documents import Document
from ..texts.gates import input_tables
from ..texts.layouts import Box, Cell, Layout, LayoutPart
from .label_places import NameToPlace, Rect, choose_name_places, leader_line
from .picture_parts import OTHER_WIRES_LABEL, chevrons, pieces_within
from .ways import Piece, directed_ways, joined_pieces, ways_by_table

CELL_PX = 12
MARGIN_PX = 30
# The middle of the first cell.
FIRST_CELL_CENTRE = MARGIN_PX + CELL_PX // 2
NAME_FONT_SIZE = 8
# Up to this many inputs all choices are tried, and else so many samples of them.
MAX_EXHAUSTIVE_INPUTS = 12
SAMPLE_COUNT = 256
# Larger layouts get larger letters and wider ways, so that they can be read at the width of a page. Above
# `LARGE_LAYOUT_SIDE` ways stay as wide as they are at that side in a picture of one size: balls of the router keep four
# cells apart.
MAX_UNSCALED_SIDE = 64
MAX_WAY_WIDENING = 2.5
LARGE_LAYOUT_SIDE = 512
MAX_LEGEND_WIRES = 40
MAX_SEPARATE_MIRRORS = 2000
# More names of ports would cover each other and take minutes to place.
MAX_PORT_NAMES = 512
# In a picture of a large layout a ball is at least this part of its side, and the name of a gate is at least this part
# of a port's name.
LEAST_BALL_SHARE, LEAST_NAME_SHARE = 1 / 300, 0.5
# More modules have faint borders and no numbers, which would hide the ways.
MAX_NUMBERED_MODULES = 64
# Colours that people with any sight tell apart (Okabe and Ito) on white and on black, and dashes for print.
COLOURS = ["#0072b2", "#d55e00", "#009e73", "#cc79a7", "#e69f00", "#56b4e9", "#8c510a", "#5e3c99"]
DARK_COLOURS = ["#4aa8e0", "#f0803c", "#2cc79a", "#e3a1c4", "#f5b942", "#8fd0f5", "#c98f4e", "#a98be0"]
DASHES = ["", "6 2", "2 2", "8 2 2 2", "4 4", "1 3", "10 3", "6 2 1 2 1 2"]
SEVERAL_COLOUR_NUMBER, FAINT_COLOUR_NUMBER = 8, 9

STYLE = """text{font:7px sans-serif;fill:#222}.name{font-weight:bold;font-size:8px;stroke:#f7f7f4;stroke-width:2px;
stroke-linejoin:round;paint-order:stroke}.leader{stroke:#222;stroke-width:.7}.in{fill:none;stroke:#222}
.out{fill:none;stroke:#222;stroke-dasharray:2 1.5}.waste{stroke:#222;fill:none}.mirror{fill:#7f8691}.ball{fill:#111}
.box{fill:none;stroke:#7a3db8;stroke-width:1.2;stroke-dasharray:5 3}.number{fill:#7a3db8;font-size:8px}
.faint{stroke-width:1;stroke-dasharray:none;stroke-opacity:.2}.fault{fill:none;stroke:#d00000;stroke-width:2.5}
.way{fill:none;stroke-width:2.2;stroke-linecap:round}.way[stroke-dasharray]{stroke-linecap:butt}
.back{fill:#fff}.plane{fill:#f7f7f4}.line{stroke:#dcdcd6;stroke-width:.4}.w8{stroke:#777}
@media(prefers-color-scheme:dark){text{fill:#eee}.name{stroke:#1e2126}.leader{stroke:#eee}.fault{stroke:#ff5a52}\
.in,.out,.waste{stroke:#eee}.mirror{fill:#7c828c}.ball{fill:#fff}
.box{stroke:#c79bff}.number{fill:#c79bff}.back{fill:#16181c}.plane{fill:#1e2126}\
.line{stroke:#343840}.w8{stroke:#999}}"""
LIGHT_WAY_STYLE = "".join(f".w{index}{{stroke:{colour}}}" for index, colour in enumerate(COLOURS))
DARK_WAY_STYLE = "".join(f".w{index}{{stroke:{colour}}}" for index, colour in enumerate(DARK_COLOURS))


@dataclass
class Drawing:
    """What a picture shows of a layout, apart from its parts.

    `wire_labels` has the names of the wires that share a way with the key.
    """

    live: set[Cell] = field(default_factory=set)
    ways: dict[str, list[Piece]] = field(default_factory=dict)
    wire_labels: dict[str, str] = field(default_factory=dict)
    modules: Sequence[Module] = ()
    # The boxes of modules that use gates, with what is said of them: in a large layout in place of all modules.
    gates: list[tuple[Box, list[str]]] = field(default_factory=list)
    faults: list[tuple[Cell, str]] = field(default_factory=list)
    title: str = ""
    # The part of the layout that is shown, or all of it; the cells that a ball takes at least; whether the ways have
    # arrows.
    view: Box | None = None
    least_ball_size: float = 0.0
    has_arrows: bool = False

    def shown_box(self, layout: Layout) -> Box:
        """Returns the part of a layout that is shown."""
        return self.view or Box(0, 0, layout.width, layout.height)


def cell_centre(cell: Cell) -> tuple[float, float]:
    """Returns the middle of a cell in the picture."""
    return MARGIN_PX + cell[0] * CELL_PX + CELL_PX / 2, MARGIN_PX + cell[1] * CELL_PX + CELL_PX / 2


def coordinate_text(number: float) -> str:
    """Writes a coordinate with as few digits as it needs."""
    return f"{number:.1f}".rstrip("0").rstrip(".")


def rectangle_element(kind: str, x: int, y: int, width: int, height: int) -> str:
    """Returns a rectangle of cells."""
    return (f'<rect class="{kind}" x="{MARGIN_PX + x * CELL_PX}" y="{MARGIN_PX + y * CELL_PX}" '
            f'width="{width * CELL_PX}" height="{height * CELL_PX}"/>')


def number_spacing(size: int) -> int:
    """Returns how many cells lie between two numbers at the side."""
    return 2 if size <= 40 else 8 if size <= 128 else 64 if size <= 1024 else 256


def multiples(first: int, count: int, step: int) -> range:
    """Returns the multiples of a step among some numbers from a first one on."""
    return range(-(-first // step) * step, first + count, step)


def plane_elements(view: Box) -> list[str]:
    """Returns the background with the lines of even blocks and the numbers of columns and rows."""
    parts = [rectangle_element("plane", view.x, view.y, view.width, view.height)]
    left, top = MARGIN_PX + view.x * CELL_PX, MARGIN_PX + view.y * CELL_PX
    if max(view.width, view.height) <= 128:
        right, bottom = left + view.width * CELL_PX, top + view.height * CELL_PX
        lines = [f"M{MARGIN_PX + x * CELL_PX} {top}V{bottom}" for x in multiples(view.x, view.width + 1, 2)]
        lines += [f"M{left} {MARGIN_PX + y * CELL_PX}H{right}" for y in multiples(view.y, view.height + 1, 2)]
        parts.append(f'<path class="line" d="{"".join(lines)}"/>')
    for x in multiples(view.x, view.width, number_spacing(view.width)):
        centre = coordinate_text(cell_centre((x, 0))[0])
        parts.append(f'<text x="{centre}" y="{top - 6}" text-anchor="middle">{x}</text>')
    for y in multiples(view.y, view.height, number_spacing(view.height)):
        base = coordinate_text(cell_centre((0, y))[1] + 2.5)
        parts.append(f'<text x="{left - 6}" y="{base}" text-anchor="end">{y}</text>')
    return parts


def labelled_cells(layout: Layout) -> dict[tuple[Cell, str], list[str]]:
    """Returns the cells that get names, with their kinds.

    A ball of two cells has its name once: behind an `in`, ahead of an `out`.
    """
    ports: dict[tuple[str, str], list[Cell]] = {}
    for part in layout.parts:
        if part.kind in ("in", "out"):
            ports.setdefault((part.kind, part.name or ""), []).append(part.cell)
    labels: dict[tuple[Cell, str], list[str]] = {}
    for (kind, name), cells in ports.items():
        if len(cells) == 2 and all(abs(one - other) == 2 for one, other in zip(*cells)):
            way = flight_direction(cells[0], 0 if kind == "in" else layout.steps)
            cells = [(max if kind == "out" else min)(cells, key=lambda cell: cell[0] * way[0] + cell[1] * way[1])]
        for cell in cells:
            labels.setdefault((cell, kind), []).append(name)
    return labels


def flight_direction(cell: Cell, time: int) -> tuple[int, int]:
    """Returns the direction in which a lone cell moves in the step from a time: dx and dy, each 1 or -1."""
    return -1 if (cell[0] + time) % 2 else 1, -1 if (cell[1] + time) % 2 else 1


def cell_rect(x: int, y: int, width: int = 1, height: int = 1) -> Rect:
    """Returns the place of some cells in the picture."""
    return Rect(MARGIN_PX + x * CELL_PX, MARGIN_PX + y * CELL_PX, width * CELL_PX, height * CELL_PX)


def port_name_elements(layout: Layout, view: Box, scale: float) -> list[str]:
    """Returns the names of ports, inputs above and outputs below if they cover no other port there.

    Names of one cell are in one place.
    """
    size = NAME_FONT_SIZE * scale
    labels = [(cell_rect(*cell), kind, "→" + names[0] if kind == "in" else names[0] + "→")
              for (cell, kind), names in labelled_cells(layout).items()]
    if len(labels) > MAX_PORT_NAMES:
        return []
    # Bold letters are about 0.64 of their size wide, and an arrow is as wide as it is high.
    names = [NameToPlace(cell, size * (0.64 * len(mark) + 0.5), size, kind == "in") for cell, kind, mark in labels]
    named = {(name.cell_rect.x, name.cell_rect.y) for name in names}
    # The second cell of a ball of two cells has no name of its own, and is a port too.
    ports = [cell_rect(*part.cell) for part in layout.parts if part.kind in ("in", "out")]
    bare = [rect for rect in ports if (rect.x, rect.y) not in named]
    signs = [cell_rect(*part.cell) for part in layout.parts if part.kind in ("waste", "ball")]
    walls = [cell_rect(part.x, part.y, part.width, part.height) for part in layout.of_kind("mirror")]
    room, lines, parts = MARGIN_PX * scale, [], []
    bounds = Rect(MARGIN_PX + view.x * CELL_PX - room, MARGIN_PX + view.y * CELL_PX - room,
                  view.width * CELL_PX + 2 * room, view.height * CELL_PX + 2 * room)
    for (cell, _, mark), place in zip(labels, choose_name_places(names, signs + walls, bare, bounds)):
        line = leader_line(place, cell)
        if line:
            (x, y), (u, v) = line
            lines.append(f'<path class="leader" d="M{coordinate_text(x)} {coordinate_text(y)}'
                         f'L{coordinate_text(u)} {coordinate_text(v)}"/>')
        box = place.box
        parts.append(f'<text class="name" x="{coordinate_text(box.x + box.width / 2)}" '
                     f'y="{coordinate_text(box.y + box.height * 0.84)}" text-anchor="middle">{escape(mark)}</text>')
    return lines + parts


def mirror_elements(mirrors: list[LayoutPart]) -> list[str]:
    """Returns mirrors: each by itself, or one path for very many."""
    if len(mirrors) <= MAX_SEPARATE_MIRRORS:
        return [rectangle_element("mirror", part.x, part.y, part.width, part.height) for part in mirrors]
    boxes = (f"M{MARGIN_PX + part.x * CELL_PX} "
             f"{MARGIN_PX + part.y * CELL_PX}h{part.width * CELL_PX}v{part.height * CELL_PX}h-{part.width * CELL_PX}z"
             for part in mirrors)
    return [f'<path class="mirror" d="{"".join(boxes)}"/>']


def layout_elements(layout: Layout) -> list[str]:
    """Returns mirrors, ports and waste cells."""
    parts = mirror_elements(layout.of_kind("mirror"))
    parts += [rectangle_element("out", part.x, part.y, 1, 1) for part in layout.of_kind("out")]
    parts += [f'<rect class="in" x="{MARGIN_PX + part.x * CELL_PX + 1.5}" y="{MARGIN_PX + part.y * CELL_PX + 1.5}" '
              f'width="{CELL_PX - 3}" height="{CELL_PX - 3}"/>'
              for part in layout.of_kind("in")]
    parts += [waste_element(part) for part in layout.of_kind("waste")]
    return parts


def waste_element(part: LayoutPart) -> str:
    """Returns a cross in a waste cell."""
    x, y = MARGIN_PX + part.x * CELL_PX + 2, MARGIN_PX + part.y * CELL_PX + 2
    side = CELL_PX - 4
    return f'<path class="waste" d="M{x} {y}l{side} {side}m0-{side}l-{side} {side}"/>'


def module_elements(modules: Sequence[Module]) -> list[str]:
    """Returns the borders of modules, with their numbers if they are few."""
    is_numbered, parts = len(modules) <= MAX_NUMBERED_MODULES, []
    for module in modules:
        box = module.box
        parts.append(rectangle_element("box" if is_numbered else "box faint", box.x, box.y, box.width, box.height))
        if is_numbered:
            parts.append(f'<text class="number" x="{MARGIN_PX + box.x * CELL_PX + 3}" '
                         f'y="{MARGIN_PX + box.y * CELL_PX + 9}">{module.number}</text>')
    return parts


def gate_elements(gates: list[tuple[Box, list[str]]]) -> list[str]:
    """Returns the boxes of modules that use gates, with what is said of them."""
    return ['<g><title>a module that uses '
            f'{escape(", ".join(names))}</title>{rectangle_element("gate", box.x, box.y, box.width, box.height)}</g>'
            for box, names in gates]


def gate_name_elements(gates: list[tuple[Box, list[str]]], scale: float) -> list[str]:
    """Returns the first gate of each box, and how many others there are, where the box has room for these words."""
    parts, largest = [], NAME_FONT_SIZE * scale
    for box, names in gates:
        shown = names[0] + (f" +{len(names) - 1}" if len(names) > 1 else "")
        size = min(largest, box.width * CELL_PX / (0.62 * len(shown)), box.height * CELL_PX)
        x, y = MARGIN_PX + (box.x + box.width / 2) * CELL_PX, MARGIN_PX + (box.y + box.height / 2) * CELL_PX + size / 3
        if size >= LEAST_NAME_SHARE * largest:
            parts.append(f'<text class="gate-name" x="{coordinate_text(x)}" y="{coordinate_text(y)}" '
                         f'style="font-size:{coordinate_text(size)}px">{escape(shown)}</text>')
    return parts


def ball_elements(layout: Layout, live: set[Cell], least: float) -> list[str]:
    """Returns the live cells that are no mirror's as discs of a least size in cells, and dead cells of mirrors as
    holes."""
    mirrors = layout.mirror_cells()
    parts, radius = [], CELL_PX * max(0.33, least / 2)
    for cell in sorted(live - mirrors):
        x, y = cell_centre(cell)
        parts.append(f'<circle class="ball" cx="{coordinate_text(x)}" cy="{coordinate_text(y)}" r="{radius:.1f}"/>')
    if live:
        parts += [rectangle_element("plane", *cell, 1, 1) for cell in sorted(mirrors - live)]
    return parts


def wire_styles(wires: list[str]) -> dict[str, tuple[int, str]]:
    """Returns the number of a colour, and a dash, for each wire."""
    styles = {wire: (index % 8, DASHES[index // 8 % 8]) for index,
              wire in enumerate(wire for wire in wires if wire not in ("", OTHER_WIRES_LABEL))}
    return styles | {"": (SEVERAL_COLOUR_NUMBER, "1 2"), OTHER_WIRES_LABEL: (FAINT_COLOUR_NUMBER, "")}


def ordered_wires(drawing: Drawing, wires: list[str]) -> list[str]:
    """Returns the wires that have a way: first those that are faint, then others in their order, then the constants,
    and then what is no wire's."""
    return [wire for wire in [OTHER_WIRES_LABEL, *wires, "1", ""] if wire in drawing.ways]


def label_of(drawing: Drawing, wire: str) -> str:
    """Returns what the legend says of a wire."""
    return {"": "no wire", "1": "constant"}.get(wire, drawing.wire_labels.get(wire, wire))


def way_elements(drawing: Drawing, wires: list[str], widening: float) -> list[str]:
    """Returns the ways of balls, a path for each wire."""
    order, parts = ordered_wires(drawing, wires), []
    styles = wire_styles(order)
    for index, wire in enumerate(order):
        colour, dash = styles[wire]
        # Later ways are thinner, so that one below another is still seen. In a large layout the thinnest must still be
        # seen itself.
        thinnest = 1.6 if widening == 1 else 2.6
        width = (5 - (5 - thinnest) * index / max(1, len(order) - 1)) * widening
        path = "".join([f"M{FIRST_CELL_CENTRE + CELL_PX * x} {FIRST_CELL_CENTRE + CELL_PX * y}"
                        f"L{FIRST_CELL_CENTRE + CELL_PX * u} {FIRST_CELL_CENTRE + CELL_PX * v}"
                        for (x, y), (u, v) in joined_pieces(drawing.ways[wire])])
        lengths = " ".join(coordinate_text(int(part) * widening) for part in dash.split())
        dashes = f' stroke-dasharray="{lengths}"' if dash else ""
        title = escape(label_of(drawing, wire))
        parts.append(f'<path class="way w{colour}" style="stroke-width:{coordinate_text(width)}"{dashes} '
                     f'd="{path}"><title>{title}</title></path>')
        has_arrows = drawing.has_arrows and wire != OTHER_WIRES_LABEL
        heads = chevrons(drawing.ways[wire], 3 * width / CELL_PX) if has_arrows else []
        if heads:
            path = "".join("M" + "L".join(f"{coordinate_text(MARGIN_PX + x * CELL_PX)} "
                                          f"{coordinate_text(MARGIN_PX + y * CELL_PX)}" for x, y in head)
                           for head in heads)
            parts.append(f'<path class="way w{colour}" style="stroke-width:{coordinate_text(width)}" d="{path}"/>')
    return parts


def legend_elements_and_height(drawing: Drawing, wires: list[str], y: int, width: float) -> tuple[list[str], int]:
    """Returns the names of the wires with their colours, in lines of at most a width, and the height that they take."""
    order = ordered_wires(drawing, wires)
    styles, parts = wire_styles(order), []
    x, top = float(MARGIN_PX), y
    for wire in order[:MAX_LEGEND_WIRES]:
        colour, dash = styles[wire]
        text = label_of(drawing, wire)
        text = text if len(text) <= 30 else text[:28] + ".."
        room = 32 + 4.2 * len(text)
        if x > MARGIN_PX and x + room > width - MARGIN_PX:
            x, top = float(MARGIN_PX), top + 12
        dashes = f' stroke-dasharray="{dash}"' if dash else ""
        parts.append(f'<path class="way w{colour}"{dashes} d="M{coordinate_text(x)} {top}h16"/>'
                     f'<text x="{coordinate_text(x + 20)}" y="{top + 2.5}">{escape(text)}</text>')
        x += room
    return parts, top - y + 12 if parts else 0


def clip_layout_and_drawing(layout: Layout, drawing: Drawing) -> Layout:
    """Returns what a picture shows of a layout, and takes away what it does not show of the drawing."""
    view = drawing.view
    if view is None:
        return layout
    drawing.ways = {wire: found for wire, pieces in drawing.ways.items() if (found := pieces_within(pieces, view))}
    drawing.live = {cell for cell in drawing.live if view.has(cell)}
    drawing.faults = [fault for fault in drawing.faults if view.has(fault[0])]
    drawing.modules = [module for module in drawing.modules if has_overlap(module.box, view)]
    drawing.gates = [gate for gate in drawing.gates if has_overlap(gate[0], view)]
    return layout.clipped(view)


def has_overlap(one: Box, other: Box) -> bool:
    """Returns whether two boxes share a cell."""
    return (one.x < other.x + other.width and other.x < one.x + one.width and one.y < other.y + other.height
            and other.y < one.y + one.height)


def extra_style(drawing: Drawing, scale: float) -> str:
    """Returns the style that only some pictures need: of larger letters, of gates and of faint ways."""
    letters = (f"g.plan text{{font-size:{coordinate_text(7 * scale)}px}}"
               f"g.plan .name{{font-size:{coordinate_text(8 * scale)}px}}" if scale > 1 else "")
    if drawing.gates:
        letters += (".gate{fill:#7a3db8;fill-opacity:.18}.gate-name{fill:#5c2a92;text-anchor:middle;font-weight:bold;"
                    f"stroke:#f7f7f4;stroke-width:{coordinate_text(2 * scale)}px;stroke-linejoin:round;"
                    "paint-order:stroke}"
                    "@media(prefers-color-scheme:dark){.gate-name{fill:#d3b3ff;stroke:#1e2126}}")
    if OTHER_WIRES_LABEL in drawing.ways:
        letters += (f".w{FAINT_COLOUR_NUMBER}{{stroke:#cfcfc9}}"
                    f"@media(prefers-color-scheme:dark){{.w{FAINT_COLOUR_NUMBER}{{stroke:#3d424b}}}}")
    return letters


def layout_svg(layout: Layout, drawing: Drawing, wires: list[str]) -> str:
    """Writes the picture.

    Above `MAX_UNSCALED_SIDE` cells a side, letters and margins grow with the part of the layout that is shown.
    """
    view, layout = drawing.shown_box(layout), clip_layout_and_drawing(layout, drawing)
    side = max(view.width, view.height)
    scale = max(1.0, side / MAX_UNSCALED_SIDE)
    widening, margin = min(scale, MAX_WAY_WIDENING) * max(1.0, side / LARGE_LAYOUT_SIDE), MARGIN_PX * (scale - 1)
    width, bottom = 2 * MARGIN_PX * scale + view.width * CELL_PX, MARGIN_PX * scale + view.height * CELL_PX
    width = max(width, 2 * MARGIN_PX + 256 if drawing.ways else 0)
    keys, key_height = legend_elements_and_height(drawing, wires, 24, width / scale)
    height = bottom + (34 + key_height) * scale
    ball = drawing.least_ball_size or (side * LEAST_BALL_SHARE if side > LARGE_LAYOUT_SIDE else 0.0)
    parts = [*plane_elements(view), *layout_elements(layout), *module_elements(drawing.modules),
             *gate_elements(drawing.gates), *way_elements(drawing, wires, widening),
             *gate_name_elements(drawing.gates, scale), *ball_elements(layout, drawing.live, ball),
             *port_name_elements(layout, view, scale)]
    for cell, about in drawing.faults:
        x, y = cell_centre(cell)
        parts.append(f'<circle class="fault" cx="{coordinate_text(x)}" cy="{coordinate_text(y)}" '
                     f'r="{CELL_PX * max(0.75, ball):.1f}"><title>{escape(about)}</title></circle>')
    style = (f"{STYLE}{LIGHT_WAY_STYLE}@media(prefers-color-scheme:dark){{{DARK_WAY_STYLE}}}"
             f"{extra_style(drawing, scale)}")
    count = len(labelled_cells(layout))
    words = escape(drawing.title + (f"; the names of {count} ports are left out" if count > MAX_PORT_NAMES else ""))
    title = f'<g transform="scale({coordinate_text(scale)})"><text x="{MARGIN_PX}" y="12">{words}</text></g>'
    below = (f'<g transform="translate(0 {coordinate_text(bottom)}) scale({coordinate_text(scale)})">'
             + "\n".join(keys) + "</g>")
    size = f"{coordinate_text(width)} {coordinate_text(height)}"
    return (f'<svg xmlns="http://www.w3.org/2000/svg" viewBox="0 0 {size}" width="{coordinate_text(width)}" '
            f'height="{coordinate_text(height)}" role="img">'
            f"<title>{words}</title>\n<style>{style}</style>\n"
            f'<rect class="back" width="{coordinate_text(width)}" height="{coordinate_text(height)}"/>\n'
            f'<g class="plan" transform="translate({coordinate_text(margin - view.x * CELL_PX)} '
            f'{coordinate_text(margin - view.y * CELL_PX)})">\n'
            + "\n".join(parts)
            + f"\n</g>\n{title}\n{below}\n</svg>\n")


def wire_tables_and_column(document: Document, on: list[str]) -> tuple[dict[str, TruthTable], TruthTable, int]:
    """Returns the tables of the wires, that of all columns, and the column in which just the names of `on` are true.

    The columns are all assignments of the inputs, or samples if there are more inputs than `MAX_EXHAUSTIVE_INPUTS`.
    """
    layout, circuit = document.layout, document.circuit
    assert layout is not None
    inputs = circuit.inputs if circuit else list(dict.fromkeys(part.name or "" for part in layout.of_kind("in")))
    chosen = sum(1 << index for index, name in enumerate(inputs) if name in on)
    if len(inputs) > MAX_EXHAUSTIVE_INPUTS:
        full = (1 << SAMPLE_COUNT) - 1
        return evaluate_samples(circuit, SAMPLE_COUNT,
                                on).tables if circuit else sampled_tables(inputs, SAMPLE_COUNT, on), full, 0
    if circuit:
        values = evaluate_all(circuit)
        return values.tables, values.full, chosen
    return dict(zip(inputs, input_tables(len(inputs)))), (1 << (1 << len(inputs))) - 1, chosen


def sampling_note(document: Document) -> str:
    """Says that not all choices of the inputs are tried, if that is so."""
    layout, circuit = document.layout, document.circuit
    assert layout is not None
    count = len(circuit.inputs) if circuit else len({part.name for part in layout.of_kind("in")})
    return f" in {SAMPLE_COUNT} sampled choices of the {count} inputs" if count > MAX_EXHAUSTIVE_INPUTS else ""


def ball_ways_and_labels(document: Document, on: list[str] | None, until: int,
                         is_directed: bool = False) -> tuple[dict[str, list[Piece]], dict[str, str]]:
    """Returns the ways of the balls by the wires that are true if and only if a ball takes them, as straight pieces.

    With `on` only the ways under this choice of inputs are left. The empty name is for assignments that are no wire's.
    Of equal wires the first one has the way: the second result is the list of their names, by this wire. Pieces go from
    left to right, or as the balls fly.
    """
    layout = document.layout
    assert layout is not None
    tables, full, chosen = wire_tables_and_column(document, on or [])
    names: dict[TruthTable, str] = {}
    equal: dict[str, list[str]] = {}
    for name, table in tables.items():
        equal.setdefault(names.setdefault(table, name), []).append(name)
    names[full] = "1"
    ways: dict[str, list[Piece]] = {}
    for table, pieces in (directed_ways if is_directed else ways_by_table)(layout, tables, full, until).items():
        if on is None or table >> chosen & 1:
            ways.setdefault(names.get(table, ""), []).extend(pieces)
    return ways, {name: ", ".join(same) for name, same in equal.items()}


def group_ways_by_level(drawing: Drawing, circuit: Circuit, most_wires: int = MAX_LEGEND_WIRES) -> list[str]:
    """Gives the ways of more wires than some to groups of levels, and returns the groups.

    A level counts the gates from the inputs to a wire.
    """
    levels = dict.fromkeys(circuit.inputs, 0)
    for gate in circuit.gates:
        level = max((levels[wire] for wire in gate.ins), default=0) + (gate.kind not in ("source", "delay"))
        levels.update((wire, level) for wire in gate.outs)
    present = [wire for wire in drawing.ways if wire in levels]
    if len(present) <= most_wires:
        return list(levels)
    most = max(levels[wire] for wire in present) + 1
    size = -(-most // len(COLOURS))
    lasts = {first: min(first + size, most) - 1 for first in range(0, most, size)}
    groups = {first: f"level {first}" if first == last else f"levels {first} to {last}" for first,
              last in lasts.items()}
    ways: dict[str, list[Piece]] = {}
    for wire, pieces in drawing.ways.items():
        ways.setdefault(groups[levels[wire] // size * size] if wire in levels else wire, []).extend(pieces)
    drawing.ways = ways
    return list(groups.values())
