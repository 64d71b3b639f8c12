"""The layout section: its values and its reader, and boxes of cells."""

from dataclasses import dataclass, field, replace
from functools import cached_property, partial
from typing import Iterable, Iterator, NamedTuple

from .circuits import Circuit
from .lines import SectionReader, TextLines, forms_by_keyword, later_kinds, section_text

KIND_ORDER = ["mirror", "ball", "in", "out", "waste"]
LATER_KINDS = later_kinds(KIND_ORDER)
# The kinds besides mirrors whose cells are taken at the start, and those whose cells are taken at the end.
START_ONLY_KINDS = ("ball", "in")
END_ONLY_KINDS = ("out", "waste")
# The side of the tiles by which the parts near a place are found.
TILE_SIDE = 64

Cell = tuple[int, int]


def row_order_key(cell: Cell) -> Cell:
    """Returns the key that sorts cells by y and then x."""
    return cell[1], cell[0]


def cells_of_rectangle(x: int, y: int, width: int, height: int) -> Iterator[Cell]:
    """Yields the cells of a rectangle, row by row."""
    for v in range(y, y + height):
        for u in range(x, x + width):
            yield u, v


class Box(NamedTuple):
    """A rectangle of cells with its upper left cell at (x, y)."""

    x: int
    y: int
    width: int
    height: int

    def has(self, cell: Cell) -> bool:
        """Whether a cell lies in the box."""
        return self.x <= cell[0] < self.x + self.width and self.y <= cell[1] < self.y + self.height

    def has_in_ring(self, cell: Cell) -> bool:
        """Whether a cell is one of the outermost of the box."""
        x, y = cell[0] - self.x, cell[1] - self.y
        is_inner = 0 < x < self.width - 1 and 0 < y < self.height - 1
        return 0 <= x < self.width and 0 <= y < self.height and not is_inner

    def has_in_halo(self, cell: Cell) -> bool:
        """Whether a cell lies outside the box and touches it at a side or a corner."""
        x, y = cell[0] - self.x, cell[1] - self.y
        is_inside = 0 <= x < self.width and 0 <= y < self.height
        return -1 <= x <= self.width and -1 <= y <= self.height and not is_inside

    def cells(self) -> Iterator[Cell]:
        """Yields the cells of the box, row by row."""
        return cells_of_rectangle(self.x, self.y, self.width, self.height)

    def ring(self) -> set[Cell]:
        """Returns the outermost cells of the box."""
        columns, rows = range(self.x, self.x + self.width), range(self.y, self.y + self.height)
        return {(x, y) for x in columns for y in (rows[0], rows[-1])} | {(x, y) for y in rows
                                                                         for x in (columns[0], columns[-1])}

    def halo(self) -> set[Cell]:
        """Returns the cells around the box."""
        return Box(self.x - 1, self.y - 1, self.width + 2, self.height + 2).ring()

    @property
    def numbers_text(self) -> str:
        """The box as its line has it."""
        return f"{self.x} {self.y} {self.width} {self.height}"


def tiles_touching_rectangle(x: int, y: int, width: int, height: int) -> Iterator[Cell]:
    """Yields the tiles that a rectangle touches, by their column and row."""
    return cells_of_rectangle(x // TILE_SIDE, y // TILE_SIDE, (x + width - 1) // TILE_SIDE - x // TILE_SIDE + 1,
                              (y + height - 1) // TILE_SIDE - y // TILE_SIDE + 1)


class Port(NamedTuple):
    """An `in` or an `out` cell."""

    name: str
    x: int
    y: int

    @property
    def cell(self) -> Cell:
        """The cell."""
        return self.x, self.y


class LayoutPart(NamedTuple):
    """A line of a layout of any kind: its name if it has one, its rectangle, and its place in the text, or 0."""

    kind: str
    name: str | None
    x: int
    y: int
    width: int = 1
    height: int = 1
    line: int = 0

    @property
    def cell(self) -> Cell:
        """The upper left cell."""
        return self.x, self.y

    def cells(self) -> Iterator[Cell]:
        """Yields the cells of the part, row by row."""
        return cells_of_rectangle(self.x, self.y, self.width, self.height)

    def __str__(self) -> str:
        """Writes the line."""
        sides = f" {self.width} {self.height}" if self.kind == "mirror" else ""
        return f"{self.kind}{f' {self.name}' if self.name else ''} {self.x} {self.y}{sides}"


@dataclass(frozen=True)
class Layout:
    """A layout section. `line` is that of its header in the text from which it was read, or 0."""

    width: int
    height: int
    steps: int
    mirrors: tuple[Box, ...] = ()
    balls: tuple[Cell, ...] = ()
    ins: tuple[Port, ...] = ()
    outs: tuple[Port, ...] = ()
    wastes: tuple[Cell, ...] = ()
    line: int = field(default=0, compare=False, repr=False)

    def mirror(self, x: int, y: int, width: int, height: int) -> "Layout":
        """Returns the layout with one more mirror."""
        return replace(self, mirrors=(*self.mirrors, Box(x, y, width, height)))

    def ball(self, x: int, y: int) -> "Layout":
        """Returns the layout with one more `ball` cell."""
        return replace(self, balls=(*self.balls, (x, y)))

    def in_cell(self, name: str, x: int, y: int) -> "Layout":
        """Returns the layout with one more `in` cell."""
        return replace(self, ins=(*self.ins, Port(name, x, y)))

    def out_cell(self, name: str, x: int, y: int) -> "Layout":
        """Returns the layout with one more `out` cell."""
        return replace(self, outs=(*self.outs, Port(name, x, y)))

    def waste(self, x: int, y: int) -> "Layout":
        """Returns the layout with one more waste cell."""
        return replace(self, wastes=(*self.wastes, (x, y)))

    def __str__(self) -> str:
        """Writes the section."""
        return section_text([f"layout {self.width} {self.height} {self.steps}", *map(str, self.parts)])

    @cached_property
    def parts(self) -> tuple[LayoutPart, ...]:
        """The lines of the section between its header and its `end`."""
        rows: list[tuple[str, str | None, int, int, int, int]] = [("mirror", None, *box) for box in self.mirrors]
        rows += [("ball", None, x, y, 1, 1) for x, y in self.balls]
        rows += [("in", name, x, y, 1, 1) for name, x, y in self.ins]
        rows += [("out", name, x, y, 1, 1) for name, x, y in self.outs]
        rows += [("waste", None, x, y, 1, 1) for x, y in self.wastes]
        return tuple(LayoutPart(*row, self.line + place) for place, row in enumerate(rows, 1))

    def with_parts(self, parts: Iterable[LayoutPart]) -> "Layout":
        """Returns the layout with other parts, those of each kind in the given order."""
        of_kind: dict[str, list[LayoutPart]] = {kind: [] for kind in KIND_ORDER}
        for part in parts:
            of_kind[part.kind].append(part)
        mirrors = tuple(Box(part.x, part.y, part.width, part.height) for part in of_kind["mirror"])
        balls, wastes = (tuple(part.cell for part in of_kind[kind]) for kind in ("ball", "waste"))
        ins, outs = (tuple(Port(part.name or "", part.x, part.y) for part in of_kind[kind]) for kind in ("in", "out"))
        return Layout(self.width, self.height, self.steps, mirrors, balls, ins, outs, wastes)

    @cached_property
    def part_numbers_by_tile(self) -> dict[Cell, list[int]]:
        """The numbers of the parts that have cells in each tile."""
        tiles: dict[Cell, list[int]] = {}
        for number, part in enumerate(self.parts):
            for tile in tiles_touching_rectangle(part.x, part.y, part.width, part.height):
                tiles.setdefault(tile, []).append(number)
        return tiles

    def parts_near(self, box: Box) -> list[LayoutPart]:
        """Returns the parts that may have a cell in a box, in order, without a look at all others."""
        near = {number for tile in tiles_touching_rectangle(*box) for number in self.part_numbers_by_tile.get(tile, ())}
        return [self.parts[number] for number in sorted(near)]

    def clipped(self, box: Box) -> "Layout":
        """Returns the layout with the parts that lie in the box, and of mirrors what lies in it."""
        parts = []
        for part in self.parts_near(box):
            left, top = max(part.x, box.x), max(part.y, box.y)
            right, bottom = min(part.x + part.width, box.x + box.width), min(part.y + part.height, box.y + box.height)
            if left < right and top < bottom:
                parts.append(LayoutPart(part.kind, part.name, left, top, right - left, bottom - top))
        return self.with_parts(parts)

    def of_kind(self, kind: str) -> list[LayoutPart]:
        """Returns the parts of a kind, in order."""
        return [part for part in self.parts if part.kind == kind]

    def has(self, cell: Cell) -> bool:
        """Whether a cell lies in the rectangle."""
        return 0 <= cell[0] < self.width and 0 <= cell[1] < self.height

    def is_rim(self, cell: Cell) -> bool:
        """Whether a cell is one of the outermost of the rectangle."""
        return self.has(cell) and (cell[0] in (0, self.width - 1) or cell[1] in (0, self.height - 1))

    def mirror_cells(self) -> set[Cell]:
        """Returns the cells of all mirrors."""
        return {cell for box in self.mirrors for cell in box.cells()}

    def part_at(self, cell: Cell, kinds: tuple[str, ...]) -> LayoutPart | None:
        """Returns the first part of some kinds that has the cell."""
        return next((part for part in self.parts if part.kind in kinds and part.x <= cell[0] < part.x + part.width
                     and part.y <= cell[1] < part.y + part.height), None)


class LayoutReader(SectionReader):
    """Reads a layout section, of a bundle where a circuit is given."""

    name = "layout"

    def __init__(self, lines: TextLines, circuit: Circuit | None = None) -> None:
        super().__init__(lines)
        self.circuit = circuit
        self.known = {"in": set(circuit.inputs), "out": set(circuit.outputs)} if circuit else {}
        self.width = self.height = self.steps = 0
        self.mirrors: list[Box] = []
        self.cells: dict[str, list[Cell]] = {"ball": [], "waste": []}
        self.ports: dict[str, list[Port]] = {"in": [], "out": []}
        # The cells of each row that parts take at the start, and those that they take at the end: bit x is the cell in
        # column x.
        self.starts: list[int] = []
        self.ends: list[int] = []

    def section_so_far(self) -> Layout:
        """Returns the layout, of a text that is refused what came before."""
        return Layout(self.width, self.height, self.steps, tuple(self.mirrors), tuple(self.cells["ball"]),
                      tuple(self.ports["in"]), tuple(self.ports["out"]), tuple(self.cells["waste"]), self.first_line)

    def read_layout(self, width: int, height: int, steps: int) -> None:
        """Reads the header."""
        self.width, self.height, self.steps = width, height, steps
        for what, side in (("width", width), ("height", height)):
            if side % 2 or not 2 <= side <= self.lines.limits.max_side:
                self.lines.refuse(2, "layout_side", what=what, number=side, limits=self.lines.limits)
        if steps > self.lines.limits.max_steps:
            self.lines.refuse(2, "layout_steps", number=steps, limits=self.lines.limits)
        self.starts, self.ends = [0] * height, [0] * height

    def read_mirror(self, x: int, y: int, width: int, height: int) -> None:
        """Reads a line `mirror`."""
        box = Box(x, y, width, height)
        self.check_and_take_part("mirror", box)
        self.mirrors.append(box)

    def read_ball_or_waste(self, x: int, y: int, kind: str) -> None:
        """Reads a line `ball` or `waste`."""
        self.check_and_take_part(kind, Box(x, y, 1, 1))
        self.cells[kind].append((x, y))

    def read_port(self, name: str, x: int, y: int, kind: str) -> None:
        """Reads a line `in` or `out`."""
        self.check_and_take_part(kind, Box(x, y, 1, 1), name)
        self.ports[kind].append(Port(name, x, y))

    def check_and_take_part(self, kind: str, box: Box, name: str | None = None) -> None:
        """Refuses a line of any kind but header and end that is out of order, or whose cells it may not take."""
        self.require_kind_order(kind, LATER_KINDS)
        for what, side in (("width", box.width), ("height", box.height)):
            if not 1 <= side <= self.lines.limits.max_side:
                self.lines.refuse(2, "mirror_side", what=what, number=side, limits=self.lines.limits)
        self.require_port_of_circuit(kind, name)
        if box.x + box.width > self.width or box.y + box.height > self.height:
            self.lines.refuse(7, "cell_outside", kind=kind, box=box, size=(self.width, self.height))
        if kind not in END_ONLY_KINDS:
            self.mark_cells_taken(kind, box, self.starts, START_ONLY_KINDS)
        if kind not in START_ONLY_KINDS:
            self.mark_cells_taken(kind, box, self.ends, END_ONLY_KINDS)

    def require_port_of_circuit(self, kind: str, name: str | None) -> None:
        """Refuses an `in` that is no input and an `out` that is no output of the circuit."""
        if self.circuit is None or name is None or name in self.known[kind]:
            return
        known = self.circuit.inputs if kind == "in" else self.circuit.outputs
        self.lines.refuse(3, "port_unknown", kind=kind, name=name, known=list(known),
                          is_wire=name in self.circuit.wires)

    def mark_cells_taken(self, kind: str, box: Box, rows: list[int], kinds: tuple[str, ...]) -> None:
        """Takes the cells of a part, none of which a part of these kinds or a mirror takes yet."""
        mask = (1 << box.width) - 1 << box.x
        for y in range(box.y, box.y + box.height):
            if rows[y] & mask:
                taken = rows[y] & mask
                cell = (taken & -taken).bit_length() - 1, y
                other = self.section_so_far().part_at(cell, ("mirror", *kinds))
                assert other is not None
                self.lines.refuse(7, "cell_taken", kind=kind, cell=cell, other=other.kind, other_name=other.name,
                                  at=other.line)
            rows[y] |= mask

    def read_end(self) -> None:
        """Reads the line `end`, at which each input and output of the circuit has a cell."""
        if self.circuit is None:
            return
        ins, outs = ({port.name for port in self.ports[kind]} for kind in ("in", "out"))
        no_in = [name for name in self.circuit.inputs if name not in ins]
        no_out = [name for name in self.circuit.outputs if name not in outs]
        if no_in or no_out:
            self.lines.refuse(11, "port_without_cell", inputs=no_in, outputs=no_out)

    readers = {
        "layout W H STEPS": read_layout, "mirror X Y W H": read_mirror,
        "ball X Y": partial(read_ball_or_waste, kind="ball"),
        "in NAME X Y": partial(read_port, kind="in"), "out NAME X Y": partial(read_port, kind="out"),
        "waste X Y": partial(read_ball_or_waste, kind="waste"), "end": read_end}
    forms = forms_by_keyword(*readers)
