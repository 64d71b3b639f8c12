"""`bbmlab cells`: the standard cells of lab/cells, with their ports, as their bundles say.

A port is a ball of two cells. In the step from time t it moves to larger x if x + t is even, and else to smaller x; y
likewise (Margolus 1984, block rule).
"""

from dataclasses import dataclass
from pathlib import Path

from ..host.terminal import LabError
from ..texts.circuits import Circuit
from ..texts.documents import Document, read_document
from ..texts.layouts import Cell, Layout, row_order_key
from .longer_runs import free_steps_before_and_after

PACKAGE_FOLDER = Path(__file__).resolve().parent.parent
# The cells of a clone or of `make install`, else those of a Python package.
CELLS_FOLDER = (PACKAGE_FOLDER.parent if (PACKAGE_FOLDER.parent / "cells").is_dir() else PACKAGE_FOLDER) / "cells"
# What each cell does, in the order in which they are listed.
CELL_DESCRIPTIONS = {
    "turn_left": "turns a ball to its left by one mirror",
    "turn_right": "turns a ball to its right by one mirror",
    "turn_back": "sends a ball back on its own track by two mirrors",
    "delay_10": "sends a ball on along its own track, 10 steps later than without mirrors",
    "delay_24": "sends a ball on along its own track, 24 steps later than without mirrors",
    "crossing": "lets two balls cross, the second four steps after the first",
    "collision": "lets two balls meet at a right angle: the gate `interact` without a mirror",
    "interact": "is the gate `interact`, with mirrors that lead its late outputs away",
    "uninteract": "is the gate `uninteract` behind a collision that feeds it",
    "switch": "is the gate `switch`: c sends x to y, and x without c goes to z",
    "unswitch": "is the gate `unswitch` behind a switch that feeds it",
    "fredkin": "is the gate `fredkin`: c exchanges nothing, and without c the balls x and y change places",
    "fredkin_inverse": "is the Fredkin cell run backwards, which is a Fredkin gate too",
    "cswap": "is the gate `cswap`: c exchanges x and y",
    "cswap_inverse": "is the cell of `cswap` run backwards, which is that gate too",
    "fan_out": "copies a by a switch with a constant 1",
    "not": "negates a by a switch with a constant 1",
    "and": "computes a and b by a switch",
    "or": "computes a or b by a Fredkin gate with a constant 1",
    "xor": "computes one of a and b, and not both, by a switch, a collision and an inverse switch",
    "half_adder": "adds two bits: a sum and a carry",
    "full_adder": "adds three bits: a sum and a carry",
}


@dataclass(frozen=True)
class CellPort:
    """A wire at a cell's border: `role` is in, inner, out or spill, and the lead of its ball is at `lead` at the time.

    `dx` and `dy` are 1 or -1: the direction of the ball.
    """

    role: str
    name: str
    lead: Cell
    dx: int
    dy: int
    time: int

    def listing_line(self) -> str:
        """Returns the line of the port."""
        x, y = self.lead
        way = f"{'right' if self.dx > 0 else 'left'} and {'down' if self.dy > 0 else 'up'}"
        parity = f"x + t {parity_word(x + self.time)}, y + t {parity_word(y + self.time)}"
        return f"  {self.role:5} {self.name:5} at ({x}, {y}) at time {self.time}, {way} ({parity})"


@dataclass(frozen=True)
class StandardCell:
    """A cell of the library, as its bundle says. Constants are balls, and garbage is counted in wires."""

    name: str
    document: Document
    ports: list[CellPort]
    constants: int
    garbage: int
    mirror_box_size: tuple[int, int]

    def listing(self) -> str:
        """Returns what `bbmlab cells` lists of the cell."""
        layout, circuit = layout_and_circuit(self.document)
        gates = ", ".join(gate.kind for gate in circuit.gates) or "none"
        width, height = self.mirror_box_size
        mirrors = f"mirrors within {width} by {height} cells" if width else "no mirrors"
        lines = [f"{self.name} {CELL_DESCRIPTIONS.get(self.name, 'has no description')}",
                 f"  layout of {layout.width} by {layout.height} cells, {layout.steps} steps, {mirrors}",
                 f"  gates: {gates}; constants: {self.constants}; garbage: {self.garbage}",
                 f"  {longer_runs_text(circuit, layout)}"]
        return "\n".join([*lines, *(port.listing_line() for port in self.ports)])


def longer_runs_text(circuit: Circuit, layout: Layout) -> str:
    """Returns how much earlier the balls can start, and for how long they fly on, in words."""
    before, after = free_steps_before_and_after(circuit, layout)
    start = ("can start any number of steps" if before is None else f"can start at most {steps_word(before)}" if before
             else "cannot start")
    end = ("fly on" if after is None else f"fly on for {steps_word(after)}" if after
           else "are disturbed in the first step")
    return f"balls {start} further back, and {end} after the end"


def steps_word(count: int) -> str:
    """Returns a number of steps in words."""
    return f"{count} step{'s' if count != 1 else ''}"


def parity_word(number: int) -> str:
    """Returns whether a number is even or odd, as a word."""
    return "odd" if number % 2 else "even"


def layout_and_circuit(document: Document) -> tuple[Layout, Circuit]:
    """Returns the layout and the circuit of a bundle. Raises LabError if it has none."""
    if document.refusal or document.layout is None or document.circuit is None:
        raise LabError("the text of the cell is refused", 1)
    return document.layout, document.circuit


def port_from_ball(role: str, name: str, time: int, cells: list[Cell]) -> CellPort:
    """Returns the port whose ball has two cells at a time: the lead is the one ahead in the ball's direction."""
    x, y = cells[0]
    dx, dy = (-1 if (value + time) % 2 else 1 for value in (x, y))
    lead = max(cells, key=lambda cell: (cell[0] * dx, cell[1] * dy))
    return CellPort(role, name, lead, dx, dy, time)


def ports_from_stops(document: Document) -> list[CellPort]:
    """Returns the ports of a bundle: each wire with stops, at its last stop if it is an input, else at its first."""
    _, circuit = layout_and_circuit(document)
    stops: dict[str, dict[int, list[Cell]]] = {}
    for module in document.certificate.modules if document.certificate else []:
        for stop in module.stops:
            stops.setdefault(stop.name, {}).setdefault(stop.time, []).append(stop.cell)
    ports = []
    for name in sorted(stops, key=circuit.rank):
        role = ("in" if name in circuit.inputs else "out" if name in circuit.outputs else "spill"
                if name in circuit.spills else "inner")
        times = sorted(stops[name])
        for time in times if role == "in" and name in circuit.outputs else [times[-1] if role == "in" else times[0]]:
            ports.append(port_from_ball(role, name, time, sorted(stops[name][time], key=row_order_key)))
            role = "out"
    return ports


def cell_from_text(name: str, text: str) -> StandardCell:
    """Returns a cell from its bundle."""
    document = read_document(text)
    layout, circuit = layout_and_circuit(document)
    mirrors = layout.mirror_cells()
    columns, rows = [x for x, _ in mirrors], [y for _, y in mirrors]
    box = (max(columns) - min(columns) + 1, max(rows) - min(rows) + 1) if mirrors else (0, 0)
    return StandardCell(name, document, ports_from_stops(document), len(layout.balls) // 2, len(circuit.spills), box)


def cell_path(name: str) -> Path:
    """Returns the file of a cell. Raises LabError if there is no cell of this name."""
    path = CELLS_FOLDER / f"{name}.txt"
    if name not in CELL_DESCRIPTIONS or not path.exists():
        raise LabError(f"there is no cell `{name}`; the cells are {', '.join(cell_names())}", 2)
    return path


def cell_names() -> list[str]:
    """Returns the names of the cells in the order of the list."""
    return [name for name in CELL_DESCRIPTIONS if (CELLS_FOLDER / f"{name}.txt").exists()]


def read_cell(name: str) -> StandardCell:
    """Returns a cell of the library."""
    return cell_from_text(name, cell_path(name).read_text(encoding="ascii"))
