"""A machine of two-cell balls, and its bundle: circuit, layout, and a certificate with stops at its ports."""

from dataclasses import dataclass, field, replace

from bbmlab_core.certify.certifier import CertificateOptions, certified_text, grid_boxes
from bbmlab_core.route.balls import Ball, ExactRun, Mirror, block_cells, mirror_cells, run_exactly, start_state
from bbmlab_core.texts.certificates import MAX_BOX_SIDE, Certificate, Stop, local_wires, whole_module
from bbmlab_core.texts.circuits import Circuit, evaluate_all
from bbmlab_core.texts.documents import read_document
from bbmlab_core.texts.gates import TruthTable
from bbmlab_core.texts.layouts import Box, Cell, Layout, Port, row_order_key

# Dead cells between the machine and the rim, so that nothing is live on the rim.
MARGIN_TO_RIM = 2


@dataclass
class Machine:
    """A circuit as balls and mirrors.

    An input's ball has the time at which the wire arrives, and an output's ball the time at which it leaves, as garbage
    does. `inner` has the wires from one gate to another that get stops too. The run begins at time 0, at which all
    inputs and constants are on their way, and ends `rest_steps` steps after the last output or garbage has left.
    """

    name: str
    gates: list[str]
    ins: dict[str, Ball]
    outs: dict[str, Ball]
    mirrors: list[Mirror] = field(default_factory=list)
    constants: list[Ball] = field(default_factory=list)
    garbage: dict[str, Ball] = field(default_factory=dict)
    inner: dict[str, Ball] = field(default_factory=dict)
    rest_steps: int = 2

    @property
    def last_time(self) -> int:
        """The last time of the run."""
        return max(ball.time for ball in [*self.outs.values(), *self.garbage.values()]) + self.rest_steps

    def balls_with_stops(self) -> list[tuple[str, Ball]]:
        """Returns the wires that get stops, with their balls."""
        return [*self.ins.items(), *self.inner.items(), *self.outs.items(), *self.garbage.items()]

    def circuit_text(self) -> str:
        """Returns the circuit section."""
        lines = ["circuit", *(f"input {name}" for name in self.ins), *self.gates,
                 *(f"output {name}" for name in self.outs)]
        return "\n".join([*lines, *(f"spill {name}" for name in self.garbage), "end", ""])


def read_circuit(text: str) -> Circuit:
    """Returns the circuit of a circuit section. Raises ValueError if it is refused."""
    document = read_document(text, "circuit")
    if document.refusal or document.circuit is None:
        raise ValueError(f"the circuit is refused: {document.refusal}")
    return document.circuit


def run_machine(machine: Machine, tables: dict[str, TruthTable], full: TruthTable) -> ExactRun:
    """Returns the run of a machine under all its inputs. Raises ValueError if a mirror breaks or an output is wrong."""
    start = [*((ball.at_time(0), tables[name]) for name, ball in machine.ins.items()),
             *((ball.at_time(0), full) for ball in machine.constants)]
    run = run_exactly(mirror_cells(machine.mirrors), start_state(start), 0, machine.last_time)
    if not run.is_stable:
        raise ValueError(f"{machine.name}: a mirror breaks in the step from time {len(run.blocks)}")
    for name, ball in machine.balls_with_stops():
        for cell in ball.cells():
            if run.state(ball.time).get(cell, 0) != tables[name]:
                raise ValueError(f"{machine.name}: the ball of {name} is not at {cell} at time {ball.time}")
    return run


def offset_and_size(machine: Machine, run: ExactRun) -> tuple[int, int, int, int]:
    """Returns how far to move the machine, by even numbers, and the even width and height of its layout."""
    cells = mirror_cells(machine.mirrors) | {cell for corners in run.blocks for corner in corners
                                             for cell in block_cells(corner)}
    columns, rows = [x for x, _ in cells], [y for _, y in cells]
    left, top = min(columns) // 2 * 2 - MARGIN_TO_RIM, min(rows) // 2 * 2 - MARGIN_TO_RIM
    width, height = (largest - least + 1 + MARGIN_TO_RIM for largest, least in ((max(columns), left), (max(rows), top)))
    return -left, -top, width + width % 2, height + height % 2


def rectangles_of_cells(cells: set[Cell]) -> list[Mirror]:
    """Returns disjoint rectangles with these cells: rows as wide as they go, then as high as they go."""
    left, found = set(cells), []
    for x, y in sorted(cells, key=row_order_key):
        if (x, y) not in left:
            continue
        width = height = 1
        while (x + width, y) in left:
            width += 1
        while all((x + column, y + height) in left for column in range(width)):
            height += 1
        found.append(Mirror(x, y, width, height))
        left -= set(found[-1].cells())
    return found


def bundle_text(machine: Machine) -> str:
    """Returns the bundle of a machine, after a run of it under all its inputs."""
    circuit = read_circuit(machine.circuit_text())
    values = evaluate_all(circuit)
    run = run_machine(machine, values.tables, values.full)
    dx, dy, width, height = offset_and_size(machine, run)

    def layout_cells(ball: Ball) -> list[Cell]:
        """Returns the cells of a ball in the layout."""
        return [(x + dx, y + dy) for x, y in ball.cells()]

    def ports(balls: dict[str, Ball], time: int) -> tuple[Port, ...]:
        """Returns the cells of balls at a time, with their names."""
        return tuple(Port(name, x, y) for name, ball in balls.items() for x, y in layout_cells(ball.at_time(time)))

    outs = ports(machine.outs, machine.last_time)
    wastes = {(x + dx, y + dy) for x, y in run.states[-1]} - {port.cell for port in outs}
    mirrors = rectangles_of_cells({(x + dx, y + dy) for x, y in mirror_cells(machine.mirrors)})
    balls = tuple(cell for ball in machine.constants for cell in layout_cells(ball.at_time(0)))
    layout = Layout(width, height, machine.last_time,
                    tuple(Box(mirror.x, mirror.y, mirror.width, mirror.height) for mirror in mirrors), balls,
                    ports(machine.ins, 0), outs, tuple(sorted(wastes, key=row_order_key)))
    stops = [Stop(ball.time, name, *cell) for name, ball in machine.balls_with_stops() for cell in layout_cells(ball)]
    certificate = with_stops(certificate_for(circuit, layout), circuit, stops)
    return f"{circuit}{layout}{certificate}"


def certificate_for(circuit: Circuit, layout: Layout) -> Certificate:
    """Returns the certificate of a design: one module if it is small enough, else modules on a grid."""
    if max(layout.width, layout.height) <= MAX_BOX_SIDE:
        return Certificate(2, (whole_module(circuit, layout),))
    plan, boxes = CertificateOptions(2, "safe"), grid_boxes(layout, MAX_BOX_SIDE, MAX_BOX_SIDE)
    made = read_document(certified_text(read_document(f"{circuit}{layout}", "design"), boxes, plan)).certificate
    assert made is not None
    return made


def with_stops(certificate: Certificate, circuit: Circuit, stops: list[Stop]) -> Certificate:
    """Returns a certificate with stops added to the modules that have their cells. Their wires become local there."""
    modules = []
    for module in certificate.modules:
        own = sorted((stop for stop in stops if module.box.has(stop.cell)),
                     key=lambda stop: (stop.order_key, stop.name))
        if own:
            cuts, uses = circuit.cone_inputs_and_gates({*local_wires(circuit, module), *(stop.name for stop in own)})
            module = replace(module, cuts=tuple(cuts), uses=tuple(uses), stops=tuple(own))
        modules.append(module)
    return Certificate(certificate.version, tuple(modules))
