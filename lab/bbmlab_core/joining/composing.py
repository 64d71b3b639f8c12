"""The circuit of a join: the parts' circuits one after another, with wires that have the part's name in front."""

from dataclasses import dataclass, field
from functools import cached_property
from typing import Collection, Iterator

from ..circuits.gate_lines import reread_circuit
from ..circuits.netlists.naming import MAX_NAME_BYTES
from ..host.terminal import LabError
from ..route.balls import Ball
from ..route.netlist import RouterNetlist
from ..route.world import STEP_STRIDE, Footprint, cell_number
from ..texts.circuits import Circuit, Gate
from ..texts.limits import text_without_limits_line
from ..texts.sections import section_text_with_limits
from .flight_claims import ranges_without_claims
from .lone_ways import LoneWay
from .parts import ALWAYS_SIGNAL, PartBundle, PartPort, part_footprint


@dataclass(frozen=True)
class Connection:
    """An output of a part that becomes an input of another one."""

    source: str
    output: str
    target: str
    input: str

    def __str__(self) -> str:
        """Writes the connection as the command's word."""
        return f"{self.source}.{self.output}={self.target}.{self.input}"


@dataclass
class NamedPart:
    """A part with its name, its wires as the join calls them, and the number of its first gate there.

    `ways` has the lone ways of its connected ports by their own wires. The join leaves them out.
    """

    name: str
    bundle: PartBundle
    wires: dict[str, str] = field(default_factory=dict)
    first_gate: int = 0
    ways: dict[str, LoneWay] = field(default_factory=dict)

    def inner_ball(self, ports: list[PartPort], wire: str) -> Ball:
        """Returns the ball of a port, the first one if there are many, without a lone way that is left out."""
        way = self.ways.get(wire)
        return way.inner_ball if way else next(port.ball for port in ports if port.wire == wire)

    @cached_property
    def footprint(self) -> Footprint:
        """What the part takes without the lone ways. Parts of one text with the same connected ports share it."""
        if not self.ways:
            return self.bundle.item
        key = frozenset((wire, way.inner_ball.time) for wire, way in self.ways.items())
        shape = self.bundle.footprints_by_cuts.get(key)
        if shape is None:
            shape = self.bundle.footprints_by_cuts[key] = self.make_footprint()
        return shape

    def make_footprint(self) -> Footprint:
        """Returns what the part takes without the lone ways."""
        claims = set[int]().union(*(way.claims for way in self.ways.values()))
        flights = [own for flight in self.bundle.flights
                   for own in ((flight,) if claims.isdisjoint(flight) else ranges_without_claims(flight, claims))]
        left = {cell_number(cell) for way in self.ways.values() for cell in way.mirrors}
        return part_footprint(self.bundle.item.mirrors - left, flights)

    @cached_property
    def left_out_cell_times(self) -> set[int]:
        """The border lines that are left out with the lone ways: numbers of cells at times, -1 for those of mirrors."""
        # Border lines have odd times.
        found = {number for way in self.ways.values() for number in way.moving_numbers if number // STEP_STRIDE % 2}
        return found | {cell_number(cell) - STEP_STRIDE for way in self.ways.values() for cell in way.mirrors}

    def joined_wire(self, own: str) -> str:
        """Returns what the join calls a wire of the part. A ball that is always there has no wire."""
        return own if own == ALWAYS_SIGNAL else self.wires[own]


@dataclass(frozen=True)
class Composition:
    """The circuit of a join, with its parts in an order in which each comes after those that feed it."""

    parts: list[NamedPart]
    connections: list[Connection]
    section: str
    circuit: Circuit


def compose(parts: dict[str, PartBundle], connections: list[Connection],
            whole: Collection[tuple[str, str]] = ()) -> Composition:
    """Returns the circuit of parts whose ports are connected; raises LabError if that is none.

    The ports of `whole`, each a part and its own wire, keep their lone ways.
    """
    require_valid_connections(parts, connections)
    order = feeding_order(list(parts), connections)
    named = [NamedPart(name, parts[name]) for name in order]
    fed = {(own.target, own.input): own for own in connections}
    by_name = {part.name: part for part in named}
    count = 0
    for part in named:
        part.first_gate, count = count, count + len(part.bundle.circuit.gates)
        part.ways = {wire: way for wire, way in connected_lone_ways(part, connections)
                     if (part.name, wire) not in whole}
        for wire in part.bundle.circuit.wires:
            own = fed.get((part.name, wire))
            part.wires[wire] = by_name[own.source].wires[own.output] if own else joined_name(part.name, wire)
    lines = joined_circuit(named, connections)
    return Composition(named, connections, text_without_limits_line(section_text_with_limits(lines)),
                       reread_circuit(lines))


def connected_lone_ways(part: NamedPart, connections: list[Connection]) -> Iterator[tuple[str, LoneWay]]:
    """Yields the lone ways of the connected ports of a part, with their wires."""
    taken = {own.input for own in connections if own.target == part.name}
    given = {own.output for own in connections if own.source == part.name}
    for ports, wires in ((part.bundle.starts, taken), (part.bundle.ends, given)):
        for port in ports:
            if port.wire in wires and port.lone_run is not None:
                yield port.wire, part.bundle.lone_way(port.wire, port.lone_run, port.lone_run.possible_cut_balls[0])


def joined_name(part: str, wire: str) -> str:
    """Returns the name of a part's wire in the join; raises LabError if it is too long."""
    name = f"{part}_{wire}"
    if len(name) > MAX_NAME_BYTES:
        raise LabError(f"the wire {wire} of {part} would be {name}; names have at most {MAX_NAME_BYTES} characters: "
                       "give the part a shorter name", 1)
    return name


def require_valid_connections(parts: dict[str, PartBundle], connections: list[Connection]) -> None:
    """Raises LabError if a connection names no port, a port twice, or a port whose wire is a constant."""
    used: dict[tuple[str, str], Connection] = {}
    for own in connections:
        for name, wire, what in ((own.source, own.output, "output"), (own.target, own.input, "input")):
            part = parts.get(name)
            if part is None:
                raise LabError(f"{own}: there is no part {name}; the parts are {', '.join(parts)}", 2)
            ports = part.circuit.outputs if what == "output" else part.circuit.inputs
            if wire not in ports:
                raise LabError(f"{own}: {name} has no {what} {wire}", 2)
            if (what + name, wire) in used:
                raise LabError(f"{own}: the {what} {wire} of {name} is connected twice", 2)
            used[what + name, wire] = own
        netlist = RouterNetlist(parts[own.source].circuit)
        if netlist.root_wire_of(own.output) in netlist.constants:
            what = f"the output {own.output} of {own.source} is a constant"
            raise LabError(f"{own}: {what}, which `join` does not lead to an input", 1)


def feeding_order(names: list[str], connections: list[Connection]) -> list[str]:
    """Returns the parts so that each comes soon after those that feed it; raises LabError if there is a loop."""
    left, order = list(names), list[str]()
    targets = {own.target for own in connections}
    while left:
        fed = {own.target for own in connections if own.source in left}
        ready = [name for name in left if name not in fed]
        if not ready:
            raise LabError(f"the connections make a loop through {', '.join(left)}: a circuit has none", 1)
        # Parts are placed in this order, and balls between parts that are far from each other take many steps.
        order.append(next((name for name in ready if name in targets), ready[0]))
        left.remove(order[-1])
    return order


def joined_circuit(parts: list[NamedPart], connections: list[Connection]) -> Circuit:
    """Returns the lines of the circuit of the join. Connected ports are neither inputs nor outputs."""
    given = {(own.source, own.output) for own in connections}
    taken = {(own.target, own.input) for own in connections}
    inputs, gates, outputs, spills = list[str](), list[Gate](), list[str](), list[str]()
    for part in parts:
        circuit, wire = part.bundle.circuit, part.joined_wire
        inputs += [wire(own) for own in circuit.inputs if (part.name, own) not in taken]
        gates += [Gate(gate.kind, tuple(map(wire, gate.ins)), tuple(map(wire, gate.outs)), gate.parameter)
                  for gate in circuit.gates]
        outputs += [wire(own) for own in circuit.outputs if (part.name, own) not in given]
        spills += [wire(own) for own in circuit.spills]
    return Circuit(tuple(inputs), tuple(gates), tuple(outputs), tuple(spills))
