"""`bbmlab certify`: makes a certificate for a circuit and a layout of any size, from one run of the layout.

The rectangle is cut into boxes: in halves again and again, along lines at which each cell carries a wire, until a box
has few enough wires and its own run has no fault. The wires of cells are found by their values in all choices of the
inputs, or in samples of them if they are many. So the certificate may be wrong where wires differ in no sample; the
program decides.
"""

from dataclasses import dataclass, field
from typing import Iterable

from ..circuits.cones import few_cuts_and_uses, cone_for_inverse_gate
from ..host.processor import processor_seconds
from ..host.terminal import LabError
from ..physics.simulation import Fault, ModuleRun, TruthTable, cell_of, key_of, keys_of_box
from ..texts.certificates import (MAX_BOX_SIDE, MAX_BORDER_LINES, MAX_CUTS, MAX_USES, Border, Certificate, Module,
                                  ModuleDraft, Stop, border_or_stop_text)
from ..texts.circuits import Circuit, Gate
from ..texts.documents import Document, pause_garbage_collection
from ..texts.layouts import Box, Cell, Layout, row_order_key
from ..texts.limits import SECOND_LIMITS, smallest_fitting_limits, text_with_limits_line, text_without_limits_line
from .observing import Observer, ring_and_halo_keys

# How many steps back from the wires of a box to the gates that make them are tried, before all gates back to the
# inputs.
MAX_GATE_LEVELS_BACK = 4


class ImpossibleModuleError(Exception):
    """A box can't be a module. The message says why."""


@dataclass
class CutsAndUses:
    """The wires that a module cuts, and the gates that it uses."""

    cuts: list[str]
    uses: list[int]

    def is_within_limits(self) -> bool:
        """Whether it is within the limits of a module."""
        return len(self.cuts) <= MAX_CUTS and len(self.uses) <= MAX_USES


@dataclass
class CertificateOptions:
    """What the user asked for: the kind of cuts, stops that are kept, and the processor time at which the search ends.

    Without `runs_modules` the lab does not run the modules: the first cuts that fit are taken, and only the program
    finds a fault.
    """

    version: int = 2
    cut_kind: str = "auto"
    stops: list[Stop] = field(default_factory=list)
    processor_deadline: float | None = None
    runs_modules: bool = True


class CertificateMaker:
    """Makes certificates of one circuit and layout."""

    def __init__(self, circuit: Circuit, layout: Layout, plan: CertificateOptions) -> None:
        self.circuit, self.layout, self.plan = circuit, layout, plan
        self.observer = Observer(circuit, layout, bool(plan.stops), plan.processor_deadline)
        self.observer.require_quiet_rim()
        # What the user should know of the certificate.
        self.notes: list[str] = []
        self.stops = self.given_or_delay_stops()
        self.ports = {key_of(port.cell): port.name for port in layout.ins + layout.outs}
        # The modules of each rectangle that was tried, or why it has none.
        self.known: dict[Box, list[ModuleDraft] | str] = {}
        self.starts = {key_of(port.cell): port.name for port in layout.ins}

    # ---- boxes

    def make_certificate(self, boxes: list[Box] | None) -> Certificate:
        """Returns a certificate with given boxes, or with boxes of its own."""
        modules = [self.module_for_box(box)
                   for box in boxes] if boxes else self.modules_covering(Box(0, 0, self.layout.width,
                                                                             self.layout.height))
        if len(modules) > SECOND_LIMITS.max_modules:
            raise LabError(f"the certificate takes {len(modules)} modules; {SECOND_LIMITS.max_modules} is the most", 1)
        for gate in self.circuit.gates:
            if gate.is_inverse:
                self.add_keep(gate, modules)
        if self.plan.version == 2:
            for module in modules:
                module.halos = []
        return Certificate(self.plan.version, tuple(module.finished_module() for module in modules))

    def modules_covering(self, box: Box) -> list[ModuleDraft]:
        """Returns the modules of a rectangle: itself, or those of its parts.

        What came of a rectangle is kept, since both orders of cuts lead to it.
        """
        found = self.known.get(box)
        if found is None:
            try:
                found = self.find_modules_covering(box)
            except ImpossibleModuleError as error:
                found = str(error)
            self.known[box] = found
        if isinstance(found, str):
            raise ImpossibleModuleError(found)
        return found

    def find_modules_covering(self, box: Box) -> list[ModuleDraft]:
        """Returns the modules of a rectangle that was not tried before."""
        if self.plan.processor_deadline is not None and processor_seconds() > self.plan.processor_deadline:
            raise LabError("no certificate was found in the time that was given", 1)
        why = ""
        if max(box.width, box.height) <= MAX_BOX_SIDE:
            try:
                return [self.module_for_box(box)]
            except ImpossibleModuleError as error:
                why = str(error)
        for parts in self.best_splits(box):
            try:
                return [module for part in parts for module in self.modules_covering(part)]
            except ImpossibleModuleError as error:
                why = why or str(error)
        raise ImpossibleModuleError(why or self.why_not_split(box))

    def best_splits(self, box: Box) -> Iterable[tuple[Box, Box]]:
        """Yields cuts of a rectangle into two, along lines at which all cells carry a wire: the best of each direction.
        """
        found = []
        for is_upright in (True, False):
            size = box.width if is_upright else box.height
            places = range(2, size - 1, 2)
            ranked = sorted(places, key=lambda place: (abs(2 * place - size), place))
            # Boxes of full size first: then by nearness to the middle.
            if size > MAX_BOX_SIDE:
                ranked.sort(key=lambda place: place % MAX_BOX_SIDE != 0)
            place = next((place for place in ranked if self.can_split_at(box, place, is_upright)), None)
            if place is not None:
                found.append((size, is_upright, place))
        for _, is_upright, place in sorted(found, reverse=True):
            if is_upright:
                yield Box(box.x, box.y, place, box.height), Box(box.x + place, box.y, box.width - place, box.height)
            else:
                yield Box(box.x, box.y, box.width, place), Box(box.x, box.y + place, box.width, box.height - place)

    def can_split_at(self, box: Box, place: int, is_upright: bool) -> bool:
        """Whether each cell on both sides of a line through a rectangle carries a wire at each odd time."""
        lines = Box(box.x + place - 1, box.y, 2, box.height) if is_upright else Box(box.x, box.y + place - 1, box.width,
                                                                                    2)
        return all(self.observer.wires_carried_by(key) is not None for key in self.observer.observed.timed_tables.keys()
                   & keys_of_box(lines))

    def why_not_split(self, box: Box) -> str:
        """Says why a rectangle can't be cut."""
        for y in range(box.y, box.y + box.height):
            for x in range(box.x, box.x + box.width):
                if self.observer.wires_carried_by(key_of((x, y))) is None:
                    return (f"each line through the rectangle {box.numbers_text} meets a cell without a wire: "
                            f"{self.observer.moment_without_wire_words(key_of((x, y)))}")
        return f"the rectangle {box.numbers_text} can't be cut further"

    # ---- one module

    def module_for_box(self, box: Box) -> ModuleDraft:
        """Returns the module of a box, whose own run has no fault."""
        ring, halo = ring_and_halo_keys(self.layout, box)
        unnamed = [key for key in (*ring, *halo) if self.observer.wires_carried_by(key) is None]
        if unnamed:
            first = min(unnamed, key=self.observer.first_moment_without_wire)
            raise ImpossibleModuleError(self.observer.moment_without_wire_words(first))
        module = ModuleDraft(box, edges=self.border_lines(ring), halos=self.border_lines(halo))
        module.stops = [stop for stop in self.stops if box.has(stop.cell)]
        if len(module.edges) + max(len(module.halos), len(module.stops)) > MAX_BORDER_LINES:
            raise ImpossibleModuleError(f"the box {box.numbers_text} takes more than {MAX_BORDER_LINES} lines")
        needed = {line.signal for line in (*module.edges, *module.halos)} - {"1"}
        inside = keys_of_box(box)
        needed |= {self.ports[key] for key in self.ports.keys() & inside} | {stop.name for stop in module.stops}
        fault = None
        for wiring in self.possible_cuts_and_uses(box, needed, inside, halo):
            if wiring.is_within_limits():
                module.cuts, module.uses = wiring.cuts, wiring.uses
                fault = self.fault_of(module.finished_module()) if self.plan.runs_modules else None
                if fault is None:
                    return module
        if fault is None:
            raise ImpossibleModuleError(f"the box {box.numbers_text} needs {len(needed)} wires, and no cuts that were "
                                        "tried fit one module")
        raise ImpossibleModuleError(
            f"with the last cuts that were tried the cell ({fault.x}, {fault.y}) in the box {box.numbers_text} is "
                                    f"wrong at time {fault.time}")

    def fault_of(self, module: Module) -> Fault | None:
        """Returns the least fault of a module's own run."""
        return ModuleRun(self.circuit, self.layout, Certificate(1, (module,)), module).run_to_fault()

    def border_lines(self, keys: list[int]) -> list[Border]:
        """Returns the lines for cells of a ring or a halo."""
        lines = []
        for key in keys:
            x, y = cell_of(key)
            if key in self.observer.observed.always_live and self.layout.steps > 1:
                lines.append(Border(None, x, y, "1"))
            lines += [Border(time, x, y, self.observer.signals[table])
                      for time, table in self.observer.observed.timed_tables.get(key, ())]
        return sorted(lines, key=lambda line: line.order_key)

    def possible_cuts_and_uses(self, box: Box, needed: set[str], inside: list[int],
                               halo: list[int]) -> Iterable[CutsAndUses]:
        """Yields ways to know the wires of a box: with the wires cut that come in, then with gates before these, at
        last from the inputs."""
        if self.plan.cut_kind != "safe":
            seen: set[tuple[str, ...]] = set()
            incoming = self.incoming_wires(box, needed, inside, halo)
            for depth in range(MAX_GATE_LEVELS_BACK + 1):
                for wiring in self.incoming_cuts_and_uses(needed, incoming):
                    if tuple(wiring.cuts) not in seen:
                        seen.add(tuple(wiring.cuts))
                        yield wiring
                before = {wire for name in incoming for gate in [self.circuit.maker.get(name)]
                          for wire in (gate.ins if gate else [name])}
                if before == incoming:
                    break
                incoming = before
        cuts, uses = self.circuit.cone_inputs_and_gates(sorted(needed))
        yield CutsAndUses(cuts, uses)

    def incoming_wires(self, box: Box, needed: set[str], inside: list[int], halo: list[int]) -> set[str]:
        """Returns the wires that come into a box: those of its `in` cells, and those that are beside it before they are
        in it."""
        here, beside = self.observer.first_times_of_wires(inside), self.observer.first_times_of_wires(halo)
        starts = {self.starts[key] for key in self.starts.keys() & inside}
        return starts | {name for name in needed if name not in starts
                         and beside.get(name, self.layout.steps) < here.get(name, self.layout.steps)}

    def incoming_cuts_and_uses(self, needed: set[str], incoming: set[str]) -> Iterable[CutsAndUses]:
        """Yields the wiring that cuts the incoming wires, and one that uses the gates between them too."""
        cuts, uses = self.circuit.cone_inputs_and_gates(sorted(needed), frozenset(incoming))
        made = {name for number in uses for name in self.circuit.gates[number].outs}
        if not set(cuts) & made:
            yield CutsAndUses(cuts, uses)
        fewer, more = few_cuts_and_uses(self.circuit, needed | set(cuts), uses)
        yield CutsAndUses(sorted(fewer, key=self.circuit.rank), sorted(more))

    # ---- inverse gates

    def add_keep(self, gate: Gate, modules: list[ModuleDraft]) -> None:
        """Has a gate kept by the module that needs the fewest more wires for it."""
        found = cone_for_inverse_gate(self.circuit, gate.number)
        if found is None:
            raise LabError(f"gate {gate.number} (`{gate.kind}`, line {gate.line}) always has a row only if more than "
                           f"{MAX_CUTS} wires or "
                           f"{MAX_USES} gates are looked at: no certificate keeps it", 1)
        cone = CutsAndUses(*found)
        for module in sorted(modules, key=lambda module: len(set(cone.cuts) - set(module.cuts)) + len(module.cuts)):
            uses = sorted({*module.uses, *cone.uses})
            made = {name for number in uses for name in self.circuit.gates[number].outs}
            ins = {name for number in uses for name in self.circuit.gates[number].ins}
            cuts = sorted(({*module.cuts, *cone.cuts} | ins) - made, key=self.circuit.rank)
            if len(cuts) <= MAX_CUTS and len(uses) <= MAX_USES:
                module.cuts, module.uses = cuts, uses
                module.keeps.append(gate.number)
                return
        raise LabError(f"no module has room for the {len(cone.cuts)} wires that show that gate {gate.number} always "
                       "has a row", 1)

    # ---- stops

    def given_or_delay_stops(self) -> list[Stop]:
        """Returns the user's stops if all of them hold and show the delays, and else stops for the delays."""
        if not self.plan.stops:
            return self.delay_stops()
        wrong = [stop for stop in self.plan.stops if not self.is_correct_stop(stop)]
        wrong += [stop for gate in self.circuit.gates if gate.kind == "delay"
                  for stop in self.user_stops_with_wrong_delay(gate)]
        if not wrong:
            return self.plan.stops
        line = border_or_stop_text("stop", wrong[0])
        self.notes.append(f"the old stops are left out: `{line}` does not hold in the layout")
        return self.delay_stops()

    def is_correct_stop(self, stop: Stop) -> bool:
        """Whether the cell of a stop is live just in the cases in which its wire is true."""
        key, values, observed = key_of(stop.cell), self.observer.values, self.observer.observed
        live = values.full if key in observed.always_live else observed.moving_by_time[stop.time].get(key, 0)
        return live == values.tables[stop.name]

    def user_stops_with_wrong_delay(self, gate: Gate) -> list[Stop]:
        """Returns the stops of the user that show another delay than a gate's."""
        before = [stop for stop in self.plan.stops if stop.name == gate.ins[0]]
        after = [stop for stop in self.plan.stops if stop.name == gate.outs[0]]
        if not before or not after:
            return self.plan.stops[:1]
        return [] if after[0].time - before[-1].time == gate.parameter else [after[0]]

    def delay_stops(self) -> list[Stop]:
        """Returns stops for delays: a wire is seen once, at its `in` cell or at the first time at which a cell carries
        it."""
        moments = self.observer.observed.moving_by_time
        seen: dict[str, tuple[int, Cell]] = {port.name: (0, port.cell) for port in reversed(self.layout.ins)}
        stops: dict[str, Stop] = {}
        for gate in (gate for gate in self.circuit.gates if gate.kind == "delay"):
            used, made, steps = gate.ins[0], gate.outs[0], gate.parameter or 0
            first = [seen[used]] if used in seen else [(time, cell) for time in range(len(moments))
                                                       for cell in [self.cell_carrying(used, moments[time])] if cell]
            pairs = ((place, (place[0] + steps, end)) for place in first if place[0] + steps < len(moments)
                     for end in [self.cell_carrying(made, moments[place[0] + steps])] if end)
            pair = next(pairs, None)
            if pair is None:
                raise LabError(f"no cell carries `{made}` {steps} steps after one carries `{used}`: the layout does "
                               "not keep the delay of line "
                               f"{gate.line}", 1)
            seen[used], seen[made] = pair
            for wire in (used, made):
                time, cell = seen[wire]
                stops.setdefault(wire, Stop(time, wire, *cell))
        return sorted(stops.values(), key=lambda stop: stop.order_key)

    def cell_carrying(self, wire: str, live: dict[int, TruthTable]) -> Cell | None:
        """Returns a cell that carries a wire, an `out` cell of it first."""
        outs = {port.cell for port in self.layout.outs if port.name == wire}
        table = self.observer.values.tables[wire]
        cells = [cell for cell in (cell_of(key) for key, other in live.items() if other == table)
                 if self.layout.has(cell)]
        return min(cells, key=lambda cell: (cell not in outs, row_order_key(cell))) if cells else None


def grid_boxes(layout: Layout, width: int, height: int) -> list[Box]:
    """Returns the boxes of a grid, row by row; the last ones are smaller if the rectangle ends."""
    return [Box(x, y, min(width, layout.width - x), min(height, layout.height - y))
            for y in range(0, layout.height, height) for x in range(0, layout.width, width)]


def certified_text(document: Document, boxes: list[Box] | None, plan: CertificateOptions,
                   notes: list[str] | None = None) -> str:
    """Returns the text of a circuit and a layout with a certificate of its own, with given boxes or with boxes that it
    chooses.

    What the user should know of the certificate is added to `notes`.
    """
    with pause_garbage_collection():
        return make_certified_text(document, boxes, plan, notes)


def make_certified_text(document: Document, boxes: list[Box] | None, plan: CertificateOptions,
                        notes: list[str] | None) -> str:
    """Returns the text of `certified_text`."""
    circuit, layout = document.circuit, document.layout
    if circuit is None or layout is None:
        raise LabError("certify takes a circuit and a layout")
    maker = CertificateMaker(circuit, layout, plan)
    try:
        certificate = maker.make_certificate(boxes)
    except ImpossibleModuleError as error:
        raise LabError(f"no certificate was found: {error}{maker.observer.equal_wires_words()}", 1) from error
    if notes is not None:
        notes += maker.notes
    head = text_without_limits_line(document.text).split("\nend\n", 2)
    limits = smallest_fitting_limits(max(layout.width, layout.height), layout.steps, len(certificate.modules),
                                     len(circuit.gates), len(circuit.wires))
    return text_with_limits_line(f"{head[0]}\nend\n{head[1]}\nend\n{certificate}", limits)


def checked_grid_boxes(layout: Layout, width: int, height: int) -> list[Box]:
    """Returns the boxes of a grid whose sides are allowed."""
    if any(side % 2 or not 2 <= side <= MAX_BOX_SIDE for side in (width, height)):
        raise LabError(f"a box of {width} by {height} cells: its sides are even numbers from 2 to {MAX_BOX_SIDE}", 2)
    return grid_boxes(layout, width, height)
