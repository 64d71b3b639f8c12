"""The modules of a join: those of the parts, and tiles between them, with the wires that paths bring to them.

A join has tens of thousands of modules with hundreds of thousands of lines. So a module is made only when its text is
written. Before that, numbers stand for the lines of paths.
"""

from array import array
from collections import Counter, defaultdict
from typing import Callable, Iterable, Iterator

from ..circuits.cones import few_cuts_and_uses
from ..host.terminal import LabError
from ..route.balls import moving_path_cells
from ..route.board import FailureKind, NoRouteError
from ..route.netlist import RouterNetlist
from ..route.paths import Path
from ..route.world import ROW_STRIDE, STEP_STRIDE, TILE_SIDE, Footprint, cell_of_number, cells_entering_tiles, tiles_of
from ..texts.certificates import MAX_CUTS, MAX_USES, Border, Module, ModuleDraft, Stop, local_wires
from ..texts.layouts import Box, Cell
from ..texts.limits import SECOND_LIMITS
from ..texts.owners import NOBODY, BlockOwners
from .composing import Composition
from .parts import ALWAYS_SIGNAL
from .planning import JoinPlan, PlacedPart

# Tiles that nothing reaches become boxes of so many tiles in each direction.
QUIET_BOX_TILES = 4
# A line of a path is a number: its place by the order of lines, times this number, plus the number of the path. A line
# of a mirror has the number of no path.
PATH_STRIDE = 1 << 14
NO_PATH = PATH_STRIDE - 1
NO_WIRES: frozenset[str] = frozenset()
# How far the cells at the corners of a cell's surroundings are from it.
DIAGONAL_NEIGHBOUR_OFFSETS = (ROW_STRIDE + 1, ROW_STRIDE - 1, 1 - ROW_STRIDE, -ROW_STRIDE - 1)


def cell_time_number(line: Border) -> int:
    """Returns the number of a border line's cell at its time, which is -1 for all times."""
    return (-1 if line.time is None else line.time) * STEP_STRIDE + line.y * ROW_STRIDE + line.x


class JoinedModules:
    """The modules of a join while paths are led. `extra` counts for each module the paths that bring it a wire.

    The first modules are those of the parts, and `origins` has them with their parts. The others are tiles.
    """

    def __init__(self, composed: Composition, plan: JoinPlan) -> None:
        self.circuit, self.netlist, self.plan = composed.circuit, RouterNetlist(composed.circuit), plan
        self.owners = BlockOwners(plan.side, plan.side)
        self.boxes: list[Box] = []
        self.origins: list[tuple[PlacedPart, Module]] = []
        for placed in plan.placed:
            for own in placed.part.bundle.certificate.modules:
                self.add_box(placed.placing.placed_box(own.box))
                self.origins.append((placed, own))
        for box in self.tiles_outside_parts():
            self.add_box(box)
        self.known = [frozenset(local_wires(self.circuit, ModuleDraft(box, cuts=self.own_cuts(number),
                                                                      uses=self.own_uses(number))))
                      for number, box in enumerate(self.boxes[:len(self.origins)])]
        self.extra: dict[int, Counter[str]] = defaultdict(Counter)
        self.lines: dict[int, array[int]] = defaultdict(lambda: array("q"))

    def add_box(self, box: Box) -> None:
        """Adds the box of a module."""
        self.owners.give_blocks_if_free(box, len(self.boxes))
        self.boxes.append(box)

    def tiles_outside_parts(self) -> Iterator[Box]:
        """Yields boxes of at most a tile that have all cells outside the parts."""
        for y in range(0, self.plan.side, TILE_SIDE):
            for x in range(0, self.plan.side, TILE_SIDE):
                if self.owners.owner_at((x, y)) == NOBODY:
                    yield Box(x, y, TILE_SIDE, TILE_SIDE)
                    continue
                # A part begins at a tile's corner, so only the right and the lower cells of its last tiles are free.
                wide = next((own for own in range(0, TILE_SIDE, 2) if self.owners.owner_at((x + own, y)) == NOBODY),
                            TILE_SIDE)
                high = next((own for own in range(0, TILE_SIDE, 2) if self.owners.owner_at((x, y + own)) == NOBODY),
                            TILE_SIDE)
                if wide < TILE_SIDE:
                    yield Box(x + wide, y, TILE_SIDE - wide, TILE_SIDE)
                if high < TILE_SIDE:
                    yield Box(x, y + high, wide, TILE_SIDE - high)

    # --- the part's own lines -----------------------------------------------------------------------------------------

    def own_cuts(self, number: int) -> list[str]:
        """Returns the cuts that a module brings from its part, as the join calls them."""
        if number >= len(self.origins):
            return []
        placed, own = self.origins[number]
        return [placed.part.wires[wire] for wire in own.cuts]

    def own_uses(self, number: int) -> list[int]:
        """Returns the gates that a module uses in its part, as the join numbers them."""
        if number >= len(self.origins):
            return []
        placed, own = self.origins[number]
        return [placed.part.first_gate + gate for gate in own.uses]

    def own_local_wires(self, number: int) -> frozenset[str]:
        """Returns the wires that a module knows without paths."""
        return self.known[number] if number < len(self.known) else NO_WIRES

    def add_own_lines(self, module: ModuleDraft) -> None:
        """Adds the lines of a part's module, moved and later, with the wires and gates of the join.

        Lines of lone ways are left out.
        """
        placed, own = self.origins[module.number]
        part, time, cell = placed.part, placed.time, placed.placing.placed_cell
        module.keeps = [part.first_gate + number for number in own.keeps]
        module.edges = [Border(None if line.time is None else line.time + time, *cell(line.cell),
                               part.joined_wire(line.signal))
                        for line in own.edges if cell_time_number(line) not in part.left_out_cell_times]
        module.stops = [Stop(line.time + time, part.wires[line.name], *cell(line.cell)) for line in own.stops]

    # --- wires --------------------------------------------------------------------------------------------------------

    def signal_of(self, wire: str) -> str:
        """Returns the signal of a wire: `1` if it is always true."""
        is_always = wire == ALWAYS_SIGNAL or self.netlist.constants.get(self.netlist.root_wire_of(wire)) == 1
        return ALWAYS_SIGNAL if is_always else wire

    def module_numbers_near(self, cell: Cell) -> set[int]:
        """Returns the modules that have a cell in their box or its halo."""
        x, y = cell
        return {self.owners.owner_at((x + i, y + j)) for i in (-1, 1) for j in (-1, 1)} - {NOBODY}

    def ring_cells_of_path(self, path: Path) -> Iterator[tuple[int, Cell, int]]:
        """Yields the cells of a path on rings at odd times, with the numbers of their modules."""
        for time, cells in moving_path_cells(path.start, path.legs, 1):
            for cell in cells:
                number = self.owners.owner_at(cell)
                if self.boxes[number].has_in_ring(cell):
                    yield time, cell, number

    def module_numbers_near_path(self, path: Path) -> set[int]:
        """Returns the modules that must know the wire of a path."""
        return {number for _, cell, _ in self.ring_cells_of_path(path) for number in self.module_numbers_near(cell)}

    def has_room_for(self, wire: str, numbers: Iterable[int]) -> bool:
        """Whether some modules have room for a wire."""
        if self.signal_of(wire) == ALWAYS_SIGNAL:
            return True
        for number in numbers:
            extra = self.extra.get(number, Counter())
            if wire in self.own_local_wires(number) or extra[wire]:
                continue
            if len(self.own_cuts(number)) + len(+extra) >= MAX_CUTS:
                cuts, uses = self.cuts_and_uses(number, [wire])
                if len(cuts) > MAX_CUTS or len(uses) > MAX_USES:
                    return False
        return True

    def make_room_test(self, wire: str) -> Callable[[Footprint], bool]:
        """Returns what tells whether the modules that touch an item have room for a wire, as long as none changes."""
        known: dict[int, bool] = {}

        def has_room(item: Footprint) -> bool:
            """Whether the modules have room."""
            cells = (number for part in item.touched_parts for own in DIAGONAL_NEIGHBOUR_OFFSETS
                     for number in cells_entering_tiles(part, own))
            for tile in tiles_of(cells):
                if tile not in known:
                    number = self.owners.owner_at((tile % ROW_STRIDE * TILE_SIDE, tile // ROW_STRIDE * TILE_SIDE))
                    known[tile] = number == NOBODY or self.has_room_for(wire, [number])
                if not known[tile]:
                    return False
            return True

        return has_room

    def change_wire_count(self, wire: str, numbers: Iterable[int], change: int) -> None:
        """Notes that a path brings a wire to modules, or no longer does."""
        for number in numbers if self.signal_of(wire) != ALWAYS_SIGNAL else ():
            if wire not in self.own_local_wires(number):
                self.extra[number][wire] += change

    def cuts_and_uses(self, number: int, more: Iterable[str] = ()) -> tuple[list[str], list[int]]:
        """Returns the cuts of a module and the gates that it uses. The part's own stay if there is room."""
        own, own_uses = self.own_cuts(number), self.own_uses(number)
        extra = sorted(({*+self.extra.get(number, Counter()), *more}) - self.own_local_wires(number),
                       key=self.circuit.rank)
        constants = [wire for wire in extra if self.netlist.root_wire_of(wire) in self.netlist.constants]
        used = {*own_uses, *self.circuit.cone_inputs_and_gates(constants)[1]} if constants else set(own_uses)
        plain = [wire for wire in extra if wire not in constants]
        if len(own) + len(plain) <= MAX_CUTS and not any(self.is_delay_of_known(wire, number) for wire in plain):
            return [*own, *plain], sorted(used)
        cuts, uses = few_cuts_and_uses(self.circuit, {*own, *extra}, used)
        return sorted(cuts, key=self.circuit.rank), sorted(uses)

    def is_delay_of_known(self, wire: str, number: int) -> bool:
        """Whether a wire is on one ball with a wire that a module knows, by delays: then it must not be free."""
        root = self.netlist.root_wire_of(wire)
        return root != wire and any(self.netlist.root_wire_of(own) == root for own in self.own_local_wires(number))

    # --- the certificate ----------------------------------------------------------------------------------------------

    def note_border_lines(self, paths: list[Path], ports: Iterable[tuple[Cell, str]]) -> None:
        """Notes the lines of all paths and of their mirrors, and the wires of ports."""
        for cell, wire in ports:
            self.make_wire_local(wire, self.owners.owner_at(cell))
        for index, path in enumerate(paths):
            for time, (x, y), number in self.ring_cells_of_path(path):
                if time < self.plan.end:
                    self.lines[number].append(((time + 1) * STEP_STRIDE + y * ROW_STRIDE + x) * PATH_STRIDE + index)
            for cell_number in path.item.mirrors:
                cell = cell_of_number(cell_number)
                number = self.owners.owner_at(cell)
                if self.boxes[number].has_in_ring(cell):
                    self.lines[number].append(cell_number * PATH_STRIDE + NO_PATH)

    def unpacked_border_line(self, number: int, signals: list[str]) -> Border:
        """Returns the line of a number, with the signals of all paths."""
        place, index = divmod(number, PATH_STRIDE)
        time, (x, y) = place // STEP_STRIDE - 1, cell_of_number(place % STEP_STRIDE)
        return Border(None, x, y, ALWAYS_SIGNAL) if index == NO_PATH else Border(time, x, y, signals[index])

    def modules(self, paths: list[Path]) -> Iterator[Module]:
        """Yields the modules with all their lines, one box in place of many where no box has any line; raises
        NoRouteError."""
        signals = [self.signal_of(path.wire) for path in paths]
        for number, box in self.merged_boxes():
            module = ModuleDraft(box)
            if number is not None:
                module.number = number
                if number < len(self.origins):
                    self.add_own_lines(module)
                module.edges += [self.unpacked_border_line(own, signals) for own in self.lines.get(number, ())]
                module.edges.sort(key=lambda line: line.order_key)
                module.cuts, module.uses = self.cuts_and_uses(number)
                if len(module.cuts) > MAX_CUTS or len(module.uses) > MAX_USES:
                    raise NoRouteError(f"the box at ({box.x}, {box.y}) needs {len(module.cuts)} wires; "
                                       f"{MAX_CUTS} is the most", FailureKind.WIRES)
            yield module.finished_module()

    def require_equal_stop_times(self) -> None:
        """Raises LabError if a gate gets wires with stops at different times: the program would say no."""
        latest: dict[str, int] = {}
        for placed, module in self.origins:
            for stop in module.stops:
                wire = placed.part.wires[stop.name]
                latest[wire] = max(stop.time + placed.time, latest.get(wire, 0))
        for gate in self.circuit.gates:
            times = {wire: latest[wire] for wire in gate.ins if wire in latest}
            if len(set(times.values())) > 1:
                words = " and ".join(f"{wire} at time {time}" for wire, time in times.items())
                what = f"gate {gate.number} ({gate.kind}) would get inputs with stops at different times, {words}"
                raise LabError(f"{what}: an output with a delay is led to a gate with another delayed input", 1)

    def make_wire_local(self, wire: str, number: int) -> None:
        """Has a module know the wire of a port."""
        if wire not in self.own_local_wires(number):
            self.extra[number][wire] += 1

    def merged_boxes(self) -> list[tuple[int | None, Box]]:
        """Returns the boxes with the numbers of their modules, and None for a large box in place of many tiles."""
        tiles = range(len(self.origins), len(self.boxes))
        quiet = {(self.boxes[number].x, self.boxes[number].y) for number in tiles if self.is_quiet(number)}
        width, height, side = self.plan.width, self.plan.height, QUIET_BOX_TILES * TILE_SIDE
        large: dict[Cell, Cell] = {}
        for x, y in quiet:
            group = [(x + i, y + j) for i in range(0, side, TILE_SIDE) for j in range(0, side, TILE_SIDE)]
            is_inside = x + side <= width and y + side <= height
            if x % side == 0 and y % side == 0 and is_inside and quiet.issuperset(group):
                large |= dict.fromkeys(group, (x, y))
        found: list[tuple[int | None, Box]] = []
        for number, box in enumerate(self.boxes):
            corner = large.get((box.x, box.y)) if number in tiles else None
            if corner == (box.x, box.y):
                found.append((None, Box(*corner, side, side)))
            elif corner is None and box.x < width and box.y < height:
                found.append((number, box))
        if len(found) > SECOND_LIMITS.max_modules:
            raise LabError(f"the join takes {len(found)} modules; {SECOND_LIMITS.max_modules} is the most", 1)
        return found

    def is_quiet(self, number: int) -> bool:
        """Whether a module is a whole tile that nothing reaches."""
        box = self.boxes[number]
        return (box.width == box.height == TILE_SIDE and not self.lines.get(number)
                and not +self.extra.get(number, Counter()))
