"""Placing gates: a place, an orientation and a time for a gate's cell, with paths from the balls that wait for it.

Gates are placed one after another, about in the order of time. Each gets the first of the good places to which all its
inputs can be led, and none is put on the way ahead of a ball that waits for another gate.
"""

import random
from collections import Counter
from dataclasses import dataclass
from typing import Iterable, Iterator

from ..texts.circuits import Gate
from ..texts.layouts import Cell
from .balls import BOUNCE_STEPS, Ball, BounceKind, Leg, ball_and_mirror_after_bounce
from .board import Board, Placement, WaitingBall, gate_tile_box, tiles_in
from .cells import GATE_PORTS, GateCell
from .paths import Path, PathFinder
from .settings import RouterSettings
from .world import HALF_SQUARE_SIDE, MARGIN_CELLS, ROW_STRIDE, TILE_SIDE, Footprint, path_footprint

# Largest side of a box in tiles: boxes have at most 64 by 64 cells.
MAX_BOX_SIDE_TILES = 4
# A waiting ball is looked at again if something new is nearer than this many columns and rows.
NEAR_DISTANCE = 100
# The cells of the square in which `RoutingGrid.taken_count_around` counts.
COUNTED_SQUARE_CELLS = (2 * HALF_SQUARE_SIDE) ** 2
# The most steps to spare for the last input of a gate, however often inputs could not be led.
MAX_SPARE_STEPS = 130
EVEN_BITS = sum(1 << index for index in range(0, ROW_STRIDE, 2))


@dataclass(frozen=True)
class GateSpot:
    """A place and a time for a cell."""

    cell: GateCell
    x: int
    y: int
    time: int


@dataclass(frozen=True)
class Inlet:
    """An input of a gate that has a ball: its port, its root wire, the waiting ball if any, and the least steps of its
    way."""

    port: str
    root: str
    ball: Ball | None
    least: int


class Placer:
    """Places gates on a board. Its choices come from `chance` alone."""

    def __init__(self, board: Board, chance: random.Random) -> None:
        self.board, self.chance = board, chance
        self.settings: RouterSettings = board.settings
        self.finder = PathFinder(board.world, chance, board.settings)
        # Why tries failed, since the last call of `find_placement`; and for each wire how often no path was found.
        self.reasons: Counter[str] = Counter()
        self.blame: Counter[str] = Counter()
        # Waiting balls that cannot turn, and the ball that the last step or path would have enclosed.
        self.stuck: set[str] = set()
        self.enclosed = ""
        # The earliest time for the gate that is being placed, by its delayed inputs that are never true, and by late
        # inputs.
        self.least_time = 0
        # The latest time before which no gate with late inputs came.
        self.late_begun = 0
        # The estimated time at which all gates are done.
        self.horizon = 0

    def inlets_of_gate(self, gate: Gate) -> list[Inlet]:
        """Returns the inputs of a gate that have a ball."""
        netlist, found = self.board.netlist, []
        for port, wire in zip(GATE_PORTS[gate.kind][0], gate.ins):
            if not netlist.has_no_ball(wire):
                root = netlist.root_wire_of(wire)
                found.append(Inlet(port, root, self.board.waiting[root].ball, netlist.least_delay_steps(wire)))
        return found

    def find_placement(self, gate: Gate, spots: Iterable[GateSpot] | None = None) -> Placement | None:
        """Returns the first way to place a gate, at any spots or at given ones, or None. Nothing is added yet."""
        self.reasons.clear()
        self.blame.clear()
        self.stuck.clear()
        self.finder.known_departures.clear()
        netlist = self.board.netlist
        inlets = self.inlets_of_gate(gate)
        self.least_time = max([self.note_earliest_late_time(inlets),
                               *(netlist.least_delay_steps(wire) for wire in gate.ins
                                 if netlist.has_no_ball(wire))])
        for spot in self.best_spots(gate, inlets) if spots is None else spots:
            self.reasons["tries"] += 1
            step = self.placement_at_spot(gate, spot, inlets)
            if step is not None:
                return step
            self.note_stuck_ball()
            if max(self.blame.values(), default=0) > self.settings.most_blame:
                break
        return None

    def note_earliest_late_time(self, inlets: list[Inlet]) -> int:
        """Returns the earliest time for a gate with some inputs: a late one comes after all balls that wait for it, and
        not before the first late one."""
        netlist = self.board.netlist
        if not any(inlet.ball is None and inlet.root in netlist.late for inlet in inlets):
            return 0
        times = [own.ball.time for root, own in self.board.waiting.items()
                 if own.ball and netlist.is_before_late_inputs(root)]
        self.late_begun = max([self.late_begun, *times])
        return self.late_begun

    # --- where and when -----------------------------------------------------------------------------------------------

    def best_spots(self, gate: Gate, inlets: list[Inlet]) -> Iterator[GateSpot]:
        """Yields the best of some random spots for a gate, and so on: early ones, with few taken cells around them."""
        settings = self.settings
        batch: list[tuple[float, int, GateSpot]] = []
        for index, spot in enumerate(self.random_spots(gate, inlets)):
            left, top, right, bottom = spot.cell.bounds
            taken = self.board.world.taken_count_around(spot.x + (left + right) // 2, spot.y + (top + bottom) // 2)
            batch.append((spot.time + spot.cell.step_count + settings.full_square_delay * taken / COUNTED_SQUARE_CELLS,
                          index, spot))
            if len(batch) == settings.spot_batch:
                yield from (own for _, _, own in sorted(batch, key=lambda own: own[:2])[:settings.best_spots])
                batch.clear()
        yield from (own for _, _, own in batch)

    def random_spots(self, gate: Gate, inlets: list[Inlet], is_crowded: bool = False) -> Iterator[GateSpot]:
        """Yields places and times for a gate, at which its mirrors have room and its box is free.

        If `is_crowded`, paths may be where its mirrors are.
        """
        chance, tries = self.chance, self.settings.place_tries
        cells, partner = self.board.netlist.gate_cells_for(gate), self.partner_ball(gate, inlets)
        for index in range(tries):
            cell, growth = cells[chance.randrange(len(cells))], min(1.0, index / self.settings.widening_tries)
            left, top, right, bottom = cell.bounds
            x, y, radius = self.random_search_area(inlets, partner, growth, (right - left) // 2)
            x, y = x - (left + right) // 2, y - (top + bottom) // 2
            row = y + chance.randint(-radius, radius)
            column = self.free_column(cell, row, (x - radius, x + radius), is_crowded)
            if column is None:
                self.reasons["no room"] += 1
                continue
            if not self.is_box_free(cell, column, row, chance.random() > growth):
                self.reasons["box taken"] += 1
                continue
            if self.is_in_lane(cell, column, row, inlets):
                self.reasons["ahead of a ball"] += 1
                continue
            time = self.earliest_time(cell, column, row, inlets)
            if partner:
                time = max(time, partner.time - cell.step_count)
            time += chance.randint(self.settings.least_spare, self.random_spare_step_limit())
            yield GateSpot(cell, column, row, time + (time - column) % 2)

    def random_spare_step_limit(self) -> int:
        """Returns the most steps to spare for the last input of a gate: more if inputs could not be led."""
        return min(MAX_SPARE_STEPS,
                   self.chance.choice(self.settings.most_spare) + 3 * max(self.blame.values(), default=0))

    def partner_ball(self, gate: Gate, inlets: list[Inlet]) -> Ball | None:
        """Returns the ball that a gate's results wait for or meet later, if the gate's own inputs may all begin
        anywhere."""
        netlist, waiting = self.board.netlist, self.board.waiting
        if any(inlet.ball for inlet in inlets):
            return None
        consumers = [netlist.consumer[wire] for wire in gate.outs if wire in netlist.consumer]
        others = [waiting.get(netlist.root_wire_of(wire)) for consumer in consumers for wire in consumer.ins]
        balls = [own.ball for own in others if own and own.ball]
        return max(balls, key=lambda ball: ball.time) if balls else None

    def random_search_area(self, inlets: list[Inlet], partner: Ball | None, growth: float,
                           half: int) -> tuple[int, int, int]:
        """Returns a place near the waiting balls for a cell of twice `half` cells, and how far around it the cell may
        be."""
        chance, size, height = self.chance, self.board.width, self.board.height
        balls = [inlet.ball for inlet in inlets if inlet.ball] or ([partner] if partner else [])
        if not balls:
            # A cell may be as wide as the layout: it finds no room then.
            return (chance.randrange(half, max(half + 1, size - half)),
                    chance.randrange(half, max(half + 1, height - half)), 60)
        radius = half + chance.choice((20, 40 + int(60 * growth), 80 + int(100 * growth), 120 + int(140 * growth)))
        last = max(balls, key=lambda ball: ball.time)
        ahead = last.after_flight(chance.randint(half, half + 20 + int(60 * growth)))
        x, y = ahead.x, ahead.y
        if len(balls) > 1 and chance.random() < 0.4:
            other = balls[chance.randrange(len(balls))]
            x, y = (x + other.x) // 2, (y + other.y) // 2
        return min(max(x, half), size - half), min(max(y, half), height - half), radius

    def free_column(self, cell: GateCell, row: int, columns: tuple[int, int], is_crowded: bool) -> int | None:
        """Returns a random column from the first to the last of two at which the cell's mirrors have room if it is at
        this row, or None.

        If `is_crowded`, only the layout must have room.
        """
        left, top, right, bottom = cell.bounds
        first, last = max(columns[0], MARGIN_CELLS - left), min(columns[1], self.board.width - MARGIN_CELLS - 1 - right)
        if row + top < MARGIN_CELLS or row + bottom > self.board.height - MARGIN_CELLS - 1 or first > last:
            return None
        blocked, taken = self.board.world.blocked, 0
        for y, places in cell.mirror_columns_by_row if not is_crowded else ():
            # A row of the plane has thousands of bits, so it is shifted once.
            near = blocked[row + y] >> first + left & (1 << last - first + right - left + 1) - 1
            for x in places:
                taken |= near >> x - left
        free = ~taken & (EVEN_BITS << (first - row) % 2) & (1 << last - first + 1) - 1
        if not free:
            return None
        skipped = self.chance.randrange(last - first + 1)
        bits = free >> skipped
        return first + ((bits & -bits).bit_length() - 1 + skipped if bits else free.bit_length() - 1)

    def is_box_free(self, cell: GateCell, x: int, y: int, is_wide: bool) -> bool:
        """Whether the box of a cell is small enough, inside the layout, and no other gate's; if `is_wide`, with a tile
        around it."""
        column, row, columns, rows = gate_tile_box(cell, x, y)
        if (columns > MAX_BOX_SIDE_TILES or rows > MAX_BOX_SIDE_TILES or column < 0 or row < 0
            or column + columns > self.board.width // TILE_SIDE or row + rows > self.board.height // TILE_SIDE):
            return False
        owners, margin = self.board.owners, 1 if is_wide else 0
        around = (column - margin, row - margin, columns + 2 * margin, rows + 2 * margin)
        return not any(tile in owners for tile in tiles_in(around))

    def is_in_lane(self, cell: GateCell, x: int, y: int, inlets: list[Inlet]) -> bool:
        """Whether a cell comes near the way ahead of a waiting ball that it does not consume."""
        margin, most = self.settings.lane_cells, self.settings.lane_steps
        left, top, right, bottom = cell.bounds
        left, top, right, bottom = x + left - margin, y + top - margin, x + right + margin, y + bottom + margin
        own = {inlet.root for inlet in inlets}
        for root, waiting in self.board.waiting.items():
            ball = waiting.ball
            if ball is None or root in own:
                continue
            # The steps at which the ball is in the columns, and those at which it is in the rows.
            first_x, last_x = (left - ball.x, right - ball.x) if ball.dx > 0 else (ball.x - right, ball.x - left)
            first_y, last_y = (top - ball.y, bottom - ball.y) if ball.dy > 0 else (ball.y - bottom, ball.y - top)
            if max(first_x, first_y, 0) <= min(last_x, last_y, most):
                return True
        return False

    def earliest_time(self, cell: GateCell, x: int, y: int, inlets: list[Inlet]) -> int:
        """Returns the earliest time for a cell at which each input can be there."""
        time = self.least_time
        meeting = min((cell.ins[inlet.port].time for inlet in inlets), default=0)
        for inlet in inlets:
            port = cell.ins[inlet.port]
            if inlet.ball is None:
                time = max(time, inlet.least + 6 - meeting)
                continue
            far = max(abs(port.x + x - inlet.ball.x), abs(port.y + y - inlet.ball.y))
            time = max(time, inlet.ball.time + far + 4 - port.time, inlet.ball.time + inlet.least - meeting)
        return time

    # --- trying a spot ------------------------------------------------------------------------------------------------

    def placement_at_spot(self, gate: Gate, spot: GateSpot, inlets: list[Inlet]) -> Placement | None:
        """Returns the step that places a gate at a spot, or None if something is in the way. The board stays as it is.
        """
        board, world = self.board, self.board.world
        placed, self.enclosed = board.make_placed_gate(spot.x, spot.y, spot.time, spot.cell, gate.number), ""
        if not world.can_add(placed.item):
            self.reasons["in the way"] += 1
            return None
        if not board.has_wire_room_in_box(placed.box, [gate.number], board.gate_wires(placed), 2):
            self.reasons["cuts"] += 1
            return None
        board.add_gate(placed)
        step = Placement(placed, [])
        done = (self.reserve_outputs(step, gate) and self.can_others_turn([(placed.x, placed.y)])
                and self.lead_inputs(step, inlets) and self.can_all_turn(step))
        for path in step.paths:
            board.remove_path(path)
        for own in step.outs.values():
            world.remove(reserved_footprint(own))
        for root, waiting in step.waiting_before.items():
            board.add_waiting_ball(root, waiting)
        step.waiting_before = {}
        board.remove_gate(placed)
        return step if done else None

    def reserve_outputs(self, step: Placement, gate: Gate) -> bool:
        """Lets a gate's outputs wait, if their ways out are free."""
        for port, wire in zip(GATE_PORTS[gate.kind][1], gate.outs):
            if self.board.netlist.has_no_ball(wire):
                continue
            waiting = self.board.new_waiting_ball(step.gate.output_ball(port))
            if waiting is None:
                self.reasons["ways out"] += 1
                return False
            self.board.world.add(reserved_footprint(waiting))
            step.outs[wire] = waiting
        return True

    def way_in_footprint(self, ball: Ball) -> Footprint | None:
        """Returns what the last steps of a straight way into a port take, or None if they meet something."""
        before = ball.after_flight(-6)
        if before.time < 0 or not self.board.world.is_inside(before.x, before.y):
            return None
        item = path_footprint(before, [Leg(6, None)])
        return item if item and self.board.world.can_add(item) else None

    def lead_inputs(self, step: Placement, inlets: list[Inlet]) -> bool:
        """Leads the inputs to a gate: first those that failed most often, and then those that come last."""
        world = self.board.world
        order = sorted(inlets, key=lambda inlet: (-self.blame[inlet.root], -inlet.ball.time if inlet.ball else 1))
        ways = {inlet.root: self.way_in_footprint(step.gate.input_ball(inlet.port)) for inlet in order}
        kept = {root: item for root, item in ways.items() if item}
        for item in kept.values():
            world.add(item)
        good = True
        for inlet in order:
            if inlet.root in kept:
                world.remove(kept.pop(inlet.root))
            if not self.lead_input(step, inlet):
                good = False
                break
        for item in kept.values():
            world.remove(item)
        return good

    def lead_input(self, step: Placement, inlet: Inlet) -> bool:
        """Leads one input to a gate."""
        board, goal = self.board, step.gate.input_ball(inlet.port)
        waiting = board.stop_waiting(inlet.root)
        if waiting.ball is None:
            path = self.finder.path_from_anywhere(inlet.root, goal)
        else:
            path = self.finder.find_path(inlet.root, waiting.ball, goal, self.settings.path_tries)
        if path and not board.has_wire_room_for(inlet.root, path.item.tiles):
            self.reasons["cuts of a path"] += 1
            path = None
        if path is None:
            board.add_waiting_ball(inlet.root, waiting)
            self.reasons["no path"] += 1
            self.blame[inlet.root] += 1
            return False
        board.add_path(path)
        step.waiting_before[inlet.root] = waiting
        step.paths.append(path)
        return True

    def can_all_turn(self, step: Placement) -> bool:
        """Whether each waiting ball can still turn."""
        places = [(step.gate.x, step.gate.y),
                  *((mirror.x, mirror.y) for path in step.paths for mirror in path.mirrors())]
        if not self.can_others_turn(places):
            self.reasons["encloses another"] += 1
            return False
        if not all(self.can_turn(own) for own in step.outs.values()):
            self.reasons["enclosed"] += 1
            return False
        return True

    def can_others_turn(self, places: list[Cell]) -> bool:
        """Whether each ball that waits near new mirrors can still turn, but for those that could not turn before."""
        waiting = self.board.waiting
        near = [root for root, own in waiting.items() if own.ball and root not in self.stuck and any(
            abs(own.ball.x - x) < NEAR_DISTANCE and abs(own.ball.y - y) < NEAR_DISTANCE for x, y in places)]
        self.enclosed = next((root for root in near if not self.can_turn(waiting[root])), "")
        return not self.enclosed

    def note_stuck_ball(self) -> None:
        """Notes the ball that something would have enclosed, if it cannot turn without that either."""
        own = self.board.waiting.get(self.enclosed)
        if own and own.ball and not self.can_turn(own):
            self.stuck.add(self.enclosed)

    def park_outputs(self, step: Placement) -> None:
        """Leads the outputs of the last gate that no gate consumes away, if there are good places for them to wait."""
        board = self.board
        for wire, waiting in list(step.outs.items()):
            ball = required_ball(waiting)
            end = min(ball.time + self.settings.parking_steps, self.horizon)
            if wire in board.netlist.consumer or end - ball.time < self.settings.least_parking:
                continue
            board.stop_waiting(wire)
            found = [own for own in (self.parking_path(wire, ball, end) for _ in range(self.settings.parking_choices))
                     if own]
            if found:
                _, path, parked = min(found, key=lambda own: own[0])
                board.park_output(step, path, parked)
            else:
                board.add_waiting_ball(wire, waiting)

    def parking_path(self, wire: str, ball: Ball, end: int) -> tuple[int, Path, WaitingBall] | None:
        """Returns a path away from a gate and the ball that waits at its end, with the number of taken cells around
        this place."""
        board = self.board
        path = self.finder.path_to_anywhere(wire, ball, end)
        if path is None or not board.has_wire_room_for(wire, path.item.tiles):
            return None
        board.add_path(path)
        waiting = board.new_waiting_ball(path.end)
        is_good = waiting is not None and self.can_others_turn([(mirror.x, mirror.y) for mirror in path.mirrors()])
        if waiting is not None and is_good:
            board.add_waiting_ball(wire, waiting)
            is_good = self.can_turn(waiting)
            board.stop_waiting(wire)
        board.remove_path(path)
        if waiting is None or not is_good:
            return None
        far = path.end.after_flight(self.settings.reserved_steps[-1])
        return board.world.taken_count_around(far.x, far.y), path, waiting

    def estimated_end(self, step: Placement) -> int:
        """Returns an estimate of the time at which all that follows a step is done."""
        netlist, times = self.board.netlist, [step.gate.time + step.gate.cell.step_count]
        for wire, waiting in step.outs.items():
            consumer = netlist.consumer.get(wire)
            times.append(required_ball(waiting).time + (netlist.tails[consumer.number] if consumer else 0))
        return max(times)

    def can_turn(self, waiting: WaitingBall) -> bool:
        """Whether a waiting ball has enough places ahead at which it can turn."""
        world, ball, reserved = self.board.world, required_ball(waiting), reserved_footprint(waiting)
        room, least = world.free_steps(ball, 70), self.settings.escapes
        found = self.possible_turn_count(ball, range(self.settings.reserved_steps[0] + 3, room + 1, 3), least)
        if found < least:
            world.remove(reserved)
            found += self.possible_turn_count(ball, range(0, min(room, self.settings.reserved_steps[0] + 2) + 1, 2),
                                              least - found)
            world.add(reserved)
        return found >= least

    def possible_turn_count(self, ball: Ball, places: range, most: int) -> int:
        """Returns how many mirrors, at most about `most`, have room after some numbers of steps, with a free way behind
        them."""
        world, found = self.board.world, 0
        for steps in places:
            at = ball.after_flight(steps)
            for turn in BounceKind:
                after, mirror = ball_and_mirror_after_bounce(at, turn)
                if world.has_room_for_mirror(mirror) and world.free_steps(after.after_flight(BOUNCE_STEPS), 20) >= 17:
                    found += 1
            if found >= most:
                break
        return found


def required_ball(waiting: WaitingBall) -> Ball:
    """Returns the ball that waits; raises ValueError if it may begin anywhere."""
    if waiting.ball is None:
        raise ValueError("the ball may begin anywhere")
    return waiting.ball


def reserved_footprint(waiting: WaitingBall) -> Footprint:
    """Returns what is reserved for a waiting ball; raises ValueError if nothing is."""
    if waiting.item is None:
        raise ValueError("nothing is reserved for the ball")
    return waiting.item
