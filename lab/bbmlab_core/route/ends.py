"""Leading all waiting balls on to the last time, when all gates are placed.

All ends of a layout are read at its last time, so each ball needs a way up to there. Balls that wait since long come
first. Most go to coils, and the others wander.
"""

from collections import Counter
from itertools import chain
from typing import Callable

from .balls import Ball, Leg
from .board import FailureKind, NoRouteError, WaitingBall
from .escapes import EscapeWiring
from .paths import Path
from .placement import Placer
from .ripup import PathRipper
from .world import path_footprint


class EndWiring:
    """Leads the balls of a board to the last time. `most_size` is the side up to which the plane may grow."""

    def __init__(self, placer: Placer, way_maker: PathRipper, escapes: EscapeWiring, most_size: int,
                 require_time_left: Callable[[], None]) -> None:
        self.placer, self.way_maker, self.escapes = placer, way_maker, escapes
        self.board, self.settings = placer.board, placer.settings
        self.netlist, self.chance = self.board.netlist, placer.chance
        self.most_size, self.require_time_left = most_size, require_time_left
        # These fields belong to one pass over all balls. For each ball that was led, how it waited before.
        self.before: dict[str, WaitingBall] = {}
        # The balls that were led first, since others would enclose them, and those that were led alone.
        self.led_first, self.led_alone = set[str](), set[str]()
        # For each ball, how often paths to gates made way for it, and how often it found no way.
        self.ways_made, self.failures = Counter[str](), Counter[str]()
        # How many paths may still be taken back, and whether a larger plane gives a ball no way either.
        self.left, self.has_no_way = 0, False

    def earliest_end_time(self) -> int:
        """Returns the time at which all balls can have come to their last wires."""
        netlist = self.netlist
        end = max([2, *(netlist.least_delay_steps(wire) for wire in netlist.delayed if netlist.has_no_ball(wire))])
        for root, waiting in self.board.waiting.items():
            start = waiting.ball.time + 1 if waiting.ball else 0
            end = max(end, start + netlist.least_delay_steps(netlist.wires_of_ball(root)[-1]))
        for step in self.board.steps if netlist.is_backward else []:
            zeros = [wire for wire in netlist.lines[step.gate.number].outs if netlist.has_no_ball(wire)]
            last = step.gate.time + step.gate.cell.step_count
            end = max([end, *(last + netlist.least_delay_steps(netlist.wires_of_ball(wire)[-1]) for wire in zeros)])
        return end | 1 if netlist.is_backward else end

    def lead_all_or_say_why(self) -> str | None:
        """Leads all waiting balls on to the last time; returns a sentence if that failed.

        The plane grows before, so that all these ways have room by estimate. If that was not enough it grows again.
        """
        self.make_room_for_ends()
        why = self.lead_all_once_or_say_why()
        for _ in range(self.settings.growths):
            if why is None or self.has_no_way or not self.board.try_grow(self.settings.growth_divisor, self.most_size):
                break
            why = self.lead_all_once_or_say_why()
        return why

    def make_room_for_ends(self) -> None:
        """Lets the plane grow until what is taken, and what the ways to the last time may take, is at most
        `end_fill_share` of it."""
        board, end = self.board, self.earliest_end_time()
        steps = sum(end - (waiting.ball.time if waiting.ball else 0) for waiting in board.waiting.values())
        taken = sum(row.bit_count() for row in board.world.blocked) + self.settings.step_cells * steps
        while (taken > self.settings.end_fill_share * board.width * board.height
               and board.try_grow(self.settings.growth_divisor, self.most_size)):
            pass

    def lead_all_once_or_say_why(self) -> str | None:
        """Leads all waiting balls on to the last time; returns a sentence if that failed, and then takes the paths
        back."""
        board, end = self.board, self.earliest_end_time()
        queue = sorted(board.waiting, key=lambda root: self.end_order_key(board.waiting[root]))
        self.before.clear()
        self.led_first.clear()
        self.led_alone.clear()
        self.ways_made.clear()
        self.failures.clear()
        self.left, self.has_no_way = self.settings.end_rips, False
        self.placer.stuck.clear()
        while queue:
            self.require_time_left()
            root = queue.pop(0)
            if not self.lead_to_end(root, end) and not self.requeue_before_others(queue, root, end):
                self.placer.blame.clear()
                self.placer.blame[root] += 1
                self.take_all_ends_back()
                return f"the ball of wire {root} could not be led to the last time, {end}"
        return None

    def lead_to_end(self, root: str, end: int) -> bool:
        """Leads a ball to the last time, while paths to gates make way if need be; returns whether a path was found.
        Else it waits again."""
        waiting = self.before[root] = self.board.stop_waiting(root)
        path = self.add_end_path(root, waiting.ball, end)
        if path is None and self.ways_made[root] < self.settings.ways_made_per_end:
            self.ways_made[root] += 1
            path = self.add_path_making_way(root, waiting.ball, end)
        if path is None:
            self.board.add_waiting_ball(root, self.before.pop(root))
            return False
        self.board.ends.append(path)
        return True

    def requeue_before_others(self, queue: list[str], root: str, end: int) -> bool:
        """Changes the queue so that a ball that could not be led comes before others; returns whether this may help.

        Before the ball that its paths would enclose comes this one. Then paths to the last time that cross its way are
        taken back and led after it, or else all that are in the way of a path that it has without them. Two balls of
        one gate may take each other's way again and again: then the gate has to move.
        """
        self.failures[root] += 1
        if self.failures[root] > self.settings.most_end_failures:
            self.has_no_way = True
            return False
        if self.left > 0 and self.put_enclosed_first(queue, root):
            self.left -= 1
            return True
        crossing = self.end_paths_crossing_way_of(self.board.waiting[root].ball)
        self.left -= 1 + len(crossing)
        if not crossing and root not in self.led_alone:
            self.led_alone.add(root)
            return self.lead_displacing_others(queue, root, end)
        if self.left <= 0 or not crossing or not self.take_ends_back(crossing):
            return False
        queue[:] = [root, *queue, *(other.wire for other in crossing)]
        return True

    def lead_displacing_others(self, queue: list[str], root: str, end: int) -> bool:
        """Leads a ball as if no other one was led, and then lets those wait again that are in its way; returns whether
        that was possible. If there is no way for it, a larger plane does not help."""
        board, paths = self.board, list(self.board.ends)
        for path in paths:
            board.remove_path(path)
        board.ends.clear()
        self.has_no_way = not self.lead_to_end(root, end)
        for path in paths:
            if board.world.can_add(path.item) and board.has_wire_room_for(path.wire, path.item.tiles):
                board.add_path(path)
                board.ends.append(path)
            elif not self.let_wait_again(path.wire):
                return False
            else:
                queue.append(path.wire)
        return not self.has_no_way

    def put_enclosed_first(self, queue: list[str], root: str) -> bool:
        """Changes the queue if each path of a ball would enclose another ball that still waits; returns whether this is
        so.

        The other ball goes first. If that was tried already, it may be enclosed.
        """
        enclosed = self.placer.enclosed
        if enclosed not in queue:
            return False
        if enclosed in self.led_first:
            self.placer.stuck.add(enclosed)
            queue.insert(0, root)
        else:
            self.led_first.add(enclosed)
            queue.remove(enclosed)
            queue[:0] = [enclosed, root]
        return True

    def take_ends_back(self, paths: list[Path]) -> bool:
        """Takes some paths to the last time back; returns whether all their balls have room to wait."""
        for path in paths:
            self.board.ends.remove(path)
            self.board.remove_path(path)
        return all(self.let_wait_again(path.wire) for path in paths)

    def let_wait_again(self, root: str) -> bool:
        """Lets a ball wait whose path was taken back; returns whether it has room."""
        if not self.board.wait_again(root, self.before[root]):
            return False
        del self.before[root]
        return True

    def take_all_ends_back(self) -> None:
        """Takes all paths to the last time back; raises NoRouteError if a ball has no room to wait."""
        for path in self.board.ends:
            self.board.remove_path(path)
        self.board.ends.clear()
        for root, waiting in self.before.items():
            if not self.board.wait_again(root, waiting):
                raise NoRouteError(f"the ball of wire {root} has no room to wait", FailureKind.ROOM)

    def end_paths_crossing_way_of(self, ball: Ball | None) -> list[Path]:
        """Returns the paths to the last time that cross or touch the straight way of a ball that waits."""
        if ball is None:
            return []
        room = self.board.world.free_steps(ball, 70) + 6
        way = path_footprint(ball, [Leg(room, None)])
        touched = way.touched_cells if way else set()
        return [path for path in self.board.ends
                if not touched.isdisjoint(chain(path.item.mirrors, *path.item.touched_parts))]

    def end_order_key(self, waiting: WaitingBall) -> tuple[bool, int]:
        """Returns the key by which balls are led to the end: those that wait since long come first."""
        return waiting.ball is None, waiting.ball.time if waiting.ball else 0

    def add_end_path(self, root: str, ball: Ball | None, end: int) -> Path | None:
        """Adds a path from a waiting ball, or from any place, to the last time, and returns it.

        It encloses no other ball. If ends stay open for a join, it leads to no coil.
        """
        finder, board = self.placer.finder, self.board
        coiled = self.escapes.add_path_to_coil(root, ball, end) if ball and not self.settings.open_end_steps else None
        if coiled is not None:
            return coiled
        self.placer.enclosed = ""
        for _ in range(self.settings.end_tries if ball else 5 * self.settings.end_tries):
            path = finder.path_to_anywhere(root, ball or self.random_start(), end, stays=True)
            if path is None:
                continue
            if not board.has_wire_room_for(root, path.item.tiles):
                board.world.remove(path.item)
                continue
            board.add_path(path, is_there=True)
            if self.placer.can_others_turn([(mirror.x, mirror.y) for mirror in path.mirrors()]):
                return path
            board.remove_path(path)
            self.placer.note_stuck_ball()
        return None

    def add_path_making_way(self, root: str, ball: Ball | None, end: int) -> Path | None:
        """Adds a path from a waiting ball to the last time for which paths to gates make way, and returns it."""
        if ball is None or self.placer.enclosed:
            return None
        return self.way_maker.lead_by_ripping(ball, lambda: self.add_end_path(root, ball, end))

    def random_start(self) -> Ball:
        """Returns a ball at time 0 at a random place."""
        chance, board = self.chance, self.board
        x, y = chance.randrange(4, board.width // 2 - 4), chance.randrange(4, board.height // 2 - 4)
        return Ball(2 * x, 2 * y, 1, 1, 0)
