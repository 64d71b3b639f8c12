"""One attempt to place and route a circuit, on a layout of one size and with one seed."""

import random
import time
from collections import Counter
from typing import Callable

from ..texts.circuits import Gate
from .board import Board, FailureKind, NoRouteError, Placement
from .design import RoutedDesign, as_forward_design
from .ends import EndWiring
from .escapes import EscapeWiring
from .netlist import RouterNetlist
from .placement import Placer, required_ball
from .ripup import PathRipper
from .settings import RouterSettings

# The number that stands for the end in the counts of failures.
NO_GATE = -1


class OutOfTimeError(NoRouteError):
    """The time was over before the attempt ended."""


def ignore_progress(placed: int, total: int) -> None:
    """Ignores the progress of an attempt."""


class Attempt:
    """An attempt. It depends on circuit, size, seed and settings alone, unless the time is over."""

    def __init__(self, netlist: RouterNetlist, size: int, seed: int, settings: RouterSettings,
                 deadline: float = float("inf"), most_size: int = 0, height: int | None = None) -> None:
        self.netlist = netlist
        # The side up to which the plane may grow.
        self.most_size = max(size, min(most_size, int(settings.most_growth * size)))
        self.board = Board(self.netlist, size, settings, height)
        self.chance = random.Random(seed)
        self.placer = Placer(self.board, self.chance)
        self.settings, self.deadline = settings, deadline
        self.placer.finder.require_time_left = self.require_time_left
        self.way_maker = PathRipper(self.board, self.placer)
        self.escapes = EscapeWiring(self.board, self.placer)
        self.ends = EndWiring(self.placer, self.way_maker, self.escapes, self.most_size, self.require_time_left)
        self.doing = "the search began"
        self.todo = {gate.number: gate for gate in self.netlist.gates}
        self.failures: Counter[int] = Counter()
        self.weight = self.chance.choice(settings.tail_weights)
        # The most gates that were placed at a time, and the steps that placed them if time runs forward.
        self.most_placed = 0
        self.best_steps: list[Placement] = []

    def require_time_left(self) -> None:
        """Raises OutOfTimeError when the time is over, with what was done then."""
        if time.monotonic() > self.deadline:
            raise OutOfTimeError(f"the time was over while {self.doing}", FailureKind.TIME)

    def run(self, progress: Callable[[int, int], None] = ignore_progress) -> RoutedDesign:
        """Places all gates and leads all balls to the end; raises NoRouteError."""
        total = len(self.todo)
        while True:
            self.require_time_left()
            if not self.todo:
                why = self.lead_ends_or_say_why()
                if why is None:
                    return self.design_on_board()
                self.take_last_gates_back(NO_GATE, why)
                continue
            gate = self.next_gate()
            self.doing = f"gate {gate.number} ({gate.kind} {' '.join(gate.ins)}) was placed"
            step = self.find_placement_with_growth(gate)
            if step is None and self.lead_blamed_ball_away():
                step = self.find_placement_with_growth(gate)
            if step is not None:
                self.board.add_placement(step)
            elif not self.settings.rip_counts or not self.way_maker.place_by_ripping(gate):
                self.take_last_gates_back(gate.number, self.failure_reason(gate))
                continue
            step = self.board.steps[-1]
            self.placer.horizon = max(self.placer.horizon, self.placer.estimated_end(step))
            self.placer.park_outputs(step)
            del self.todo[gate.number]
            if total - len(self.todo) > self.most_placed:
                self.most_placed, self.best_steps = total - len(self.todo), [] if self.netlist.is_backward else list(
                    self.board.steps)
            progress(total - len(self.todo), total)

    def find_placement_with_growth(self, gate: Gate) -> Placement | None:
        """Returns a way to place a gate, or None. If it found no room, the plane grows and it is tried again."""
        step = self.placer.find_placement(gate)
        for _ in range(self.settings.growths):
            if (step is not None or not self.is_room_lacking()
                    or not self.board.try_grow(self.settings.growth_divisor, self.most_size)):
                break
            step = self.placer.find_placement(gate)
        return step

    def is_room_lacking(self) -> bool:
        """Whether the last gate found no place for want of room, and not since its inputs could not be led."""
        reasons = self.placer.reasons
        return 2 * reasons["no path"] <= reasons["tries"] or 2 * reasons["no room"] > reasons.total()

    def lead_blamed_ball_away(self) -> bool:
        """Leads the ball that kept a gate from its places most often to open ground, where it waits on; returns whether
        that was possible. If there is no way out, paths to gates make way."""
        blame, board = self.placer.blame, self.board
        root = max(blame, key=lambda name: blame[name], default="")
        maker = next((step for step in board.steps if root in step.outs), None)
        if maker is None or blame[root] < self.settings.least_blame:
            return False
        waiting = board.stop_waiting(root)
        ball = required_ball(waiting)
        path = self.escapes.add_path_to_open_ground(root, ball) or self.way_maker.lead_by_ripping(
            ball, lambda: self.escapes.add_path_to_open_ground(root, ball))
        if path is None:
            board.add_waiting_ball(root, waiting)
            return False
        on = board.new_waiting_ball(path.end)
        board.remove_path(path)
        if on is not None:
            board.park_output(maker, path, on)
            return True
        # A path to a gate that made way and was led again took the place.
        if not board.wait_again(root, waiting):
            raise NoRouteError(f"the ball of wire {root} has no room to wait", FailureKind.ROOM)
        return False

    def adopt_placements(self, steps: list[Placement]) -> str:
        """Adds gates that another attempt placed, maybe with others; returns the wire of a ball that has no room to
        wait, or no name."""
        for step in steps:
            del self.todo[step.gate.number]
        return self.board.adopt_placements(steps)

    def next_gate(self) -> Gate:
        """Returns the gate to place next: its inputs are there early, and its results are needed early.

        Gates whose inputs may all begin anywhere wait until no other gate is ready. Those that depend on late inputs
        come last.
        """
        netlist, waiting = self.netlist, self.board.waiting

        def rank(gate: Gate) -> tuple[bool, bool, bool, float, int]:
            balls = [waiting[netlist.root_wire_of(wire)].ball for wire in gate.ins if not netlist.has_no_ball(wire)]
            times = [ball.time for ball in balls if ball is not None]
            is_alone = not times and self.placer.partner_ball(gate, []) is None
            need = max(times, default=0) - self.weight * netlist.tails[gate.number]
            return gate.number in netlist.late_gates, not times, is_alone, need, gate.number

        ready = [gate for gate in self.todo.values()
                 if all(netlist.has_no_ball(wire) or netlist.root_wire_of(wire) in waiting for wire in gate.ins)]
        return min(ready, key=rank)

    def failure_reason(self, gate: Gate) -> str:
        """Returns a sentence on why a gate could not be placed."""
        reasons = self.placer.reasons
        main = max((name for name in reasons if name != "tries"), key=lambda name: reasons[name], default="no room")
        return f"gate {gate.number} ({gate.kind} {' '.join(gate.ins)}) found no place: {main}"

    def failure_kind(self, number: int) -> FailureKind:
        """Returns what kept a gate from its place, or a ball from the end if the number is that of no gate."""
        if number == NO_GATE:
            return FailureKind.END
        reasons = self.placer.reasons
        return FailureKind.PATH if 2 * reasons["no path"] > reasons["tries"] > 0 else FailureKind.ROOM

    def take_last_gates_back(self, number: int, why: str) -> None:
        """Takes some of the last gates back, and moves the failed gate's makers; raises NoRouteError after too many
        failures."""
        self.failures[number] += 1
        if sum(self.failures.values()) > self.settings.failures or not self.board.steps:
            raise NoRouteError(why, self.failure_kind(number))
        count = self.chance.randint(1, min(8, 2 + self.failures[number]))
        blame = self.placer.blame
        if blame and self.chance.random() < 0.7 and self.take_maker_out(max(blame, key=lambda name: blame[name])):
            return
        if blame and self.chance.random() < 0.6:
            wire = max(blame, key=lambda name: blame[name])
            made = [index for index, step in enumerate(reversed(self.board.steps), 1) if wire in step.outs]
            if made and made[0] <= 12:
                count = made[0]
        for _ in range(min(count, len(self.board.steps))):
            step = self.board.take_last_gate_back()
            self.todo[step.gate.number] = self.netlist.lines[step.gate.number]
        self.placer.horizon = max((self.placer.estimated_end(step) for step in self.board.steps), default=0)

    def take_maker_out(self, wire: str) -> bool:
        """Takes back the gate that makes a wire which could not be led, with the few gates that follow from it.

        Returns whether that was possible. All other gates stay.
        """
        maker = next((step for step in self.board.steps if wire in step.outs), None)
        steps = [maker] if maker else []
        for step in steps:
            steps += [other for other in self.board.steps if other not in steps
                      and any(path.wire in step.outs for path in other.paths)]
            if len(steps) > self.settings.most_taken_out:
                return False
        for step in reversed(steps):
            if not self.board.take_gate_out(step):
                return step is not steps[-1]
            self.todo[step.gate.number] = self.netlist.lines[step.gate.number]
        self.placer.horizon = max((self.placer.estimated_end(step) for step in self.board.steps), default=0)
        return bool(steps)

    # --- the end ------------------------------------------------------------------------------------------------------

    def lead_ends_or_say_why(self) -> str | None:
        """Leads all waiting balls on to the last time; returns a sentence if that failed."""
        self.doing = f"balls were led to the last time, {self.ends.earliest_end_time()}"
        return self.ends.lead_all_or_say_why()

    def design_on_board(self) -> RoutedDesign:
        """Returns the design that is on the board, forward in time."""
        board = self.board
        end = max([path.end.time for path in board.ends], default=self.ends.earliest_end_time())
        paths = [path for step in board.steps for path in [*step.paths, *step.parking_paths]] + board.ends
        return as_forward_design(RoutedDesign(self.netlist.circuit, self.netlist, board.width, board.height, end,
                                     [step.gate for step in board.steps], paths))
