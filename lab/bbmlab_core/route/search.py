"""Attempts with different sizes and seeds, one after another or in several processes, until one finds a route.

The attempts have an order that depends on circuit and options alone. The result is that of the first one in this order
that succeeds, whatever the number of processes. So the same seed gives the same bytes, unless the time ends first.

With `--compact` such a search follows on smaller planes than that of the result, and so on until one finds no route.
"""

import multiprocessing
import signal
import time
from collections import Counter
from dataclasses import dataclass, field, replace
from multiprocessing.connection import Connection, wait
from multiprocessing.process import BaseProcess
from typing import Callable, Iterator

from ..host.signals import StoppedBySignal
from ..texts.circuits import Circuit
from ..texts.limits import SECOND_LIMITS, smallest_fitting_limits, text_with_limits_line
from .attempt import Attempt, OutOfTimeError
from .board import FailureKind, NoRouteError, Placement
from .certificate import BundleMaker, bundle_text, circuit_section
from .crowding import Crowding, crowding_of
from .design import RoutedDesign, cropped_design
from .estimate import RouteEstimate, estimate_of
from .netlist import RouterNetlist
from .partial import (PARTIAL_EFFORT_SHARE, INTERRUPT_SECONDS, LEAST_PARTIAL_SECONDS, PartialRoute, hurried_design,
                      partial_design, circuit_section_text)
from .settings import RouterSettings
from .world import TILE_SIDE

# The least side of a layout that is tried, and the attempts with a side before a larger one is tried.
LEAST_SIDE = 96
ATTEMPTS_PER_SIDE = 2
# The part of the first plane's cells that paths and gates may touch by estimate, and the cells that a ball touches in a
# step. Planes grow, so a small first one gives tight layouts: with 0.16 in place of 0.3 six circuits of 5 to 48 gates
# took 1.6 times the area, and 0.7 of the time.
FILL_SHARE = 0.3
CELLS_PER_STEP = 2.6
# If more balls than this end beyond those that begin, attempts also run backward in time, and first if the circuit
# takes few steps by estimate: two levels of 48 gates got 640 cells a side and 257 steps backward, and 704 and 370
# forward.
MOST_EXTRA_ENDS = 20
MAX_SHALLOW_STEPS = 200
# The attempts of `--compact` after a layout, by the part of its area that the plane has at most. The first one that
# succeeds gives the next layout.
COMPACT_AREA_SHARES = (*(0.8,) * 3, *(0.9,) * 6)
# How often paths to the last time make way for others in a part that is kept: fewer gates are tried sooner. With 30 in
# place of 150, 53 of 60 placed gates were kept in eight seconds, and not 46.
MAX_PARTIAL_END_RIPS = 30


@dataclass(frozen=True)
class SearchOptions:
    """What a search is asked for: a seed, a side or None, seconds, processes, whether small layouts, a part or a map
    are wanted, and late inputs."""

    seed: int = 1
    side: int | None = None
    effort_seconds: float = 60.0
    jobs: int = 1
    is_compact: bool = False
    keeps_partial: bool = False
    has_map: bool = False
    late: tuple[str, ...] = ()

    @property
    def most_side(self) -> int:
        """The side up to which a plane may grow: not at all if a side is given."""
        return self.side or SECOND_LIMITS.max_side


@dataclass(frozen=True)
class RoutedBundle:
    """A routed bundle with the figures of its summary."""

    text: str
    layout_text: str
    width: int
    height: int
    steps: int
    mirror_cell_count: int
    modules: int
    most_cuts: int
    gates: int


@dataclass
class SearchOutcome:
    """The result of a search: the bundle if there is one, else the reason, and the best part if it was asked for.

    The reason is that of the attempt that placed most gates. `failure_counts` counts what ended each attempt that
    failed.
    """

    routed: RoutedBundle | None = None
    reason: str = ""
    failure_counts: Counter[FailureKind] = field(default_factory=Counter)
    attempts: int = 0
    placed: int = 0
    total: int = 0
    partial_placements: list[Placement] = field(default_factory=list)
    partial_side: int = 0
    # The plane of the attempt that placed most gates, when it ended, if a map was asked for, and how many gates these
    # were.
    crowding: Crowding | None = None
    crowding_placed: int = -1
    is_interrupted: bool = False
    # The exit status after an interrupt: 130 for SIGINT, and 143 for SIGTERM.
    interrupt_status: int = 130


ProgressCallback = Callable[[int, int, int, int], None]


def estimated_side(netlist: RouterNetlist) -> int:
    """Returns a side of a layout in which a circuit has room, by an estimate of what its balls touch."""
    area = 0.0
    for gate in netlist.gates:
        left, top, right, bottom = netlist.gate_cells_for(gate)[0].bounds
        area += (right - left + 12) * (bottom - top + 12)
    steps = max(netlist.tails.values(), default=0)
    balls = max(len(netlist.roots_starting_anywhere()), len(netlist.circuit.outputs) + len(netlist.circuit.spills))
    area += balls * (steps + 16) * CELLS_PER_STEP
    side = LEAST_SIDE
    while side < SECOND_LIMITS.max_side and side * side * FILL_SHARE < area:
        side += 2 * TILE_SIDE
    return side


def netlists_of(circuit: Circuit, options: SearchOptions) -> list[RouterNetlist]:
    """Returns a circuit forward in time; and also backward if far more balls end than begin, which comes first if the
    circuit is shallow.

    Balls that begin at any place are led more easily than balls to one last time. Parts are kept of forward netlists
    alone, and only they have late inputs.
    """
    forward, backward = RouterNetlist(circuit, late=options.late), RouterNetlist(circuit, is_backward=True)
    extra = len(backward.roots_starting_anywhere()) - len(forward.roots_starting_anywhere())
    if options.late or extra <= MOST_EXTRA_ENDS:
        return [forward]
    is_shallow = max(forward.tails.values(), default=0) <= MAX_SHALLOW_STEPS
    return [backward, forward] if is_shallow and not options.keeps_partial else [forward, backward]


@dataclass(frozen=True)
class AttemptPlan:
    """What an attempt is made with: the circuit, the first side and that up to which the plane may grow, the seed, the
    costs, and the height of the plane if it is no square."""

    netlist: RouterNetlist
    side: int
    most_side: int
    seed: int
    settings: RouterSettings
    height: int | None = None

    def new_attempt(self, deadline: float) -> Attempt:
        """Returns the attempt."""
        return Attempt(self.netlist, self.side, self.seed, self.settings, deadline, self.most_side, self.height)


def attempt_seed(options: SearchOptions, index: int) -> int:
    """Returns the seed of an attempt."""
    return options.seed * 1_000_003 + index


def attempt_plans(netlists: list[RouterNetlist], options: SearchOptions,
                  settings: RouterSettings) -> Iterator[AttemptPlan]:
    """Yields what attempts are made with, in their order, without end."""
    side, index = options.side or estimated_side(netlists[0]), 0
    while True:
        for _ in range(ATTEMPTS_PER_SIDE):
            netlist, seed = netlists[index % len(netlists)], attempt_seed(options, index)
            yield AttemptPlan(netlist, side, options.most_side, seed, settings)
            index += 1
        side = side if options.side else min(SECOND_LIMITS.max_side,
                                             side + max(2 * TILE_SIDE, side // 4 // TILE_SIDE * TILE_SIDE))


def smaller_plane_sides(width: int, height: int, part: float) -> tuple[int, int]:
    """Returns the longer and the shorter side of a plane that has at most a part of the area of a layout.

    Tiles are taken off the longer side.
    """
    most = part * width * height
    while width * height > most:
        height, width = sorted((max(width, height) - TILE_SIDE, min(width, height)))
    return width, height


def compact_settings(settings: RouterSettings) -> RouterSettings:
    """Returns the costs of attempts on smaller planes.

    They are given up after fewer failures, each after fewer places. Gates may be ahead of waiting balls, fewer of whose
    next steps are kept free, and outputs wait at their gates: with that 6 of 6 attempts of a circuit of 6 gates
    succeeded on 192 by 192 cells, and none of 3 without.
    """
    return replace(settings, failures=3, place_tries=400, lane_cells=0, reserved_steps=(8,),
                   least_parking=SECOND_LIMITS.max_steps)


def compact_plans(netlist: RouterNetlist, options: SearchOptions, settings: RouterSettings, routed: RoutedBundle,
                  first: int) -> Iterator[AttemptPlan]:
    """Yields what attempts on smaller planes than a layout are made with; `first` is the number of the first of them.
    """
    tight = compact_settings(settings)
    for index, part in enumerate(COMPACT_AREA_SHARES, first):
        width, height = smaller_plane_sides(routed.width, routed.height, part)
        if height >= LEAST_SIDE // 2:
            yield AttemptPlan(netlist, width, width, attempt_seed(options, index), tight, height)


def routed_bundle(circuit_text: str, design: RoutedDesign, is_cropped: bool = True) -> RoutedBundle:
    """Returns the bundle of a design, cropped if that is asked for; raises NoRouteError if its certificate needs too
    much.

    Inverse gates are kept by modules without a gate. If cropping left too few of them, the design stays as large as it
    was.
    """
    if is_cropped:
        try:
            return uncropped_bundle(circuit_text, cropped_design(design))
        except NoRouteError as error:
            if error.bound is not FailureKind.KEEP:
                raise
    return uncropped_bundle(circuit_text, design)


def uncropped_bundle(circuit_text: str, design: RoutedDesign) -> RoutedBundle:
    """Returns the bundle of a design as it is."""
    certifier, circuit = BundleMaker(design), design.circuit
    text, gates, wires = bundle_text(circuit_text, certifier), len(circuit.gates), len(circuit.wires)
    layout = circuit_section(circuit_text) + "\n".join(certifier.layout) + "\n"
    side = max(design.width, design.height)
    limits = smallest_fitting_limits(side, design.end, len(certifier.modules), gates, wires)
    return RoutedBundle(text_with_limits_line(text, limits),
                        text_with_limits_line(layout, smallest_fitting_limits(side, design.end, 0, gates, wires)),
                        design.width, design.height, design.end, len(certifier.mirrors), len(certifier.modules),
                        certifier.most_cuts, len(design.gates))


class RouterSearch:
    """A search for a route of one circuit."""

    def __init__(self, circuit: Circuit, circuit_text: str, options: SearchOptions, settings: RouterSettings,
                 progress: ProgressCallback) -> None:
        self.circuit_text, self.options = circuit_text, options
        self.netlists = netlists_of(circuit, options)
        self.settings = settings
        self.progress = progress
        self.deadline = time.monotonic() + options.effort_seconds
        self.outcome = SearchOutcome(total=len(self.netlists[0].gates))

    def route_estimate(self) -> RouteEstimate:
        """Returns what is known before the search begins."""
        return estimate_of(self.netlists[0], self.options.side or estimated_side(self.netlists[0]))

    def run(self) -> SearchOutcome:
        """Returns what the search found. An interrupt ends it with the best part so far."""
        try:
            found = self.find_succeeding_attempt(attempt_plans(self.netlists, self.options, self.settings), 0)
            while found is not None and self.outcome.routed and self.options.is_compact and not self.options.side:
                plans = compact_plans(self.netlists[0], self.options, self.settings, self.outcome.routed, found + 1)
                found = self.find_succeeding_attempt(plans, found + 1)
        except KeyboardInterrupt as interrupt:
            self.outcome.is_interrupted = True
            if isinstance(interrupt, StoppedBySignal):
                self.outcome.interrupt_status = interrupt.status
        return self.outcome

    def find_succeeding_attempt(self, plans: Iterator[AttemptPlan], first: int) -> int | None:
        """Makes attempts from the number `first` on until one finds a route, and returns its number, or None."""
        return AttemptPool(self, plans,
                           first).run() if self.options.jobs > 1 else self.find_succeeding_attempt_here(plans, first)

    def find_succeeding_attempt_here(self, plans: Iterator[AttemptPlan], first: int) -> int | None:
        """Makes attempts in this process."""
        for index, plan in enumerate(plans, first):
            if time.monotonic() > self.deadline:
                break
            self.outcome.attempts = index + 1
            attempt = plan.new_attempt(self.deadline)
            try:
                design = attempt.run(lambda placed, total: self.progress(index + 1, attempt.board.width, placed, total))
                self.outcome.routed = routed_bundle(self.circuit_text, design, not self.options.side)
                return index
            except NoRouteError as error:
                self.note_failure(error, attempt.most_placed)
            finally:
                self.note_partial(attempt.most_placed, attempt.best_steps, attempt.board.width)
                if self.options.has_map:
                    self.note_crowding(attempt.most_placed, crowding_of(attempt.board))
        return None

    def note_failure(self, error: NoRouteError, placed: int) -> None:
        """Notes why an attempt failed. The reason that counts is that of the attempt that placed most gates."""
        self.outcome.failure_counts[error.bound] += 1
        is_late = isinstance(error, OutOfTimeError)
        if not self.outcome.reason or placed >= self.outcome.placed and not is_late:
            self.outcome.reason = str(error)

    def note_crowding(self, placed: int, crowding: Crowding) -> None:
        """Keeps how crowded the plane of an attempt was if none placed more gates."""
        if placed >= self.outcome.crowding_placed:
            self.outcome.crowding, self.outcome.crowding_placed = crowding, placed

    def note_partial(self, placed: int, steps: list[Placement], side: int) -> None:
        """Notes how many gates an attempt placed, and keeps the steps that placed them if they are the most.

        If a part is kept only its gates count: an attempt backward in time may place more, but leaves no part.
        """
        if not self.options.keeps_partial:
            self.outcome.placed = max(placed, self.outcome.placed)
        elif len(steps) > len(self.outcome.partial_placements):
            self.outcome.placed, self.outcome.partial_placements, self.outcome.partial_side = len(steps), steps, side


# What a process sends: that it placed gates, the side, and their steps if they are kept; how crowded its plane is; its
# bundle; or why it failed.
AttemptMessage = tuple[str, int, int, object]


@dataclass(frozen=True)
class AttemptTask:
    """An attempt for a process of its own."""

    plan: AttemptPlan
    circuit_text: str
    deadline: float
    keeps_partial: bool
    is_cropped: bool
    has_map: bool


def run_attempt(connection: Connection, task: AttemptTask) -> None:
    """Makes one attempt, and sends messages on it. The process that started this one ends it."""
    signal.signal(signal.SIGINT, signal.SIG_IGN)
    plan = task.plan
    attempt = plan.new_attempt(task.deadline)

    def send_placed_count(placed: int, total: int) -> None:
        """Sends that gates were placed."""
        is_best = task.keeps_partial and placed == attempt.most_placed
        connection.send(("placed", placed, attempt.board.width, attempt.best_steps if is_best else None))

    def send_crowding() -> None:
        """Sends how crowded the plane is, if that is asked for."""
        if task.has_map:
            connection.send(("crowded", attempt.most_placed, attempt.board.width, crowding_of(attempt.board)))

    try:
        design = attempt.run(send_placed_count)
        send_crowding()
        connection.send(("routed", attempt.most_placed, attempt.board.width,
                         routed_bundle(task.circuit_text, design, task.is_cropped)))
    except NoRouteError as error:
        send_crowding()
        connection.send(("failed", attempt.most_placed, attempt.board.width, error))
    finally:
        connection.close()


@dataclass
class AttemptWorker:
    """A process that makes an attempt."""

    process: BaseProcess
    index: int


class AttemptPool:
    """Attempts in several processes at a time, until one finds a route."""

    def __init__(self, search: RouterSearch, plans: Iterator[AttemptPlan], first: int) -> None:
        self.search, self.plans = search, enumerate(plans, first)
        self.workers: dict[Connection, AttemptWorker] = {}
        self.found: dict[int, RoutedBundle] = {}

    def run(self) -> int | None:
        """Makes attempts until the first in order that succeeds is known, or the time is over, and returns its number.
        """
        search = self.search
        try:
            while time.monotonic() < search.deadline + 1:
                while len(self.workers) < search.options.jobs and self.start_next_attempt():
                    pass
                if not self.workers:
                    break
                for connection in wait(list(self.workers), max(0.05, search.deadline + 1 - time.monotonic())):
                    # A message that was taken before may have ended this attempt.
                    if isinstance(connection, Connection) and connection in self.workers:
                        self.receive_message(connection)
        finally:
            for worker in self.workers.values():
                worker.process.kill()
            for worker in self.workers.values():
                worker.process.join()
            # After an interrupt too.
            if self.found:
                search.outcome.routed = self.found[min(self.found)]
        return min(self.found, default=None)

    def start_next_attempt(self) -> bool:
        """Starts the next attempt if it can still count; returns whether it does."""
        search, options = self.search, self.search.options
        following = None if self.found or time.monotonic() > search.deadline else next(self.plans, None)
        if following is None:
            return False
        index, plan = following
        here, there = multiprocessing.Pipe(duplex=False)
        task = AttemptTask(plan, search.circuit_text, search.deadline, options.keeps_partial, not options.side,
                           options.has_map)
        process = multiprocessing.get_context("fork").Process(target=run_attempt, args=(there, task), daemon=True)
        process.start()
        there.close()
        self.workers[here] = AttemptWorker(process, index)
        search.outcome.attempts = index + 1
        return True

    def receive_message(self, connection: Connection) -> None:
        """Takes a message of a process. A process that ended without one is dropped."""
        worker, search = self.workers[connection], self.search
        try:
            kind, placed, side, content = connection.recv()
        except EOFError:
            self.workers.pop(connection).process.join()
            return
        if isinstance(content, Crowding):
            search.note_crowding(placed, content)
            return
        if isinstance(content, RoutedBundle):
            self.found[worker.index] = content
            self.end_later_attempts(worker.index)
        elif isinstance(content, NoRouteError):
            search.note_failure(content, placed)
        search.note_partial(placed, content if isinstance(content, list) else [], side)
        if kind == "placed":
            search.progress(worker.index + 1, side, placed, search.outcome.total)

    def end_later_attempts(self, index: int) -> None:
        """Ends the attempts that come after one that succeeded."""
        for connection, worker in list(self.workers.items()):
            if worker.index > index:
                worker.process.kill()
                worker.process.join()
                del self.workers[connection]


def partial_bundle(circuit: Circuit, outcome: SearchOutcome, options: SearchOptions,
                   settings: RouterSettings) -> tuple[str, int] | None:
    """Returns a bundle of the part of a circuit that was placed, and its count of gates, or None if there is none."""
    part = PartialRoute(circuit, outcome.partial_placements, outcome.partial_side, options.most_side)
    costs = replace(settings, wander_tries=80, end_rips=MAX_PARTIAL_END_RIPS)
    if outcome.is_interrupted:
        found = hurried_design(part, costs, INTERRUPT_SECONDS)
    else:
        found = partial_design(part, costs, max(LEAST_PARTIAL_SECONDS, PARTIAL_EFFORT_SHARE * options.effort_seconds))
    if found is None:
        return None
    try:
        return routed_bundle(circuit_section_text(found.circuit), found).text, len(found.gates)
    except NoRouteError:
        return None
