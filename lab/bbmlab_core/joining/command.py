"""The command `bbmlab join`: reads bundles and connections, leads the balls, and asks the program for its verdict."""

import argparse
import re
import string
import sys
import time
from dataclasses import dataclass
from typing import Collection

from ..host.program import Executable, ask_program, find_and_open_program
from ..host.terminal import LabError, coloured, escape_controls, read_bytes, require_writable_output, write_utf8_text
from ..route.balls import Ball
from ..route.board import NoRouteError
from ..route.command import ProgressLine, require_legal_side, verdict_line
from ..route.estimate import counted_noun
from ..route.search import RoutedBundle
from ..route.settings import RouterSettings
from ..route.world import TILE_SIDE
from ..texts.documents import pause_garbage_collection
from ..texts.limits import SECOND_LIMITS
from .bundles import make_joined_bundle
from .composing import Composition, Connection, compose
from .modules import JoinedModules
from .parts import PartBundle, read_part
from .planning import SPARES, JoinPlan, estimated_side, first_spare_indices, make_plan
from .slack import LoneWayCuts, WayCut
from .wiring import JoinWiring, TooFewStepsError, ball_words

PART_NAME_PATTERN = re.compile(r"[a-z][a-z0-9_]{0,15}")
CONNECTION_PATTERN = re.compile(r"(\w+)\.(\w+)=(\w+)\.(\w+)")
JOIN_SETTINGS = RouterSettings(wander_spare_per_cell=0.07, wander_option_count=16)
# By how much the plane grows after an attempt that failed.
PLANE_GROWTH_FACTOR = 1.12


@dataclass(frozen=True)
class JoinOptions:
    """What a join is asked for: a seed, a side or None, and seconds."""

    seed: int
    side: int | None
    effort_seconds: float


def part_files(words: list[str]) -> dict[str, str]:
    """Returns the file of each part by its name: NAME=FILE, or FILE for a part that is named by its place."""
    found: dict[str, str] = {}
    for index, word in enumerate(words):
        given, sign, file = word.partition("=")
        name = given.lower()
        if not sign or not PART_NAME_PATTERN.fullmatch(name):
            name, file = default_part_name(index), word
        if name in found:
            raise LabError(f"{word}: there is a part {name} already: name this one by NAME=FILE", 2)
        found[name] = file
    return found


def default_part_name(index: int) -> str:
    """Returns the name of a part by its place: a, b, .. z, a1, b1, .."""
    return string.ascii_lowercase[index % 26] + (str(index // 26) if index >= 26 else "")


def parse_connection(word: str) -> Connection:
    """Returns a connection that is written A.OUT=B.IN, also with capitals for parts; raises LabError if it is none."""
    found = CONNECTION_PATTERN.fullmatch(word)
    if found is None:
        raise LabError(f"--connect {word}: it is A.OUT=B.IN: an output of a part, and the input of another one", 2)
    source, output, target, given = found.groups()
    return Connection(source.lower(), output, target.lower(), given)


def read_parts(files: dict[str, str], connected: Collection[str], program: Executable,
               timeout: float | None) -> dict[str, PartBundle]:
    """Returns the parts, each of which the program accepts, with the lone ways of connected wires.

    A file that is named twice is read once.
    """
    known: dict[bytes, PartBundle] = {}
    parts: dict[str, PartBundle] = {}
    for name, file in files.items():
        data = read_bytes(file)
        if data not in known:
            if len(data) > SECOND_LIMITS.max_bytes:
                raise LabError(f"{file}: the text is longer than {SECOND_LIMITS.max_bytes} bytes", 1)
            answer = ask_program(program, "check", data, timeout)
            if answer.status == 1:
                raise LabError(f"{file}: the program says no to it: `join` takes bundles with a yes", 1)
            if answer.status != 0:
                why, status = answer.output.strip() or answer.errors, 1 if answer.status == 3 else 4
                raise LabError(f"{file}: {why}: `join` takes bundles with a yes", status)
            known[data] = read_part(file, data.decode("latin-1"), connected)
        parts[name] = known[data]
    return parts


def require_leadable_balls(made: Composition) -> None:
    """Raises LabError if balls of a part cannot be led to it or from it."""
    texts = {part.name: part.bundle for part in made.parts}
    for own in made.connections:
        source, target = texts[own.source], texts[own.target]
        for wire, ports, fault in ((own.output, source.ends, source.end_fault),
                                   (own.input, target.starts, target.start_fault)):
            count = sum(port.wire == wire for port in ports)
            if fault or count != 1:
                why = fault or f"{wire} has {count} balls"
                raise LabError(f"{own}: {why}: `join` leads one ball of two cells", 1)


def require_whole_balls(plan: JoinPlan) -> None:
    """Raises LabError if a part that begins after time 0, or ends before the last time, has no whole balls there."""
    for placed in plan.placed:
        text, name = placed.part.bundle, placed.part.name
        if placed.time > 0 and text.start_fault:
            raise LabError(f"{name} begins at time {placed.time} of the join, but {text.start_fault}", 1)
        if placed.end_time < plan.end and text.end_fault:
            raise LabError(f"{name} ends at time {placed.end_time} of the join of {plan.end} steps, but "
                           f"{text.end_fault}", 1)


@dataclass
class JoinSearch:
    """The attempts to join parts. `spares` has the spare steps of each connection, and `side` is the next plane's side.
    """

    composition: Composition
    join_options: JoinOptions
    line: ProgressLine
    attempts: int = 0

    def __post_init__(self) -> None:
        self.deadline = time.monotonic() + self.join_options.effort_seconds
        self.spares = first_spare_indices(self.composition)
        self.closed, self.moved = set[WayCut](), list[WayCut]()
        self.side = self.join_options.side or estimated_side(self.composition, self.spares)

    def run(self) -> tuple[RoutedBundle | None, str]:
        """Returns the bundle, or None with the reason."""
        why = ""
        while self.attempts == 0 or time.monotonic() < self.deadline:
            try:
                return self.make_join_attempt(), ""
            except TooFewStepsError as error:
                why = str(error)
                self.add_spare_steps(error.connections)
            except NoRouteError as error:
                why = str(error)
                if not self.join_options.side:
                    self.side = min(SECOND_LIMITS.max_side,
                                    int(self.side * PLANE_GROWTH_FACTOR) // (2 * TILE_SIDE) * 2 * TILE_SIDE)
        return None, why

    def add_spare_steps(self, connections: list[int]) -> None:
        """Gives some balls between two parts more steps, and has them leave their lone ways elsewhere.

        If one of them gets none by that, since another ball decides when its part begins, all balls get more.
        """
        before = self.planned_ball_steps()
        self.closed.update(cut for cut in self.moved if cut.connection_index in connections)
        for index in connections:
            self.spares[index] += 1
        after = self.planned_ball_steps()
        if any(after[index] <= before[index] for index in connections):
            self.spares = [min(len(SPARES) - 1, spare + 1) for spare in self.spares]

    def planned_ball_steps(self) -> list[int]:
        """Returns the steps that each ball between two parts would get."""
        plan = make_plan(self.composition, self.side, self.spares)
        return [job.steps for job in self.lone_way_cuts(plan).plan_with_cuts().jobs if job.is_between] if plan else []

    def lone_way_cuts(self, plan: JoinPlan) -> LoneWayCuts:
        """Returns where balls with time to spare leave their lone ways."""
        return LoneWayCuts(self.composition, plan, self.spares, self.closed)

    def make_join_attempt(self) -> RoutedBundle:
        """Returns the bundle of one attempt; raises NoRouteError."""
        plan, modules, wiring = self.prepare_attempt()
        self.attempts += 1
        if self.attempts == 1:
            counts = f"{counted_noun(len(plan.placed), 'part')}, {counted_noun(len(plan.jobs), 'ball')} to lead"
            print(f"bbmlab: {counts}, {plan.end} steps: first side {self.side}.", file=sys.stderr, flush=True)
        loose = [index for index, spare in enumerate(self.spares) if spare < len(SPARES) - 1]
        paths = wiring.run(lambda led, total: self.line.show(self.attempts, self.side, led, total), loose)
        # The world of the paths takes as much memory as the bundle.
        del wiring
        return make_joined_bundle(self.composition, plan, modules, paths)

    def prepare_attempt(self) -> tuple[JoinPlan, JoinedModules, JoinWiring]:
        """Returns what an attempt begins with. At first ports whose inner balls cannot leave get their lone ways back.
        """
        while True:
            plan = make_plan(self.composition, self.side, self.spares)
            if plan is None:
                raise LabError(f"the parts have no room on a plane of {self.side} by {self.side} cells", 1)
            require_legal_steps(plan.end)
            require_whole_balls(plan)
            slack = self.lone_way_cuts(plan)
            plan = slack.plan_with_cuts()
            modules = JoinedModules(self.composition, plan)
            modules.require_equal_stop_times()
            seed = self.join_options.seed * 1_000_003 + self.attempts + 1
            wiring = JoinWiring(plan, modules, seed, JOIN_SETTINGS, self.deadline)
            enclosed = [cut for cut in slack.moved if wiring.is_enclosed(cut.connection_index, cut.is_output)]
            self.closed.update(enclosed)
            if enclosed:
                # The next world is made when this one is no longer in memory.
                del modules, wiring
                continue
            self.moved = slack.moved
            moved = {(cut.connection_index, 1 if cut.is_output else -1) for cut in slack.moved}
            closed = [] if self.attempts else wiring.closed_ends(moved)
            if not closed:
                return plan, modules, wiring
            del modules, wiring
            self.composition = with_lone_ways_kept(self.composition, plan, closed)


def with_lone_ways_kept(made: Composition, plan: JoinPlan, closed: list[tuple[int, Ball, int]]) -> Composition:
    """Returns a join in which ports with a closed inner end keep their lone ways; raises LabError if another end is
    closed."""
    whole: set[tuple[str, str]] = set()
    ways = {(part.name, wire) for part in made.parts for wire in part.ways}
    for index, ball, sign in closed:
        port = ("", "")
        if index < len(made.connections):
            own = made.connections[index]
            port = (own.source, own.output) if sign > 0 else (own.target, own.input)
        if port not in ways:
            where = "behind it" if sign > 0 else "before it"
            raise LabError(f"{ball_words(plan.jobs[index])} at ({ball.x}, {ball.y}) at time {ball.time} has no room "
                           f"for a bounce {where}: route the part with --open-ends", 1)
        whole.add(port)
    missing = {(part.name, port.wire) for part in made.parts for port in (*part.bundle.starts,
                                                                          *part.bundle.ends)} - ways
    return compose({part.name: part.bundle for part in made.parts}, made.connections, whole | missing)


def require_legal_steps(steps: int) -> None:
    """Raises LabError if a layout cannot have so many steps."""
    if steps > SECOND_LIMITS.max_steps:
        raise LabError(f"the join needs {steps} steps; a layout has at most {SECOND_LIMITS.max_steps}", 1)


def join_command(options: argparse.Namespace) -> int:
    """Runs `bbmlab join`."""
    require_legal_side(options.size)
    files = part_files(options.files)
    require_writable_output(options.output, list(files.values()))
    connections = [parse_connection(word) for word in options.connect]
    program, begun = find_and_open_program(options.program), time.monotonic()
    line = ProgressLine(options.effort, "balls led", "writing the bundle")
    with pause_garbage_collection():
        connected = {wire for own in connections for wire in (own.output, own.input)}
        made = compose(read_parts(files, connected, program, options.timeout), connections)
        require_leadable_balls(made)
    # The collector is on while paths are searched, which leaves cycles behind.
    search = JoinSearch(made, JoinOptions(options.seed, options.size, options.effort), line)
    routed, why = search.run()
    attempts = search.attempts
    line.clear()
    if routed is None:
        tried = f"{counted_noun(attempts, 'attempt')} and {options.effort:g} seconds"
        print(f"bbmlab: no join in {tried}: {escape_controls(why)}", file=sys.stderr)
        return 1
    answer = ask_program(program, "check", routed.text.encode("latin-1"), options.timeout)
    write_utf8_text(options.output, routed.text)
    spent = time.monotonic() - begun
    print(f"parts {len(made.parts)}, connections {len(connections)}, size {routed.width} by {routed.height}, "
          f"steps {routed.steps}, gates placed {routed.gates}, mirror cells {routed.mirror_cell_count}, "
          f"modules {routed.modules}, most cuts {routed.most_cuts}, attempts {attempts}, seconds {spent:.1f}",
          file=sys.stderr)
    verdict = verdict_line(answer)
    print(coloured(verdict, "green" if verdict == "verdict yes" else "red", sys.stderr), file=sys.stderr)
    if verdict != "verdict yes":
        print("bbmlab: the program does not accept this bundle: this is an error of the lab. "
              "Please report the parts and the seed.", file=sys.stderr)
    return 0 if verdict == "verdict yes" else 1
