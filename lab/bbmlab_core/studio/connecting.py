"""Leads the ball of an output to an input of the same layout by mirrors, and checks the result by the program.

The machine of the input begins later, when the output's ball can be there. Its other balls are led to their places from
time 0, and the balls of all other machines are led on to the new last time. `bbmlab join` leads balls in the same way.
The studio runs this in a process of its own:

    python3 -c '..' text.txt made.txt OUTPUT INPUT SECONDS SEED PROGRAM
"""

import sys
import time
from pathlib import Path
from typing import Iterable, Iterator

from ..host.program import open_program
from ..host.terminal import LabError
from ..joining.command import JOIN_SETTINGS
from ..joining.composing import NamedPart
from ..joining.modules import JoinedModules
from ..joining.parts import ALWAYS_SIGNAL, PartBundle
from ..joining.planning import BallJob, JoinPlan, PlacedPart
from ..joining.wiring import JoinWiring, ball_words
from ..route.balls import Ball, Leg
from ..route.board import NoRouteError
from ..route.certificate import rectangles_of_cells
from ..route.paths import Path as BallPath
from ..route.world import RIM_CELLS, ROW_STRIDE, cell_of_number
from ..texts.certificates import Certificate
from ..texts.circuits import Circuit, Gate
from ..texts.documents import Document, read_document
from ..texts.layouts import Cell, Layout
from ..texts.limits import SECOND_LIMITS, smallest_fitting_limits, text_with_limits_line
from ..texts.skimming import design_text
from ..texts.spelling import spell_text
from .machines import FinalBall, MachineRun
from .verdicts import VerdictFinder

# The columns and rows around the layout that may be used, and the steps to spare of the ball, by the attempts.
MARGINS_BY_ATTEMPT = (0, 32, 64, 128, 256, 512)
SPARE_STEPS = (60, 150, 250)
# The further steps for each cell between the two ports: the ball flies round what is in the way.
DETOUR_STEPS_PER_CELL = 0.35
# The seconds in which the program and the lab's search for a certificate must end.
MAX_CHECK_SECONDS = 20.0


class UnlimitedModules(JoinedModules):
    """The modules of a layout whose certificate is made later: each has room."""

    def __init__(self) -> None:
        """There is nothing to keep."""

    def module_numbers_near_path(self, path: BallPath) -> set[int]:
        """Returns no modules."""
        return set()

    def has_room_for(self, wire: str, numbers: Iterable[int]) -> bool:
        """Whether there is room for a wire."""
        return True

    def change_wire_count(self, wire: str, numbers: Iterable[int], change: int) -> None:
        """Notes nothing."""


class ConnectionWiring(JoinWiring):
    """The paths of a connection: between its ports straight or by a few bounces, if that can be."""

    def __init__(self, plan: JoinPlan, seed: int, deadline: float) -> None:
        super().__init__(plan, UnlimitedModules(), seed, JOIN_SETTINGS, deadline)
        # All balls are of one layout, so none has to leave it.
        self.world.boxes, self.world.box_of_tile = [], {}

    def closed_end_reason(self) -> str:
        """Says which open end no ball can leave even if no other ball is led, or returns nothing."""
        for index, ball, sign in self.closed_ends():
            where = "behind it" if sign > 0 else "before it"
            words = ball_words(self.plan.jobs[index])
            return (f"{words} at ({ball.x}, {ball.y}) at time {ball.time} has no room for a "
                    f"bounce {where}")
        return ""

    def find_connecting_path(self, wire: str, start: Ball, goal: Ball) -> BallPath | None:
        """Returns a path between two balls."""
        steps = goal.time - start.time
        straight = [Leg(steps, None)] if start.after_flight(steps) == goal else None
        legs = straight or self.finder.find_direct_legs(start, goal, self.settings.path_tries)
        path = self.finder.path_of_legs(wire, start, goal, legs) if legs else None
        return path or super().find_connecting_path(wire, start, goal)


class PortConnection:
    """An output and an input of a text that are to be one wire. Raises LabError if they cannot be."""

    def __init__(self, document: Document, output: str, given: str) -> None:
        assert document.circuit and document.layout
        self.circuit, self.layout, self.output, self.input = document.circuit, document.layout, output, given
        require_connectable(self.circuit, output, given)
        self.run = MachineRun(document)
        goals = [port.ball for port in self.run.starts if port.wire == given]
        outs = [end for end in self.run.ends if (end.kind, end.name) == ("out", output)]
        for what, count in ((f"the output {output}", len(outs)), (f"the input {given}", len(goals))):
            if count != 1:
                raise LabError(f"{what[:1].upper()}{what[1:]} has {count or 'no'} {'balls' if count > 1 else 'ball'}: "
                               "just one can be connected.")
        self.out, self.goal = outs[0], goals[0]
        self.late = self.run.machine_of_ball(next(number for number, port in enumerate(self.run.starts)
                                                  if port.wire == given))
        if self.run.machine_of_end_ball(self.out.ball) == self.late:
            raise LabError(f"The times do not fit: the ball of {given} meets balls that {output} comes from, so it "
                           f"cannot start after {output} has come out.")

    def possible_delays(self) -> list[int]:
        """Returns when the machine of the input may begin: first so that the ball flies straight on, if it can."""
        ball, goal = self.out.ball, self.goal
        far = max(abs(ball.x - goal.x), abs(ball.y - goal.y))
        straight = [goal_time for goal_time in (ball.time + far,)
                    if ball.after_flight(far) == goal.shifted_by(0, 0, goal_time)]
        return straight + [(ball.time + int((1 + DETOUR_STEPS_PER_CELL) * far) + slack + 1) // 2 * 2
                           for slack in SPARE_STEPS]

    def join_plan(self, delay: int, room: int) -> JoinPlan:
        """Returns which balls are led on the layout with some columns and rows around it."""
        layout, run, end = self.layout, self.run, self.layout.steps + delay
        side = max(layout.width, layout.height) + 2 * room
        if side > SECOND_LIMITS.max_side or end > SECOND_LIMITS.max_steps:
            raise LabError(f"The layout would take {side} columns or rows and {end} steps, which is not allowed.")
        late = {self.late}
        soon = {run.machine_of_ball(number) for number in range(len(run.starts))} - late
        placed = []
        for numbers, own_time in ((soon, 0), (late, delay)):
            text = PartBundle(self.circuit, Layout(layout.width, layout.height, layout.steps), Certificate(), [], [],
                              run.machines_footprint(numbers, own_time == 0))
            placed.append(PlacedPart(NamedPart("", text), room, room, own_time))
        jobs = [BallJob(self.output, placed[0].placed_ball(self.out.ball), placed[1].placed_ball(self.goal), delay)]
        jobs += [BallJob(port.wire, None, placed[1].placed_ball(port.ball), delay) for number,
                 port in enumerate(run.starts)
                 if run.machine_of_ball(number) == self.late and port.ball != self.goal]
        jobs += [BallJob(end_ball.name or "", placed[0].placed_ball(end_ball.ball), None, end)
                 for end_ball in self.ends_to_extend()]
        return JoinPlan(side, end, placed, jobs, side, side)

    def ends_to_extend(self) -> list[FinalBall]:
        """Returns the balls that are led on to the new last time."""
        return [end for end in self.run.ends
                if self.run.machine_of_end_ball(end.ball) != self.late and end.ball != self.out.ball]

    def wire_name_after_connecting(self, name: str) -> str:
        """Returns what a wire is called afterwards."""
        return self.output if name == self.input else name

    def circuit_section(self) -> str:
        """Returns the circuit. Gates that follow from the input come after all others."""
        circuit, late = self.circuit, {self.input}
        gates: tuple[list[Gate], list[Gate]] = ([], [])
        for gate in circuit.gates:
            is_late = not late.isdisjoint(gate.ins)
            late.update(gate.outs if is_late else ())
            gates[is_late].append(Gate(gate.kind, tuple(map(self.wire_name_after_connecting, gate.ins)),
                                       tuple(gate.outs), gate.parameter))
        inputs = tuple(name for name in circuit.inputs if name != self.input)
        outputs = tuple(self.wire_name_after_connecting(name) for name in circuit.outputs if name != self.output)
        return str(Circuit(inputs, (*gates[0], *gates[1]), outputs,
                           tuple(map(self.wire_name_after_connecting, circuit.spills))))


def require_connectable(circuit: Circuit, output: str, given: str) -> None:
    """Raises LabError if the names are no ports, or if a loop would come about."""
    if output not in circuit.outputs or given not in circuit.inputs:
        raise LabError(f"There is no output {output} or no input {given}.")
    free, _ = circuit.cone_inputs_and_gates([output])
    if given in free:
        raise LabError(f"The output {output} follows from the input {given}: they would make a loop.")


class ConnectedText:
    """The text of a connection whose balls were led."""

    def __init__(self, connection: PortConnection, plan: JoinPlan, paths: list[BallPath]) -> None:
        self.connection, self.plan, self.paths = connection, plan, paths
        self.room = plan.placed[0].x
        self.left, self.top, self.width, self.height = self.enclosing_box()

    def enclosing_box(self) -> tuple[int, int, int, int]:
        """Returns the part of the plane that has the layout and all paths: its corner, its width and its height."""
        layout, room = self.connection.layout, self.room
        xs, ys = [room + layout.width // 2], [room + layout.height // 2]
        for path in self.paths:
            for number in (*path.item.mirrors, *path.item.touched_cells):
                xs.append(number % ROW_STRIDE)
                ys.append(number // ROW_STRIDE)
        left, top = min(room, max(0, min(xs) - RIM_CELLS) & ~1), min(room, max(0, min(ys) - RIM_CELLS) & ~1)
        right = max(room + layout.width, min(self.plan.side, max(xs) + RIM_CELLS + 2 & ~1))
        bottom = max(room + layout.height, min(self.plan.side, max(ys) + RIM_CELLS + 2 & ~1))
        return left, top, right - left, bottom - top

    def cell_from_plane(self, cell: Cell) -> Cell:
        """Returns a cell of the plane in the new layout."""
        return cell[0] - self.left, cell[1] - self.top

    def moved_old_cell(self, cell: Cell) -> Cell:
        """Returns a cell of the old layout in the new one."""
        return self.cell_from_plane((cell[0] + self.room, cell[1] + self.room))

    def text(self) -> str:
        """Returns the circuit and the layout."""
        circuit = self.connection.circuit
        limits = smallest_fitting_limits(max(self.width, self.height), self.plan.end, 1, len(circuit.gates),
                                         len(circuit.wires))
        return text_with_limits_line(self.connection.circuit_section() + "\n".join(self.layout_lines()) + "\n", limits)

    def layout_lines(self) -> Iterator[str]:
        """Yields the lines of the layout: mirrors, those of the paths last, and then the ports."""
        own = self.connection
        yield f"layout {self.width} {self.height} {self.plan.end}"
        for part in own.layout.of_kind("mirror"):
            x, y = self.moved_old_cell(part.cell)
            yield f"mirror {x} {y} {part.width} {part.height}"
        new = {self.cell_from_plane(cell_of_number(number)) for path in self.paths for number in path.item.mirrors}
        for x, y, width, height in rectangles_of_cells(new):
            yield f"mirror {x} {y} {width} {height}"
        ports = sorted(self.ports(), key=lambda port: ("ball", "in", "out", "waste").index(port[0]))
        for kind, name, (x, y) in ports:
            yield f"{kind} {name} {x} {y}" if name else f"{kind} {x} {y}"
        yield "end"

    def ports(self) -> Iterator[tuple[str, str | None, Cell]]:
        """Yields the kind, the name and the cell of each port."""
        own, run = self.connection, self.connection.run
        led = {cell for number, port in enumerate(run.starts) if run.machine_of_ball(number) == own.late
               for cell in port.ball.cells()}
        ended = {cell for end in (*own.ends_to_extend(), own.out) for cell in end.ball.cells()}
        for part in own.layout.parts:
            is_led = part.cell in (led if part.kind in ("ball", "in") else ended)
            if part.kind != "mirror" and not is_led:
                yield part.kind, part.name and own.wire_name_after_connecting(part.name), self.moved_old_cell(part.cell)
        for job, path in zip(self.plan.jobs, self.paths):
            if job.start is None:
                for cell in path.start.cells():
                    is_constant = job.wire == ALWAYS_SIGNAL
                    yield "ball" if is_constant else "in", None if is_constant else job.wire, self.cell_from_plane(cell)
        moved = self.paths[len(self.paths) - len(own.ends_to_extend()):]
        for end, path in zip(own.ends_to_extend(), moved):
            for cell in path.end.cells():
                yield end.kind, end.name and own.wire_name_after_connecting(end.name), self.cell_from_plane(cell)


def lead_all_balls(connection: PortConnection, deadline: float, seed: int) -> ConnectedText:
    """Leads all balls, on ever larger planes. Raises LabError if that was not done in time."""
    why = ""
    for room in MARGINS_BY_ATTEMPT:
        for delay in connection.possible_delays():
            plan = connection.join_plan(delay, room)
            wiring = ConnectionWiring(plan, seed, deadline)
            why = wiring.closed_end_reason()
            if why:
                break
            try:
                return ConnectedText(connection, plan, wiring.run(lambda done, total: None))
            except NoRouteError as error:
                why = str(error)
            if time.monotonic() > deadline:
                break
    raise LabError(f"There is no room for the ball's way: {why}.")


def connect_ports(text: str, ports: tuple[str, str], deadline: float, seed: int) -> ConnectedText:
    """Returns the connection of an output and an input of a text."""
    head = design_text(spell_text(text).text)
    document = read_document(head, "design")
    if document.refusal or not document.circuit or not document.layout:
        raise LabError("The circuit and the layout cannot be read: fix this first.")
    return lead_all_balls(PortConnection(document, *ports), deadline, seed)


def main() -> int:
    """Connects two ports of a file, and writes the text if the program says yes to it."""
    source, target, output, given, seconds, seed, program = sys.argv[1:]
    deadline = time.monotonic() + float(seconds)
    try:
        made = connect_ports(Path(source).read_bytes().decode("latin-1"), (output, given), deadline, int(seed))
        text = made.text()
        print(f"Led in {made.plan.end} steps. The program checks.", file=sys.stderr, flush=True)
        verdict = VerdictFinder(text, open_program(program), MAX_CHECK_SECONDS).verdict()
        if verdict.verdict != "yes":
            words = " ".join(verdict.words)
            raise LabError(f"The balls could be led, but the verdict would be {verdict.verdict}. {words}")
    except LabError as error:
        print(error, file=sys.stderr)
        return 1
    except KeyboardInterrupt:
        return 130
    Path(target).write_bytes((verdict.bundle if verdict.by == "certify" else text).encode("latin-1"))
    grown = (made.width, made.height) != (made.connection.layout.width, made.connection.layout.height)
    words = f" The layout grew to {made.width} by {made.height} cells." if grown else ""
    print(f"The ball flies from {output} to the place of {given}, and the program says yes.{words} "
          f"The layout has {made.plan.end} steps now.", file=sys.stderr)
    return 0
