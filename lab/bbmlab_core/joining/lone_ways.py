"""The lone ways of ports: how a ball comes to its first meeting in a part, or leaves its last one.

A part has all its inputs at its start, and all its outputs at its end. But an input may fly on alone for long before it
meets another ball, and an output may be made early. Where a port is connected, a join leaves out this lone way, so that
the ball comes later, or leaves earlier. Blocks change by themselves (Margolus 1984): without the lone way all others
move as before.
"""

from array import array
from collections import Counter
from dataclasses import dataclass
from functools import cached_property
from typing import Callable, Container, Iterable, Iterator

from ..route.balls import Ball, block_cells, run_exactly, start_state
from ..route.world import SINGLE_BITS, STEP_STRIDE, cell_number, cell_of_number
from ..texts.layouts import Cell


def whole_balls_of(cells: Iterable[Cell], time: int) -> list[Ball] | None:
    """Returns the balls that some cells are at a time, or None if they are not whole balls.

    A cell's place and the time tell its direction.
    """
    left, found = set(cells), []

    def direction(cell: Cell) -> Cell:
        """Returns the direction in which a lone cell moves."""
        return direction_at(*cell, time)

    for x, y in sorted(left, key=lambda cell: (direction(cell), -cell[0] * direction(cell)[0], cell[1])):
        dx, dy = direction((x, y))
        tail = x - 2 * dx, y - 2 * dy
        if (x, y) not in left:
            continue
        if tail not in left:
            return None
        left -= {(x, y), tail}
        found.append(Ball(x, y, dx, dy, time))
    return found


def direction_at(x: int, y: int, time: int) -> tuple[int, int]:
    """Returns the direction in which a lone cell moves that is at a place at a time."""
    return 1 - 2 * ((x + time) % 2), 1 - 2 * ((y + time) % 2)


@dataclass(frozen=True)
class LoneWay:
    """What a join leaves out: the moving cells of a ball at times, the blocks at times that they claim, and mirrors.

    A cell at a time is a number like that of a block at a time. `inner_ball` is where the way inside the part begins or
    ends without it.
    """

    inner_ball: Ball
    moving_numbers: "array[int]"
    claims: "array[int]"
    mirrors: frozenset[Cell]


class NumbersByTime:
    """Some numbers of each time from the time `first` on, in few bytes."""

    def __init__(self, first: int, lists: Iterable[Iterable[int]]) -> None:
        self.first, self.numbers, self.ends = first, array("i"), array("i", [0])
        for numbers in lists:
            self.numbers.extend(numbers)
            self.ends.append(len(self.numbers))

    def numbers_at(self, time: int) -> "array[int]":
        """Returns the numbers of a time."""
        index = time - self.first
        return self.numbers[self.ends[index]:self.ends[index + 1]]

    @property
    def times(self) -> range:
        """Returns the times."""
        return range(self.first, self.first + len(self.ends) - 1)


class PackedBalls:
    """Balls at different times, by the numbers of their leads' cells. A place and a time tell the direction."""

    def __init__(self, balls: Iterable[Ball]) -> None:
        self.leads, self.times = array("i"), array("i")
        for ball in balls:
            self.leads.append(cell_number((ball.x, ball.y)))
            self.times.append(ball.time)

    def __len__(self) -> int:
        """Returns how many balls there are."""
        return len(self.times)

    def __getitem__(self, index: int) -> Ball:
        """Returns a ball."""
        (x, y), time = cell_of_number(self.leads[index]), self.times[index]
        return Ball(x, y, *direction_at(x, y, time), time)

    def __iter__(self) -> Iterator[Ball]:
        """Yields the balls."""
        return map(self.__getitem__, range(len(self)))


class LoneRun:
    """The run of a port's ball among the mirrors of its part, as if no other ball were there.

    `bound` is the last time at which it is known to move as in the part; for an output the first such time.
    """

    def __init__(self, mirrors: set[Cell], ball: Ball, steps: int, is_output: bool) -> None:
        self.is_output, self.bound = is_output, 0 if is_output else steps
        # The rule is run backwards from the last time, which is made time 1: blocks alternate, so it must be odd.
        first = ball.time_reversed().shifted_by(0, 0, 1) if is_output else ball
        run = run_exactly(mirrors, start_state([(first, 1)]), first.time, first.time + steps)
        # A run backwards has the last state first.
        order = -1 if is_output else 1
        begin = ball.time - len(run.blocks) if is_output else ball.time
        self.states = NumbersByTime(begin, (map(cell_number, state) for state in run.states[::order]))
        self.corners = NumbersByTime(begin, (map(cell_number, corners) for corners in run.blocks[::order]))
        if not run.is_stable:
            self.note_meeting(begin - 1 if is_output else begin + len(run.blocks))

    def note_meeting(self, time: int) -> None:
        """Notes that the ball shares a block with another one in the step from a time."""
        self.bound = max(self.bound, time + 1) if self.is_output else min(self.bound, time)

    def timed_claims(self) -> Iterator[tuple[int, int]]:
        """Yields the blocks at times that the run claims, each with its time."""
        for time in self.corners.times:
            for corner in self.corners.numbers_at(time):
                yield time * STEP_STRIDE + corner, time

    def is_alone_in_block(self, time: int, corner: Cell, live: Container[Cell]) -> bool:
        """Whether the ball's own cells alone are live in a block."""
        own = self.states.numbers_at(time)
        return all((cell in live) == (cell_number(cell) in own) for cell in block_cells(corner))

    def possible_cut_times(self) -> range:
        """Returns the times at which the way may be cut, the best first."""
        if self.is_output:
            return range(self.bound, self.states.times.stop)
        return range(self.bound, -1, -1)

    @cached_property
    def possible_cut_balls(self) -> PackedBalls:
        """The balls at which the way may be cut, the best first. The last one leaves nothing out."""
        cells = ((map(cell_of_number, self.states.numbers_at(time)), time) for time in self.possible_cut_times())
        return PackedBalls(ball for own, time in cells for ball in [lone_ball(own, time)] if ball)

    def left_out_steps(self, cut: int) -> range:
        """Returns the times of the steps that are left out if the way is cut at a time."""
        return range(cut, self.states.times[-1]) if self.is_output else range(cut)


class LoneRuns:
    """The lone runs of some ports of a part, and where they are to be compared with the runs of its modules."""

    def __init__(self, runs: list[LoneRun]) -> None:
        self.runs = runs
        # The runs that claim a block at a time, as the bits of a number.
        self.claimants: dict[int, int] = {}
        for bit, run in zip(SINGLE_BITS, runs):
            for claim, _ in run.timed_claims():
                others = self.claimants.setdefault(claim, bit)
                if others != bit:
                    self.claimants[claim] = others | bit

    def claimants_of(self, claim: int) -> Iterator[LoneRun]:
        """Yields the runs that claim a block at a time."""
        return (run for bit, run in zip(SINGLE_BITS, self.runs) if self.claimants[claim] & bit)

    def note_meetings_in_blocks(self, time: int, claims: Iterable[int], live: Container[Cell]) -> None:
        """Compares the blocks in which something moves in the step from a time."""
        for claim in self.claimants.keys() & claims:
            for run in self.claimants_of(claim):
                if not run.is_alone_in_block(time, cell_of_number(claim % STEP_STRIDE), live):
                    run.note_meeting(time)


def left_out_way(run: LoneRun, ball: Ball, claim_count: Callable[[int], int], mirrors: set[Cell]) -> LoneWay:
    """Returns what a run leaves out if it is cut at a ball. `claim_count` tells how often the part claims a block."""
    steps = run.left_out_steps(ball.time)
    moving = array("q", (time * STEP_STRIDE + cell for time in steps for cell in run.states.numbers_at(time)))
    own = array("q", (claim for claim, time in run.timed_claims() if time in steps))
    own_counts = Counter(claim % STEP_STRIDE for claim in own)
    beside = {cell for corner in own_counts for cell in block_cells(cell_of_number(corner))} & mirrors

    def is_claimed(corner: int) -> bool:
        """Whether something else claims a block."""
        return claim_count(corner) > own_counts[corner]

    return LoneWay(ball, moving, own, frozenset(unclaimed_mirrors(beside, is_claimed, mirrors)))


def lone_ball(cells: Iterable[Cell], time: int) -> Ball | None:
    """Returns the ball that some cells are at a time, or None during a bounce."""
    balls = whole_balls_of(cells, time)
    return balls[0] if balls and len(balls) == 1 else None


def unclaimed_mirrors(beside: set[Cell], is_claimed: Callable[[int], bool], mirrors: set[Cell]) -> set[Cell]:
    """Returns the whole mirrors with some cells that no claimed block touches."""
    left, found = set(beside), set[Cell]()
    pieces = list[set[Cell]]()
    while left:
        pieces.append(mirror_piece_of(left.pop(), mirrors))
        left -= pieces[-1]
    near = {cell_number((x - i, y - j)) for piece in pieces for x, y in piece for i in (0, 1) for j in (0, 1)}
    touched = {cell for corner in filter(is_claimed, near) for cell in block_cells(cell_of_number(corner))}
    for piece in pieces:
        if piece.isdisjoint(touched):
            found |= piece
    return found


def mirror_piece_of(cell: Cell, mirrors: set[Cell]) -> set[Cell]:
    """Returns the cells of mirrors that hang together with a cell. No block has cells of two such pieces."""
    found, left = {cell}, [cell]
    while left:
        x, y = left.pop()
        around = ({(x + i, y + j) for i in (-1, 0, 1) for j in (-1, 0, 1)} & mirrors) - found
        found |= around
        left += around
    return found
