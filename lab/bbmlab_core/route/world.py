"""What is claimed on the plane: mirrors, cells that balls touch, and blocks at times.

An item is a path of one ball, or a gate's cell. It claims a block at a time if it has a moving cell there in the step
from this time. Items that claim no block in common, and whose mirrors are in no touched cell of another item, run as
they run alone: in each block at most one of them moves, and mirrors alone stay (Margolus 1984: a block changes by
itself).

Cells and blocks are numbers here, so that sets of them are quick. A straight flight takes ranges of such numbers, and
items keep the ranges: a ball that flies 1000 steps touches 3000 cells.
"""

import itertools
import operator
import sys
from array import array
from dataclasses import dataclass
from functools import cache, cached_property
from itertools import chain
from typing import Iterable, Iterator, Protocol

from ..texts.layouts import Cell
from .balls import (BOUNCE_STEPS, Ball, BounceKind, Leg, Mirror, ball_and_mirror_after_bounce, block_cells,
                    mirror_cells, path_run)
from .cells import GateCell

# The number of a cell is its row times ROW_STRIDE plus its column, and that of a block at a time is STEP_STRIDE times
# the time plus its corner.
ROW_BITS = 12
ROW_STRIDE = 1 << ROW_BITS
STEP_STRIDE = ROW_STRIDE * ROW_STRIDE
# No ball comes nearer to the border than this many cells, and no mirror nearer than the cells of the rim.
MARGIN_CELLS = 4
RIM_CELLS = 2
# A certificate's boxes are squares of this side, or rectangles of such squares.
TILE_SIDE = 16
TILE_BITS = 4
# Flights of at least so many cells are counted at once. The digits 0 and 1 for these numbers.
LEAST_BULK_COUNT = 8
DIGIT_TABLE = bytes.maketrans(b"\0\1", b"01")
# The square of `taken_count_around` has sides of twice this many cells.
HALF_SQUARE_SIDE = 32
SINGLE_BITS = [1 << index for index in range(ROW_STRIDE)]
# The steps of a bounce in which the lead and the tail claim the blocks that they would claim if they flew on, and the
# steps before the next flight in which they claim blocks as if it began earlier. These are all blocks of the bounce.
LEAD_PAST, TAIL_PAST, EARLY = 1, 2, 1


def cell_number(cell: Cell) -> int:
    """Returns the number of a cell."""
    return cell[1] * ROW_STRIDE + cell[0]


def cell_of_number(number: int) -> Cell:
    """Returns the cell of a number."""
    return number % ROW_STRIDE, number // ROW_STRIDE


@cache
def number_of_one_words(length: int) -> int:
    """Returns a number in which each of so many words of 16 bits is 1."""
    return int.from_bytes(array("H", [1] * length).tobytes(), sys.byteorder)


def tiles_of(cells: Iterable[int]) -> set[int]:
    """Returns the tiles of cells: the tile (i, j) is ROW_STRIDE times j plus i."""
    return {(number >> ROW_BITS + TILE_BITS) * ROW_STRIDE + ((number & ROW_STRIDE - 1) >> TILE_BITS)
            for number in cells}


def cells_entering_tiles(cells: Iterable[int], ahead: int) -> Iterator[int]:
    """Yields cells that lie some numbers ahead of others: of a flight the first one, and each that enters a tile."""
    if not isinstance(cells, range):
        yield from (number + ahead for number in cells)
        return
    (x, y), to_right, down = cell_of_number(cells.start + ahead), cells.step % ROW_STRIDE == 1, cells.step > 0
    columns = range((-x if to_right else x + 1) % TILE_SIDE, len(cells), TILE_SIDE)
    rows = range((-y if down else y + 1) % TILE_SIDE, len(cells), TILE_SIDE)
    yield from (cells[index] + ahead for index in {*range(min(1, len(cells))), *columns, *rows})


# Numbers, as parts that are ranges or lists. Parts may share numbers.
NumberParts = tuple[Iterable[int], ...]


@dataclass(frozen=True)
class Footprint:
    """What a path or a gate's cell takes: numbers of mirror cells, and in parts those of touched cells and of blocks at
    times."""

    mirrors: frozenset[int]
    touched_parts: NumberParts = ()
    claim_parts: NumberParts = ()

    @property
    def touched_cells(self) -> set[int]:
        """The touched cells."""
        return set().union(*self.touched_parts)

    @property
    def claims(self) -> set[int]:
        """The blocks at times."""
        return set().union(*self.claim_parts)

    def shifted_by(self, x: int, y: int, time: int) -> "Footprint":
        """Returns what the item takes elsewhere and later."""
        base = y * ROW_STRIDE + x
        start = time * STEP_STRIDE + base
        touched = array("q", (base + number for number in chain(*self.touched_parts)))
        claims = array("q", (start + number for number in chain(*self.claim_parts)))
        return Footprint(frozenset(base + number for number in self.mirrors), (touched,), (claims,))

    @cached_property
    def tiles(self) -> frozenset[int]:
        """The tiles of touched cells and of mirrors."""
        return frozenset(tiles_of(chain(self.mirrors, *self.touched_parts)))

    @cached_property
    def touched_tiles(self) -> frozenset[int]:
        """The tiles of touched cells."""
        return frozenset(tiles_of(chain(*self.touched_parts)))


@dataclass(frozen=True)
class BounceShape:
    """The cells of a bounce, as differences to the number of the lead's cell at the time of the bounce.

    Its blocks at times are those of the flights before and behind it: see `LEAD_PAST`.
    """

    touched: tuple[int, ...]
    mirror: tuple[int, ...]


@cache
def bounce_shape(turn: BounceKind, dx: int, dy: int) -> BounceShape:
    """Returns the shape of a bounce, from an exact run. It is the same for all places and times."""
    lead = Ball(100 + (dx < 0), 100 + (dy < 0), dx, dy, 0)
    run = path_run(lead.after_flight(-2), [Leg(2, turn), Leg(BOUNCE_STEPS, None)])
    own = mirror_cells([ball_and_mirror_after_bounce(lead, turn)[1]])
    base = cell_number((lead.x, lead.y))
    touched = {cell for corners in run.blocks[2:] for corner in corners for cell in block_cells(corner)}
    return BounceShape(tuple(sorted(cell_number(cell) - base for cell in touched - own)),
                       tuple(sorted(cell_number(cell) - base for cell in own)))


def add_flight_claims(ball: Ball, steps: int, early: int, has_bounce: bool, claims: list[Iterable[int]]) -> None:
    """Adds the blocks at times of a straight flight, as ranges: from `early` steps before it on, and with its part of
    the bounce at its end if there is one."""
    x, y, dx, dy, time = ball
    along = dy * ROW_STRIDE + dx
    step = STEP_STRIDE + along
    lead = time * STEP_STRIDE + (y if dy > 0 else y - 1) * ROW_STRIDE + (x if dx > 0 else x - 1)
    for first, past in ((lead, LEAD_PAST), (lead - 2 * along, TAIL_PAST)):
        own = range(first - early * step, first + (steps + past if has_bounce else steps) * step, step)
        if own:
            claims.append(own)


def add_flight_cells(ball: Ball, steps: int, touched: list[Iterable[int]]) -> None:
    """Adds the cells of a straight flight, as ranges."""
    if steps <= 0:
        return
    x, y, dx, dy, _ = ball
    corner = (y if dy > 0 else y - 1) * ROW_STRIDE + (x if dx > 0 else x - 1)
    along = dy * ROW_STRIDE + dx
    # Two cells of a block are on the diagonal of the flight, where one block's first cell is the last one's second; two
    # are beside it.
    first, last = corner - 2 * along, corner + steps * along
    before, after = sorted((0, ROW_STRIDE + 1) if dx == dy else (1, ROW_STRIDE), reverse=along < 0)
    touched.append(range(first + before, last + after, along))
    touched += [range(first + other, last + other, along)
                for other in ((1, ROW_STRIDE) if dx == dy else (0, ROW_STRIDE + 1))]


def path_footprint(ball: Ball, legs: Iterable[Leg], begun: int = 0) -> Footprint | None:
    """Returns what a path takes, or None if the ball would come to one of its own mirrors at another time than it
    should.

    The first `begun` steps of the first leg are left out: they belong to the bounce before it.
    """
    claims: list[Iterable[int]] = []
    touched: list[Iterable[int]] = []
    mirrors: list[int] = []
    early = 0
    for steps, turn in legs:
        if begun > steps:
            return None
        first = ball.after_flight(begun)
        add_flight_claims(first, steps - begun, early, turn is not None, claims)
        add_flight_cells(first, steps - begun, touched)
        ball = ball.after_flight(steps)
        if turn is None:
            break
        shape, base = bounce_shape(turn, ball.dx, ball.dy), cell_number((ball.x, ball.y))
        touched.append([base + number for number in shape.touched])
        mirrors += [base + number for number in shape.mirror]
        ball, begun, early = ball_and_mirror_after_bounce(ball, turn)[0], BOUNCE_STEPS, EARLY
    else:
        # The legs end at a bounce.
        add_flight_claims(ball.after_flight(begun), 0, early, False, claims)
    item = Footprint(frozenset(mirrors), tuple(touched), tuple(claims))
    return item if all(item.mirrors.isdisjoint(part) for part in touched) else None


def gate_cell_footprint(cell: GateCell, x: int, y: int, time: int) -> Footprint:
    """Returns what a gate's cell takes at a place and a time."""
    mirrors, touched, claims = gate_cell_shape(cell)
    base = y * ROW_STRIDE + x
    start = time * STEP_STRIDE + base
    return Footprint(frozenset(base + number for number in mirrors),
                     (array("q", [base + number for number in touched]),),
                     (array("q", [start + number for number in claims]),))


# The numbers of mirrors, touched cells and blocks at times of each cell of the library, which lives as long as the
# process.
_gate_cell_shapes: dict[int, tuple[list[int], list[int], list[int]]] = {}


def gate_cell_shape(cell: GateCell) -> tuple[list[int], list[int], list[int]]:
    """Returns what a gate's cell takes at place and time 0."""
    shape = _gate_cell_shapes.get(id(cell))
    if shape is None:
        claims = {time * STEP_STRIDE + cell_number(corner) for time, corners in enumerate(cell.blocks)
                  for corner in corners}
        shape = [cell_number(own) for own in cell.mirrors], [cell_number(own)
                                                             for own in cell.touched_cells], list(claims)
        _gate_cell_shapes[id(cell)] = shape
    return shape


@dataclass(frozen=True)
class LaidFootprint:
    """An item that is on the plane for a while: its mirrors, the cells that it took one by one, and parts of lists of
    bits as they were before."""

    mirrors: frozenset[int]
    newly_set_cells: list[int]
    saved: list[tuple[list[int], slice, list[int]]]


class BlockClaims(Protocol):
    """The blocks at times that items on the plane claim: numbers, or what stands for them."""

    def update(self, *parts: Iterable[int]) -> None:
        """Adds numbers."""

    def difference_update(self, *parts: Iterable[int]) -> None:
        """Takes numbers away."""

    def isdisjoint(self, part: Iterable[int], /) -> bool:
        """Whether none of some numbers is there."""

    def __len__(self) -> int:
        """Returns 0 if nothing is claimed."""


class RoutingGrid:
    """A rectangle of cells with the items on it, which can grow. Rows and diagonals of cells are bits of numbers.

    `size` is its width, and its height too unless `height` is given.
    """

    def __init__(self, size: int, height: int | None = None) -> None:
        self.size, self.height = size, height or size
        self.claims: BlockClaims = set()
        self.mirrors: set[int] = set()
        # How many parts of items touch a cell or have a mirror there, and the same cells as bits of rows: no new mirror
        # may be there.
        self.counts = array("H", [0]) * (ROW_STRIDE * self.height)
        self.blocked = [0] * (ROW_STRIDE + 8)
        # The mirrors by falling diagonals (y - x + ROW_STRIDE) and rising ones (y + x), as bits of x; and so the
        # blocked cells.
        self.mirror_falling, self.mirror_rising = [0] * (2 * ROW_STRIDE + 8), [0] * (2 * ROW_STRIDE + 8)
        self.blocked_falling, self.blocked_rising = [0] * (2 * ROW_STRIDE + 8), [0] * (2 * ROW_STRIDE + 8)

    def grow(self, cells: int) -> None:
        """Adds columns at the right and rows below. What is there stays."""
        self.size += cells
        self.height += cells
        self.counts.extend(array("H", [0]) * (ROW_STRIDE * cells))

    def add(self, item: Footprint) -> None:
        """Adds an item."""
        self.claims.update(*item.claim_parts)
        self.mirrors |= item.mirrors
        for number in item.mirrors:
            self._flip_diagonals(number, self.mirror_falling, self.mirror_rising)
        for part in (item.mirrors, *item.touched_parts):
            self._change_counts(part, 1)

    def remove(self, item: Footprint) -> None:
        """Removes an item."""
        self.claims.difference_update(*item.claim_parts)
        self.mirrors -= item.mirrors
        for number in item.mirrors:
            self._flip_diagonals(number, self.mirror_falling, self.mirror_rising)
        for part in (item.mirrors, *item.touched_parts):
            self._change_counts(part, -1)

    def lay_temporarily(self, item: Footprint) -> LaidFootprint:
        """Puts the bits of an item on the plane until `lift_last_laid`: it is not counted and claims nothing.

        Nothing else is added or removed meanwhile, and what was laid last is lifted first. A search lays and lifts
        100,000 legs, which costs less than to add and remove them.
        """
        laid = LaidFootprint(item.mirrors, [], [])
        self.mirrors |= item.mirrors
        for number in item.mirrors:
            self._flip_diagonals(number, self.mirror_falling, self.mirror_rising)
        # `lift_last_laid` puts the parts of lists back first, and then takes single cells away.
        for part in (item.mirrors, *(part for part in item.touched_parts if not isinstance(part, range))):
            self._lay_cells(part, laid)
        for part in item.touched_parts:
            if isinstance(part, range) and part:
                self._lay_flight(part, laid)
        return laid

    def _lay_cells(self, part: Iterable[int], laid: LaidFootprint) -> None:
        """Sets the bits of cells, and notes those that were not set."""
        rows = self.blocked
        for number in part:
            y, bit = number >> ROW_BITS, SINGLE_BITS[number & ROW_STRIDE - 1]
            if not rows[y] & bit:
                rows[y] |= bit
                self._flip_diagonals(number, self.blocked_falling, self.blocked_rising)
                laid.newly_set_cells.append(number)

    def _lay_flight(self, flight: range, laid: LaidFootprint) -> None:
        """Sets the bits of the cells of a straight flight, and notes the parts of lists that have them as they were."""
        down, count = flight if flight.step > 0 else flight[::-1], len(flight)
        x, y = cell_of_number(down.start)
        falling, rising = y - x + ROW_STRIDE, y + x
        if down.step > ROW_STRIDE:
            bits, own, across = SINGLE_BITS[x:x + count], (self.blocked_falling, falling), (self.blocked_rising, rising)
        else:
            bits = SINGLE_BITS[x - count + 1:x + 1][::-1]
            own = (self.blocked_rising, rising)
            across = (self.blocked_falling, falling)
        whole = (1 << count) - 1 << x if down.step > ROW_STRIDE else (1 << count) - 1 << x - count + 1
        for (lines, line), length, stride, more in (((self.blocked, y), count, 1, bits), (across, 2 * count, 2, bits),
                                                    (own, 1, 1, [whole])):
            place = slice(line, line + length, stride)
            before = lines[place]
            laid.saved.append((lines, place, before))
            lines[place] = [*map(operator.or_, before, more)]

    def lift_last_laid(self, laid: LaidFootprint) -> None:
        """Takes the bits of the item that was laid last away again."""
        for lines, place, before in reversed(laid.saved):
            lines[place] = before
        for number in laid.newly_set_cells:
            self.blocked[number >> ROW_BITS] ^= SINGLE_BITS[number & ROW_STRIDE - 1]
            self._flip_diagonals(number, self.blocked_falling, self.blocked_rising)
        for number in laid.mirrors:
            self._flip_diagonals(number, self.mirror_falling, self.mirror_rising)
        self.mirrors -= laid.mirrors

    def _change_counts(self, part: Iterable[int], change: int) -> None:
        """Counts one part more at its cells, or one less if the change is -1.

        A cell's bits change if no other part is there. Those of a flight on its own diagonal change at once.
        """
        counts = self.counts
        bits = SINGLE_BITS
        rows = self.blocked
        falling = self.blocked_falling
        rising = self.blocked_rising
        if not isinstance(part, range) or len(part) < LEAST_BULK_COUNT or part.stop < 0:
            for number in part:
                counts[number] += change
                if counts[number] == (change > 0):
                    x, y = number & ROW_STRIDE - 1, number >> ROW_BITS
                    bit = bits[x]
                    rows[y] ^= bit
                    falling[y - x + ROW_STRIDE] ^= bit
                    rising[y + x] ^= bit
            return
        (x, y), length, own = cell_of_number(part.start), len(part), slice(part.start, part.stop, part.step)
        dx, dy = 1 if part.step % ROW_STRIDE == 1 else -1, 1 if part.step > 0 else -1
        before = counts[own]
        total = int.from_bytes(before.tobytes(), sys.byteorder) + change * number_of_one_words(length)
        after = array("H", total.to_bytes(2 * length, sys.byteorder))
        counts[own] = after
        is_changed = bytes(map(operator.not_, before if change > 0 else after))
        digits = is_changed.translate(DIGIT_TABLE)
        mask = int(digits[::-1], 2) << x if dx > 0 else int(digits, 2) << x - length + 1
        if dx == dy:
            falling[y - x + ROW_STRIDE] ^= mask
            lines, line = rising, y + x
        else:
            rising[y + x] ^= mask
            lines, line = falling, y - x + ROW_STRIDE
        columns, across = range(x, x + length * dx, dx), range(line, line + 2 * length * dy, 2 * dy)
        for column, row, other in itertools.compress(zip(columns, range(y, y + length * dy, dy), across), is_changed):
            bit = bits[column]
            rows[row] ^= bit
            lines[other] ^= bit

    def _flip_diagonals(self, number: int, falling: list[int], rising: list[int]) -> None:
        """Adds a cell to the diagonals, or takes it away."""
        x, y = number & ROW_STRIDE - 1, number >> ROW_BITS
        falling[y - x + ROW_STRIDE] ^= 1 << x
        rising[y + x] ^= 1 << x

    def can_add(self, item: Footprint) -> bool:
        """Whether an item may be added: it meets nothing that is there, neither in space nor in time."""
        blocked, mirrors, claims = self.blocked, self.mirrors, self.claims
        return (not any(blocked[number >> ROW_BITS] & SINGLE_BITS[number & ROW_STRIDE - 1] for number in item.mirrors)
                and all(mirrors.isdisjoint(part) for part in item.touched_parts)
                and all(claims.isdisjoint(part) for part in item.claim_parts))

    def is_inside(self, x: int, y: int) -> bool:
        """Whether a ball may be at a cell."""
        return MARGIN_CELLS <= x < self.size - MARGIN_CELLS and MARGIN_CELLS <= y < self.height - MARGIN_CELLS

    def has_room_for_mirror(self, mirror: Mirror) -> bool:
        """Whether a mirror may stand where nothing is and no ball passes."""
        x, y, width, height = mirror
        if x < RIM_CELLS or y < RIM_CELLS or x + width > self.size - RIM_CELLS or y + height > self.height - RIM_CELLS:
            return False
        blocked = self.blocked
        if height == 2:
            return not (blocked[y] | blocked[y + 1]) >> x & 15
        return not (blocked[y] | blocked[y + 1] | blocked[y + 2] | blocked[y + 3]) >> x & 3

    def steps_to_margin(self, ball: Ball) -> int:
        """Returns how many steps a ball can fly straight before it meets the margin."""
        x, y, dx, dy, _ = ball
        return min(self.size - MARGIN_CELLS - 1 - x if dx > 0 else x - MARGIN_CELLS,
                   self.height - MARGIN_CELLS - 1 - y if dy > 0 else y - MARGIN_CELLS)

    def free_steps(self, ball: Ball, most: int) -> int:
        """Returns how many steps, at most `most`, a ball can fly straight before it meets a mirror or the margin."""
        x, y, dx, dy, _ = ball
        # As `room` does, in place: this runs most often.
        room_x = self.size - MARGIN_CELLS - 1 - x if dx > 0 else x - MARGIN_CELLS
        room_y = self.height - MARGIN_CELLS - 1 - y if dy > 0 else y - MARGIN_CELLS
        most = min(most, room_x, room_y)
        if most <= 0:
            return 0
        if dx == dy:
            line, lines = y - x + ROW_STRIDE, self.mirror_falling
        else:
            line, lines = y + x, self.mirror_rising
        bits = lines[line - 1] | lines[line] | lines[line + 1]
        if not bits:
            return most
        if dx > 0:
            bits >>= x
            return max(0, min(most, (bits & -bits).bit_length() - 2)) if bits else most
        bits &= (1 << x + 1) - 1
        return max(0, min(most, x - bits.bit_length())) if bits else most

    def flight_cost(self, ball: Ball, steps: int) -> int:
        """Returns how many cells that nothing touches yet a straight flight would touch, about."""
        x, y, dx, dy, _ = ball
        low, high = (x, x + steps) if dx > 0 else (x - steps, x)
        mask = (1 << high - low + 1) - 1
        if dx == dy:
            line, lines = y - x + ROW_STRIDE, self.blocked_falling
        else:
            line, lines = y + x, self.blocked_rising
        taken = ((lines[line - 1] >> low & mask).bit_count() + (lines[line] >> low & mask).bit_count()
                 + (lines[line + 1] >> low & mask).bit_count())
        return 3 * (high - low + 1) - taken

    def taken_count_around(self, x: int, y: int) -> int:
        """Returns how many cells are taken in a square around a cell."""
        low, high = max(0, y - HALF_SQUARE_SIDE), min(self.height, y + HALF_SQUARE_SIDE)
        left = max(0, x - HALF_SQUARE_SIDE)
        mask = (1 << 2 * HALF_SQUARE_SIDE) - 1
        outside = (2 * HALF_SQUARE_SIDE - (high - low)) * 2 * HALF_SQUARE_SIDE
        return outside + sum((row >> left & mask).bit_count() for row in self.blocked[low:high])
