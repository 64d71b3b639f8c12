"""Balls that fly by themselves: how far they get, and when two of them come into one block.

A ball flies along a diagonal, a cell a step in x and in y, until its block has another live cell (Margolus 1984). Which
blocks have cells of mirrors is known before the run. Two flying balls come into one block in three ways: they fly alike
in x and against each other in y, the other way round, or head on. In each, both are on one line, which does not change
in flight. So the balls of a line are sorted, and the next one is the first that a ball can meet there.
"""

from bisect import bisect_left, bisect_right, insort

from ..physics.simulation import DIAGONAL_STRIDE, ROW_STRIDE, key_of
from ..texts.layouts import Layout

# The directions of moves by the differences of their cells' numbers: along the diagonals, and to the sides after a
# collision. `direction ^ 1` goes against a direction, `direction ^ 2` goes alike in y and `direction ^ 3` alike in x.
DIRECTION_OFFSETS = (DIAGONAL_STRIDE, -DIAGONAL_STRIDE, ROW_STRIDE - 1, 1 - ROW_STRIDE, 1, -1)
FALLING, BACK_FALLING, RISING, BACK_RISING = range(4)
FLIGHT_DELTAS = ((1, 1), (-1, -1), (-1, 1), (1, -1))
# The two other cells of the block that lie at the sides of a ball's move.
SIDE_OFFSETS = ((1, ROW_STRIDE), (-1, -ROW_STRIDE), (-1, ROW_STRIDE), (1, -ROW_STRIDE))
# By whether x and y of a ball differ from the parity of the time, the direction in which it flies.
DIRECTION_BY_PARITIES = ((FALLING, BACK_RISING), (RISING, BACK_FALLING))
ROW_SHIFT = ROW_STRIDE.bit_length() - 1
COLUMN_MASK = ROW_STRIDE - 1
# A shorter flight costs more than its steps.
MIN_FLIGHT_STEPS = 3

# A ball that flies: when it took off, and its lines with its place on each.
Flight = tuple[int, tuple[tuple[int, int], ...]]


def mirror_cell_numbers(layout: Layout) -> set[int]:
    """Returns the numbers of the cells of mirrors."""
    cells: set[int] = set()
    for part in layout.of_kind("mirror"):
        first = key_of(part.cell)
        for row in range(first, first + part.height * ROW_STRIDE, ROW_STRIDE):
            cells.update(range(row, row + part.width))
    return cells


def is_ball_proof(cells: set[int]) -> bool:
    """Returns whether no ball can change cells of mirrors: each has a neighbour in its block, not only the opposite
    cell, in both partitions. The block rule changes no block with two such cells."""
    return all((key ^ 1 in cells or key ^ ROW_STRIDE in cells)
               and ((key - DIAGONAL_STRIDE ^ 1) + DIAGONAL_STRIDE in cells
                    or (key - DIAGONAL_STRIDE ^ ROW_STRIDE) + DIAGONAL_STRIDE in cells)
               for key in cells)


class MirrorBlocks:
    """The blocks with cells of mirrors, of both partitions, by the diagonals that cross them."""

    def __init__(self, layout: Layout, cells: set[int]) -> None:
        # The x of corners by x - y, which is even, and by x + y + 1.
        self.corners: dict[int, list[int]] = {}
        file = self.corners.setdefault
        odd = {(key - DIAGONAL_STRIDE & ~DIAGONAL_STRIDE) + DIAGONAL_STRIDE for key in cells}
        for corner in {key & ~DIAGONAL_STRIDE for key in cells} | odd:
            x, y = corner & COLUMN_MASK, corner >> ROW_SHIFT
            file(x - y, []).append(x)
            file(x + y + 1, []).append(x)
        for numbers in self.corners.values():
            numbers.sort()
        last = key_of((layout.width - 1, layout.height - 1))
        self.right, self.bottom = last & COLUMN_MASK, last >> ROW_SHIFT

    def free_steps(self, x: int, y: int, direction: int) -> int:
        """Returns how many steps a ball can fly until its block has a cell of a mirror, or one outside the rectangle.
        """
        dx, dy = FLIGHT_DELTAS[direction]
        right, down = self.right - x if dx > 0 else x - 2, self.bottom - y if dy > 0 else y - 2
        steps = right if right < down else down
        corners = self.corners.get(x + y if direction & 2 else x - y)
        if corners:
            index = bisect_left(corners, x)
            if dx > 0:
                wall = corners[index] - x if index < len(corners) else steps
            else:
                wall = x - 1 - corners[index - 1] if index else steps
            return wall if wall < steps else steps
        return steps


def meeting_time(places: list[int], own: int, speed: int, time: int) -> int | None:
    """Returns when a ball meets the first of those that come against it on its line.

    A place is where a ball would have been at the time 0, if it had flown since then.
    """
    if speed > 0:
        index = bisect_left(places, own + 2 * time + 1)
        return places[index] - own - 1 >> 1 if index < len(places) else None
    index = bisect_right(places, own - 2 * time - 1)
    return own - places[index - 1] - 1 >> 1 if index else None


class Flights:
    """The balls that fly.

    The number of one is 4 times that of the cell where it would have been at the time 0, plus its direction. No two
    have the same, since they would be in one cell.
    """

    def __init__(self, walls: MirrorBlocks) -> None:
        self.walls = walls
        self.flying: dict[int, Flight] = {}
        # When balls land at the latest.
        self.due: dict[int, list[int]] = {}
        # The places of balls on a line, sorted. The number of a line is 16 times what the balls share there, plus 4
        # times the way in which they meet, plus their direction.
        self.lines: dict[int, list[int]] = {}

    def take_off(self, key: int, direction: int, time: int, until: int) -> int | None:
        """Lets a ball fly, at most until a time, and returns its number, or None if it cannot fly."""
        x, y, lines = key & COLUMN_MASK, key >> ROW_SHIFT, self.lines
        steps = self.walls.free_steps(x, y, direction)
        if steps < MIN_FLIGHT_STEPS:
            return None
        dx, dy = FLIGHT_DELTAS[direction]
        column, row, end = x - dx * time, y - dy * time, time + steps if time + steps < until else until
        alike_x, alike_y = column << 4 | direction, row << 4 | 4 | direction
        head_on = (x + y if direction & 2 else x - y) << 4 | 8 | direction
        for other, own, speed in ((alike_x ^ 3, row, dy), (alike_y ^ 2, column, dx), (head_on ^ 1, column, dx)):
            if other in lines:
                met = meeting_time(lines[other], own, speed, time)
                if met is not None and met < end:
                    end = met
        if end <= time:
            return None
        number = (key - DIRECTION_OFFSETS[direction] * time) * 4 + direction
        self.flying[number] = own_lines = time, ((alike_x, row), (alike_y, column), (head_on, column))
        for line, place in own_lines[1]:
            if line in lines:
                insort(lines[line], place)
            else:
                lines[line] = [place]
        self.due.setdefault(end, []).append(number)
        return number

    def land(self, number: int, time: int) -> tuple[int, int]:
        """Removes a ball, and returns its cell, and how many steps it flew."""
        start, own_lines = self.flying.pop(number)
        for line, place in own_lines:
            places = self.lines[line]
            if len(places) == 1:
                del self.lines[line]
            else:
                del places[bisect_left(places, place)]
        return (number >> 2) + DIRECTION_OFFSETS[number & 3] * time, time - start

    def ball_number_offsets(self, time: int) -> tuple[int, int, int, int]:
        """Returns the differences of the numbers of balls in a block to 4 times the number of its corner."""
        fall, rise = DIAGONAL_STRIDE * time, (ROW_STRIDE - 1) * time
        return -fall * 4, (DIAGONAL_STRIDE + fall) * 4 + 1, (1 - rise) * 4 + 2, (ROW_STRIDE + rise) * 4 + 3
