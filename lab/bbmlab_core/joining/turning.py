"""Turned parts: the rule of blocks (Margolus 1984) has no direction, so a part may be mirrored and turned as a whole.

A part has even sides, so its blocks stay blocks. An input and an output may so come near the parts that they are
connected with.
"""

import itertools
from array import array
from typing import Iterable, NamedTuple

from ..route.balls import Ball
from ..route.world import ROW_STRIDE, STEP_STRIDE, cell_number
from ..texts.layouts import Box, Cell


class PartOrientation(NamedTuple):
    """What is done with a part: first columns and rows are exchanged, then left and right, then top and bottom."""

    is_turned: bool = False
    is_mirrored: bool = False
    is_flipped: bool = False


UNTURNED = PartOrientation()
ORIENTATIONS = [PartOrientation(*own) for own in itertools.product((False, True), repeat=3)]


class NumberMap(NamedTuple):
    """What becomes of the numbers of cells, or of blocks at times: the number of the first one, and those of the next
    column and row less this number."""

    first: int
    column: int
    row: int

    def __call__(self, number: int) -> int:
        """Returns what a number becomes."""
        at = number % STEP_STRIDE
        return self.first + number - at + self.column * (at % ROW_STRIDE) + self.row * (at // ROW_STRIDE)

    def map_all(self, numbers: Iterable[int]) -> "array[int]":
        """Returns what numbers become, as calls would one by one."""
        first, column, row = self
        return array("q", [first + number // STEP_STRIDE * STEP_STRIDE + column * (number % ROW_STRIDE) +
                           row * (number % STEP_STRIDE // ROW_STRIDE)
                           for number in numbers])

    def map_range(self, own: range) -> range:
        """Returns what the numbers of a straight flight become."""
        first = self(own[0])
        step = self(own[1]) - first if len(own) > 1 else 1
        return range(first, first + step * len(own), step)

    def map_footprint_part(self, part: Iterable[int]) -> "range | array[int]":
        """Returns what the numbers of a part of an item become."""
        return self.map_range(part) if isinstance(part, range) else self.map_all(part)


class PartTransform(NamedTuple):
    """Where a part's plane of some columns and rows is: turned, and moved by even numbers of cells and steps."""

    width: int
    height: int
    x: int = 0
    y: int = 0
    time: int = 0
    turning: PartOrientation = UNTURNED

    def placed_box(self, box: Box) -> Box:
        """Returns a box of the part where it is."""
        x, y, columns, rows = box
        width, height = self.width, self.height
        if self.turning.is_turned:
            x, y, columns, rows, width, height = y, x, rows, columns, height, width
        if self.turning.is_mirrored:
            x = width - columns - x
        if self.turning.is_flipped:
            y = height - rows - y
        return Box(x + self.x, y + self.y, columns, rows)

    def placed_cell(self, cell: Cell) -> Cell:
        """Returns a cell of the part where it is."""
        own = self.placed_box(Box(*cell, 1, 1))
        return own.x, own.y

    def placed_ball(self, ball: Ball) -> Ball:
        """Returns a ball of the part where and when it is."""
        x, y = self.placed_cell((ball.x, ball.y))
        dx, dy = (ball.dy, ball.dx) if self.turning.is_turned else (ball.dx, ball.dy)
        return Ball(x, y, -dx if self.turning.is_mirrored else dx, -dy if self.turning.is_flipped else dy,
                    ball.time + self.time)

    def cell_number_map(self) -> NumberMap:
        """Returns what becomes of the numbers of cells."""
        return self.square_number_map(1)

    def block_number_map(self) -> NumberMap:
        """Returns what becomes of the numbers of blocks at times."""
        own = self.square_number_map(2)
        return own._replace(first=own.first + self.time * STEP_STRIDE)

    def square_number_map(self, side: int) -> NumberMap:
        """Returns what becomes of the numbers of squares of some cells by their upper left ones."""
        first, column, row = (cell_number(self.placed_box(Box(*corner, side, side))[:2])
                              for corner in ((0, 0), (1, 0), (0, 1)))
        return NumberMap(first, column - first, row - first)
