"""Which module owns each block of two by two cells of a layout."""

from array import array
from typing import Iterator

from .layouts import Box, Cell

NOBODY = -1


class BlockOwners:
    """The number of the module that owns each block, row by row, and NOBODY for a block in no box."""

    def __init__(self, width: int, height: int) -> None:
        self.columns, self.rows = width // 2, height // 2
        self.numbers = array("i", [NOBODY]) * (self.columns * self.rows)
        self.owned_count = self.module_count = 0

    def block_spans(self, box: Box) -> Iterator[tuple[int, int]]:
        """Yields where the blocks of a box begin and end in `numbers`, row by row. The box may go beyond the layout."""
        first, last = max(0, box.x // 2), min(self.columns, (box.x + box.width + 1) // 2)
        for row in range(max(0, box.y // 2), min(self.rows, (box.y + box.height + 1) // 2)):
            yield row * self.columns + first, row * self.columns + last

    def upper_left_cell_of_block(self, place: int) -> Cell:
        """Returns the upper left cell of a block."""
        return place % self.columns * 2, place // self.columns * 2

    def first_owned_block_and_owner(self, box: Box) -> tuple[Cell, int]:
        """Returns the first block of a box that a module owns, and that module's number. There is one."""
        place = next(place for start, end in self.block_spans(box) for place in range(start, end)
                     if self.numbers[place] != NOBODY)
        return self.upper_left_cell_of_block(place), self.numbers[place]

    def give_blocks_if_free(self, box: Box, number: int) -> bool:
        """Gives the blocks of a box to a module; returns whether nobody owned one of them, without which nothing
        changes."""
        numbers, columns, count = self.numbers, box.width // 2, box.height // 2
        first = box.y // 2 * self.columns + box.x // 2
        starts = range(first, first + count * self.columns, self.columns)
        free = array("i", [NOBODY]) * columns
        for start in starts:
            if numbers[start:start + columns] != free:
                return False
        own = array("i", [number]) * columns
        for start in starts:
            numbers[start:start + columns] = own
        self.owned_count += columns * count
        self.module_count += 1
        return True

    def owner_at(self, cell: Cell) -> int:
        """Returns the number of the module that owns a cell, or NOBODY."""
        column, row = cell[0] // 2, cell[1] // 2
        return self.numbers[row * self.columns
                            + column] if 0 <= column < self.columns and 0 <= row < self.rows else NOBODY

    def module_numbers_near(self, box: Box) -> list[int]:
        """Returns the modules that own blocks of a box or blocks that touch it, in order."""
        spans = list(self.block_spans(Box(box.x - 2, box.y - 2, box.width + 4, box.height + 4)))
        found: set[int] = set()
        for index, (start, end) in enumerate(spans):
            found.update(self.numbers[start:end] if index in (0, len(spans) - 1)
                         else (self.numbers[start], self.numbers[end - 1]))
        return sorted(found - {NOBODY})

    def gaps(self) -> list[Box]:
        """Returns rectangles that together have all cells in no box."""
        numbers, gaps, place = self.numbers[:], [], 0
        for _ in range(len(numbers)):
            try:
                place = numbers.index(NOBODY, place)
            except ValueError:
                break
            width = height = 1
            row_end = (place // self.columns + 1) * self.columns
            while place + width < row_end and numbers[place + width] == NOBODY:
                width += 1
            free = numbers[place:place + width]
            while numbers[place + height * self.columns:place + height * self.columns + width] == free:
                height += 1
            for row in range(height):
                start = place + row * self.columns
                numbers[start:start + width] = array("i", [0]) * width
            gaps.append(Box(*self.upper_left_cell_of_block(place), 2 * width, 2 * height))
        return gaps
