"""Places for the parts of a join: rows on a square, each of which goes back where the one before it ended.

So each part is beside the next one. The rows can be few or many, mirrored, flipped, or columns: a join takes what needs
the fewest steps.
"""

import itertools
from dataclasses import dataclass
from typing import Iterator, Sequence

from ..route.world import TILE_SIDE

# The cells between a part and the border, and between two parts: at least, and at most.
LEAST_GAP = 2 * TILE_SIDE
MOST_GAP = 24 * TILE_SIDE


@dataclass(frozen=True)
class Extent:
    """A part's width and height, in cells of whole tiles."""

    width: int
    height: int

    def transposed(self) -> "Extent":
        """Returns the area with columns and rows exchanged."""
        return Extent(self.height, self.width)


Place = tuple[int, int]


def place_arrangements(areas: Sequence[Extent], side: int, can_turn: bool = False) -> Iterator[list[Place]]:
    """Yields the places of areas in their order on a square, in eight ways for each number of rows in which they have
    room.

    If all areas can be turned and mirrored, the other seven ways are as good as the first one, and are left out.
    """
    choices = (False,) if can_turn else (False, True)
    for is_column, is_mirrored, is_flipped, more in itertools.product(*(choices,) * 3, range(len(areas))):
        found = places_in_rows([own.transposed() for own in areas] if is_column else areas, side, more)
        if found is None:
            continue
        places = [(y, x) for x, y in found] if is_column else found
        yield [(side - x - own.width if is_mirrored else x, side - y - own.height if is_flipped else y)
               for own, (x, y) in zip(areas, places)]


def places_in_rows(areas: Sequence[Extent], side: int, more: int = 0) -> list[Place] | None:
    """Returns places in as few rows as can be and some more ones, or None if they have no room."""
    count = len(packed_rows(areas, side, len(areas))) + more
    if count > len(areas):
        return None
    # As many areas in each row as are needed for the same number of rows.
    rows = packed_rows(areas, side, -(-len(areas) // count))
    if len(rows) != count:
        return None
    heights = [max(own.height for own in row) for row in rows]
    if any(sum(own.width + LEAST_GAP for own in row) + LEAST_GAP > side for row in rows):
        return None
    if sum(height + LEAST_GAP for height in heights) + LEAST_GAP > side:
        return None
    places: list[Place] = []
    for index, (row, y) in enumerate(zip(rows, evenly_spaced_starts(heights, side))):
        own = row[::-1] if index % 2 else row
        found = [(x, y) for x in evenly_spaced_starts([area.width for area in own], side)]
        places += found[::-1] if index % 2 else found
    return places


def packed_rows(areas: Sequence[Extent], side: int, most: int) -> list[list[Extent]]:
    """Returns the areas in rows, each with as many as have room, at most `most`."""
    rows: list[list[Extent]] = []
    for own in areas:
        is_full = not rows or len(rows[-1]) == most
        if not is_full and sum(other.width + LEAST_GAP for other in rows[-1]) + own.width + 2 * LEAST_GAP <= side:
            rows[-1].append(own)
        else:
            rows.append([own])
    return rows


def evenly_spaced_starts(lengths: list[int], side: int) -> list[int]:
    """Returns where lengths in a row begin, in the middle of a side and with equal gaps of whole tiles."""
    gap = min(MOST_GAP, (side - sum(lengths)) // (len(lengths) + 1)) // TILE_SIDE * TILE_SIDE
    first = (side - sum(lengths) - gap * (len(lengths) - 1)) // 2 // TILE_SIDE * TILE_SIDE
    return [first + gap * index + sum(lengths[:index]) for index in range(len(lengths))]
