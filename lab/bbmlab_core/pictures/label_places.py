"""Where the names of ports go in a picture: next to their cells, off the cells of other ports and off each other.

`view/labels.js` has the same rules for the page. All numbers are in units of the picture.
"""

from dataclasses import dataclass
from typing import Iterator

# A place that covers a port or another name costs so many times its covered area; other signs cost their area once.
COVERING_COST = 100.0
# How many lines of text a name may be away from its cell. From `MIN_LINES_AWAY_FOR_LEADER` on it gets a line to its
# cell.
MAX_LINES_AWAY = 6
MIN_LINES_AWAY_FOR_LEADER = 1
# The least side of the squares in which rectangles are filed. Higher names get larger squares: each touches few.
BUCKET_SIDE = 64.0

Point = tuple[float, float]


@dataclass(frozen=True)
class Rect:
    """A rectangle: its left upper corner and its size."""

    x: float
    y: float
    width: float
    height: float

    def shared_area(self, other: "Rect") -> float:
        """Returns the area that two rectangles share."""
        wide = min(self.x + self.width, other.x + other.width) - max(self.x, other.x)
        high = min(self.y + self.height, other.y + other.height) - max(self.y, other.y)
        return wide * high if wide > 0 and high > 0 else 0.0


@dataclass(frozen=True)
class NameToPlace:
    """A name to place: its cell, its size, and whether it is rather above its cell than below."""

    cell_rect: Rect
    width: float
    height: float
    is_above: bool


@dataclass(frozen=True)
class NamePlace:
    """A place of a name: its rectangle, and how many lines of text it is away from the nearest place."""

    box: Rect
    lines_away: int


class Obstacles:
    """Rectangles with the cost of covering them, filed by squares of the picture."""

    def __init__(self, side: float = BUCKET_SIDE) -> None:
        self.side = side
        self.filed: dict[tuple[int, int], list[int]] = {}
        self.rects: list[tuple[Rect, float]] = []

    def touched_squares(self, rect: Rect) -> Iterator[tuple[int, int]]:
        """Yields the squares that a rectangle touches."""
        for row in range(int(rect.y // self.side), int((rect.y + rect.height) // self.side) + 1):
            for column in range(int(rect.x // self.side), int((rect.x + rect.width) // self.side) + 1):
                yield column, row

    def add(self, rect: Rect, cost: float) -> None:
        """Files a rectangle."""
        for square in self.touched_squares(rect):
            self.filed.setdefault(square, []).append(len(self.rects))
        self.rects.append((rect, cost))

    def covering_cost(self, rect: Rect) -> float:
        """Returns what it costs to cover what lies below a rectangle."""
        near = {number for square in self.touched_squares(rect) for number in self.filed.get(square, [])}
        return sum(self.rects[number][1] * rect.shared_area(self.rects[number][0]) for number in sorted(near))


def candidate_places(name: NameToPlace) -> Iterator[NamePlace]:
    """Yields the places for a name, the best first: above or below, at the sides, at the corners, and then further
    away."""
    cell, first = name.cell_rect, -1 if name.is_above else 1
    x, y = cell.x + cell.width / 2, cell.y + cell.height / 2
    for away in range(MAX_LINES_AWAY + 1):
        lift = cell.height / 2 + name.height / 2 + 1 + away * name.height
        shift = cell.width / 2 + name.width / 2 + 2 + away * name.height
        half = name.width / 2
        for dx, dy in ((0.0, first * lift), (0.0, -first * lift), (shift, 0.0), (-shift, 0.0), (half, first * lift),
                       (-half, first * lift),
                       (half, -first * lift), (-half, -first * lift), (shift, first * lift), (-shift, first * lift),
                       (shift, -first * lift), (-shift, -first * lift)):
            yield NamePlace(Rect(x + dx - name.width / 2, y + dy - name.height / 2, name.width, name.height), away)


def choose_name_places(names: list[NameToPlace], signs: list[Rect], ports: list[Rect],
                       bounds: Rect | None = None) -> list[NamePlace]:
    """Returns a place for each name, within the bounds if it can.

    `ports` are the cells of ports that have no name of their own, and `signs` what a name should leave free if it can.
    """
    obstacles = Obstacles(max([BUCKET_SIDE, *(name.height for name in names)]))
    for rect in signs:
        obstacles.add(rect, 1.0)
    for rect in [*ports, *(name.cell_rect for name in names)]:
        obstacles.add(rect, COVERING_COST)
    found = []
    for name in names:
        best, least = None, float("inf")
        for place in candidate_places(name):
            base = place.lines_away * name.height
            if base >= least:
                break
            outside = place.box.width * place.box.height - place.box.shared_area(bounds) if bounds else 0.0
            cost = base + COVERING_COST * outside + obstacles.covering_cost(place.box)
            if cost < least:
                best, least = place, cost
        assert best is not None
        obstacles.add(best.box, COVERING_COST)
        found.append(best)
    return found


def leader_line(place: NamePlace, cell: Rect) -> tuple[Point, Point] | None:
    """Returns a line from a name to its cell, if the name is so far away that it needs one."""
    if place.lines_away < MIN_LINES_AWAY_FOR_LEADER:
        return None
    box = place.box
    x, y = cell.x + cell.width / 2, cell.y + cell.height / 2
    return (min(max(x, box.x), box.x + box.width), min(max(y, box.y), box.y + box.height)), (x, y)
