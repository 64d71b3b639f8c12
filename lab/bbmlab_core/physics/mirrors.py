"""Mirrors that fall apart: whether a rectangle of live cells stays as it is, and the places next to it at which it
would.
"""

from dataclasses import dataclass

from ..texts.layouts import Cell, Layout, LayoutPart


@dataclass(frozen=True)
class UnstableMirror:
    """A mirror that does not stay by itself: the first step, 1 or 2, that moves one of its cells, and a cell that it
    moves."""

    mirror: LayoutPart
    step: int
    cell: Cell


def unstable_cell_if_alone(part: LayoutPart, is_odd: int) -> Cell | None:
    """Returns a cell of a rectangle that a step moves, if nothing else is live; `is_odd` is the parity of the step's
    time.

    A block moves if one of its cells is live, or two on a diagonal (Margolus 1984, block rule). A rectangle has no
    diagonal pair in a block: so it stays if and only if it has two or four cells, or none, of each block.
    """
    columns = {x: sum(part.x <= u < part.x + part.width for u in (x, x + 1))
               for x in range(part.x - (part.x - is_odd) % 2, part.x + part.width, 2)}
    rows = {y: sum(part.y <= v < part.y + part.height for v in (y, y + 1))
            for y in range(part.y - (part.y - is_odd) % 2, part.y + part.height, 2)}
    for y, high in rows.items():
        for x, wide in columns.items():
            if wide == 1 and high == 1:
                return max(x, part.x), max(y, part.y)
    return None


def is_stable(part: LayoutPart) -> bool:
    """Whether a mirror by itself stays as it is under both partitions."""
    return unstable_cell_if_alone(part, 0) is None and unstable_cell_if_alone(part, 1) is None


def unstable_mirrors(layout: Layout) -> list[UnstableMirror]:
    """Returns the mirrors that do not stay, in the order of their lines.

    Mirrors that touch others are looked at with them.
    """
    found, cells = [], layout.mirror_cells()
    for part in layout.of_kind("mirror"):
        for step in (1, 2):
            cell = None if is_stable(part) else unstable_cell(part, step - 1, cells)
            if cell is not None:
                found.append(UnstableMirror(part, step, cell))
                break
    return found


def unstable_cell(part: LayoutPart, is_odd: int, live: set[Cell]) -> Cell | None:
    """Returns a cell of a mirror whose block has one live cell alone, or two on a diagonal, with all mirrors of the
    layout."""
    border = {(x, y) for x in (part.x, part.x + part.width - 1) for y in (part.y, part.y + part.height - 1)}
    for x, y in sorted(border):
        left, top = x - (x - is_odd) % 2, y - (y - is_odd) % 2
        block = [(left + u, top + v) in live for v in (0, 1) for u in (0, 1)]
        if sum(block) == 1 or block in ([True, False, False, True], [False, True, True, False]):
            return x, y
    return None


def stable_mirrors_near(part: LayoutPart, reach: int = 1) -> list[LayoutPart]:
    """Returns mirrors that stay, next to one that does not: moved by at most `reach` cells, or one cell larger or
    smaller; nearest first."""
    found = []
    for dw in (0, 1, -1):
        for dh in (0, 1, -1):
            for dy in range(-reach, reach + 1):
                for dx in range(-reach, reach + 1):
                    other = LayoutPart("mirror", None, part.x + dx, part.y + dy,
                                       part.width + dw, part.height + dh, part.line)
                    if min(other.x, other.y) >= 0 and min(other.width, other.height) >= 1 and is_stable(other):
                        found.append((abs(dw) + abs(dh), abs(dx) + abs(dy), other))
    return [other for _, _, other in sorted(found, key=lambda row: row[:2])]
