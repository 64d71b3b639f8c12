"""Small pictures of cells in text."""

from typing import Collection

from .layouts import Cell

MAX_COLUMNS = 48
MAX_ROWS = 24
LEGEND = ("o live   # live mirror   . dead   - mirror that is dead   X live, to be dead   ? dead, to be live   + heard "
          "from a neighbour")


def range_around(low: int, size: int, focus: int, most: int) -> range:
    """Returns at most `most` numbers from low on that have `focus` near their middle."""
    if size <= most:
        return range(low, low + size)
    first = min(max(low, focus - most // 2), low + size - most)
    return range(first, first + most)


def cell_sign(cell: Cell, live: set[Cell], mirrors: set[Cell], heard: Collection[Cell]) -> str:
    """Returns the sign of a cell without a fault."""
    if cell in heard:
        return "+"
    if cell in live:
        return "#" if cell in mirrors else "o"
    return "-" if cell in mirrors else "."


def text_picture(box: tuple[int, int, int, int], live: set[Cell], mirrors: set[Cell], heard: Collection[Cell] = (),
                 marked: Cell | None = None) -> list[str]:
    """Returns the rows of a picture of a box with the numbers of its columns and rows.

    Cells around the box show what is heard.
    """
    x, y, width, height = box
    focus = marked or (x + width // 2, y + height // 2)
    columns = range_around(x - 1, width + 2, focus[0], MAX_COLUMNS)
    rows = range_around(y - 1, height + 2, focus[1], MAX_ROWS)
    tens = "".join(str(u // 10 % 10) if u >= 10 and u % 10 == 0 else " " for u in columns)
    ones = "".join(str(u % 10) if u >= 0 else " " for u in columns)
    heads = [f"     {tens}", f"     {ones}"]
    picture = heads if any(char != " " for char in heads[0]) else heads[1:]
    for v in rows:
        line = ""
        for u in columns:
            inside = x <= u < x + width and y <= v < y + height
            if (u, v) == marked:
                line += "X" if (u, v) in live else "?"
            elif inside or (u, v) in heard:
                line += cell_sign((u, v), live, mirrors, heard)
            else:
                line += " "
        picture.append(f"{v if v >= 0 else '':>4} {line}".rstrip())
    return [row for row in picture if row[4:].strip()]
