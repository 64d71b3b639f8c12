"""Golly's pattern files: writes a layout's start for Golly's rule of this automaton, and reads such a file.

Golly emulates the Margolus neighbourhood by states: 1 and 3 are dead and live cells at the upper left of a block that
is stepped next, 2 and 4 are dead and live cells elsewhere in blocks (see the comments of Golly's
Patterns/Margolus/BBM.rle).
"""

import re

from ..host.terminal import LabError
from ..texts.documents import read_document
from ..texts.layouts import Cell, Layout, row_order_key
from ..texts.limits import SECOND_LIMITS, smallest_fitting_limits

GOLLY_RULE_NAME = "BBM-Margolus-emulated"
STATE_SIGNS = ".ABCD"
DEAD_MARGIN_CELLS = 2
# The most rows and columns of a file that are read, counted with those that are empty: those of the largest layout with
# its margin.
MAX_FILE_SIDE = SECOND_LIMITS.max_side + 2 * DEAD_MARGIN_CELLS


def row_signs(y: int, columns: range, live: list[int]) -> str:
    """Returns Golly's states of a row at an even time, as signs.

    `columns` begins at an even one; `live` are the columns of the live cells.
    """
    row = list(STATE_SIGNS[1 if y % 2 == 0 else 2] + STATE_SIGNS[2]) * (len(columns) // 2)
    for x in live:
        row[x - columns[0]] = STATE_SIGNS[3 if x % 2 == 0 and y % 2 == 0 else 4]
    return "".join(row)


def run_length_row(row: str) -> str:
    """Returns a row with runs of signs counted."""
    return re.sub(r"(.)\1+", lambda run: f"{len(run[0])}{run[1]}", row)


def golly_text(layout: Layout, live: set[Cell], on: list[str], lines: list[str]) -> str:
    """Returns the RLE file of the start with a dead margin. The layout's lines are kept as comments."""
    columns = range(-DEAD_MARGIN_CELLS, layout.width + DEAD_MARGIN_CELLS)
    rows = range(-DEAD_MARGIN_CELLS, layout.height + DEAD_MARGIN_CELLS)
    live_of: dict[int, list[int]] = {}
    for x, y in live:
        live_of.setdefault(y, []).append(x)
    body = "$\n".join(run_length_row(row_signs(y, columns, live_of.get(y, []))) for y in rows)
    comments = ["#C bbmlab: the start of a layout; states 1 and 3 are the upper left cells of blocks, 3 and 4 are live",
                f"#C inputs on: {' '.join(on) or 'none'}", *(f"#C layout: {line}" for line in lines)]
    return "\n".join([f"#CXRLE Pos={-DEAD_MARGIN_CELLS},{-DEAD_MARGIN_CELLS}", *comments,
                      f"x = {len(columns)}, y = {len(rows)}, rule = {GOLLY_RULE_NAME}", body + "!"]) + "\n"


def read_golly_states(text: str) -> tuple[dict[Cell, int], list[str]]:
    """Returns the states of the cells of an RLE file that are not 0, and the layout's lines in its comments."""
    corner, comments, body, header = (0, 0), [], "", None
    for line in text.splitlines():
        place = re.match(r"#CXRLE.*Pos=(-?\d{1,9}),(-?\d{1,9})(?!\d)", line)
        if place:
            corner = int(place[1]), int(place[2])
        if line.startswith("#C layout: "):
            comments.append(line.removeprefix("#C layout: "))
        elif header is None and line.startswith("x"):
            header = line
        elif header is not None and not line.startswith("#"):
            body += line
    if header is None:
        raise LabError("this is no RLE file: it has no line `x = .., y = .., rule = ..`")
    return unpacked_states(body, corner), comments


def unpacked_states(body: str, corner: Cell) -> dict[Cell, int]:
    """Returns the states that the body of an RLE file gives to cells from a corner on.

    A pattern is refused as soon as a row or a column is out of the reach of any layout.
    """
    states: dict[Cell, int] = {}
    x, y = corner
    for count, sign in re.findall(r"(\d*)([.A-Xbo$!])", re.sub(r"\s", "", body)):
        number = int(count[:10] or 1)
        if sign == "!":
            break
        if (y if sign == "$" else x) + number - corner[sign == "$"] > MAX_FILE_SIDE:
            raise LabError(f"the pattern takes more than {MAX_FILE_SIDE} rows or columns; a layout takes "
                           f"{SECOND_LIMITS.max_side} at most")
        if sign == "$":
            x, y = corner[0], y + number
            continue
        state = {".": 0, "b": 0, "o": 1}.get(sign, ord(sign) - 64)
        if state:
            states.update(((x + index, y), state) for index in range(number))
        x += number
    return states


def is_odd_phase(states: dict[Cell, int]) -> bool:
    """Whether the blocks to be stepped next have odd corners."""
    heads = {(x % 2, y % 2) for (x, y), state in states.items() if state in (1, 3)}
    if len(heads) > 1 or heads & {(0, 1), (1, 0)}:
        raise LabError("the blocks of this pattern do not lie on one grid with its cells")
    return heads == {(1, 1)}


def live_cells(states: dict[Cell, int]) -> set[Cell]:
    """Returns the live cells of a pattern in Golly's states, or in two states."""
    if set(states.values()) <= {1}:
        return set(states)
    return {cell for cell, state in states.items() if state >= 3}


def layout_text_from_golly(text: str) -> str:
    """Returns a layout section: that of the file's comments, or one in which each live cell is a ball."""
    states, comments = read_golly_states(text)
    if comments:
        section = "\n".join(comments) + "\n"
        refusal = read_document(section, "layout").refusal
        if refusal is None:
            return section
        raise LabError(f"the comments of the file are no layout: line {refusal.line}, code {refusal.code}")
    live = live_cells(states)
    shift = 1 if set(states.values()) - {1} and is_odd_phase(states) else 0
    left = min((x for x, _ in live), default=0) - shift
    top = min((y for _, y in live), default=0) - shift
    # Even corners stay even: the phase of the pattern is that of time 0.
    left, top = left - left % 2 - 2 + shift, top - top % 2 - 2 + shift
    width = max((x for x, _ in live), default=0) - left + 3
    height = max((y for _, y in live), default=0) - top + 3
    width, height = width + width % 2, height + height % 2
    if max(width, height) > SECOND_LIMITS.max_side:
        raise LabError(f"the pattern takes {width} by {height} cells with its margin; {SECOND_LIMITS.max_side} is the "
                       "most")
    balls = [f"ball {x - left} {y - top}" for x, y in sorted(live, key=row_order_key)]
    first = smallest_fitting_limits(max(width, height)).line_text
    return first + "\n".join([f"layout {width} {height} 0", *balls, "end"]) + "\n"
