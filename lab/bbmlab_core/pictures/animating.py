"""A picture in which the balls move: an SVG with SMIL, which browsers play without a script."""
from __future__ import annotations

from typing import Collection, Iterable, Iterator

from ..texts.layouts import Cell, Layout

# Pixels of a cell, seconds of a step, and steps of rest at the end of a run.
CELL_PX, STEP_SECONDS, REST_STEPS = 8, 0.07, 14
COLOURS = ("#1f77b4", "#e07b00", "#2ca02c", "#9467bd")
# The cell at the other end of the diagonal of a block, counted from its upper left cell.
OPPOSITE_CORNERS = {(0, 0): (1, 1), (1, 1): (0, 0), (0, 1): (1, 0), (1, 0): (0, 1)}


def cell_after_step(cell: Cell, live: Collection[Cell], time: int) -> Cell:
    """Returns where the content of a live cell is after a step. Of two on a diagonal each keeps its column."""
    odd = time % 2
    x, y = (cell[0] - odd) // 2 * 2 + odd, (cell[1] - odd) // 2 * 2 + odd
    place = (cell[0] - x, cell[1] - y)
    over = OPPOSITE_CORNERS[place]
    others = [(x + 1 - place[0], y + place[1]), (x + place[0], y + 1 - place[1])]
    if any(other in live for other in others):
        return cell
    if (x + over[0], y + over[1]) in live:
        return x + place[0], y + 1 - place[1]
    return x + over[0], y + over[1]


def layout_input_names(layout: Layout) -> list[str]:
    """Returns the names of the inputs that have cells, in the order of their lines."""
    return list(dict.fromkeys(part.name for part in layout.of_kind("in") if part.name))


def ball_paths(layout: Layout, on: Iterable[str]) -> list[tuple[int, list[Cell]]]:
    """Returns for each ball the number of its input, or -1, and its cell at each time."""
    numbers = {name: number for number, name in enumerate(layout_input_names(layout)) if name in set(on)}
    mirrors = layout.mirror_cells()
    starts = [(-1, part.cell) for part in layout.of_kind("ball")]
    starts += [(numbers[part.name], part.cell) for part in layout.of_kind("in") if part.name in numbers]
    found = [(number, [cell]) for number, cell in starts]
    for time in range(layout.steps):
        live = mirrors | {cells[-1] for _, cells in found}
        for _, cells in found:
            cells.append(cell_after_step(cells[-1], live, time))
    return found


def coordinate_keyframes(cells: list[Cell], axis: int, before: int, after: int) -> str:
    """Returns the values of an attribute at each step of all runs: outside of its own run a ball is out of sight."""
    own = [str(CELL_PX * cell[axis]) for cell in cells] + [str(CELL_PX * cells[-1][axis])] * REST_STEPS
    return ";".join(["-99"] * before + own + ["-99"] * after)


def ball_svg_lines(number: int, cells: list[Cell], before: int, after: int) -> Iterator[str]:
    """Yields the lines of a ball."""
    colour = COLOURS[number % len(COLOURS)] if number >= 0 else "#555555"
    seconds = STEP_SECONDS * (before + len(cells) + REST_STEPS + after)
    yield f'<rect x="-99" y="-99" width="{CELL_PX}" height="{CELL_PX}" rx="3" fill="{colour}">'
    for axis, name in enumerate("xy"):
        values = coordinate_keyframes(cells, axis, before, after)
        yield (f'<animate attributeName="{name}" dur="{seconds:.2f}s" repeatCount="indefinite" calcMode="discrete" '
               f'values="{values}"/>')
    yield "</rect>"


def caption_svg_lines(text: str, y: int, before: int, own: int, after: int) -> Iterator[str]:
    """Yields the lines of a caption that is seen during its own run."""
    seconds = STEP_SECONDS * (before + own + after)
    values = ";".join(["hidden"] * (before > 0) + ["visible"] + ["hidden"] * (after > 0))
    times = ";".join(f"{at / (before + own + after):.4f}" for at in ([0] if before else []) + [before]
                     + ([before + own] if after else []))
    yield (f'<text x="8" y="{y}" font-family="sans-serif" font-size="22" fill="#888888" '
           f'visibility="{"hidden" if before else "visible"}">{text}')
    yield (f'<animate attributeName="visibility" dur="{seconds:.2f}s" repeatCount="indefinite" calcMode="discrete" '
           f'keyTimes="{times}" values="{values}"/></text>')


def animation_svg(layout: Layout, runs: list[list[str]], title: str) -> str:
    """Returns an SVG that plays runs one after the other, each with these inputs on."""
    own = layout.steps + 1 + REST_STEPS
    width, height = CELL_PX * layout.width, CELL_PX * layout.height
    lines = [f'<svg xmlns="http://www.w3.org/2000/svg" viewBox="0 0 {width} {height + 32}" width="{width}" '
             f'height="{height + 32}">', f"<title>{title}</title>"]
    for part in layout.of_kind("mirror"):
        box = (f'x="{CELL_PX * part.x}" y="{CELL_PX * part.y}" '
               f'width="{CELL_PX * part.width}" height="{CELL_PX * part.height}"')
        lines.append(f'<rect {box} fill="#999999"/>')
    names = layout_input_names(layout)
    for number, on in enumerate(runs):
        before, after = own * number, own * (len(runs) - 1 - number)
        for which, cells in ball_paths(layout, on):
            lines += ball_svg_lines(which, cells, before, after)
        text = ", ".join(f"{name} = {int(name in on)}" for name in names)
        lines += caption_svg_lines(text, height + 24, before, own, after)
    return "\n".join([*lines, "</svg>"]) + "\n"
