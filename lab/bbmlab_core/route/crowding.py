"""A map of how crowded the plane of a search was: for each tile, how many of its cells paths and gates take.

It shows where room is lacking: at the gates, between them, or at the border, where balls wait for the last time.
"""

from dataclasses import dataclass
from html import escape
from typing import Iterator

from ..texts.circuits import Circuit
from .board import Board, TileBox
from .world import TILE_SIDE, RoutingGrid

# Colours from empty to full tiles: class k is up to k / 7 of the cells.
TILE_CLASS_COLOURS = ("#ffffff", "#e5f0f8", "#c3dcee", "#92c0e0", "#5a9fcf", "#2f7ab5", "#175a93", "#08306b")
# A picture has at most so many pixels a side, beside its margin and its lines of text.
MAX_SIDE_PIXELS = 1024
MARGIN, LINE_PX = 12, 18
# A line of a width in pixels, whatever the scale.
STEADY_STROKE = 'vector-effect="non-scaling-stroke"'
# How many cells of a byte of bits are taken.
BIT_COUNTS = bytes(number.bit_count() for number in range(256))


@dataclass(frozen=True)
class PlacedGateBox:
    """The box of a gate that was placed, in tiles, with its number."""

    number: int
    box: TileBox


@dataclass(frozen=True)
class Crowding:
    """The plane of an attempt when it ended: its width, how many cells of each tile are taken, row by row, and the
    gates on it."""

    plane_width: int
    halved_counts: tuple[bytes, ...]
    gates: tuple[PlacedGateBox, ...]

    @property
    def plane_height(self) -> int:
        """The height of the plane."""
        return TILE_SIDE * len(self.halved_counts)

    @property
    def taken_share(self) -> float:
        """The part of all cells that is taken."""
        return 2 * sum(sum(row) for row in self.halved_counts) / (self.plane_width * self.plane_height)


def halved_taken_counts(world: RoutingGrid) -> Iterator[bytes]:
    """Yields, for each row of tiles, half of how many cells of each tile are taken: a tile has up to 256, and a byte
    holds 128."""
    tiles = world.size // TILE_SIDE
    for first in range(0, world.height // TILE_SIDE * TILE_SIDE, TILE_SIDE):
        counts = [0] * tiles
        for row in world.blocked[first:first + TILE_SIDE]:
            parts = (row & (1 << tiles * TILE_SIDE) - 1).to_bytes(2 * tiles, "little").translate(BIT_COUNTS)
            counts = [count + left + right for count, left, right in zip(counts, parts[::2], parts[1::2])]
        yield bytes(count // 2 for count in counts)


def crowding_of(board: Board) -> Crowding:
    """Returns how crowded a board is."""
    gates = tuple(PlacedGateBox(step.gate.number, step.gate.box) for step in board.steps)
    return Crowding(board.world.size, tuple(halved_taken_counts(board.world)), gates)


def tile_class(half: int) -> int:
    """Returns the class of a tile by half of how many of its cells are taken: 0 is empty, the last one full."""
    last = len(TILE_CLASS_COLOURS) - 1
    return -(-half * last * 2 // TILE_SIDE ** 2)


def tile_class_runs(row: bytes) -> Iterator[tuple[int, int, int]]:
    """Yields the runs of tiles of one class in a row: class, first column and how many."""
    first = 0
    for column in range(1, len(row) + 1):
        if column == len(row) or tile_class(row[column]) != tile_class(row[first]):
            yield tile_class(row[first]), first, column - first
            first = column


def tile_class_path_elements(crowding: Crowding) -> Iterator[str]:
    """Yields one path for each class but the empty one, in tiles."""
    moves: list[list[str]] = [[] for _ in TILE_CLASS_COLOURS]
    for line, row in enumerate(crowding.halved_counts):
        for kind, first, count in tile_class_runs(row):
            moves[kind].append(f"M{first} {line}h{count}v1h-{count}z")
    for kind, colour in enumerate(TILE_CLASS_COLOURS[1:], 1):
        if moves[kind]:
            yield f'<path fill="{colour}" d="{"".join(moves[kind])}"/>'


def gate_frame_elements(crowding: Crowding, circuit: Circuit) -> Iterator[str]:
    """Yields a frame for each gate that was placed, which names it under the pointer."""
    for placed in crowding.gates:
        left, top, width, height = placed.box
        gate = circuit.gates[placed.number]
        name = escape(f"gate {placed.number}: {gate.kind} {' '.join(gate.ins)} -> {' '.join(gate.outs)}")
        yield (f'<rect x="{left}" y="{top}" width="{width}" height="{height}" {STEADY_STROKE}>'
               f"<title>{name}</title></rect>")


def legend_elements(top: int) -> Iterator[str]:
    """Yields the colours with what they mean."""
    for kind, colour in enumerate(TILE_CLASS_COLOURS):
        yield f'<rect x="{MARGIN + 24 * kind}" y="{top}" width="24" height="12" fill="{colour}" stroke="#888"/>'
    yield (f'<text x="{MARGIN + 24 * len(TILE_CLASS_COLOURS) + 8}" y="{top + 11}">cells taken of each {TILE_SIDE} by '
           f'{TILE_SIDE}: none to all; frames are gates</text>')


def crowding_picture(crowding: Crowding, circuit: Circuit, title: str) -> str:
    """Returns the map as a picture (SVG), with a title of one or more lines."""
    tiles, rows = max(1, crowding.plane_width // TILE_SIDE), max(1, len(crowding.halved_counts))
    scale = max(1, MAX_SIDE_PIXELS // max(tiles, rows))
    size, bottom, lines = scale * tiles, scale * rows, title.split("\n")
    top = 2 * MARGIN + LINE_PX * len(lines)
    width, height = max(size, 560) + 2 * MARGIN, top + bottom + 3 * MARGIN
    drawn = [f'<svg xmlns="http://www.w3.org/2000/svg" width="{width}" height="{height}" viewBox="0 0 {width} '
             f'{height}" '
             'font-family="sans-serif" font-size="13">', f'<rect width="{width}" height="{height}" fill="#fff"/>']
    drawn += [f'<text x="{MARGIN}" y="{MARGIN + LINE_PX * (at + 1) - 6}">{escape(line)}</text>' for at,
              line in enumerate(lines)]
    drawn += [f'<g transform="translate({MARGIN} {top}) scale({scale})">', *tile_class_path_elements(crowding),
              '<g fill="transparent" stroke="#d1495b" stroke-width="2">', *gate_frame_elements(crowding, circuit),
              "</g>",
              f'<rect width="{tiles}" height="{rows}" fill="none" stroke="#444" stroke-width="2" {STEADY_STROKE}/>',
              "</g>", *legend_elements(top + bottom + MARGIN), "</svg>"]
    return "\n".join(drawn) + "\n"
