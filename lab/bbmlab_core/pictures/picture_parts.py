"""Parts of pictures that a reader asks for: a part of the layout, ways of some wires among the others, and arrows."""

from dataclasses import dataclass
from typing import Iterable

from ..host.terminal import LabError
from ..texts.circuits import Circuit
from ..texts.layouts import Box
from .ways import Piece

# The name of the ways that are faint.
OTHER_WIRES_LABEL = "other wires"
# A piece with an arrow is at least so many times as long as the arrow, which is at this part of its length: of two ways
# on one line that go against each other each shows its own.
LEAST_ARROW_LENGTHS, ARROW_PLACE = 4, 0.6

Point = tuple[float, float]


@dataclass(frozen=True)
class PictureOptions:
    """What a reader asks for: a part of the layout, wires whose ways are brought out, one with all on which it depends,
    the least size of a ball."""

    crop: Box | None = None
    wires: tuple[str, ...] = ()
    cone: str | None = None
    has_arrows: bool = False
    least_ball_size: float = 0.0


def piece_within(piece: Piece, box: Box) -> Piece | None:
    """Returns what lies in a box of a piece, in its direction, or None."""
    (x, y), (u, v) = piece
    dx, dy = (u > x) - (u < x), (v > y) - (v < y)
    first, last = 0, max(abs(u - x), abs(v - y))
    for start, step, low, size in ((x, dx, box.x, box.width), (y, dy, box.y, box.height)):
        if step == 0:
            if not low <= start < low + size:
                return None
            continue
        near, far = sorted(((low - start) * step, (low + size - 1 - start) * step))
        first, last = max(first, near), min(last, far)
    return ((x + dx * first, y + dy * first), (x + dx * last, y + dy * last)) if first < last else None


def pieces_within(pieces: Iterable[Piece], box: Box) -> list[Piece]:
    """Returns what lies in a box of some pieces."""
    return [found for piece in pieces if (found := piece_within(piece, box))]


def chevrons(pieces: Iterable[Piece], size: float) -> list[list[Point]]:
    """Returns arrows of a size in cells, as three points each, on the pieces that are long enough."""
    found = []
    for (x, y), (u, v) in pieces:
        if max(abs(u - x), abs(v - y)) < LEAST_ARROW_LENGTHS * size:
            continue
        dx, dy = (u > x) - (u < x), (v > y) - (v < y)
        tip = x + 0.5 + ARROW_PLACE * (u - x), y + 0.5 + ARROW_PLACE * (v - y)
        # The arms of an arrow along a diagonal are level and upright; balls that meet move to the sides for one step
        # only.
        found.append([(tip[0] - dx * size, tip[1]), tip, (tip[0], tip[1] - dy * size)])
    return found


def cone_of(circuit: Circuit, name: str) -> list[str]:
    """Returns a wire and all wires on which it depends."""
    found, open_wires = {name: None}, [name]
    while open_wires:
        gate = circuit.maker.get(open_wires.pop())
        for wire in gate.ins if gate else []:
            if wire not in found:
                found[wire] = None
                open_wires.append(wire)
    return list(found)


def highlighted_wires(look: PictureOptions, circuit: Circuit | None, names: Iterable[str]) -> set[str]:
    """Returns the wires that are brought out. Raises LabError for a name that is no wire's."""
    known = {*names, *(circuit.inputs if circuit else []), *(circuit.maker if circuit else [])}
    for name in [*look.wires, *([look.cone] if look.cone else [])]:
        if name not in known:
            raise LabError(f"there is no wire `{name}`")
    return {*look.wires, *(cone_of(circuit, look.cone) if look.cone and circuit else [look.cone] if look.cone else [])}


def ways_with_others_grouped(ways: dict[str, list[Piece]], labels: dict[str, str],
                             wanted: set[str]) -> dict[str, list[Piece]]:
    """Returns the ways with all but those of some wires as one group.

    `labels` lists the equal wires, with commas between, of a way's own wire.
    """
    found: dict[str, list[Piece]] = {OTHER_WIRES_LABEL: []}
    for wire, pieces in ways.items():
        if wanted.isdisjoint(labels.get(wire, wire).split(", ")):
            found[OTHER_WIRES_LABEL].extend(pieces)
        else:
            found[wire] = pieces
    return found
