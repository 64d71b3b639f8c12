"""The ways of the balls of a layout over all times, as straight pieces.

A run of a large layout makes millions of moves, and most of them are of a ball that flies by itself. Such a ball costs
nothing until it can meet something (`flights`). All other blocks follow the block rule in full (Margolus 1984).
"""

from typing import Iterable, Iterator

from ..physics.simulation import DIAGONAL_STRIDE, ROW_STRIDE, TruthTable, cell_of, key_of
from ..texts.layouts import Box, Cell, Layout
from .flights import (BACK_FALLING, BACK_RISING, DIRECTION_BY_PARITIES, DIRECTION_OFFSETS, FALLING, RISING, ROW_SHIFT,
                      SIDE_OFFSETS, Flights, MirrorBlocks, is_ball_proof, mirror_cell_numbers)

# A straight piece of a way: its first and its last cell.
Piece = tuple[Cell, Cell]
# A piece that is not complete: its first cell, its table, and when it begins.
OpenPiece = tuple[int, TruthTable, int]
DIRECTION_BY_OFFSET = {step: number for number, step in enumerate(DIRECTION_OFFSETS)}


def block_moves(before: dict[int, TruthTable], corner: int) -> list[tuple[int, int, TruthTable]]:
    """Returns the moves in a block: from where, to where, and under which assignments. A collision goes by the sides.
    """
    a, b, c, d = corner, corner + 1, corner + ROW_STRIDE, corner + DIAGONAL_STRIDE
    live = {key: before.get(key, 0) for key in (a, b, c, d)}
    moves = []
    for one, two, other in ((a, d, live[b] | live[c]), (b, c, live[a] | live[d])):
        moves += [(one, two, live[one] & ~live[two] & ~other), (two, one, live[two] & ~live[one] & ~other)]
    both, crossed = live[a] & live[d] & ~(live[b] | live[c]), live[b] & live[c] & ~(live[a] | live[d])
    moves += [(a, b, both), (d, c, both), (b, a, crossed), (c, d, crossed)]
    return [move for move in moves if move[2]]


class WayRun:
    """A run of a layout that notes each move of a ball, joined to the move before it in its direction."""

    def __init__(self, layout: Layout, tables: dict[str, TruthTable], full: TruthTable) -> None:
        # Cells of mirrors that never changed.
        self.steady = mirror_cell_numbers(layout)
        # Whether no mirror ever changes.
        self.is_ball_proof = is_ball_proof(self.steady)
        balls = dict.fromkeys([key_of(part.cell) for part in layout.of_kind("ball")], full)
        ins = {key_of(part.cell): table for part in layout.of_kind("in") if (table := tables.get(part.name or "", 0))}
        # What does not fly.
        self.live = dict.fromkeys(self.steady, full) | balls | ins
        # The cells whose blocks the next step looks at: moving ones, and ones that were left in the last two steps, if
        # a mirror can change once they are gone.
        self.moving: list[int] = [key for key in self.live if not self.is_ball_proof or key not in self.steady]
        self.left: tuple[list[int], list[int]] = ([] if self.is_ball_proof else list(self.moving), [])
        self.outside = {key_of(cell) for cell in Box(0, 0, layout.width, layout.height).halo()}
        self.flights = Flights(MirrorBlocks(layout, self.steady))
        # The pieces of balls that fly, by their numbers, and cells that they left since the last step.
        self.flown: dict[int, OpenPiece] = {}
        self.vacated: list[int] = []
        self.time = self.move_count = 0
        # By the number of its last cell and its direction, a piece that may go on; and pieces that ended.
        self.open: dict[int, OpenPiece] = {}
        self.ended: list[tuple[int, int, TruthTable, int]] = []

    def run_steps(self, count: int) -> bool:
        """Makes steps up to a number of them, and returns whether everything stays in the rectangle."""
        until, is_inside, flights = self.time + count, True, self.flights
        while self.time < until and is_inside:
            self.start_free_flights(until)
            is_inside = self.step()
            # A ball that landed before its time may fly again, and lands now once more.
            self.moving += [self.land(number) for number in flights.due.pop(self.time, ()) if number in self.flown]
        self.moving += [self.land(number) for number in list(self.flown)]
        flights.due.clear()
        return is_inside

    def start_free_flights(self, until: int) -> None:
        """Lets balls fly that can, at most until a time."""
        live, flights, time, odd, stay = self.live, self.flights, self.time, self.time & 1, list[int]()
        for key in self.moving:
            direction = DIRECTION_BY_PARITIES[key & 1 ^ odd][key >> ROW_SHIFT & 1 ^ odd]
            one, other = SIDE_OFFSETS[direction]
            is_free = not (key + DIRECTION_OFFSETS[direction] in live or key + one in live or key + other in live)
            number = flights.take_off(key, direction, time, until) if is_free else None
            if number is None:
                stay.append(key)
                continue
            self.flown[number] = self.take_open_piece(key, direction, live.pop(key), time)
            if not self.is_ball_proof:
                self.vacated.append(key)
        self.moving = stay

    def land(self, number: int) -> int:
        """Puts a ball back that flew, and returns its cell."""
        key, steps = self.flights.land(number, self.time)
        begun = self.flown.pop(number)
        self.live[key] = begun[1]
        self.move_count += steps
        self.note_open_piece(key * 8 + (number & 3), begun)
        return key

    def step(self) -> bool:
        """Makes a step of what does not fly, and returns whether everything stays in the rectangle."""
        get, flown, moving, left = self.live.get, self.flown, list[int](), self.vacated
        # The corner of a cell's block, as `block_of` has it: a call for each cell would take a third of the time.
        odd = DIAGONAL_STRIDE if self.time & 1 else 0
        a_number, d_number, b_number, c_number = self.flights.ball_number_offsets(self.time)
        for corner in {(key - odd & ~DIAGONAL_STRIDE) + odd for keys in (self.moving, *self.left) for key in keys}:
            first = corner * 4
            if (first + a_number in flown or first + b_number in flown or first + c_number in flown
                    or first + d_number in flown):
                for offset in self.flights.ball_number_offsets(self.time):
                    if corner * 4 + offset in flown:
                        self.land(corner * 4 + offset)
            a, d = get(corner, 0), get(corner + DIAGONAL_STRIDE, 0)
            b, c = get(corner + 1, 0), get(corner + ROW_STRIDE, 0)
            if (b or c) and (a or d or b and c) or a and d:
                self.apply_block_rule(corner, (a, b, c, d), moving, left)
            elif b:
                self.move_lone_cell(corner + 1, corner + ROW_STRIDE, RISING, left)
                moving.append(corner + ROW_STRIDE)
            elif c:
                self.move_lone_cell(corner + ROW_STRIDE, corner + 1, BACK_RISING, left)
                moving.append(corner + 1)
            elif a:
                self.move_lone_cell(corner, corner + DIAGONAL_STRIDE, FALLING, left)
                moving.append(corner + DIAGONAL_STRIDE)
            elif d:
                self.move_lone_cell(corner + DIAGONAL_STRIDE, corner, BACK_FALLING, left)
                moving.append(corner)
        self.moving, self.left, self.vacated, self.time = moving, (left, self.left[0]), [], self.time + 1
        return self.outside.isdisjoint(moving)

    def move_lone_cell(self, start: int, end: int, direction: int, left: list[int]) -> None:
        """Moves the only live cell of a block."""
        table = self.live[end] = self.live.pop(start)
        if not self.is_ball_proof:
            left.append(start)
            self.steady.discard(start)
        self.note_move(start, end, direction, table, self.time)

    def apply_block_rule(self, corner: int, before: tuple[TruthTable, TruthTable, TruthTable, TruthTable],
                         moving: list[int], left: list[int]) -> None:
        """Applies the block rule to a block with more than one live cell."""
        keys, live, steady = (corner, corner + 1, corner + ROW_STRIDE, corner + DIAGONAL_STRIDE), self.live, self.steady
        a, b, c, d = before
        one, other = a | d, b | c
        both, both_other = a & d & ~other, b & c & ~one
        flip, flip_other = one & ~other | both_other, other & ~one | both
        if flip or flip_other:
            for start, end, table in block_moves(dict(zip(keys, before)), corner):
                self.note_move(start, end, DIRECTION_BY_OFFSET[end - start], table, self.time)
            for key, old, change in zip(keys, before, (flip, flip_other, flip_other, flip)):
                if change:
                    if not self.is_ball_proof:
                        steady.discard(key)
                        left.append(key)
                    live[key] = old ^ change
                    if not live[key]:
                        del live[key]
        moving += [key for key in keys if key in live and key not in steady]

    def note_move(self, start: int, end: int, direction: int, table: TruthTable, time: int) -> None:
        """Notes moves in a direction that begin at a time."""
        begun = self.take_open_piece(start, direction, table, time)
        self.move_count += 1
        self.note_open_piece(end * 8 + direction, begun)

    def take_open_piece(self, start: int, direction: int, table: TruthTable, time: int) -> OpenPiece:
        """Returns the piece that a move from a cell goes on with: the one that comes there just then, or a new one."""
        piece = self.open.pop(start * 8 + direction, None)
        if piece is None:
            return start, table, time
        if piece[1] == table and piece[2] + (start - piece[0]) // DIRECTION_OFFSETS[direction] == time:
            return piece
        self.ended.append((piece[0], start, piece[1], piece[2]))
        return start, table, time

    def note_open_piece(self, number: int, begun: OpenPiece) -> None:
        """Notes the last cell and the direction of a piece that may go on."""
        old = self.open.get(number)
        if old is not None:
            self.ended.append((old[0], number >> 3, old[1], old[2]))
        self.open[number] = begun

    def pieces(self) -> Iterator[tuple[int, int, TruthTable, int]]:
        """Returns all pieces: the first and the last cell, under which assignments a ball takes them, and when.

        They end in the rectangle.
        """
        for number, (start, table, time) in self.open.items():
            end, direction = divmod(number, 8)
            yield start, end - DIRECTION_OFFSETS[direction] if end in self.outside else end, table, time
        yield from self.ended


def joined_pieces(pieces: Iterable[Piece]) -> list[Piece]:
    """Joins pieces of one line that meet or share cells.

    Each goes from its left end to its right end, and they are in order.
    """
    lines: dict[tuple[int, int], list[tuple[int, int]]] = {}
    for one, two in pieces:
        (x, y), (u, v) = (one, two) if one < two else (two, one)
        slope = (v > y) - (v < y)
        lines.setdefault((slope, y - slope * x), []).append((x, u))
    joined: list[Piece] = []
    for (slope, offset), spans in lines.items():
        spans.sort()
        first, last = spans[0]
        for start, end in [*spans[1:], (1 << 30, 1 << 30)]:
            if start > last:
                joined.append(((first, slope * first + offset), (last, slope * last + offset)))
                first, last = start, end
            last = max(last, end)
    return sorted(joined)


def pieces_by_table(layout: Layout, tables: dict[str, TruthTable], full: TruthTable,
                    until: int) -> dict[TruthTable, list[Piece]]:
    """Returns the pieces of the ways of balls up to a time, as they fly, by the assignments under which a ball takes
    them."""
    run = WayRun(layout, tables, full)
    run.run_steps(until)
    found: dict[TruthTable, list[Piece]] = {}
    for start, end, table, _ in run.pieces():
        found.setdefault(table, []).append((cell_of(start), cell_of(end)))
    return dict(sorted(found.items()))


def ways_by_table(layout: Layout, tables: dict[str, TruthTable], full: TruthTable,
                  until: int) -> dict[TruthTable, list[Piece]]:
    """Returns the pieces of the ways of balls up to a time by the assignments under which a ball takes them.

    Each goes from its left end to its right end. Pieces of one line may share cells.
    """
    return {table: [(one, two) if one < two else (two, one) for one, two in pieces]
            for table, pieces in pieces_by_table(layout, tables, full, until).items()}


def directed_ways(layout: Layout, tables: dict[str, TruthTable], full: TruthTable,
                  until: int) -> dict[TruthTable, list[Piece]]:
    """Returns the same ways with their directions, joined: each piece goes as its ball flies."""
    found = {}
    for table, pieces in pieces_by_table(layout, tables, full, until).items():
        on = joined_pieces(piece for piece in pieces if piece[0] < piece[1])
        found[table] = on + [(last, first) for first,
                             last in joined_pieces(piece for piece in pieces if piece[0] >= piece[1])]
    return found
