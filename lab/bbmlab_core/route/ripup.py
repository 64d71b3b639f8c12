"""Rip-up and reroute: paths that are in the way of a gate are taken out, and led again round the gate.

Ends of such a path stay where they are, so all other gates and paths stay too.
"""

from dataclasses import replace
from itertools import chain
from typing import Callable, Iterable, Iterator

from ..texts.circuits import Gate
from .balls import Ball, BounceKind, Leg, ball_and_mirror_after_bounce
from .board import Board, WaitingBall
from .paths import Path
from .placement import GateSpot, Inlet, Placer
from .world import ROW_STRIDE, Footprint, cell_number, cell_of_number, gate_cell_footprint, path_footprint

# The steps ahead of a ball in which it should find places to turn, and the distance of the places that are looked at.
TURNING_STEPS_AHEAD = 70
STEPS_BETWEEN_TRIED_TURNS = 4
# The owner of what is not taken out, and the owners of a cell that nothing is on.
FIXED_OWNER = -1
NO_OWNERS: frozenset[int] = frozenset()


class PathRipper:
    """Makes way for gates on a board."""

    def __init__(self, board: Board, placer: Placer) -> None:
        self.board, self.placer = board, placer
        self.settings = board.settings

    def place_by_ripping(self, gate: Gate) -> bool:
        """Places a gate that found no place, by taking paths out and leading them again.

        If that fails the board is as before.
        """
        placer = self.placer
        reasons, blame = placer.reasons.copy(), placer.blame.copy()
        for paths, spots in self.rip_candidates(gate):
            if paths and self.place_without_paths(gate, paths, spots):
                return True
        placer.reasons, placer.blame = reasons, blame
        return False

    def rip_candidates(self, gate: Gate) -> Iterator[tuple[list[Path], list[GateSpot] | None]]:
        """Yields paths to take out, and the spots that they leave or None if any spot may be tried."""
        placer, waiting = self.placer, self.board.waiting
        blamed = [own.ball for root, _ in placer.blame.most_common(2) for own in [waiting.get(root)] if own
                  and own.ball]
        is_crowded = placer.reasons["no room"] > placer.reasons["tries"]
        for ball in blamed:
            found = self.paths_meeting(self.turning_footprint(ball))
            for count in self.settings.rip_counts:
                yield found[:count], None
        if is_crowded:
            yield from self.spots_on_paths(gate, placer.inlets_of_gate(gate))

    def paths_to_gates(self) -> list[Path]:
        """Returns the paths to gates."""
        return [path for step in self.board.steps for path in step.paths]

    def paths_meeting(self, place: Footprint) -> list[Path]:
        """Returns the paths that an item would meet in space, those that it meets most first."""
        found, touched = [], place.touched_cells
        for index, path in enumerate(self.paths_to_gates()):
            item = path.item
            meets = (len(item.touched_cells & place.mirrors) + 4 * len(touched & item.mirrors)
                     + len(place.mirrors & item.mirrors))
            if meets:
                found.append((-meets, index, path))
        return [path for _, _, path in sorted(found, key=lambda own: own[:2])]

    def turning_footprint(self, ball: Ball) -> Footprint:
        """Returns what a waiting ball's way ahead takes, with mirrors at many places of it."""
        room = min(TURNING_STEPS_AHEAD, self.board.world.steps_to_margin(ball))
        mirrors = [ball_and_mirror_after_bounce(ball.after_flight(steps), turn)[1]
                   for steps in range(2, max(3, room), STEPS_BETWEEN_TRIED_TURNS) for turn in BounceKind]
        way = path_footprint(ball, [Leg(max(0, room), None)])
        cells = {cell_number(cell) for mirror in mirrors for cell in mirror.cells()}
        return Footprint(frozenset(cells), way.touched_parts if way else ())

    def spots_on_paths(self, gate: Gate, inlets: list[Inlet]) -> Iterator[tuple[list[Path], list[GateSpot]]]:
        """Yields spots for a gate at which only paths are in the way, with these paths: the fewest first."""
        spots = list(self.placer.random_spots(gate, inlets, is_crowded=True))
        items = [gate_cell_footprint(spot.cell, spot.x, spot.y, spot.time) for spot in spots]
        paths, found = self.paths_to_gates(), []
        register = NearbyPaths(items, paths, self.fixed_footprints())
        for index, (spot, item) in enumerate(zip(spots, items)):
            met = register.path_numbers_met_by(item)
            if met is not None and len(met) <= self.settings.rip_counts[-1]:
                found.append((len(met) + spot.time / self.settings.delay_per_rip, index, spot,
                              [paths[number] for number in sorted(met)]))
        for _, _, spot, met_paths in sorted(found, key=lambda own: own[:2])[:self.settings.crowded_choices]:
            yield met_paths, [replace(spot, time=spot.time + 2 * more) for more in range(0, 24, 2)]

    def fixed_footprints(self) -> list[Footprint]:
        """Returns what is not taken out for a gate: gates, parked paths, and what is reserved for waiting balls."""
        steps = self.board.steps
        fixed = [own.gate.item for own in steps] + [path.item for own in steps for path in own.parking_paths]
        return fixed + [own.item for own in self.board.waiting.values() if own.item]

    def place_without_paths(self, gate: Gate, paths: list[Path], spots: list[GateSpot] | None) -> bool:
        """Places a gate while some paths are out, and leads them again; returns whether that was possible."""
        board = self.board
        for path in paths:
            board.remove_path(path)
        step = self.placer.find_placement(gate, spots)
        if step is not None:
            board.add_placement(step)
            again = self.lead_paths_again(list(step.outs.values()), paths)
            if again is not None:
                self.replace_step_paths(again)
                return True
            board.take_last_gate_back()
        for path in paths:
            board.add_path(path)
        return False

    def lead_by_ripping(self, ball: Ball, lead: Callable[[], Path | None]) -> Path | None:
        """Returns a path that was led and added while paths to gates on the way of its ball were out, which are led
        again; or None.

        `lead` leads and adds the path. If that or the leading again fails, the board is as before.
        """
        found = self.paths_meeting(self.turning_footprint(ball))
        for count in self.settings.rip_counts if found else ():
            paths = found[:count]
            for path in paths:
                self.board.remove_path(path)
            new = lead()
            again = self.lead_paths_again([], paths) if new else None
            if again is not None:
                self.replace_step_paths(again)
                return new
            if new:
                self.board.remove_path(new)
            for path in paths:
                self.board.add_path(path)
        return None

    def lead_paths_again(self, outs: list[WaitingBall], paths: Iterable[Path]) -> dict[Path, Path] | None:
        """Adds paths from and to the same balls as some that were taken out, or None if this is not possible.

        `outs` can still turn then.
        """
        board, placer = self.board, self.placer
        placer.finder.known_departures.clear()
        again: dict[Path, Path] = {}
        for path in sorted(paths, key=lambda own: (not board.world.can_add(own.item), own.end.time - own.start.time)):
            new = self.find_path_again(path)
            if new is None:
                break
            board.add_path(new)
            again[path] = new
        places = [(mirror.x, mirror.y) for path, new in again.items() if new is not path for mirror in new.mirrors()]
        if len(again) == len(list(paths)) and placer.can_others_turn(places) and all(placer.can_turn(own)
                                                                                     for own in outs):
            return again
        for new in again.values():
            board.remove_path(new)
        return None

    def find_path_again(self, path: Path) -> Path | None:
        """Returns a path between the ends of another one: this path if it, and the boxes' wires, have room."""
        board, finder = self.board, self.placer.finder
        if board.world.can_add(path.item) and board.has_wire_room_for(path.wire, path.item.tiles):
            return path
        for _ in range(self.settings.end_tries):
            new = finder.path_from_anywhere(path.wire, path.end) if self.may_begin_anywhere(path) else \
                finder.find_path(path.wire, path.start, path.end, self.settings.path_tries)
            if new and board.has_wire_room_for(new.wire, new.item.tiles):
                return new
        return None

    def may_begin_anywhere(self, path: Path) -> bool:
        """Whether a path may begin anywhere."""
        owner = next(step for step in self.board.steps if path in step.paths)
        return owner.waiting_before[path.wire].ball is None

    def replace_step_paths(self, again: dict[Path, Path]) -> None:
        """Gives the steps their new paths. Steps that an earlier board has stay as they are."""
        steps = self.board.steps
        for index, step in enumerate(steps):
            if any(path in again for path in step.paths):
                steps[index] = replace(step, paths=[again.get(path, path) for path in step.paths])


class NearbyPaths:
    """Which paths have cells near some items, and which cells near them are fixed."""

    def __init__(self, items: list[Footprint], paths: list[Path], fixed: list[Footprint]) -> None:
        cells = [cell_of_number(number) for item in items for number in (*item.mirrors, *chain(*item.touched_parts))]
        columns, rows = [x for x, _ in cells] or [0], [y for _, y in cells] or [0]
        self.left, self.right, self.top, self.bottom = min(columns), max(columns), min(rows), max(rows)
        # For touched cells and for those of mirrors the numbers of the paths that have them; FIXED stands for all that
        # is fixed.
        self.touched: dict[int, set[int]] = {}
        self.mirrors: dict[int, set[int]] = {}
        for number, item in [*((FIXED_OWNER, item) for item in fixed),
                             *((number, path.item) for number, path in enumerate(paths))]:
            self.note_owner(self.touched, chain(*item.touched_parts), number)
            self.note_owner(self.mirrors, item.mirrors, number)

    def note_owner(self, owners: dict[int, set[int]], cells: Iterable[int], owner: int) -> None:
        """Notes the owner of those of some cells that are near."""
        first, last = self.top * ROW_STRIDE, (self.bottom + 1) * ROW_STRIDE
        for cell in cells:
            if first <= cell < last and self.left <= cell & ROW_STRIDE - 1 <= self.right:
                owners.setdefault(cell, set()).add(owner)

    def path_numbers_met_by(self, item: Footprint) -> set[int] | None:
        """Returns the paths that an item meets in space, at whatever times; None if it meets something fixed."""
        met: set[int] = set()
        for cell in item.mirrors:
            met |= self.touched.get(cell, NO_OWNERS) | self.mirrors.get(cell, NO_OWNERS)
        for cell in chain(*item.touched_parts):
            met |= self.mirrors.get(cell, NO_OWNERS)
        return None if FIXED_OWNER in met else met
