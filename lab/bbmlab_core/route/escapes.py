"""Ways of waiting balls to free ground: to coils in which they stay up to the last time, or to open ground.

A ball that wanders takes 2.6 cells a step and meets what is around it. One in a coil takes 1.3, and a best-first search
finds ways out that a wandering ball does not find.
"""

from itertools import islice

from .balls import Ball, follow_legs
from .board import Board
from .coil_ways import OPEN_SQUARE_SIDE, CoilGround, CoiledPath, CoilSearch
from .paths import Path
from .placement import Placer

# A ball with fewer steps up to the last time goes to no coil.
LEAST_COIL_STEPS = 400
# The bounces that a search tries at most: 96 of 104 balls came to a coil with so many, and a search in vain takes six
# times as long with 2,000.
MAX_TRIED_BOUNCES = 300
# The ways of one search that are tried. More of them enclose the same ball.
MAX_TRIED_WAYS = 8
# A ball comes to open ground in so many steps.
MAX_STEPS_TO_OPEN_GROUND = 4000


class EscapeWiring:
    """Leads waiting balls to free ground."""

    def __init__(self, board: Board, placer: Placer) -> None:
        self.board, self.placer = board, placer

    def add_path_to_coil(self, root: str, ball: Ball, end: int) -> Path | None:
        """Adds a path to a coil in which a ball stays up to the last time, and returns it."""
        if end - ball.time < LEAST_COIL_STEPS:
            return None
        for coil, legs in islice(self.make_coil_search(root, ball, end).coils_with_legs(), MAX_TRIED_WAYS):
            path = self.placer.finder.path_of_legs(root, ball, follow_legs(ball, legs)[0], legs)
            if path is not None:
                coiled = CoiledPath(root, ball, path.end, path.legs, path.item, coil.box)
                if self.try_add_path(coiled, waits=False):
                    return coiled
        return None

    def add_path_to_open_ground(self, root: str, ball: Ball) -> Path | None:
        """Adds a path to a place where a ball can wait with free cells around it, and returns it."""
        search = self.make_coil_search(root, ball, ball.time + MAX_STEPS_TO_OPEN_GROUND, OPEN_SQUARE_SIDE)
        for legs in islice(search.ways_to_free_squares(), MAX_TRIED_WAYS):
            path = self.placer.finder.path_of_legs(root, ball, follow_legs(ball, legs)[0], legs)
            if path is not None and self.try_add_path(path, waits=True):
                return path
        return None

    def make_coil_search(self, root: str, ball: Ball, end: int, width: int | None = None) -> CoilSearch:
        """Returns a search for ways of a ball to free squares: those in which it can stay up to a time, or those of a
        width."""
        board = self.board
        ground = CoilGround(board.world, [])
        ground.set_coils(path.box for path in board.ends if isinstance(path, CoiledPath))
        search = CoilSearch(self.placer.finder, ground, ball, end, False,
                            lambda item: board.has_wire_room_for(root, item.tiles), width)
        search.most_bounces = MAX_TRIED_BOUNCES
        return search

    def try_add_path(self, path: Path, waits: bool) -> bool:
        """Adds a path that encloses no other ball and for whose wire the boxes have room; returns whether it is so. If
        its ball waits at its end, it needs room there."""
        board = self.board
        if not board.has_wire_room_for(path.wire, path.item.tiles):
            return False
        board.add_path(path)
        if ((not waits or board.new_waiting_ball(path.end) is not None)
                and self.placer.can_others_turn([(mirror.x, mirror.y) for mirror in path.mirrors()])):
            return True
        board.remove_path(path)
        self.placer.note_stuck_ball()
        return False
