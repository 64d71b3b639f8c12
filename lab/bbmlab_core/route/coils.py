"""Coils: boxes in which a ball waits for long, bouncing from wall to wall, each bounce as late as possible.

A coil of w columns takes a ball for w * w - 14 * w + 15 steps, in about 1.3 cells a step, where a ball that wanders
takes 2.6. Its lead comes in 8 columns from one edge and 5 rows from the other one. The ball does not leave again: it is
there at the end, or begins there.
"""

import math
from dataclasses import dataclass
from typing import Iterator

from ..texts.layouts import Box
from .balls import BOUNCE_STEPS, Ball, BounceKind, Leg, ball_and_mirror_after_bounce

# Where the lead of a ball is in its coil: so many cells from the edges behind it.
COIL_ENTRY_OFFSET = (8, 5)
# The least columns of a coil.
LEAST_COIL_WIDTH = 18


@dataclass(frozen=True)
class Coil:
    """A box for a ball that comes in at a place. A bounce keeps its mirror inside the box."""

    entry: Ball
    box: Box

    def legs(self, steps: int) -> Iterator[Leg]:
        """Yields the legs of some steps from the entry on."""
        ball, left, begun = self.entry, steps, 0
        while True:
            x, y, dx, dy, _ = ball
            across = self.box.x + self.box.width - 3 - x if dx > 0 else x - 2 - self.box.x
            down = self.box.y + self.box.height - 3 - y if dy > 0 else y - 2 - self.box.y
            own, turn = (across, BounceKind.UPRIGHT) if across <= down else (down, BounceKind.FLAT)
            if own < begun or own + BOUNCE_STEPS > left:
                yield Leg(left, None)
                return
            yield Leg(own, turn)
            ball, left, begun = ball_and_mirror_after_bounce(ball.after_flight(own), turn)[0], left - own, BOUNCE_STEPS


def least_coil_width(steps: int) -> int:
    """Returns the columns of the least coil for some steps."""
    return max(LEAST_COIL_WIDTH, 7 + math.isqrt(max(0, steps + 33)) + 1)


def coils_entered_by(ball: Ball, width: int) -> Iterator[Coil]:
    """Yields the two coils of some columns or rows of a ball that is at their entry."""
    for (right, down), (columns, rows) in ((COIL_ENTRY_OFFSET, (width, width + 1)),
                                           (COIL_ENTRY_OFFSET[::-1], (width + 1, width))):
        x = ball.x - right if ball.dx > 0 else ball.x + right - columns + 1
        y = ball.y - down if ball.dy > 0 else ball.y + down - rows + 1
        yield Coil(ball, Box(x, y, columns, rows))
