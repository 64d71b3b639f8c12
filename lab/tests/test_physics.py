"""The tables of docs/PHYSICS.md, and the one of mirrors in docs/FORMATS.md: each row is run in the lab's simulation,
which shares no code with the algebra of balls."""

import re
import unittest
from typing import Iterable

import support
from bbmlab_core.physics.simulation import WholeRun
from bbmlab_core.texts.layouts import Box, Cell, Layout

PAGE = (support.TOP / "docs" / "PHYSICS.md").read_text(encoding="utf-8")
FORMATS = (support.TOP / "docs" / "FORMATS.md").read_text(encoding="utf-8")
ORIGIN = 100
SIDE = 256
DIRECTIONS = {"right and down": (1, 1), "left and down": (-1, 1), "right and up": (1, -1), "left and up": (-1, -1)}
PAIR = re.compile(r"\((\w)( [+-] \d+)?, (\w)( [+-] \d+)?\)")
Mirror = tuple[int, int, int, int]


def table(head: str, page: str = PAGE) -> list[list[str]]:
    """Returns the rows of the table of a page whose first column has this head."""
    lines = page.splitlines()
    first = next(number for number, line in enumerate(lines) if line.startswith(f"| {head} |"))
    rows = []
    for line in lines[first + 2:]:
        if not line.startswith("|"):
            break
        rows.append([cell.strip() for cell in line.strip("|").split("|")])
    return rows


def shift(words: str) -> tuple[int, int]:
    """Returns what is added to x and to y in words such as `(x - 2, y + 1)`."""
    found = PAIR.search(words)
    assert found, words
    across, down = (int((part or "0").replace(" ", "")) for part in (found[2], found[4]))
    return across, down


def ball(lead: Cell, way: tuple[int, int]) -> list[Cell]:
    """Returns the two cells of a ball: the lead, and the tail two columns and two rows behind."""
    return [lead, (lead[0] - 2 * way[0], lead[1] - 2 * way[1])]


def run(balls: Iterable[Cell], mirrors: Iterable[Mirror], steps: int) -> set[Cell]:
    """Returns the live cells that are no mirror's after some steps from time 0.

    Raises AssertionError if a mirror changes.
    """
    solid = {(u, v) for x, y, width, height in mirrors for u in range(x, x + width) for v in range(y, y + height)}
    layout = Layout(2 * SIDE, 2 * SIDE, steps, tuple(Box(*cell, 1, 1) for cell in solid), tuple(balls))
    whole = WholeRun(layout, {}, 1)
    assert whole.run_to(steps)
    state = whole.field.live_cells_under()
    assert solid <= state, "a mirror changed"
    return state - solid


def moved(cells: Iterable[Cell], way: tuple[int, int], steps: int) -> set[Cell]:
    """Returns the cells after a straight flight."""
    return {(x + steps * way[0], y + steps * way[1]) for x, y in cells}


def start_of(way: tuple[int, int], x: int = ORIGIN, y: int = ORIGIN) -> Cell:
    """Returns the place near (x, y), both even, at which a lead has to be at time 0 to fly in a direction."""
    return x + (way[0] < 0), y + (way[1] < 0)


def is_broken(cells: set[Cell], steps: int) -> bool:
    """Whether the four cells of two balls, or the two of one, are no longer balls: some cell has no partner two apart
    in its direction."""
    def partners(cell: Cell) -> list[Cell]:
        """Returns the cells two apart in the direction of a cell, if they are live."""
        (x, y), way = cell, [1 if (value + steps) % 2 == 0 else -1 for value in cell]
        return [other for other in ((x + 2 * way[0], y + 2 * way[1]), (x - 2 * way[0], y - 2 * way[1]))
                if other in cells]
    return any(not partners(cell) for cell in cells)


class OneBall(unittest.TestCase):
    """Flight and mirrors."""

    def test_directions(self) -> None:
        """A ball with these parities flies in this direction, at even and at odd times."""
        rows = table("x + t")
        self.assertEqual(len(rows), 4)
        for across, down, direction, tail in rows:
            for late in (0, 1):
                # At time `late` the lead is at (x, y) with the parities of the row.
                x, y = (ORIGIN + (late + (word == "odd")) % 2 for word in (across, down))
                cells, way = [(x, y), (x + shift(tail)[0], y + shift(tail)[1])], DIRECTIONS[direction]
                before = moved(cells, way, -late)
                with self.subTest(direction, late=late):
                    self.assertEqual(run(before, [], late + 9), moved(cells, way, 9))

    def test_mirrors_turn(self) -> None:
        """A mirror at the place of the table turns the ball, which then flies as if from the place that the page says.
        """
        rows = table("direction")
        self.assertEqual(len(rows), 4)
        page = " ".join(PAGE.split())
        self.assertIn("flat mirror dy has the other sign. The ball is where it would be if it had started from (x - 2 "
                      "dx, y + dy) at time t", page)
        self.assertIn("upright mirror dx has the other sign. The ball is where it would be if it had started from (x + "
                      "dx, y - 2 dy) at time t", page)
        for direction, flat, upright in rows:
            dx, dy = way = DIRECTIONS[direction]
            for steps in (20, 21):
                lead = start_of(way)
                x, y = lead[0] + steps * dx, lead[1] + steps * dy
                ends = {flat: (4, 2, (x - 2 * dx, y + dy), (dx, -dy)), upright: (2, 4, (x + dx, y - 2 * dy), (-dx, dy))}
                for words, (width, height, place, after) in ends.items():
                    corner = x + shift(words)[0], y + shift(words)[1]
                    for more in (3, 10):
                        with self.subTest(direction, mirror=words, steps=steps, more=more):
                            cells = run(ball(lead, way), [(*corner, width, height)], steps + more)
                            self.assertEqual(cells, moved(ball(place, after), after, more))

    def test_mirrors_turn_the_next_ball(self) -> None:
        """A mirror turns two balls on one track if the second is at least six columns behind, and not if it is four."""
        self.assertIn("It turns the next ball on the same track at six or more columns behind, and not at four.", PAGE)
        for direction, flat, upright in table("direction"):
            dx, dy = way = DIRECTIONS[direction]
            first = start_of(way)
            x, y = first[0] + 20 * dx, first[1] + 20 * dy
            ends = {flat: (4, 2, (x - 2 * dx, y + dy), (dx, -dy)), upright: (2, 4, (x + dx, y - 2 * dy), (-dx, dy))}
            for words, (width, height, place, after) in ends.items():
                mirror = x + shift(words)[0], y + shift(words)[1], width, height
                for gap in (4, 6, 8, 10, 12, 14):
                    second = first[0] - gap * dx, first[1] - gap * dy
                    with self.subTest(direction, mirror=words, gap=gap):
                        cells = run([*ball(first, way), *ball(second, way)], [mirror], 40)
                        turned = moved(ball(place, after), after, 20) | moved(ball(place, after), after, 20 - gap)
                        self.assertEqual(cells == turned, gap > 4)

    def test_mirrors_turn_at_both_sides(self) -> None:
        """A mirror turns balls at two opposite sides at once, and neither changes the path of the other."""
        self.assertIn("Two balls may also turn at opposite sides of one mirror at once: neither changes the path of "
                      "the other.", " ".join(PAGE.split()))
        rows = {DIRECTIONS[direction]: corners for direction, *corners in table("direction")}
        for column, (width, height) in enumerate(((4, 2), (2, 4))):
            for first, second in ((one, other) for one in rows for other in rows if one[1 - column] == 1 and
                                  other[1 - column] == -1):
                for lag in range(-12, 13, 2):
                    x, y = start_of(first)
                    across, down = shift(rows[first][column])
                    corner = x + across, y + down
                    balls: list[Cell] = []
                    after: set[Cell] = set()
                    for way, late in ((first, 0), (second, lag)):
                        # At time 20 + late the lead is where the table wants it for this mirror.
                        (dx, dy), (across, down) = way, shift(rows[way][column])
                        x, y = corner[0] - across, corner[1] - down
                        place, out = (((x - 2 * dx, y + dy), (dx, -dy)), ((x + dx, y - 2 * dy), (-dx, dy)))[column]
                        balls += ball((x - (20 + late) * dx, y - (20 + late) * dy), way)
                        after |= moved(ball(place, out), out, 40 - late)
                    with self.subTest(first=first, second=second, width=width, lag=lag):
                        self.assertEqual(run(balls, [(*corner, width, height)], 60), after)

    def test_short_mirrors(self) -> None:
        """The mirror with these columns has this result."""
        rows = table("columns of the mirror")
        self.assertEqual(len(rows), 7)
        for columns, result in rows:
            first, last = map(int, columns.split(" to "))
            cells = run(ball((ORIGIN, ORIGIN), (1, 1)), [(ORIGIN + first, ORIGIN + 21, last - first + 1, 2)], 40)
            turned = moved(ball((ORIGIN + 18, ORIGIN + 21), (1, -1)), (1, -1), 20)
            with self.subTest(columns):
                self.check(result, cells, turned, moved(ball((ORIGIN, ORIGIN), (1, 1)), (1, 1), 40), 40)

    def check(self, result: str, cells: set[Cell], turned: set[Cell], passed: set[Cell], steps: int) -> None:
        """Compares the end of a run with a word of the page."""
        if result == "separates":
            self.assertTrue(is_broken(cells, steps))
        else:
            self.assertEqual(cells, {"turns": turned, "passes": passed}[result])

    def test_two_turns(self) -> None:
        """A second mirror some steps after the first has this result."""
        rows = table("steps between")
        self.assertEqual(len(rows), 4)
        for steps, other, same in rows:
            for is_flat, result in ((False, other), (True, same)):
                first, last = 20, 60
                x, y, more = ORIGIN + first - 2, ORIGIN + first + 1, int(steps)
                x, y = x + more, y - more
                # The ball flies right and up now, and turns again here.
                second = (x - 2, y - 2, 4, 2) if is_flat else (x + 1, y - 1, 2, 4)
                place, way = ((x - 2, y - 1), (1, 1)) if is_flat else ((x + 1, y + 2), (-1, -1))
                cells = run(ball((ORIGIN, ORIGIN), (1, 1)), [(ORIGIN + first - 2, ORIGIN + first + 1, 4, 2), second],
                            last)
                turned = moved(ball(place, way), way, last - first - more)
                with self.subTest(steps=steps, is_flat=is_flat):
                    self.check(result, cells, turned, set(), last)

    def test_two_steps_lead_back(self) -> None:
        """A flat and an upright mirror two steps apart lead the ball back on its own track."""
        first = 20
        x, y = ORIGIN + first, ORIGIN + first - 1
        cells = run(ball((ORIGIN, ORIGIN), (1, 1)),
                    [(ORIGIN + first - 2, ORIGIN + first + 1, 4, 2), (x + 1, y - 1, 2, 4)], 60)
        self.assertEqual(len(cells), 2)
        self.assertEqual({u - v for u, v in cells}, {0})


class TwoBalls(unittest.TestCase):
    """Collisions of balls of two cells, and balls of one cell."""

    def test_right_angles(self) -> None:
        """Two balls at a right angle with this lag have this result, for each pair of directions and either order."""
        rows = table("lag")
        self.assertEqual([row[0] for row in rows], ["0", "2", "4", "6", "8"])
        pairs = [((1, 1), (1, -1)), ((-1, 1), (-1, -1)), ((1, 1), (-1, 1)), ((1, -1), (-1, -1))]
        for word, result in rows:
            for first, second in pairs:
                for lag in (int(word), -int(word)):
                    with self.subTest(lag=lag, first=first, second=second):
                        self.check_right_angle(result, first, second, lag)

    def check_right_angle(self, result: str, first: tuple[int, int], second: tuple[int, int], lag: int) -> None:
        """Runs two balls that would be at one crossing after 20 steps, the second `lag` columns or rows behind."""
        steps, axis = 60, 0 if first[0] == second[0] else 1
        balls = []
        for way, back in ((first, 0), (second, lag)):
            x, y = start_of(way)
            lead = [x - 20 * way[0], y - 20 * way[1]]
            lead[axis] -= back * way[axis]
            balls.append(ball((lead[0], lead[1]), way))
        cells, free = run(balls[0] + balls[1], [], steps), [moved(cells, way, steps) for cells,
                                                            way in zip(balls, (first, second))]
        late = {(x - 2 * first[0], y) if axis == 0 else (x, y - 2 * first[1]) for x, y in free[0] | free[1]}
        if result == "separate":
            self.assertTrue(is_broken(cells, steps))
        else:
            self.assertEqual(cells, {"collide": late, "pass": free[0] | free[1]}[result])

    def test_opposite_directions(self) -> None:
        """Two balls that fly in opposite directions, with tracks at this distance, have this result."""
        rows = table("distance of the tracks, in columns")
        self.assertEqual(len(rows), 4)
        for word, result in rows:
            for distance in (int(word), -int(word)):
                for gap in (25, 26):
                    steps, near = 60, (ORIGIN, ORIGIN)
                    far = ORIGIN + 2 * gap + 1 + distance, ORIGIN + 2 * gap + 1
                    cells = run(ball(near, (1, 1)) + ball(far, (-1, -1)), [], steps)
                    free = moved(ball(near, (1, 1)), (1, 1), steps), moved(ball(far, (-1, -1)), (-1, -1), steps)
                    # At right angles each ball keeps one coordinate of each.
                    (right, low), (left, high) = max(free[0]), min(free[1])
                    across = {*ball((right, high), (1, -1)), *ball((left, low), (-1, 1))}
                    with self.subTest(distance=distance, gap=gap):
                        self.assertEqual(cells, {"pass": free[0] | free[1], "leave at right angles": across}[result])

    def test_one_direction(self) -> None:
        """Two balls that fly in one direction never meet, at any distance up to ten cells."""
        for x in range(-10, 11, 2):
            for y in range(-10, 11, 2):
                cells = {*ball((ORIGIN, ORIGIN), (1, 1)), *ball((ORIGIN + x, ORIGIN + y), (1, 1))}
                with self.subTest(x=x, y=y):
                    self.assertEqual(run(cells, [], 30), moved(cells, (1, 1), 30))

    def test_mirrors(self) -> None:
        """A ball of one cell comes back on its own track from either mirror."""
        rows = dict(table("it meets"))
        mirrors = {"a flat mirror": (ORIGIN + 18, ORIGIN + 21, 6, 2),
                   "an upright mirror": (ORIGIN + 21, ORIGIN + 18, 2, 6)}
        for what, mirror in mirrors.items():
            cells = run([(ORIGIN, ORIGIN)], [mirror], 60)
            with self.subTest(what):
                self.assertEqual(rows[what], "comes back on its own track")
                self.assertEqual(len(cells), 1)
                self.assertTrue(all(x == y and x < ORIGIN for x, y in cells), cells)

    def test_formats(self) -> None:
        """A ball flies in the direction of the row of FORMATS.md, and each of its mirrors sends it back after a step of
        rest."""
        rows = table("x + t", FORMATS)
        self.assertEqual(len(rows), 4)
        self.assertIn("The ball waits one step, and then flies back on its track.", " ".join(FORMATS.split()))
        for across, down, direction, *corners in rows:
            way = DIRECTIONS[direction]
            self.assertEqual(len(corners), 2)
            for steps in (20, 21):
                # At time `steps` the ball is at (x, y) with the parities of the row.
                x, y = (ORIGIN + (steps + (word == "odd")) % 2 for word in (across, down))
                start = moved([(x, y)], way, -steps)
                for words in corners:
                    mirror = (x + shift(words)[0], y + shift(words)[1], 2, 2)
                    with self.subTest(direction, mirror=words, steps=steps):
                        for later, place in ((0, 0), (1, 0), (2, -1), (9, -8)):
                            self.assertEqual(run(start, [mirror], steps + later), moved([(x, y)], way, place))

    def test_meetings(self) -> None:
        """A ball of one cell that meets another one has the result that the page says."""
        rows = dict(table("it meets"))
        self.assertEqual(len(rows), 5)
        # In the step from time 10 the two are in one block and stay, so 49 of 60 steps lead back.
        back = {(ORIGIN - 39, ORIGIN - 39), (ORIGIN - 39, ORIGIN + 60)}
        passed = {(ORIGIN + 60, ORIGIN + 60), (ORIGIN + 62, ORIGIN - 39)}
        across = {(ORIGIN + 60, ORIGIN - 39), (ORIGIN - 39, ORIGIN + 60)}
        for what, other, result, cells in (
                ("one cell at a right angle, lag 0", (0, 21), "both come back on their own tracks", back),
                ("one cell at a right angle, lag 2", (2, 21), "pass", passed),
                ("one cell head-on, on one track", (21, 21), "leave at right angles", across)):
            with self.subTest(what):
                self.assertEqual(rows[what], result)
                self.assertEqual(run([(ORIGIN, ORIGIN), (ORIGIN + other[0], ORIGIN + other[1])], [], 60), cells)
