"""The blocks at times that balls of a join claim, as straight flights: a leg of a path is two of them.

In a set of numbers each block at a time takes about 90 bytes, and here a whole flight takes about 300. A part with
745,361 blocks at times has 13,790 flights.

Along a flight in a direction (dx, dy) two numbers do not change: `x - dx * time`, its column, and `y - dy * time`, its
row. Another flight that moves the same way in x shares a block with it only if both have one column, and one that moves
the same way in y only if both have one row. If it moves the other way in both, the two flights are on one diagonal. So
`FlightClaims` compares a flight with a few others. Two flights share at most one block, unless they have one direction.
"""

from typing import Collection, Container, Iterable, Iterator, NamedTuple

from ..route.world import ROW_STRIDE, ROW_BITS, STEP_STRIDE

# The directions of flights by the difference of the numbers of two blocks that follow one another.
DIRECTION_BY_NUMBER_STEP = {STEP_STRIDE + dy * ROW_STRIDE + dx: (dx, dy) for dx in (1, -1) for dy in (1, -1)}
# Any direction, for a single block.
SINGLE_BLOCK_STEP = next(iter(DIRECTION_BY_NUMBER_STEP))


class Flight(NamedTuple):
    """A straight flight from a time to the one before `end`: its direction, and what stays as it is along it."""

    direction: tuple[int, int]
    column_at_time_0: int
    row_at_time_0: int
    first: int
    end: int

    @property
    def diagonal(self) -> int:
        """Returns the number of its diagonal, falling or rising."""
        dx, dy = self.direction
        return self.column_at_time_0 - self.row_at_time_0 if dx == dy else self.column_at_time_0 + self.row_at_time_0


def flight_of_range(blocks: range) -> Flight:
    """Returns the flight of blocks that follow one another by a step of `DIRECTION_BY_NUMBER_STEP`."""
    number, (dx, dy) = blocks.start, DIRECTION_BY_NUMBER_STEP[blocks.step]
    time = number // STEP_STRIDE
    return Flight((dx, dy), (number & ROW_STRIDE - 1) - dx * time, (number >> ROW_BITS & ROW_STRIDE - 1) - dy * time,
                  time, time + len(blocks))


def flights_of_blocks(part: Iterable[int]) -> Iterator[Flight]:
    """Yields flights with the blocks of a part: one if it is a range of such blocks, else one for each block."""
    if isinstance(part, range) and part.step in DIRECTION_BY_NUMBER_STEP:
        yield flight_of_range(part)
    else:
        yield from (flight_of_range(range(number, number + 1, SINGLE_BLOCK_STEP)) for number in part)


def pop_flight_ranges(claims: set[int]) -> Iterator[range]:
    """Yields flights that together have some blocks at times, each once. The set is empty afterwards."""
    for number in sorted(claims):
        if number in claims:
            flight = max((longest_claimed_range(number, step, claims) for step in DIRECTION_BY_NUMBER_STEP), key=len)
            claims.difference_update(flight)
            yield flight


def longest_claimed_range(number: int, step: int, claims: Container[int]) -> range:
    """Returns the longest flight from a block on by a step whose blocks are all claimed."""
    end = number + step
    while end in claims:
        end += step
    return range(number, end, step)


def ranges_without_claims(flight: range, claims: Collection[int]) -> Iterator[range]:
    """Yields what is left of a flight without some blocks at times."""
    first = flight.start
    for number in filter(claims.__contains__, flight):
        if first < number:
            yield range(first, number, flight.step)
        first = number + flight.step
    if first < flight.stop:
        yield range(first, flight.stop, flight.step)


# A number of a flight that stays along it, its first time and its end.
FlightEntry = tuple[int, int, int]


class FlightTable:
    """The flights in one direction, by each of three numbers that stay along them. Each entry has another such number.
    """

    def __init__(self) -> None:
        self.by_column: dict[int, list[FlightEntry]] = {}
        self.by_row: dict[int, list[FlightEntry]] = {}
        self.by_diagonal: dict[int, list[FlightEntry]] = {}

    def filing_places(self, flight: Flight) -> Iterator[tuple[dict[int, list[FlightEntry]], int, FlightEntry]]:
        """Yields where a flight is filed: a dictionary, the key there and the entry."""
        _, column, row, first, end = flight
        own = column, first, end
        yield self.by_column, column, (row, first, end)
        yield self.by_row, row, own
        yield self.by_diagonal, flight.diagonal, own

    def add(self, flight: Flight) -> None:
        """Adds a flight."""
        for table, key, entry in self.filing_places(flight):
            table.setdefault(key, []).append(entry)

    def remove(self, flight: Flight) -> None:
        """Removes a flight that was added."""
        for table, key, entry in self.filing_places(flight):
            table[key].remove(entry)
            if not table[key]:
                del table[key]


class FlightClaims:
    """Blocks at times that are claimed, as flights. What is added is taken away by the same parts."""

    def __init__(self) -> None:
        self.tables = {direction: FlightTable() for direction in DIRECTION_BY_NUMBER_STEP.values()}
        self.count = 0

    def __len__(self) -> int:
        """Returns the number of flights."""
        return self.count

    def update(self, *parts: Iterable[int]) -> None:
        """Adds the blocks of parts."""
        for flight in (flight for part in parts for flight in flights_of_blocks(part)):
            self.tables[flight.direction].add(flight)
            self.count += 1

    def difference_update(self, *parts: Iterable[int]) -> None:
        """Takes the blocks of parts away that were added."""
        for flight in (flight for part in parts for flight in flights_of_blocks(part)):
            self.tables[flight.direction].remove(flight)
            self.count -= 1

    def isdisjoint(self, part: Iterable[int], /) -> bool:
        """Whether no block of a part is claimed."""
        return not any(map(self.is_flight_claimed, flights_of_blocks(part)))

    def is_flight_claimed(self, flight: Flight) -> bool:
        """Whether a block of a flight is claimed."""
        (dx, dy), column, row, first, end = flight
        tables = self.tables
        for own, begin, stop in tables[dx, dy].by_column.get(column, ()):
            if own == row and begin < end and first < stop:
                return True
        # The times of two flights at one place: where they were at time 0, and they come closer by two cells a step.
        for own, begin, stop in tables[dx, -dy].by_column.get(column, ()):
            time = (own - row) * dy // 2
            if first <= time < end and begin <= time < stop:
                return True
        for table in (tables[-dx, dy].by_row.get(row, ()), tables[-dx, -dy].by_diagonal.get(flight.diagonal, ())):
            for own, begin, stop in table:
                time = (own - column) * dx // 2
                if first <= time < end and begin <= time < stop:
                    return True
        return False
