"""Where a layout is likely wrong: the run from the start and the run backwards from the wanted end are compared.

Each step of the automaton is its own inverse (Margolus 1984), so the wanted end leads back to a start. If one mirror is
missing or wrong, the two runs agree nearly everywhere at the time at which a ball should be at that mirror.
"""

from ..physics.simulation import LiveCells, TruthTable, cell_of, key_of, required_end_tables, start_tables
from ..texts.circuits import WireTables
from ..texts.layouts import Cell, Layout

# The most cells that are kept over all times, and how many places are enough.
MAX_KEPT_CELLS = 2_000_000
MAX_PLACES = 24

LiveTables = dict[int, TruthTable]


def wanted_end_tables(layout: Layout, values: WireTables, last: LiveTables | None) -> LiveTables:
    """Returns the end that the layout asks for; waste cells are as the run left them."""
    wanted = required_end_tables(layout, values.tables, values.full)
    return {key_of(cell): (last or {}).get(key_of(cell), 0) if table is None else table for cell,
            table in wanted.items()}


def start_of_wanted_end(layout: Layout, values: WireTables, last: LiveTables | None) -> LiveTables:
    """Returns the start that leads to the end that the layout asks for."""
    field = LiveCells(wanted_end_tables(layout, values, last))
    for time in range(layout.steps - 1, -1, -1):
        field.time = time
        field.step()
    return field.live


def states_without_still_mirrors(layout: Layout, values: WireTables) -> list[LiveTables] | None:
    """Returns the live cells at each time, without mirror cells that never change.

    A ball that leaves the rectangle flies on.
    """
    field, touched = LiveCells(start_tables(layout, values.tables, values.full)), set()
    while field.time < layout.steps:
        field.step()
        touched |= field.changed
    still = {key_of(cell) for cell in layout.mirror_cells()} - touched
    field, states, kept = LiveCells(start_tables(layout, values.tables, values.full)), [], 0
    while True:
        states.append({key: table for key, table in field.live.items() if key not in still})
        kept += len(states[-1])
        if kept > MAX_KEPT_CELLS:
            return None
        if field.time == layout.steps:
            return states
        field.step()


def cells_where_runs_differ_least(layout: Layout, values: WireTables) -> list[Cell]:
    """Returns the cells by which the two runs differ at the times, and under the inputs, at which they differ the
    least.

    A choice of inputs under which they differ the least for a short time comes first: a difference that stays is of a
    ball elsewhere.
    """
    states = states_without_still_mirrors(layout, values)
    if states is None:
        return []
    field = LiveCells(wanted_end_tables(layout, values, states[-1]))
    mirrors = {key_of(cell) for cell in layout.mirror_cells()}
    least: dict[int, list[list[int]]] = {}
    for time in range(layout.steps, -1, -1):
        for column, keys in differing_cells_by_choice(states[time], field.live, mirrors).items():
            if column not in least or len(keys) < len(least[column][0]):
                least[column] = [keys]
            elif len(keys) == len(least[column][0]):
                least[column].append(keys)
        if time:
            field.time = time - 1
            field.step()
    places: list[Cell] = []
    for rows in sorted(least.values(), key=lambda rows: (len(rows), len(rows[0]))):
        places += [cell_of(key) for keys in rows for key in keys if layout.has(cell_of(key))]
        if len(set(places)) >= MAX_PLACES:
            break
    return list(dict.fromkeys(places))[:2 * MAX_PLACES]


def differing_cells_by_choice(one: LiveTables, two: LiveTables, mirrors: set[int]) -> dict[int, list[int]]:
    """Returns the cells in which two states differ, by the choice of the inputs; mirror cells that do not move are left
    out."""
    columns: dict[int, list[int]] = {}
    for key in one.keys() | two.keys():
        table = 0 if key in mirrors and key not in one else one.get(key, 0) ^ two.get(key, 0)
        while table:
            low = table & -table
            columns.setdefault(low.bit_length() - 1, []).append(key)
            table ^= low
    return columns
