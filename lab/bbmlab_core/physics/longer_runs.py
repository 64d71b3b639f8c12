"""What the balls of a machine do in a longer run: how much earlier they can start, and for how long they fly on after
the last time.

A lone live cell flies to larger x if x + t is even, and else to smaller x; y likewise (Margolus 1984, block rule).
These are runs of the lab under all inputs at once, and nothing here is proved.
"""

from ..texts.circuits import Circuit, evaluate_all
from ..texts.layouts import Cell, Layout
from .simulation import LiveCells, TruthTable, cell_of, key_of, required_end_tables, start_tables


def flown_cell(cell: Cell, time: int, steps: int) -> Cell:
    """Returns where a lone cell of a time is some steps later, or earlier if `steps` is negative."""
    x, y = cell
    return x + (-steps if (x + time) % 2 else steps), y + (-steps if (y + time) % 2 else steps)


def undisturbed_steps(mirrors: set[Cell], live: dict[Cell, TruthTable], time: int, full: TruthTable, sign: int,
                      tried: int) -> int | None:
    """Returns for how many steps from a time each live cell flies straight on and each mirror stays, or None for all
    that are tried.

    With the sign -1 the run goes backwards.
    """
    balls = [(cell, table) for cell, table in live.items() if cell not in mirrors and table]
    # A field's coordinates are at least -2, and a move by even numbers keeps the blocks.
    room = tried + tried % 2
    still = {key_of((x + room, y + room)): full for x, y in mirrors}
    field = LiveCells(still | {key_of((x + room, y + room)): table for (x, y), table in balls})
    # A step backwards turns the blocks of the step before, whose time has the parity of the next one.
    field.time = time if sign > 0 else time + 1
    for steps in range(1, tried + 1):
        field.step()
        wanted = dict(still)
        for cell, table in balls:
            x, y = flown_cell(cell, time, sign * steps)
            key = key_of((x + room, y + room))
            if wanted.get(key, 0) & table:
                return steps - 1
            wanted[key] = wanted.get(key, 0) | table
        if field.live != wanted:
            return steps - 1
    return None


def free_steps_before_and_after(circuit: Circuit, layout: Layout) -> tuple[int | None, int | None]:
    """Returns by how many steps all balls can start earlier, and for how many steps they fly on after the last time;
    None is any number.

    Balls that fly straight on for as many steps as the longer side meet neither each other nor a mirror after that. The
    layout's own run has to end as it asks.
    """
    values = evaluate_all(circuit)
    mirrors, tried = set(layout.mirror_cells()), max(layout.width, layout.height)
    field = LiveCells(start_tables(layout, values.tables, values.full))
    start = {cell_of(key): table for key, table in field.live.items()}
    before = undisturbed_steps(mirrors, start, 0, values.full, -1, tried)
    while field.time < layout.steps:
        field.step()
    end = {cell_of(key): table for key, table in field.live.items()}
    wanted = required_end_tables(layout, values.tables, values.full)
    if any(wanted.get(cell, 0) not in (None, table) for cell, table in end.items()):
        raise ValueError("the layout does not end as it asks")
    return before, undisturbed_steps(mirrors, end, layout.steps, values.full, 1, tried)
