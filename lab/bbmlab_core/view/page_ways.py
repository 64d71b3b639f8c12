"""The ways of the balls for the viewer's page: straight pieces with their times, by wires, and how far each wire is
from the inputs.
"""

from typing import Any

from ..physics.simulation import TruthTable, cell_of
from ..pictures.drawing import sampling_note, wire_tables_and_column
from ..pictures.ways import WayRun
from ..texts.circuits import Circuit
from ..texts.documents import Document

# A run with more moves has no ways on the page, which would be too large.
MAX_RUN_MOVES = 3_000_000
# After so many steps the moves are counted.
STEPS_BETWEEN_COUNTS = 256
# In place of the table of assignments that are no wire's.
NO_WIRE = -1


def wire_levels(circuit: Circuit) -> dict[str, int]:
    """Returns how many gates lie between the inputs and each wire, at most. Sources and delays do not count."""
    levels = dict.fromkeys(circuit.inputs, 0)
    for gate in circuit.gates:
        level = max((levels.get(wire, 0) for wire in gate.ins), default=0) + (gate.kind not in ("source", "delay"))
        levels.update((wire, level) for wire in gate.outs)
    return levels


def way_run_within_limit(document: Document, tables: dict[str, TruthTable], full: TruthTable) -> WayRun | None:
    """Returns the run of a layout to its end, or None if it has too many moves."""
    layout = document.layout
    assert layout
    run = WayRun(layout, tables, full)
    while run.time < layout.steps and run.run_steps(min(STEPS_BETWEEN_COUNTS, layout.steps - run.time)):
        if run.move_count > MAX_RUN_MOVES:
            return None
    return run


def page_ways(document: Document) -> dict[str, Any] | None:
    """Returns the ways for the page, or None if there are too many moves.

    Each wire has its pieces as numbers, five for each: x and y of the first cell and of the last one, and the time at
    the first. The name is "1" for a constant, and empty for assignments that are no wire's. `equal` lists the wires
    that are equal to it.
    """
    tables, full, _ = wire_tables_and_column(document, [])
    run = way_run_within_limit(document, tables, full)
    if run is None:
        return None
    equal: dict[TruthTable, list[str]] = {}
    for name, table in tables.items():
        equal.setdefault(table, []).append(name)
    names = equal | {full: ["1", *equal.get(full, [])]}
    found: dict[TruthTable, list[int]] = {}
    for start, end, table, time in run.pieces():
        if start != end:
            found.setdefault(table if table in names else NO_WIRE, []).extend((*cell_of(start), *cell_of(end), time))
    levels = wire_levels(document.circuit) if document.circuit else {}
    order = {table: number for number, table in enumerate(names)}
    return {"sampled": sampling_note(document).strip(),
            "wires": [{"name": names[table][0] if table in names else "", "equal": names.get(table, [""])[1:],
                       "level": levels.get(names.get(table, [""])[0], 0),
                       "pieces": found[table]} for table in sorted(found, key=lambda table: order.get(table, -1))]}
