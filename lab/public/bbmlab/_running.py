"""Runs of a layout and of a module by itself, by the simulation of `bbmlab_core`."""

from __future__ import annotations

from typing import Iterable, Iterator, NamedTuple

from bbmlab_core.physics.simulation import ModuleRun, WholeRun, layout_run
from bbmlab_core.texts.layouts import Cell, Layout
from bbmlab_core.texts.sections import Bundle, section_text_with_limits

from ._reading import document_of


class State(NamedTuple):
    """The live cells at a time. `is_inside` is False if one of them is outside the rectangle, with which a run ends."""

    time: int
    cells: frozenset[Cell]
    is_inside: bool = True


def simulate(layout: Layout, inputs: Iterable[str] = (), steps: int | None = None) -> Iterator[State]:
    """Returns the states of the whole layout from time 0 on, with some inputs on.

    Raises RefusedError for a layout that is refused, and ValueError for another name than that of an `in` cell or
    negative steps.
    """
    model = document_of(section_text_with_limits(layout), "layout").layout
    assert model is not None
    on, last = set(inputs), layout.steps if steps is None else steps
    unknown = sorted(on - {port.name for port in layout.ins})
    if unknown:
        raise ValueError(f"no `in` cell has the name {unknown[0]}")
    if last < 0:
        raise ValueError(f"{last} steps are fewer than 0")
    return whole_run_states(layout_run(model, on), last)


def whole_run_states(run: WholeRun, last: int) -> Iterator[State]:
    """Yields the states of a whole run, up to the first one that is not inside the rectangle."""
    is_inside = True
    while True:
        yield State(run.time, frozenset(run.field.live_cells_under()), is_inside)
        if run.time == last or not is_inside:
            return
        is_inside = run.step()


def local_run(bundle: Bundle, module: int, assignment: int = 0) -> Iterator[State]:
    """Returns the states of a module by itself from time 0 to the last one, under an assignment: bit i of it is the
    value of cut i.

    Raises RefusedError for a bundle that is refused. Raises ValueError for a module that there is not, an assignment
    that has other cuts, and one under which a used gate has no row.
    """
    document = document_of(str(bundle), "check")
    circuit, layout, certificate = document.circuit, document.layout, document.certificate
    assert circuit and layout and certificate
    if not 0 <= module < len(certificate.modules):
        raise ValueError(f"there is no module {module}: they are 0 to {len(certificate.modules) - 1}")
    count = len(certificate.modules[module].cuts)
    if not 0 <= assignment < 1 << count:
        raise ValueError(f"module {module} has {count} cuts: assignments are 0 to {(1 << count) - 1}")
    run = ModuleRun(circuit, layout, certificate, certificate.modules[module])
    if not run.full >> assignment & 1:
        raise ValueError(f"a gate that module {module} uses has no row under the assignment {assignment}")
    run.restrict_assignments(1 << assignment)
    return module_states(run, assignment)


def module_states(run: ModuleRun, assignment: int) -> Iterator[State]:
    """Yields the states of a module's run."""
    while True:
        yield State(run.time, frozenset(run.field.live_cells_under(assignment)))
        if run.time == run.layout.steps:
            return
        run.step()
