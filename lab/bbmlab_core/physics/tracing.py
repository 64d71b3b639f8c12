"""`bbmlab trace`: the live cells at each time, of a whole layout or of a module by itself."""

import json
from dataclasses import dataclass, field
from typing import Any

from ..host.terminal import LabError
from ..texts.cell_pictures import text_picture
from ..texts.documents import Document
from ..texts.layouts import Cell, Layout, row_order_key
from ..texts.reports import RUN_ANSWER_PATTERN, ReportError
from .simulation import ModuleRun, TruthTable, cell_of, key_of, layout_run


@dataclass(frozen=True)
class DifferenceFromMirrors:
    """How a state differs from the mirrors: other cells that are live, mirror cells that are dead, and what is heard
    from outside.

    Of a large layout most live cells are mirrors that stay, so all of them at each time would take gigabytes.
    """

    live_other_cells: set[Cell]
    dead_mirror_cells: set[Cell]
    heard: set[Cell] = field(default_factory=set)


@dataclass
class Trace:
    """The states from a time on. `leaving_step` is the step that leaves the rectangle, if there is one.

    `mirrors` are those of the box.
    """

    title: str
    box: tuple[int, int, int, int]
    first: int
    mirrors: set[Cell]
    moments: list[DifferenceFromMirrors] = field(default_factory=list)
    leaving_step: int | None = None
    last_state: set[Cell] | None = None

    def live_cells_of(self, moment: DifferenceFromMirrors) -> set[Cell]:
        """Returns the live cells of a state."""
        return (self.mirrors - moment.dead_mirror_cells) | moment.live_other_cells

    @property
    def states(self) -> list[set[Cell]]:
        """The live cells at each time."""
        return [self.live_cells_of(moment) for moment in self.moments]


class MirrorWatch:
    """Follows which mirror cells are dead and which other cells are live, by the changes of each step."""

    def __init__(self, live: dict[int, TruthTable], mirrors: set[Cell]) -> None:
        self.live, self.mirrors = live, {key_of(cell) for cell in mirrors}
        self.balls = live.keys() - self.mirrors
        self.gone = self.mirrors - live.keys()

    def note_changes(self, changed: set[int]) -> None:
        """Takes the cells that changed in a step."""
        for key in changed:
            differing = self.gone if key in self.mirrors else self.balls
            if (key in self.live) != (key in self.mirrors):
                differing.add(key)
            else:
                differing.discard(key)

    def difference_from_mirrors(self) -> DifferenceFromMirrors:
        """Returns the present state."""
        return DifferenceFromMirrors({cell_of(key) for key in self.balls}, {cell_of(key) for key in self.gone})


def input_names(layout: Layout) -> list[str]:
    """Returns the names of `in` cells, each once."""
    return list(dict.fromkeys(port.name for port in layout.ins))


def chosen_inputs(document: Document, words: str | None) -> list[str]:
    """Returns the inputs that are on: those of the option, else those of the assign section."""
    layout = document.layout
    if layout is None:
        raise LabError("the text has no layout")
    if words is None:
        return list(document.on or [])
    names = [word for word in words.replace(",", " ").split() if word]
    unknown = [name for name in names if name not in input_names(layout)]
    if unknown:
        raise LabError(f"no `in` line has the name {unknown[0]}; the names are "
                       f"{', '.join(input_names(layout)) or 'none'}", 2)
    return list(dict.fromkeys(names))


def trace_layout(layout: Layout, on: list[str], first: int, last: int, is_whole: bool = True) -> Trace:
    """Returns the states of the whole layout from one time to another.

    Unless `is_whole`, the run ends at the last of these times.
    """
    run = layout_run(layout, on)
    trace = Trace(f"with {' '.join(on) or 'no input'} on", (0, 0, layout.width, layout.height), first,
                  layout.mirror_cells())
    watch = MirrorWatch(run.field.live, trace.mirrors)
    for time in range((layout.steps if is_whole else min(last, layout.steps)) + 1):
        if time:
            watch.note_changes(run.field.changed)
        if first <= time <= last:
            trace.moments.append(watch.difference_from_mirrors())
        if time == layout.steps:
            trace.last_state = run.field.live_cells_under()
        elif (is_whole or time < last) and not run.step():
            trace.leaving_step = run.time
            break
    return trace


def state_at(layout: Layout, on: list[str], time: int) -> set[Cell]:
    """Returns the live cells of a layout at a time."""
    trace = trace_layout(layout, on, time, time, False)
    if not trace.moments:
        raise LabError(f"there is no time {time}: the run ends at "
                       f"{layout.steps if trace.leaving_step is None else trace.leaving_step - 1}", 2)
    return trace.live_cells_of(trace.moments[0])


def trace_module(document: Document, number: int, assignment: int, first: int, last: int) -> Trace:
    """Returns the states of a module by itself."""
    certificate, layout, circuit = document.certificate, document.layout, document.circuit
    if certificate is None or layout is None or circuit is None:
        raise LabError("--module needs a bundle: a circuit, a layout and a certificate")
    if not 0 <= number < len(certificate.modules):
        raise LabError(f"there is no module {number}: they are 0 to {len(certificate.modules) - 1}", 2)
    module = certificate.modules[number]
    if not 0 <= assignment < 1 << len(module.cuts):
        raise LabError(f"module {number} has {len(module.cuts)} cuts: assignments are 0 to "
                       f"{(1 << len(module.cuts)) - 1}", 2)
    run, box = ModuleRun(circuit, layout, certificate, module), module.box
    values = " ".join(f"{name}={value}" for name, value in module.cut_values(assignment).items()) or "no cuts"
    mirrors = {cell for cell in layout.clipped(box).mirror_cells() if box.has(cell)}
    trace = Trace(f"module {number} by itself with {values}", (box.x, box.y, box.width, box.height), first, mirrors)
    for time in range(min(last, layout.steps) + 1):
        if time >= first:
            state = run.field.live_cells_under(assignment)
            said = run.halos.tables_at(time) if time % 2 and time < layout.steps else {}
            heard = {cell_of(key) for key, table in said.items() if table >> assignment & 1}
            trace.moments.append(DifferenceFromMirrors(state - mirrors, mirrors - state, heard))
        if time < layout.steps:
            run.step()
    return trace


def sorted_cells(cells: set[Cell]) -> list[list[int]]:
    """Returns cells in order of y and then x."""
    return [list(cell) for cell in sorted(cells, key=row_order_key)]


def trace_json_text(trace: Trace, mirrors: set[Cell]) -> str:
    """Writes a trace as one JSON document."""
    document: dict[str, Any] = {"format": "bbmlab trace 1", "title": trace.title, "box": list(trace.box),
                                "left": trace.leaving_step, "mirrors": sorted_cells(mirrors)}
    states = (json.dumps({"time": time, "live": sorted_cells(trace.live_cells_of(moment)),
                          "heard": sorted_cells(moment.heard)})
              for time, moment in enumerate(trace.moments, trace.first))
    return f'{json.dumps(document)[:-1]}, "states": [{", ".join(states)}]}}\n'


def trace_text(trace: Trace, mirrors: set[Cell], pictures: bool) -> str:
    """Writes a trace: a line for each time with the live cells that are no mirror's, or pictures."""
    lines = [f"# {trace.title}"]
    for time, moment in enumerate(trace.moments, trace.first):
        shown = " ".join(f"{x},{y}" for x, y in sorted(moment.live_other_cells, key=row_order_key)) or "none"
        dead = sorted(moment.dead_mirror_cells, key=row_order_key)
        missing = f"; dead mirror cells: {' '.join(f'{x},{y}' for x, y in dead)}" if dead else ""
        lines.append(f"{time:>5}: {shown}{missing}")
        if pictures:
            lines += text_picture(trace.box, trace.live_cells_of(moment), mirrors, moment.heard) + [""]
    if trace.leaving_step is not None:
        lines.append(f"step {trace.leaving_step} makes a cell outside the rectangle live")
    return "\n".join(lines) + "\n"


def describe_difference_from_run(trace: Trace, output: str) -> str | None:
    """Returns how the program's `run` differs from the trace, or None where both are the same.

    Raises ReportError for no answer of `run`.
    """
    if not RUN_ANSWER_PATTERN.fullmatch(output):
        raise ReportError("this is no answer of `bbmcheck run`")
    lines = output.split("\n")
    if trace.leaving_step is not None:
        wanted = f"left {trace.leaving_step}"
        return None if lines[0] == wanted else f"the program's run says `{lines[0]}`, the lab says `{wanted}`"
    cells = {tuple(map(int, line.split(" "))) for line in lines[1:] if line}
    if not lines[0].startswith("cells "):
        return f"the program's run says `{lines[0]}`, and the lab's run stays in the rectangle"
    if lines[0] != f"cells {len(lines) - 2}":
        raise ReportError(f"the program's run says `{lines[0]}`, and lists {len(lines) - 2}")
    differ = cells ^ (trace.last_state or set())
    return f"the program's run differs at {sorted(differ)[0]}" if differ else None


def bytes_for_run_command(layout_lines: list[str], on: list[str]) -> bytes:
    """Returns the text that the program's `run` reads."""
    return ("\n".join([*layout_lines, "assign", *(f"on {name}" for name in on), "end"]) + "\n").encode("latin-1")


def layout_section_lines(document: Document) -> list[str]:
    """Returns the lines of a text of the layout section alone, with the same limits."""
    lines = document.text.split("\n")
    first = next(index for index, line in enumerate(lines) if line.startswith("layout "))
    return [*document.limits.line_text.splitlines(), *lines[first:lines.index("end", first) + 1]]
