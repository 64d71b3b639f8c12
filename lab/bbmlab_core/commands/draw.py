"""Runs `bbmlab draw`."""

import argparse

from ..host.terminal import LabError, write_utf8_text
from ..physics import tracing
from ..pictures import drawing
from ..pictures.picture_parts import PictureOptions, highlighted_wires, ways_with_others_grouped
from ..texts.circuits import Circuit
from ..texts.designs import read_layout_file, report_from_option
from ..texts.documents import Document
from ..texts.layouts import Box, Layout
from ..texts.reports import ReportOrRefusal
from ..texts.skimming import boxes_and_uses


def picture_of(design: tuple[Document, Layout], names: str | None, time: int | None,
               report: ReportOrRefusal | None = None, look: PictureOptions = PictureOptions()) -> str:
    """Returns the picture of a design at a time, or without a time the ways of its balls."""
    document, layout = design
    is_large = max(layout.width, layout.height) > drawing.LARGE_LAYOUT_SIDE
    on = tracing.chosen_inputs(document, names)
    under = f" with {' '.join(on) or 'no input'} on"
    modules = list(document.certificate.modules) if document.certificate and not is_large else []
    picture = drawing.Drawing(modules=modules, view=visible_box(look, layout), least_ball_size=look.least_ball_size,
                              has_arrows=look.has_arrows)
    if is_large and document.circuit:
        picture.gates = boxes_with_gates(document.text, document.circuit)
    if time is None:
        picture.ways, picture.wire_labels = drawing.ball_ways_and_labels(document, on if names is not None else None,
                                                                         layout.steps, look.has_arrows)
        picture.title = "ways of the balls" + (under if names is not None else drawing.sampling_note(document))
    else:
        picture.live, picture.title = tracing.state_at(layout, on, time), f"time {time}{under}"
    wanted = highlighted_wires(look, document.circuit, tracing.input_names(layout))
    if wanted:
        picture.ways = ways_with_others_grouped(picture.ways, picture.wire_labels, wanted)
    for finding in report.faults if report else []:
        if "x" in finding.values:
            picture.faults.append(((finding.number_value("x"), finding.number_value("y")), finding.text))
    # In a large layout dashes cannot be told apart.
    most = len(drawing.COLOURS) if is_large else drawing.MAX_LEGEND_WIRES
    wires = drawing.group_ways_by_level(picture, document.circuit,
                                        most) if document.circuit else tracing.input_names(layout)
    return drawing.layout_svg(layout, picture, wires)


def visible_box(look: PictureOptions, layout: Layout) -> Box | None:
    """Returns the part of the layout that is asked for, as far as it lies in the layout."""
    if look.crop is None:
        return None
    box = look.crop
    right, bottom = min(box.x + box.width, layout.width), min(box.y + box.height, layout.height)
    if right <= box.x or bottom <= box.y:
        raise LabError(f"the part {box.numbers_text} lies outside the layout of {layout.width} by {layout.height} "
                       "cells")
    return Box(box.x, box.y, right - box.x, bottom - box.y)


def boxes_with_gates(text: str, circuit: Circuit) -> list[tuple[Box, list[str]]]:
    """Returns the boxes of the modules of a certificate that use gates and are larger than the smallest module, with
    the gates."""
    found = []
    for box, uses in boxes_and_uses(text):
        gates = [circuit.gates[number] for number in uses if number < len(circuit.gates)]
        found.append((box, [f"{gate.kind} {gate.number}" for gate in gates if gate.kind not in ("source", "delay")]))
    least = min((box.width * box.height for box, _ in found), default=0)
    return [(box, gates) for box, gates in found if gates and box.width * box.height > least]


def run(options: argparse.Namespace) -> int:
    """Draws a layout. The certificate of a large one is read only for a report, since that takes longer than to draw.
    """
    look = PictureOptions(Box(*options.crop) if options.crop else None,
                          tuple(options.wires.split(",")) if options.wires else (), options.cone, options.arrows,
                          options.ball)
    if (look.wires or look.cone or look.has_arrows) and not options.ways:
        raise LabError("--wires, --cone and --arrows need --ways")
    design = read_layout_file(options.file, has_certificate=bool(options.report))
    report = report_from_option(options, design[0])
    write_utf8_text(options.output, picture_of(design, options.on, None if options.ways else options.time,
                                               report, look))
    return 0
