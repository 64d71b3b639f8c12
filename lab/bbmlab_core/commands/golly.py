"""Runs `bbmlab golly` and `bbmlab from-golly`."""

import argparse

from ..host.terminal import read_latin1_text, write_utf8_text
from ..physics import tracing
from ..pictures import golly
from ..texts.designs import read_layout_file


def run(options: argparse.Namespace) -> int:
    """Writes the start of a layout for Golly."""
    document, layout = read_layout_file(options.file, False)
    on = tracing.chosen_inputs(document, options.on)
    start = tracing.state_at(layout, on, 0)
    write_utf8_text(options.output, golly.golly_text(layout, start, on, tracing.layout_section_lines(document)))
    return 0


def run_from_golly(options: argparse.Namespace) -> int:
    """Writes the layout of a file of Golly."""
    write_utf8_text(options.output, golly.layout_text_from_golly(read_latin1_text(options.file)))
    return 0
