"""Runs `bbmlab cells`."""

import argparse

from ..host.terminal import LabError, read_latin1_text, write_utf8_text
from ..physics import standard_cells
from ..texts.designs import read_layout_file
from .draw import picture_of


def run(options: argparse.Namespace) -> int:
    """Lists the standard cells, or writes one of them."""
    if options.cell is None:
        if options.svg or options.bundle:
            raise LabError("--svg and --bundle need the name of a cell", 2)
        text = "\n\n".join(standard_cells.read_cell(name).listing() for name in standard_cells.cell_names()) + "\n"
    elif options.svg:
        text = picture_of(read_layout_file(str(standard_cells.cell_path(options.cell))), None, None)
    elif options.bundle:
        text = read_latin1_text(str(standard_cells.cell_path(options.cell)))
    else:
        text = standard_cells.read_cell(options.cell).listing() + "\n"
    write_utf8_text(options.output, text)
    return 0
