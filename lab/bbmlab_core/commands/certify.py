"""Runs `bbmlab certify`."""

import argparse

from ..certify.certifier import CertificateOptions, certified_text, checked_grid_boxes
from ..host.program import BadProgramError, ProgramTimeout, ask_program, find_and_open_program
from ..host.terminal import LabError, read_latin1_text, tell_user, write_utf8_text
from ..texts.certificates import MAX_BOX_SIDE
from ..texts.documents import Document, read_document
from ..texts.layouts import Box, Layout
from ..texts.refusals import refusal_words


def run(options: argparse.Namespace) -> int:
    """Makes a certificate, and has the program check it if there is one.

    An old certificate is left out, apart from stops that hold.
    """
    text = read_latin1_text(options.file)
    document = read_without_certificate(text, options.file)
    # A plain certificate has no cuts to choose: the program's no to it is about the layout, and shows where it is
    # wrong.
    plan = CertificateOptions(options.version_of_text, "safe" if options.plain else options.cuts,
                              runs_modules=not options.plain)
    # Only the stops of an old certificate are kept.
    old = read_document(text, "check") if "\nstop " in text else document
    if old.certificate and not old.refusal:
        plan.stops = sorted((stop for module in old.certificate.modules for stop in module.stops),
                            key=lambda stop: stop.order_key)
    assert document.layout is not None
    notes: list[str] = []
    bundle = certified_text(document, chosen_boxes(options, document.layout), plan, notes)
    for note in notes:
        tell_user(note)
    status = check_and_tell(bundle, options)
    write_utf8_text(options.output, bundle, [options.file])
    return status


def read_without_certificate(text: str, file: str) -> Document:
    """Returns the circuit and the layout of a text, without its certificate."""
    lines = text.split("\n")
    old = next((index for index, line in enumerate(lines) if line.startswith("certificate")), None)
    document = read_document(text if old is None else "\n".join([*lines[:old], ""]), "design")
    if document.refusal:
        raise LabError(f"{file}: {refusal_words(document)}", 1)
    return document


def chosen_boxes(options: argparse.Namespace, layout: Layout) -> list[Box] | None:
    """Returns the boxes that the options name, or None if the lab is to choose them."""
    if options.plain:
        if max(layout.width, layout.height) > MAX_BOX_SIDE:
            raise LabError(
                f"--plain takes a layout of at most {MAX_BOX_SIDE} by {MAX_BOX_SIDE} cells, and this one has "
                           f"{layout.width} by {layout.height}", 2)
        return checked_grid_boxes(layout, layout.width, layout.height)
    if options.grid:
        return checked_grid_boxes(layout, *options.grid)
    return boxes_of_file(options.boxes, layout) if options.boxes else None


def boxes_of_file(file: str, layout: Layout) -> list[Box]:
    """Returns the boxes of the lines `module X Y W H` of a text."""
    found = []
    for line in read_latin1_text(file).split("\n"):
        words = line.split(" ")
        if words[0] == "module":
            if len(words) != 5 or not all(word.isdecimal() and len(word) < 9 for word in words[1:]):
                raise LabError(f"{file}: {line!r} is no line `module X Y W H`", 1)
            box = Box(*map(int, words[1:]))
            if box.x + box.width > layout.width or box.y + box.height > layout.height:
                raise LabError(f"{file}: the box of {line!r} is not inside the layout of {layout.width} by "
                               f"{layout.height} cells", 1)
            found.append(box)
    if not found:
        raise LabError(f"{file}: there is no line `module X Y W H`", 1)
    return found


def check_and_tell(bundle: str, options: argparse.Namespace) -> int:
    """Prints on standard error what the program says of the bundle.

    Returns 0 after a yes, 1 after a no or a refusal, and 4 without an answer. A yes is status 0 and the line `verdict
    yes` together.
    """
    try:
        answer = ask_program(find_and_open_program(options.program), "check", bundle.encode("latin-1"), options.timeout)
    except (BadProgramError, ProgramTimeout) as error:
        tell_user(f"the certificate was not checked: {error}")
        return 4
    lines = answer.output.split("\n")
    verdict = lines[3] if len(lines) > 3 else ""
    if (answer.status, verdict) == (0, "verdict yes"):
        tell_user("the program says yes")
        return 0
    if answer.status == 3 or (answer.status, verdict) == (1, "verdict no"):
        what = lines[0] if answer.status == 3 else f"no: {lines[4]}"
        tell_user(f"the program does not say yes: {what}")
        return 1
    tell_user(f"the program gave no verdict: status {answer.status} {answer.errors}".rstrip())
    return 4
