"""Runs `bbmlab json`."""

import argparse

from ..host.terminal import LabError, read_latin1_text, write_utf8_text
from ..texts import json_form
from ..texts.designs import read_freely_written_text, report_from_option


def run(options: argparse.Namespace) -> int:
    """Writes a text as JSON, or the text of a JSON document."""
    if options.back:
        write_utf8_text(options.output, json_form.text_from_json(read_latin1_text(options.file)))
        return 0
    text = read_latin1_text(options.file)
    if text.lstrip().startswith("{"):
        raise LabError(f"{options.file}: this is JSON, which --back reads", 1)
    document = read_freely_written_text(options.file, text)
    write_utf8_text(options.output, json_form.document_json_text(document, report_from_option(options, document)))
    return 0
