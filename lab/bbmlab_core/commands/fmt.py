"""Runs `bbmlab fmt`."""

import argparse
import sys

from ..host.terminal import LabError, escape_controls, read_bytes, tell_user, write_bytes
from ..texts.documents import read_document
from ..texts.spelling import SpelledText, spell_text

MAX_SHOWN_NOTES = 20


def run(options: argparse.Namespace) -> int:
    """Writes texts in their one spelling. Bytes that are no ASCII stay as they are."""
    if not options.in_place and not options.check and len(options.files) > 1:
        raise LabError("several texts would be written to one output: write one at a time, or use --in-place", 2)
    if options.in_place and options.output:
        raise LabError("-i writes the file itself: it goes without -o", 2)
    changed = 0
    for file in options.files:
        data = read_bytes(file)
        spelling = spell_text(data.decode("latin-1"))
        after = spelling.text.encode("latin-1")
        if options.check:
            changed += after != data
            if after != data:
                print(f"{escape_controls(file)}: not in the one spelling")
            continue
        if options.in_place and file != "-":
            write_in_place(file, spelling, data, after, options.strip_comments)
        else:
            write_bytes(options.output, after, [file])
        tell_changes(file, spelling)
    return 1 if changed else 0


def write_in_place(file: str, spelling: SpelledText, before: bytes, after: bytes, strips: bool) -> None:
    """Writes a file again if it changes. Comments are left out only if that is asked for."""
    if spelling.comment_count and not strips:
        count = f"{spelling.comment_count} comment{'s' if spelling.comment_count != 1 else ''}"
        raise LabError(f"{file}: its {count} would be lost, since the program takes no comments: use --strip-comments, "
                       "or -o FILE", 1)
    if after != before:
        write_bytes(file, after, before=before)
        print(f"{escape_controls(file)}: written again", file=sys.stderr)


def tell_changes(file: str, spelling: SpelledText) -> None:
    """Says on standard error what was changed, and whether the text is still refused."""
    for note in spelling.notes[:MAX_SHOWN_NOTES]:
        tell_user(f"{file}: {note}")
    if len(spelling.notes) > MAX_SHOWN_NOTES:
        tell_user(f"{file}: and {len(spelling.notes) - MAX_SHOWN_NOTES} more changes")
    if len(spelling.text) > 2_000_000:
        return
    refusal = read_document(spelling.text).refusal
    if refusal:
        tell_user(f"{file}: line {refusal.line} is still refused, with code {refusal.code}: bbmlab explain says why")
