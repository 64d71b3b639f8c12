"""Runs `bbmlab verify` and `bbmlab summary`."""

import argparse
import os
from pathlib import Path

from ..farm.answering import RESULT_WORDS
from ..farm.checking import exit_status
from ..farm.receipts import BUNDLE_SECTION_NAMES, Receipt, ReceiptError, parse_receipt, section_digests, sha256_digits
from ..host.program import ProgramAnswer, ask_program, find_and_open_program
from ..host.releases import known_releases
from ..host.terminal import LabError, escape_controls, read_bytes


def read_receipt(name: str) -> Receipt:
    """Returns the receipt of a file."""
    return parse_receipt(read_bytes(name))


def text_differences(receipt: Receipt, text: bytes) -> list[str]:
    """Returns why a receipt is of another text, in words."""
    if (len(text), sha256_digits(text)) == (receipt.size, receipt.text_sha256):
        return []
    digests = section_digests(text)
    other = [name for name in BUNDLE_SECTION_NAMES if digests[name] != receipt.digest_of_section[name]]
    if not other:
        return ["the receipt is of another text: what stands behind the sections differs"]
    return [f"the receipt is of another text: the {' and the '.join(other)} section "
            f"differ{'' if len(other) > 1 else 's'}"]


def run(options: argparse.Namespace) -> int:
    """Says whether a receipt is of a text and of a release that is known here. The status is 1 if it is not."""
    try:
        receipt = read_receipt(options.receipt)
    except ReceiptError as error:
        print(f"{escape_controls(options.receipt)}: this receipt does not count: {error}")
        return 1
    text = read_bytes(options.file)
    against = text_differences(receipt, text)
    if receipt.program.sha256 not in known_releases(tuple(options.release)):
        against.append(f"the program of the receipt ({receipt.program.sha256[:16]}..) is no release that is known here")
    if options.again and not against:
        against += differences_after_new_run(receipt, text, options)
    for reason in against:
        print(f"{escape_controls(options.file)}: {escape_controls(reason)}")
    if against:
        return 1
    again = ", and the program said the same again" if options.again else ""
    print(f"{escape_controls(options.file)}: {RESULT_WORDS[receipt.verdict]}, by "
          f"{escape_controls(receipt.program.version or 'a release')} on "
          f"{escape_controls(receipt.date)}{again}")
    return 0


def differences_after_new_run(receipt: Receipt, text: bytes, options: argparse.Namespace) -> list[str]:
    """Runs the program again, and returns what differs from the receipt."""
    program = find_and_open_program(options.program)
    if program.sha256 != receipt.program.sha256:
        raise LabError(f"{program} is not the program of the receipt, so its answer would show nothing; name that "
                       "program with --program")
    said: ProgramAnswer = ask_program(program, "check", text, options.timeout)
    if (said.status, said.output) == (receipt.status, receipt.report):
        return []
    return [f"the program now says something else: status {said.status}, and the report\n{said.output}"]


def summarise_receipts(options: argparse.Namespace) -> int:
    """Counts the receipts of a folder. The status is that of a run that gave these results, or 4 if one does not count.
    """
    try:
        files = sorted(Path(options.folder) / name for name in os.listdir(options.folder) if name.endswith(".json"))
    except OSError as error:
        raise LabError(f"{options.folder}: {error.strerror or error}") from error
    if not files:
        raise LabError(f"{options.folder}: no receipt in this folder")
    counts: dict[str, int] = {}
    programs: dict[str, int] = {}
    for file in files:
        try:
            receipt = read_receipt(str(file))
        except ReceiptError as error:
            print(f"{escape_controls(str(file))}: this receipt does not count: {error}")
            counts["error"] = counts.get("error", 0) + 1
            continue
        counts[receipt.verdict] = counts.get(receipt.verdict, 0) + 1
        programs[receipt.program.sha256] = programs.get(receipt.program.sha256, 0) + 1
        if receipt.verdict != "yes":
            print(f"{escape_controls(receipt.name)}: {RESULT_WORDS[receipt.verdict]}")
    print(f"{len(files)} receipts: " + ", ".join(f"{counts[word]} {RESULT_WORDS[word]}" for word in RESULT_WORDS
                                                 if counts.get(word)))
    if len(programs) > 1:
        print(f"they are of {len(programs)} programs: " + ", ".join(f"{digest[:16]}.. {count}" for digest,
                                                                    count in sorted(programs.items())))
        return 4
    return exit_status(counts)
