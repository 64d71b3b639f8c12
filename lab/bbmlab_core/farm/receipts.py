"""Receipts: what a program said of one text, with the digests of both, as one JSON document.

A receipt is no signature: whoever can write it can write another. It says which text and which program a stored report
is of.
"""

import hashlib
import json
import os
import re
import time
from dataclasses import dataclass
from typing import Any
from urllib.parse import quote

from ..host.releases import ProgramIdentity
from ..host.replacing import replace_file
from ..host.terminal import LabError, read_bytes
from ..texts.limits import SECOND_LIMITS
from ..texts.reports import parse_report
from .answering import PROGRAM_STATUS_OF, CheckResult, result_of_report
from .checking import ContradictionError

RECEIPT_FORMAT = "bbmlab receipt 1"
BUNDLE_SECTION_NAMES = ("circuit", "layout", "certificate")
SECTION_HEADER_PATTERN = re.compile(rb"(circuit|layout|certificate)(?: |\n)")
# The most characters of a name of a file that stand in the name of its receipt.
MAX_COPIED_NAME_BYTES = 180
DIGEST_PATTERN = re.compile(r"[0-9a-f]{64}\Z")


class ReceiptError(Exception):
    """A document that is no receipt. The message says why."""


def sha256_digits(data: bytes) -> str:
    """Returns the SHA-256 of bytes, in hexadecimal digits."""
    return hashlib.sha256(data).hexdigest()


def section_digests(text: bytes) -> dict[str, str | None]:
    """Returns the digest of each section of a text, from its header through the line feed of its `end`, or None for one
    that is not there."""
    digests: dict[str, str | None] = dict.fromkeys(BUNDLE_SECTION_NAMES)
    front = SECOND_LIMITS.line_text.encode()
    start = len(front) if text.startswith(front) else 0
    for name in BUNDLE_SECTION_NAMES:
        header = SECTION_HEADER_PATTERN.match(text, start)
        end = text.find(b"\nend\n", start)
        if not header or header[1].decode() != name or end < 0:
            break
        digests[name] = sha256_digits(text[start:end + 5])
        start = end + 5
    return digests


@dataclass(frozen=True)
class Receipt:
    """What a program said of a text.

    `name` is the name under which the text was checked, `size` its length in bytes. `status` is the program's.
    `seconds` is the time of the processor, and `date` the end of the run in UTC; all other members are the same at each
    run. `report_result` is the result that the report stands for.
    """

    name: str
    size: int
    text_sha256: str
    digest_of_section: dict[str, str | None]
    report: str
    verdict: str
    status: int
    program: ProgramIdentity
    workers: int
    seconds: float
    date: str
    report_result: CheckResult

    def __str__(self) -> str:
        """Returns the document. The date and the seconds have lines of their own, at the end."""
        program = {"sha256": self.program.sha256, "version": self.program.version, "kit": self.program.kit,
                   "sources_sha256": self.program.sources_digest}
        document = {"format": RECEIPT_FORMAT, "text": {"name": self.name, "bytes": self.size,
                                                       "sha256": self.text_sha256},
                    "sections": self.digest_of_section,
                    "program": program, "workers": self.workers, "verdict": self.verdict, "status": self.status,
                    "report_sha256": sha256_digits(self.report.encode("latin-1")), "report": self.report,
                    "processor_seconds": round(self.seconds, 3), "date": self.date}
        return json.dumps(document, indent=1) + "\n"



def make_receipt(text: bytes, result: CheckResult, program: ProgramIdentity, seconds: float) -> Receipt:
    """Returns the receipt of a result that is a verdict or a refusal."""
    date = time.strftime("%Y-%m-%dT%H:%M:%SZ", time.gmtime())
    return Receipt(result.file, len(text), sha256_digits(text), section_digests(text), result.output, result.result,
                   PROGRAM_STATUS_OF[result.result], program, 1, seconds, date, result)


def require_receipt_member(document: Any, name: str, kind: Any) -> Any:
    """Returns a member of a JSON object, which must be of a type or of one of several."""
    if not isinstance(document, dict) or name not in document:
        raise ReceiptError(f"it has no member `{name}`")
    value = document[name]
    if not isinstance(value, kind) or isinstance(value, bool):
        raise ReceiptError(f"its member `{name}` is of another kind")
    return value


def digest_member(document: Any, name: str) -> str:
    """Returns a member that is a digest."""
    value: str = require_receipt_member(document, name, str)
    if not DIGEST_PATTERN.match(value):
        raise ReceiptError(f"its member `{name}` is no digest of 64 hexadecimal digits")
    return value


def seconds_member(document: Any) -> float:
    """Returns the member `processor_seconds`."""
    try:
        return float(require_receipt_member(document, "processor_seconds", (int, float)))
    except OverflowError as error:
        raise ReceiptError("its member `processor_seconds` is too large") from error


def parse_receipt(data: bytes) -> Receipt:
    """Reads a receipt; raises ReceiptError for what is none, and for one whose report or verdict was changed."""
    try:
        document = json.loads(data)
    except (ValueError, RecursionError) as error:
        raise ReceiptError("it is truncated, or no JSON document") from error
    if not isinstance(document, dict) or document.get("format") != RECEIPT_FORMAT:
        raise ReceiptError(f"it has no member `format` that says `{RECEIPT_FORMAT}`")
    text, program = require_receipt_member(document, "text", dict), require_receipt_member(document, "program", dict)
    sections = require_receipt_member(document, "sections", dict)
    nothing = type(None)
    name = require_receipt_member(text, "name", str)
    report = require_receipt_member(document, "report", str)
    status = require_receipt_member(document, "status", int)
    receipt = Receipt(
        name, require_receipt_member(text, "bytes", int), digest_member(text, "sha256"),
        {name: require_receipt_member(sections, name, (str, nothing)) for name in BUNDLE_SECTION_NAMES}, report,
        require_receipt_member(document, "verdict", str), status,
        ProgramIdentity(digest_member(program, "sha256"), require_receipt_member(program, "version", (str, nothing)),
                        require_receipt_member(program, "kit", (str, nothing)),
                        require_receipt_member(program, "sources_sha256", (str, nothing))),
        require_receipt_member(document, "workers", int), seconds_member(document),
        require_receipt_member(document, "date", str), result_of_report(name, status, report))
    require_consistent_receipt(receipt, digest_member(document, "report_sha256"))
    return receipt


def require_consistent_receipt(receipt: Receipt, digest: str) -> None:
    """Raises ReceiptError unless report, digest, verdict and status of a receipt are of each other."""
    if sha256_digits(receipt.report.encode("latin-1", "replace")) != digest:
        raise ReceiptError("its report was changed: the digest of the report is another one")
    said = receipt.report_result
    if said.result == "error" or said.result != receipt.verdict:
        raise ReceiptError("its verdict was changed: the report says "
                           f"{said.result if said.result != 'error' else said.detail}")
    certificate = parse_report(receipt.report).digest
    if certificate and certificate != receipt.digest_of_section["certificate"]:
        raise ReceiptError("its report is of another certificate than its text")


class ReceiptFolder:
    """The receipts of texts in a folder, one a file. With `again`, none is used in place of a run."""

    def __init__(self, folder: str, program: ProgramIdentity, again: bool = False) -> None:
        self.folder, self.program, self.again = folder, program, again

    def receipt_path(self, file: str) -> str:
        """Returns the name of the receipt of a file: its own name, with `%2F` for `/`, or with a digest if it is long.

        The name is that seen from where the folder of receipts is. So a file has one receipt, wherever the lab runs,
        and two files have two.
        """
        seen = os.path.relpath(file, os.path.dirname(os.path.abspath(self.folder))) if file != "-" else "standard input"
        name = quote(os.fsencode(seen), safe=" ")
        if len(name) > MAX_COPIED_NAME_BYTES:
            name = f"{name[-MAX_COPIED_NAME_BYTES:].lstrip('%')}-{sha256_digits(os.fsencode(seen))[:16]}"
        return os.path.join(self.folder, f"{name}.json")

    def stored_receipt(self, file: str) -> Receipt | None:
        """Returns the receipt of a file, or None if there is none that can be read."""
        try:
            return parse_receipt(read_bytes(self.receipt_path(file)))
        except (LabError, ReceiptError):
            return None

    def known_result(self, file: str) -> CheckResult | None:
        """Returns the result of a file if its receipt is of the same bytes and the same program."""
        if self.again or not os.path.isfile(file):
            return None
        receipt = self.stored_receipt(file)
        if not receipt or receipt.program.sha256 != self.program.sha256:
            return None
        try:
            text = read_bytes(file)
        except LabError:
            return None
        if (len(text), sha256_digits(text)) != (receipt.size, receipt.text_sha256):
            return None
        said = receipt.report_result
        return CheckResult(file, said.result, said.detail, 0, said.modules, said.output, is_from_receipt=True)

    def store_result(self, text: bytes, result: CheckResult, seconds: float) -> None:
        """Writes the receipt of a result. An earlier one of the same text and program must have the same report."""
        receipt = make_receipt(text, result, self.program, seconds)
        earlier = self.stored_receipt(result.file)
        if (earlier and (earlier.text_sha256, earlier.program.sha256) == (receipt.text_sha256, receipt.program.sha256)
            and earlier.report != receipt.report):
            raise ContradictionError(f"two answers to {result.file} by one program: {earlier.report!r} (in its "
                                     f"receipt) and {receipt.report!r}")
        name = self.receipt_path(result.file)
        try:
            os.makedirs(self.folder, exist_ok=True)
            replace_file(name, str(receipt).encode())
        except OSError as error:
            raise LabError(f"{name}: {error.strerror or error}") from error
