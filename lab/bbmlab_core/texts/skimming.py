"""Looks at parts of a text in its one spelling, without reading all of its lines: most lines of a large text are at
borders of modules.
"""

import hashlib
import re
from typing import Iterator

from .certificates import MAX_CUTS
from .layouts import Box

CERTIFICATE_HEADER = "certificate "
# The numbers of a line `use` or `module`.
MODULE_OR_USE_PATTERN = re.compile(r"\n(?:use (\d{1,9})|module ((?:\d{1,9} ){3}\d{1,9}))(?=\n)")


def certificate_start(text: str) -> int:
    """Returns where the certificate section of a text begins, or the length of a text without one."""
    if text.startswith(CERTIFICATE_HEADER):
        return 0
    return text.find(f"\n{CERTIFICATE_HEADER}") + 1 or len(text)


def design_text(text: str) -> str:
    """Returns the circuit and the layout of a text."""
    return text[:certificate_start(text)]


def certificate_digest(text: str) -> str:
    """Returns the digest of the last certificate section of a text:

    SHA-256 from its header to its `end`, with the line feed.
    """
    lines = text.split("\n")
    headers = [index for index, line in enumerate(lines) if line.startswith(CERTIFICATE_HEADER)]
    if not headers or "end" not in lines[headers[-1]:]:
        return ""
    end = lines.index("end", headers[-1])
    section = "\n".join(lines[headers[-1]:end + 1]) + "\n"
    return hashlib.sha256(section.encode("latin-1")).hexdigest()


def cuts_by_module(bundle: str) -> list[list[str]]:
    """Returns the wires that each module of a bundle cuts."""
    modules = bundle[certificate_start(bundle):].split("\nmodule ")[1:]
    return [[line.split(" ")[1] for line in module.split("\n", MAX_CUTS + 1)[1:] if line.startswith("cut ")]
            for module in modules]


def boxes_and_uses(text: str) -> Iterator[tuple[Box, list[int]]]:
    """Yields the box of each module of a text, and the gates that it uses."""
    box, uses = None, list[int]()
    for line in MODULE_OR_USE_PATTERN.finditer(text, certificate_start(text)):
        if line[1]:
            uses.append(int(line[1]))
            continue
        if box is not None:
            yield box, uses
        box, uses = Box(*map(int, line[2].split(" "))), []
    if box is not None:
        yield box, uses
