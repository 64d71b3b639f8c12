"""Worked cases: reads them from the repository's files, from the large bundles of conformance/data, and from case
folders.

A Case has a name, the words of a command, what it is given on standard input, and what it must do: the exit status, and
the bytes of standard output and of standard error. Where one of these two is None, anything may be written there.
"""
import hashlib
import json
import re
from collections.abc import Callable
from dataclasses import dataclass
from pathlib import Path
from typing import Any

from limit_texts import LIMITS, text_of

DATA = Path(__file__).resolve().parent.parent / "crates" / "run_cases" / "data"
# Large bundles: NAME.txt, and NAME.report, the report of `check`. Cases about the line `limits 2`, and the answers to
# texts at limits.
LARGE = Path(__file__).resolve().parent / "data"
FRONT_CASES, LIMIT_ANSWERS = DATA / "front_line.txt", LARGE / "limits.json"
# In this order: those of the specification, those that were written by hand, random bundles, those about the line.
FILES = [DATA / name for name in ("cases.txt", "by_hand.txt", "reports.txt", "front_line.txt")]
COMMANDS = ("run", "value", "check", "modules", "migrate")
FRONT_LINE = b"limits 2\n"
TEXT = re.compile(rb"(?:([0-9]+) times )?(?:\| ?(?P<line>.*)|\\ (?P<piece>.*))\Z", re.DOTALL)
REFUSAL = re.compile(rb"refused ([0-9]+) ([0-9]+)\n\Z")
PARTS = {b"input": "given", b"output": "output", b"errors": "errors"}


@dataclass(frozen=True)
class Case:
    """A case. A text that is `given` by a function is made each time.

    `digest` is the SHA-256 of an output that is not here.
    """

    name: str
    words: list[str]
    given: bytes | Callable[[], bytes]
    status: int
    output: bytes | None
    errors: bytes | None = None
    digest: str | None = None
    is_huge: bool = False

    @property
    def input(self) -> bytes:
        return self.given if isinstance(self.given, bytes) else self.given()

    def has_output(self, output: bytes) -> bool:
        """Returns whether this may be written on standard output."""
        if self.digest is not None:
            return hashlib.sha256(output).hexdigest() == self.digest
        return self.output is None or output == self.output


def is_about_texts(case: Case) -> bool:
    """Whether it is about a text, and not about the words of a command alone."""
    return bool(case.words) and case.words[0] in COMMANDS and case.status != 2 and not {"--help",
                                                                                        "-h"} & set(case.words)


def cases_of_file(path: Path) -> list[Case]:
    """The cases of a file in the form that crates/case_text/src/lib.rt describes."""
    found: list[dict[str, Any]] = []
    part = ""
    for line in path.read_bytes().split(b"\n"):
        word, _, rest = line.partition(b" ")
        text = TEXT.match(line)
        if not line or line.startswith(b"#"):
            continue
        if text:
            piece = text["piece"] if text["line"] is None else text["line"] + b"\n"
            found[-1][part] += piece * int(text[1] or 1)
        elif line in PARTS:
            part = PARTS[line]
            found[-1][part] = b""
        elif word == b"case":
            found.append({"name": rest.decode(), "words": [], "given": b"", "status": 0, "output": None})
        elif word == b"words":
            found[-1]["words"] = rest.decode().split()
        elif word == b"status":
            found[-1]["status"] = int(rest)
        else:
            raise ValueError(f"{path.name}: no such line: {line!r}")
    return [Case(**case) for case in found]


def migrated(text: bytes) -> bytes:
    """Returns a bundle of certificate version 1 as one of version 2: another header, and no halo lines."""
    design, certificate = text.split(b"\ncertificate 1\n", 1)
    kept = [line for line in certificate.splitlines(keepends=True) if not line.startswith(b"halo ")]
    return design + b"\ncertificate 2\n" + b"".join(kept)


def large_cases() -> list[Case]:
    """Returns the cases of `check` and `migrate` for the large bundles.

    Where there is a report NAME_v2.report, NAME_v1.txt is migrated.
    """
    found = []
    for path in sorted(LARGE.glob("*_v[12].txt")):
        texts = {path.stem: path.read_bytes()}
        after = path.stem.replace("_v1", "_v2")
        if after not in texts and (LARGE / f"{after}.report").exists():
            texts[after] = migrated(texts[path.stem])
            found.append(Case(f"migrate_{path.stem}", ["migrate"], texts[path.stem], 0, texts[after]))
        for name, text in texts.items():
            report = (LARGE / f"{name}.report").read_bytes()
            found.append(Case(f"bundle_{name}", ["check"], text, 1 if b"\nverdict no\n" in report else 0, report))
    return found


def all_cases() -> list[Case]:
    """Returns the worked cases but for those at limits and those that `behind_the_line` makes."""
    return [case for path in FILES for case in cases_of_file(path)] + large_cases()


def limit_cases() -> list[Case]:
    """Returns the cases of the texts at each limit and one beyond (limit_texts.py)."""
    found, answers = [], json.loads(LIMIT_ANSWERS.read_text())
    limits = {limit.name: limit for limit in LIMITS}
    for name, (status, told) in answers.items():
        limit, number, kind, command = name.split(" ")
        text = (lambda limit=limits[limit], number=int(number),
                has_front=kind == "front": text_of(limit, number, has_front))  # noqa: E731
        case = f"limit_{limit}_{number}_{kind}_{command}"
        output, digest = (None, told["sha256"]) if isinstance(told, dict) else (told.encode(), None)
        found.append(Case(case, [command], text, status, output, digest=digest, is_huge=limits[limit].huge))
    return found


def behind_the_line(case: Case) -> Case | None:
    """Returns the case with the line `limits 2` in front of its text, or None if a larger limit may give it another
    answer.

    The line moves a refusal one line further, and `migrate` keeps it. It changes nothing else.
    """
    output = case.output
    if not is_about_texts(case) or case.status not in (0, 1, 3) or output is None or case.input.startswith(FRONT_LINE):
        return None
    if case.status == 3:
        refusal = REFUSAL.match(output)
        if not refusal or refusal[2] == b"2":
            return None
        output = b"refused %d %s\n" % (int(refusal[1]) + 1, refusal[2])
    elif case.words[0] == "migrate":
        output = FRONT_LINE + output
    return Case(f"{case.name}_behind_the_line", case.words, FRONT_LINE + case.input, case.status, output, case.errors)


def bytes_or_none(path: Path) -> bytes | None:
    return path.read_bytes() if path.exists() else None


def case_of_folder(folder: Path) -> Case:
    """The case of a folder with args, stdin, status, and maybe stdout and stderr."""
    return Case(folder.name, (folder / "args").read_text().split(), (folder / "stdin").read_bytes(),
                int((folder / "status").read_text()),
                bytes_or_none(folder / "stdout"), bytes_or_none(folder / "stderr"))


def write_folder(case: Case, folder: Path) -> None:
    """The case as a folder."""
    folder.mkdir(parents=True)
    (folder / "args").write_text(" ".join(case.words) + "\n")
    (folder / "stdin").write_bytes(case.input)
    (folder / "status").write_text(f"{case.status}\n")
    for name, wanted in (("stdout", case.output), ("stderr", case.errors)):
        if wanted is not None:
            (folder / name).write_bytes(wanted)
