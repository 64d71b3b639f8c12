"""The input that an edit of must-fail or must-fail-more names, and the two outputs: lines `input:`, `gives:` and
`turned:`.

An input is `case NAME`, a worked case (conformance/cases.py), or `case NAME --workers N`; `text COMMAND LINE | LINE
..`, a command and the lines of a text; `folder COMMAND`, whose standard input is a folder, which cannot be read; `test
CRATE NAME`, a test of that crate; or `call CRATE: BODY`, a block of Rattle over the names of a crate, whose value is
printed. With ` refusing N` at the end of a case or a test, growth N of memory is refused (fail_allocations.c). `gives:`
says what the program gives with the body as it is, and `turned:` what it gives with the wrong one: the first line in
which they differ, or the status. An edit that names no input says why in a line `no input:`.

`turn_wrong_bodies` runs the inputs. `faults` here, which the gate calls, builds nothing: it compares `gives:` with what
the worked case expects, or with the answer of the plain program of tools/oracle, and looks for the tests.
"""
from __future__ import annotations

import re
import sys
from dataclasses import dataclass, replace
from pathlib import Path

TOP = Path(__file__).resolve().parent.parent.parent
sys.path[:0] = [str(TOP / "conformance"), str(TOP / "tools" / "oracle")]
import reference  # noqa: E402
import reference_reports  # noqa: E402
from cases import COMMANDS, Case, all_cases, limit_cases  # noqa: E402

FOLDERS = ("must-fail", "must-fail-more")
LINES = re.compile(r"^input: (.+)\ngives: (.+)\nturned: (.+)$", re.M)
NO_INPUT = re.compile(r"^no input: (.+)$", re.M)
REFUSING = re.compile(r" refusing (\d+)\Z")
CALL = re.compile(r"call (\w+): (.+)")
LINE = re.compile(r"(standard error, )?line (\d+): (.*)\Z")
TEST = re.compile(r"#\[test\]\n(?:#\[.*\]\n)*fn (\w+)\(")
# What docs/TESTING.md says of how many name none.
COUNT = re.compile(r"(\d+)\s+say why they name none")


@dataclass(frozen=True)
class Named:
    """An input, what it gives with the body as it is, and what with the wrong one."""

    source: str
    gives: str
    turned: str

    def program(self, program: str, calls: str) -> str:
        """Returns what takes the input: the program, a crate with tests, or the program of the calls."""
        kind, *rest = self.source.split(" ")
        return rest[0] if kind == "test" else calls if kind == "call" else program

    def matches(self, other: Named) -> bool:
        """Returns whether another run gave the same. A test may fail in other words."""
        if self.source.startswith("test "):
            return self.source == other.source and other.turned.startswith("fails")
        return self == other


def named_in(text: str) -> Named | None:
    """Returns the input that the text of an edit names."""
    found = LINES.search(text)
    return Named(*found.groups()) if found else None


def with_named(text: str, named: Named) -> str:
    """Returns the text of an edit with this input in place of its own."""
    rest = re.sub(r"^(?:input|gives|turned|no input): .*\n?", "", text, flags=re.M)
    return f"{rest.rstrip()}\ninput: {named.source}\ngives: {named.gives}\nturned: {named.turned}\n"


def shown(line: bytes | None) -> str:
    """Returns a line of an output as an edit names it."""
    if line is None:
        return "nothing"
    text = line.decode("utf-8", "backslashreplace").rstrip("\n")
    return text if len(text) <= 100 else text[:97] + "..."


def named_cases() -> dict[str, Case]:
    """Returns the worked cases by name, the shortest first, and then those at limits, but for the texts of many MiB."""
    worked = sorted(all_cases(), key=lambda it: len(it.input))
    return {it.name: it for it in [*worked, *(it for it in limit_cases() if not it.is_huge)]}


def case_of(source: str, cases: dict[str, Case]) -> Case | None:
    """Returns the case that an input is, or None if there is no such case."""
    kind, _, rest = REFUSING.sub("", source).partition(" ")
    if kind == "case":
        name, _, workers = rest.partition(" --workers ")
        case = cases.get(name)
        return case and replace(case, words=[*case.words, "--workers", workers]) if workers else case
    if kind == "folder" and rest in COMMANDS:
        return Case(source, [rest], b"", 4, b"")
    command, _, lines = rest.partition(" ")
    if kind != "text" or command not in COMMANDS:
        return None
    text = "".join(f"{line}\n" for line in lines.split(" | ")).encode()
    status, output = reference_reports.answer(text) if command == "check" else reference.answer(command, text)
    return Case(source, [command], text, status, output)


def gives(case: Case, said: str) -> bool:
    """Returns whether a case expects what an edit says that it gives."""
    found = LINE.match(said)
    if not found:
        return said == f"status {case.status}"
    wanted = case.errors if found[1] else case.output
    if wanted is None:
        return True
    lines = wanted.splitlines(keepends=True)
    at = int(found[2]) - 1
    return found[3].removesuffix(" (and a line feed)") == shown(lines[at] if at < len(lines) else None)


def fault_of(text: str, cases: dict[str, Case], tests: set[str]) -> str | None:
    """Returns what is wrong with the input that the text of an edit names."""
    named = named_in(text)
    if named is None:
        return None if NO_INPUT.search(text) else "it names no input with two outputs, and not why"
    if named.gives == named.turned:
        return "its two outputs are the same"
    if named.source.startswith("test "):
        is_there = REFUSING.sub("", named.source) in tests
        return (None if is_there and named.gives == "passes"
                else f"there is no such test, or it must pass: {named.source}")
    if CALL.fullmatch(named.source):
        return None
    case = case_of(named.source, cases)
    if case is None:
        return f"there is no such case: {named.source}"
    return None if gives(case, named.gives) else f"the input must give something else: {named.source}"


def faults(top: Path = TOP) -> list[str]:
    """Returns what is wrong with the inputs that the edits name, and with what docs/TESTING.md says of their number."""
    # The tests of the crates, as an edit names them.
    tests = {f"test {it.parent.parent.name} {it.stem}::{name}" for it in top.glob("crates/*/src/*.rt")
             for name in TEST.findall(it.read_text())}
    cases = named_cases()
    texts = {it: it.read_text() for folder in FOLDERS for it in sorted(top.glob(f"crates/*/{folder}/*.edit"))}
    said = {it: fault_of(text, cases, tests) for it, text in texts.items()}
    found = [f"{it.relative_to(top)}: {why}" for it, why in said.items() if why]
    none = sum(bool(NO_INPUT.search(text)) for text in texts.values())
    number = COUNT.search((top / "docs" / "TESTING.md").read_text(encoding="utf-8"))
    if not number or int(number[1]) != none:
        found.append(f"docs/TESTING.md says that {number[1] if number else 'no number'} say why they name no input, "
                     f"and these are {none}")
    return found
