"""What tests share: paths, texts, folders, worked cases, and the program, node and the browser where they are."""

import itertools
import json
import os
import re
import resource
import shutil
import subprocess
import sys
import tempfile
import time
import unittest
from pathlib import Path
from typing import Any, Callable, Iterable, Iterator
from unittest import mock

TOP = Path(__file__).resolve().parents[2]
LAB = TOP / "lab"
EXAMPLES = TOP / "examples"
TESTS = LAB / "tests"
# The lab's executable, as the first words of a command.
BBMLAB = [sys.executable, str(LAB / "bbmlab")]
DEBIAN_PYTHON = "/usr/bin/python3"
sys.path[:0] = [str(path) for path in (LAB, TOP / "conformance") if str(path) not in sys.path]
sys.dont_write_bytecode = True
import cases  # noqa: E402
from bbmlab_core.host.program import ask_program  # noqa: E402
from bbmlab_core.texts.circuits import Circuit  # noqa: E402
from bbmlab_core.texts.documents import Document, decode_latin1, read_document  # noqa: E402
from bbmlab_core.texts.json_form import document_json_text  # noqa: E402

# Fewer tries than users get, which save time: each try is one that a search can end with.
FEW_TRIES = mock.patch("bbmlab_core.circuits.netlists.search.MAX_MAPPING_TRIES", 8)


class Case(unittest.TestCase):
    """Tests of the lab's commands."""

    def assert_ends(self, status: int, *words: str, stdout: str | None = None, out: str = "", err: str = "",
                    **more: Any) -> subprocess.CompletedProcess[str]:
        """Runs the lab as `lab` does, and asserts its status, all that it prints if `stdout` is given, and words on
        standard output and standard error. Returns how it ended."""
        ended = lab(*words, **more)
        self.assertEqual(ended.returncode, status, (words, ended.stdout[-2000:], ended.stderr))
        self.assertEqual(ended.stdout, ended.stdout if stdout is None else stdout, words)
        self.assertIn(out, ended.stdout, words)
        self.assertIn(err, ended.stderr, words)
        self.assertNotIn("Traceback", ended.stderr, words)
        return ended


class InRoom(Case):
    """Tests with a folder of their own."""

    def setUp(self) -> None:
        room = tempfile.TemporaryDirectory()
        self.addCleanup(room.cleanup)
        self.room = Path(room.name)

    def fake(self, script: str) -> str:
        """Writes a program that answers as a script of the shell says, and returns its path."""
        return executable(self.room / "fake", script)

    def file(self, name: str, text: str) -> str:
        """Writes a file, one byte for each character, and returns its path."""
        (self.room / name).write_bytes(text.encode("latin-1"))
        return str(self.room / name)


def worked_cases() -> list[cases.Case]:
    """Returns the worked cases that are about a text."""
    return [case for case in cases.all_cases() if cases.is_about_texts(case) and "-h" not in case.words
            and case.status in (0, 1, 3)]


def worked_runs() -> list[cases.Case]:
    """Returns the worked cases of `run` that are not refused."""
    return [case for case in worked_cases() if case.words[0] == "run" and case.status != 3]


def document_of(case: cases.Case) -> Document:
    """Returns the text of a case as its command reads it."""
    return read_document(decode_latin1(case.input), case.words[0])


def example(name: str) -> str:
    """Returns the path of an example."""
    return str(EXAMPLES / f"{name}.txt")


def text_of(name: str) -> str:
    """Returns the text of an example."""
    return Path(example(name)).read_text()


def drawn_documents() -> Iterator[tuple[str, Document]]:
    """Yields the examples and the standard cells that have a layout, and are not refused, with their names."""
    for path in [*sorted(EXAMPLES.glob("*.txt")), *sorted((LAB / "cells").glob("*.txt"))]:
        document = read_document(path.read_text(encoding="latin-1"))
        if document.layout and document.layout.width and not document.refusal:
            yield path.name, document


def circuit_of(text: str) -> Circuit:
    """Returns the circuit of a text that is not refused."""
    document = read_document(text, "circuit")
    assert document.refusal is None and document.circuit is not None, document.refusal
    return document.circuit


def choices(names: Iterable[str]) -> Iterator[set[str]]:
    """Yields all choices of some names. The last name changes first."""
    names = list(names)
    for bits in itertools.product((False, True), repeat=len(names)):
        yield {name for name, bit in zip(names, bits) if bit}


def sorted_cells(cells: Iterable[Iterable[int]]) -> list[list[int]]:
    """Returns cells in order of y and then x."""
    return sorted(map(list, cells), key=lambda cell: cell[::-1])


def run_words(cells: list[list[int]], left: int | None) -> str:
    """Writes the last cells of a run, or when a ball left, as the program's `run` does."""
    if left is not None:
        return f"left {left}\n"
    return f"cells {len(cells)}\n" + "".join(f"{x} {y}\n" for x, y in cells)


def page_members(kind: str) -> set[str]:
    """Returns the members that docs/JSON.md lists for a kind of document."""
    part = (TOP / "docs" / "JSON.md").read_text().split(f"## `{kind}`\n")[1].split("\n##")[0]
    return {name for line in part.splitlines() if line.startswith("- ")
            for name in re.findall(r"`(\w+)`", line.split(":")[0])}


def executable(path: Path, script: str) -> str:
    """Writes a program of the shell, and returns its path."""
    path.write_text(f"#!/bin/sh\n{script}\n")
    path.chmod(0o755)
    return str(path)


def program() -> str:
    """Returns the path of the program; skips the test where it is not built."""
    built = TOP / "crates" / "bbmcheck" / "out" / "bbmcheck"
    found = os.environ.get("BBMCHECK") or (str(built) if built.exists() else "")
    if not found:
        raise unittest.SkipTest("the program is not built, and BBMCHECK does not name one")
    return found


def checked(text: str) -> str:
    """Returns what the program's `check` prints of a text."""
    return ask_program(program(), "check", text.encode("latin-1")).output


def program_of_limits_2() -> str:
    """Returns the path of the program; skips the test if it refuses texts that begin with `limits 2`."""
    path = program()
    require_limits_of("limits 2\n", path)
    return path


def require_limits_of(text: str, path: str) -> None:
    """Skips the test if a text begins with `limits 2` and the program at a path refuses this line."""
    if text.startswith("limits 2\n"):
        said = subprocess.run([path, "value"], input=b"limits 2\ncircuit\nend\nassign\nend\n", capture_output=True,
                              check=False)
        if said.returncode != 0:
            raise unittest.SkipTest(f"the program refuses `limits 2`: {path}")


def lab(*words: str, text: str | bytes = b"", seconds: float | None = None, memory: int | None = None,
        **environment: str) -> subprocess.CompletedProcess[str]:
    """Runs the lab's executable, for at most some seconds, in at most some bytes of memory."""
    data = text.encode("latin-1") if isinstance(text, str) else text
    ended = subprocess.run([*BBMLAB, *words], input=data, capture_output=True, check=False, timeout=seconds,
                           env={**os.environ, **environment},
                           preexec_fn=memory and (lambda: resource.setrlimit(resource.RLIMIT_AS, (memory, memory))))
    return subprocess.CompletedProcess(ended.args, ended.returncode, ended.stdout.decode("utf-8"),
                                       ended.stderr.decode("utf-8"))


def require(command: str, package: str) -> None:
    """Skips the test where a command is missing."""
    if shutil.which(command) is None:
        raise unittest.SkipTest(f"{command} is not installed (apt-get install {package})")


def node(script: str, jobs: Any) -> Any:
    """Returns what a script of the tests makes of some jobs, by node."""
    require("node", "nodejs")
    ended = subprocess.run(["node", str(TESTS / script)], input=json.dumps(jobs), text=True, capture_output=True,
                           check=False)
    if ended.returncode:
        raise AssertionError(ended.stderr)
    return json.loads(ended.stdout)


def data_of(document: Document) -> dict[str, Any]:
    """Returns the page's data of a text."""
    data: dict[str, Any] = json.loads(document_json_text(document, None))
    return data


def require_browser() -> None:
    """Skips the test where there is no browser, or nothing that drives one."""
    if shutil.which("chromium") is None or not os.path.exists("/usr/bin/chromedriver"):
        raise unittest.SkipTest("Chromium and its driver are not installed (apt-get install chromium chromium-driver "
                                "python3-selenium)")
    if subprocess.run([DEBIAN_PYTHON, "-c", "import selenium"], capture_output=True, check=False).returncode:
        raise unittest.SkipTest(f"{DEBIAN_PYTHON} has no selenium (apt-get install python3-selenium)")


def browse(script: str, *words: str, seconds: float = 540) -> None:
    """Runs a script of the tests that uses a browser, and asserts that it ends well."""
    ended = subprocess.run([DEBIAN_PYTHON, str(TESTS / script), *words], capture_output=True, text=True, check=False,
                           timeout=seconds)
    assert ended.returncode == 0, ended.stderr


def browse_pages(script: str, texts: dict[str, str]) -> None:
    """Runs such a script on the pages that `view` makes of some texts. BBMLAB_SHOTS names a folder that keeps them."""
    with tempfile.TemporaryDirectory() as room:
        folder = os.environ.get("BBMLAB_SHOTS", room)
        for name, text in texts.items():
            Path(room, f"{name}.txt").write_text(text)
            made = lab("view", f"{room}/{name}.txt", "-o", f"{folder}/{name}.html", "--program", program())
            assert (made.returncode, made.stderr) == (0, ""), made.stderr
        browse(script, folder)


def long_functions(folder: Path, most: int = 40) -> tuple[int, list[str]]:
    """Returns how many functions the scripts of a folder have, and which of them have at least `most` lines.

    One begins at a line that ends with a brace, and ends at the first one that is not indented more.
    """
    begins, count, found = re.compile(r"^( *)(?! )(?:/\*\*.*\*/ )?(?!(?:if|for|while|switch|class|else|try|\} "
                                      r"else)\b).*(?:\)|=>|constructor.*) \{$"), 0, list[str]()
    for path in sorted(folder.glob("*.js")):
        lines = path.read_text().splitlines()
        for number, line in enumerate(lines):
            if match := begins.match(line):
                count += 1
                end = next(at for at in range(number + 1, len(lines)) if lines[at].startswith(match[1] + "}"))
                found += [f"{path.name}:{number + 1}"] if end - number + 1 >= most else []
    return count, found


def wait_for(test: Callable[[], Any], seconds: float = 60) -> None:
    """Waits until something holds."""
    until = time.monotonic() + seconds
    while not test():
        assert time.monotonic() < until, "it did not come to that"
        time.sleep(0.02)


def processes(columns: str = "args") -> str:
    """Returns a line for each process, with its command last."""
    return subprocess.run(["ps", "-eo", columns], capture_output=True, text=True, check=True).stdout
