"""A copy of the sources, in which a test plants a fault, and the tools that look for it, also as modules."""
import shutil
import subprocess
import sys
import tempfile
import unittest
from pathlib import Path
from typing import Any

TOP = Path(__file__).resolve().parent.parent.parent
sys.path.insert(0, str(TOP / "tools" / "gate"))
from scripts import load  # noqa: E402


def gate_script(name: str) -> Any:
    """Returns a script of `tools/gate` as a module."""
    return load(TOP / "tools" / "gate" / name)


class InRoom(unittest.TestCase):
    """Tests with a folder of their own."""

    def setUp(self) -> None:
        room = tempfile.TemporaryDirectory()
        self.addCleanup(room.cleanup)
        self.top = Path(room.name)


class Planted(InRoom):
    """Tests that change a copy of crates/ and run a tool of the copy."""

    def setUp(self) -> None:
        super().setUp()
        for folder in ("crates", "tools", "docs", "release"):
            shutil.copytree(TOP / folder, self.top / folder,
                            ignore=shutil.ignore_patterns("out", "data", "proofs", "must-*", "__pycache__"))
        for name in ("README.md", "crates.txt"):
            shutil.copy(TOP / name, self.top)

    def change(self, path: str, old: str, new: str) -> None:
        """Exchanges a text that a file contains once."""
        file = self.top / path
        text = file.read_text()
        self.assertEqual(text.count(old), 1, f"{path} contains {old!r} not once, so this test plants nothing")
        file.write_text(text.replace(old, new))

    def run_tool(self, *words: str) -> subprocess.CompletedProcess[str]:
        """Runs a tool of the copy."""
        return subprocess.run([sys.executable, *words], cwd=self.top, stdin=subprocess.DEVNULL, capture_output=True,
                              text=True, check=False)
