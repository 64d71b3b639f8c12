"""Runs a program with one of its growths of memory refused, by tools/gate/fail_allocations.c. Needs cc."""
import os
import shutil
import subprocess
import sys
from pathlib import Path

# More growths than any run may need.
MOST_RUNS = 100_000


class AllocationFailer:
    """Keeps its library, and the count of the last run, in a folder."""

    def __init__(self, room):
        self.library, self.counter = Path(room) / "fail_allocations.so", Path(room) / "count"
        if not shutil.which("cc"):
            sys.exit("there is no C compiler (cc)")
        source = Path(__file__).resolve().with_name("fail_allocations.c")
        subprocess.run(["cc", "-O1", "-Wall", "-shared", "-fPIC", "-o", self.library, source, "-ldl"], check=True)

    def run(self, command, number, text=b""):
        """Returns how many growths the command asked for, and how it ended, if growth `number` is refused, counted from
        1."""
        self.counter.unlink(missing_ok=True)
        variables = {**os.environ, "LD_PRELOAD": str(self.library), "REFUSE": str(number), "COUNT": str(self.counter)}
        ended = subprocess.run(command, input=text, capture_output=True, env=variables, timeout=120)
        # A program that takes no library has no count.
        count = self.counter.read_bytes() if self.counter.exists() else b""
        return int.from_bytes(count, sys.byteorder), ended
