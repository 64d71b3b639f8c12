"""Tests of tools/gate/check_prover_lines: a fault stays until a run proves the crate again, and the C functions are
compared by name.
"""
import os
import subprocess
import sys

import planted

WORDS = "functions=10 axioms=14 main=Threads+Wait sum=dac8208d650f15bf native=nat,char,string"
PROVED = f"== bbmcheck\nlogic=proved {WORDS}\nrt: bbmcheck proved\n"
KEPT = "rt: bbmcheck is kept: an earlier run on this machine proved the same files over the same libraries\n"


class CheckProverLines(planted.Planted):
    def setUp(self) -> None:
        super().setUp()
        # A kit of the test's own, next to which its proofs are kept.
        kit = self.top / "kit"
        (kit / "bin").mkdir(parents=True)
        (kit / "KIT-ID").write_text("rattle-kit-0 logic 0\n")
        (kit / "bin" / "rt").write_text("#!/bin/sh\n")
        (kit / "bin" / "rt").chmod(0o755)
        (self.top / "rattle-kept").mkdir()
        self.path = f"{kit / 'bin'}:{os.environ['PATH']}"

    def check(self, log: str, *words: str) -> tuple[int, str]:
        """Returns the status and the output of the tool for a log."""
        (self.top / "log").write_text(log)
        ended = subprocess.run([sys.executable, "tools/gate/check_prover_lines", *words, "log"], cwd=self.top,
                               env={**os.environ, "PATH": self.path},
                               stdin=subprocess.DEVNULL, capture_output=True, text=True, check=False)
        self.assertEqual(ended.stderr, "")
        return ended.returncode, ended.stdout

    def test_kept_after_a_good_run(self) -> None:
        self.assertEqual(self.check(PROVED)[0], 0)
        self.assertEqual(self.check(KEPT)[0], 0)

    def test_kept_and_never_compared(self) -> None:
        status, said = self.check(KEPT)
        self.assertEqual(status, 0)
        self.assertRegex(said, "NOT COMPARED.*: bbmcheck\n")
        self.assertEqual(self.check(PROVED)[0], 0)
        self.assertNotIn("NOT COMPARED", self.check(KEPT)[1])

    def test_kept_after_a_fault(self) -> None:
        self.assertEqual(self.check(PROVED)[0], 0)
        for wrong in (PROVED.replace("axioms=14", "axioms=15"), PROVED.replace("functions=10", "functions=10 hides=1")):
            self.assertEqual(self.check(wrong)[0], 1)
            self.assertEqual(self.check(KEPT)[0], 1)
            self.assertEqual(self.check(KEPT)[0], 1)
            self.assertEqual(self.check(PROVED)[0], 0)
            self.assertEqual(self.check(KEPT)[0], 0)

    def test_kept_after_a_wrong_body_that_was_not_tried(self) -> None:
        self.assertEqual(self.check(PROVED + "rt: crates/lemmas/must-fail/a.edit: BAD EDIT: it does not apply\n== "
                                    "lemmas\n"
                                    "logic=proved sum=dac8208d650f15bf\nrt: lemmas proved\n")[0], 1)
        self.assertEqual(self.check(KEPT + KEPT.replace("bbmcheck", "lemmas"))[0], 1)

    def test_kept_of_other_sources(self) -> None:
        self.assertEqual(self.check(PROVED.replace("axioms=14", "axioms=15"))[0], 1)
        file = self.top / "crates/lemmas/src/lib.rt"
        before = file.read_text()
        file.write_text(before + "\n")
        self.assertIn("NOT COMPARED", self.check(KEPT)[1])
        file.write_text(before)
        self.assertEqual(self.check(KEPT)[0], 1)

    def test_names_of_c_functions(self) -> None:
        names = [line for line in (self.top / "tools/gate/assumed_functions.txt").read_text().splitlines()
                 if not line.startswith("#")]
        said = "".join(f"  {name}   reached\n" for name in names) + "  libc::chmod\n" + f"logic=proved {WORDS}\n"
        self.assertEqual(self.check(said, "--axioms")[0], 0)
        # As many as before, and another one.
        status, wrong = self.check(said.replace("libc::chdir ", "libc::chmod "), "--axioms")
        self.assertEqual(status, 1)
        self.assertIn("libc::chmod is assumed", wrong)
        self.assertIn("libc::chdir is not assumed", wrong)
