"""The command line: exit statuses, formats, and what goes wrong."""

import json
import os
import re
import subprocess
import xml.etree.ElementTree as ET
from pathlib import Path

import support
from bbmlab_core.host.program import ask_program


class Documents(support.InRoom):
    """The lists of docs/JSON.md of what a JSON document has."""

    def test_page_is_short(self) -> None:
        """docs/LAB.md has at most 1770 words, bars and dashes not counted, and names each command."""
        page = (support.TOP / "docs" / "LAB.md").read_text(encoding="utf-8")
        self.assertLessEqual(sum(bool(re.search(r"\w", piece)) for piece in page.split()), 1770)
        for name in ("check", "verify", "summary", "explain", "trace", "draw", "view", "studio", "certify", "circuit",
                     "table", "stats", "equal", "route", "join", "cells", "fmt", "json", "golly", "from-golly"):
            self.assertRegex(page, rf"`(lab/|)(bbmlab |){name}\b")

    def test_lists_are_whole(self) -> None:
        """Each document has the members that the page lists, besides `format`.

        A bundle has no assign section, and `limits` only with its line.
        """
        file, program = support.example("wrong_edge"), support.program()
        report = self.room / "report"
        report.write_text(ask_program(program, "check", Path(file).read_bytes()).output)
        for words, without in [(("json", "--report", str(report), file), {"assign", "limits"}),
                               (("explain", "--json", file), set()),
                               (("check", "--format", "json", file), {"stopped", "not_checked", "left_out"}),
                               (("trace", "--json", file), set())]:
            more = () if words[0] == "json" else ("--program", program)
            document = json.loads(support.lab(*words, *more).stdout)
            self.assertEqual(set(document) - {"format"}, support.page_members(document["format"]) - without, words[0])


class Check(support.InRoom):
    """`check`."""

    def test_statuses(self) -> None:
        """0 where all said yes, 1 for a no or a refusal, 4 for a missing file."""
        program = support.program()
        yes, no, refused = (support.example(name) for name in ("gate_and_mirror", "wrong_edge", "not_known"))
        for files, status, words in [([yes], 0, "1 yes"), ([yes, no], 1, "1 yes, 1 no"), ([refused], 1, "1 refused"),
                                     ([yes, "/no/such"], 4, "1 missing")]:
            with self.subTest(words):
                self.assert_ends(status, "check", "--program", program, *files, out=words)

    def test_formats(self) -> None:
        """JSON, TAP and JUnit have a place for each file."""
        program, files = support.program(), [support.example("gate_and_mirror"), support.example("wrong_edge")]
        told = {name: support.lab("check", "--program", program, "--format", name, *files).stdout
                for name in ("json", "tap", "junit")}
        self.assertEqual([row["result"] for row in json.loads(told["json"])["results"]], ["yes", "no"])
        lines = told["tap"].splitlines()[2:]
        self.assertEqual([line.split(" - ")[0].split(" ")[-1] for line in lines], ["1", "2"])
        self.assertEqual([line.split(" ")[0] for line in sorted(lines, key=lambda line: line.split(" - ")[1])],
                         ["ok", "not"])
        self.assertEqual(ET.fromstring(told["junit"]).get("failures"), "1")

    def test_troubles_are_told_apart(self) -> None:
        """A time-out, a crash and a program that is not there are no noes."""
        file = support.example("gate_and_mirror")
        yes = r"printf 'bbmcheck 1\ncertificate %064d\nmodules 1\nverdict yes\n' 0; exit 1" + "\n"
        for body, word in [("exec sleep 5\n", "time-out"), ("exit 70\n", "error"), ("echo hello\n", "error"),
                           (yes, "error")]:
            with self.subTest(word):
                self.assert_ends(4, "check", "--program", self.fake(body), "--timeout", "0.3", file, out=f"1 {word}")
        self.assert_ends(4, "check", "--program", str(self.room / "none"), file, stdout="",
                         err="there is no program at")

    def test_folders(self) -> None:
        """A folder is all its .txt files."""
        ended = support.lab("check", "--program", support.program(), "--format", "json", str(support.EXAMPLES))
        self.assertEqual(len(json.loads(ended.stdout)["results"]), len(list(support.EXAMPLES.glob("*.txt"))))


class Others(support.InRoom):
    """Other commands, and what all have in common."""

    def test_no_colours_in_a_pipe(self) -> None:
        """What goes to a pipe has no escape codes."""
        ended = support.lab("explain", support.example("wrong_edge"), "--program", support.program())
        self.assertNotIn("\033", ended.stdout)

    def test_standard_input(self) -> None:
        """`-` is standard input."""
        text = support.text_of("not_known")
        ended = support.lab("explain", "-", text=text, BBMCHECK=support.program())
        self.assertIn("does not know the wire `c`", ended.stdout.replace("\n  ", " "))

    def test_explains_refusals_without_the_program(self) -> None:
        """Without the program a refusal is explained by the lab's reader, and that is said."""
        ended = support.lab("explain", support.example("not_known"), "--program", "/no/such/program")
        self.assertIn("lab's reading", ended.stdout)
        self.assertEqual(support.lab("explain", support.example("gate_and_mirror"), "--program",
                                     "/no/such/program").returncode, 4)

    def test_trace_of_a_module_lists_its_own_mirror_cells(self) -> None:
        """A mirror that goes on in the next module has no dead cells there:

        `trace` looks at the cells of the box alone.
        """
        for module in ("0", "1"):
            ended = self.assert_ends(0, "trace", "--module", module, "--assignment", "1",
                                     support.example("gate_and_mirror"), "--program", support.program())
            self.assertNotIn("dead mirror", ended.stdout)

    def test_trace_is_compared(self) -> None:
        """`trace` compares its last state with the program, and says where a program says otherwise."""
        ended = support.lab("trace", support.example("head_on"), "--program", support.program())
        self.assertIn("3: 5,2 2,5", ended.stdout)
        self.assertIn("what the program's run says", ended.stderr)
        liar = self.fake("cat >/dev/null; echo cells 0\n")
        self.assertEqual(support.lab("trace", support.example("head_on"), "--program", liar).returncode, 4)

    def test_unknown_input(self) -> None:
        """A name that no `in` line has is said with those that there are."""
        self.assert_ends(2, "draw", support.example("head_on"), "--on", "r", err="the names are p, q")

    def test_runs_with_debian_python(self) -> None:
        """The lab runs with /usr/bin/python3, where there is one."""
        if not os.path.exists(support.DEBIAN_PYTHON):
            self.skipTest(f"there is no {support.DEBIAN_PYTHON}")
        ended = subprocess.run([support.DEBIAN_PYTHON, support.BBMLAB[1], "--version"], capture_output=True,
                               check=False)
        self.assertEqual(ended.returncode, 0)
