"""Mistakes of a user, and files and programs that are not what they should be: each gets a sentence and a status, and
nothing is lost.
"""

import json
import os
from pathlib import Path
from unittest.mock import patch

import support
from bbmlab_core.explain.edits import addition, deletion, edits_between, text_after_edits
from bbmlab_core.explain.explaining import explain_answer, gcc_error_lines
from bbmlab_core.farm.checking import text_files_below
from bbmlab_core.farm.receipts import ReceiptError, parse_receipt
from bbmlab_core.host.terminal import LabError, replace_file
from bbmlab_core.texts.skimming import certificate_digest
from bbmlab_core.pictures.golly import layout_text_from_golly
from bbmlab_core.texts.certificates import Module
from bbmlab_core.texts.designs import require_report_of_document
from bbmlab_core.texts.reports import ReportError, parse_report
from bbmlab_core.texts.shape_hints import character_hints

BLIF = ".model x\n.inputs a\n.outputs b\n.names a b\n1 1\n.end\n"
VERILOG = "module x(input a, output b);\n  assign b = a;\nendmodule\n"
# A circuit without inputs whose one wire no ball carries.
SOURCE = ("circuit\nsource 1 -> k\noutput k\nend\nlayout 4 4 2\nmirror 1 0 2 2\nout k 3 3\nend\ncertificate 2\nmodule "
          "0 0 4 4\nuse 0\nend\n")


class InRoom(support.InRoom):
    """Tests with a folder of their own."""

    def ends(self, status: int, sentence: str, *words: str, **environment: str) -> None:
        """Asserts how a command ends, and that it says a sentence on standard error."""
        ended = self.assert_ends(status, *words, **environment)
        self.assertRegex(ended.stderr, sentence)
        self.assertNotIn("Traceback", ended.stderr)


class Words(InRoom):
    """Wrong arguments, and outputs that cannot be."""

    def test_options_that_do_nothing(self) -> None:
        """An option that another one makes void is refused."""
        file = support.example("wrong_edge")
        for sentence, words in [("--on is not for --module", ("trace", file, "--module", "1", "--on", "p")),
                                ("without -o", ("fmt", "-i", file, "-o", str(self.room / "x.txt"))),
                                ("--send-program is for --dask", ("check", "--send-program", file)),
                                ("70000' is no port", ("studio", "--port", "70000", "--no-open")),
                                ("at most 64 by 64 cells, and this one has 144",
                                 ("certify", support.example("machine_full_adder"), "--plain"))]:
            with self.subTest(words):
                self.ends(2, sentence, *words)
        self.assertEqual(list(self.room.iterdir()), [])

    def test_usage_is_that_of_the_command(self) -> None:
        """After a wrong word the usage of the command is shown."""
        for words in (("draw", "a.txt", "--bogus"), ("draw", "a.txt", "b.txt")):
            self.ends(2, r"(?s)^usage: bbmlab draw .*-o.*unrecognized arguments", *words)

    def test_no_command_overwrites_what_it_reads(self) -> None:
        """An output that is the input, or the report, is refused, and the file stays."""
        text = support.text_of("wrong_edge")
        file, report = self.file("a.txt", text), self.file("report", "bbmcheck 1\n")
        for words in (("draw", file), ("view", file), ("json", file), ("json", "--back", file), ("golly", file),
                      ("from-golly", file), ("trace", file),
                      ("fmt", file), ("certify", file), ("route", file), ("explain", "--fix", file)):
            self.ends(2, "the output is the input", *words, "-o", file)
        self.ends(2, "the output is the input", "draw", file, "--report", report, "-o", report)
        self.assertEqual((Path(file).read_text(), Path(report).read_text()), (text, "bbmcheck 1\n"))

    def test_outputs_are_looked_at_first(self) -> None:
        """A file that cannot be made is told before a search."""
        with patch.dict(os.environ, {"BBMCHECK": "/no/such"}):
            self.ends(4, "there is no folder", "route", support.example("half_adder"), "-o",
                      str(self.room / "none" / "x.txt"))
            self.ends(4, "this is a folder", "route", support.example("half_adder"), "-o", str(self.room))

    def test_folders(self) -> None:
        """A folder that cannot be listed is no folder without files."""
        self.assertRaisesRegex(LabError, "No such file", text_files_below, str(self.room / "none"))
        self.ends(4, "No such file", "summary", str(self.room / "none"))
        self.ends(4, "there is no folder", "studio", str(self.room / "none" / "x.txt"), "--no-open")
        self.ends(4, "this is a folder", "studio", str(self.room), "--no-open")

    def test_files_are_made_in_their_folder(self) -> None:
        """The file that is renamed to an output lies beside it, however long its path is."""
        folder = self.room / ("d" * 220)
        folder.mkdir()
        made = []
        with patch("os.replace", lambda one, other: made.append((one, other))):
            replace_file(str(folder / f"{'ü' * 100}.txt"), b"x")
        self.assertEqual([{str(Path(one).parent), str(Path(other).parent)} for one, other in made], [{str(folder)}])


class Texts(InRoom):
    """Texts that are given to the wrong command."""

    def test_netlists_and_verilog(self) -> None:
        """They are named as what they are."""
        blif, verilog, document = self.file("a.blif", BLIF), self.file("a.v", VERILOG), self.file("a.json", "{}")
        self.ends(1, "this is Verilog: yosys makes a netlist of it", "route", verilog)
        self.ends(1, "this is a netlist: `bbmlab circuit` and `route` read", "explain", blif)
        self.ends(1, "this is JSON: .* `bbmlab json --back`", "explain", document)
        self.ends(1, "a.json: this is JSON, which --back reads", "json", document)
        self.ends(1, "latch.blif: The netlist stores 1 bit: say for how many cycles it runs", "route",
                  self.file("latch.blif", BLIF.replace(".names a b\n1 1", ".latch a b")))
        ended = support.lab("route", "--circuit-only", self.file("bom.blif", "\xef\xbb\xbf" + BLIF))
        self.assertEqual((ended.returncode, ended.stdout.split("\n")[0]), (0, "circuit"))

    def test_control_characters_of_a_netlist(self) -> None:
        """No name of a netlist reaches the terminal as it is."""
        blif = self.file("a.blif", BLIF.replace("inputs a", "inputs \x1b[31mA").replace("names a", "names \x1b[31mA"))
        ended = self.assert_ends(0, "route", "--circuit-only", blif)
        self.assertNotIn("\x1b", ended.stderr + ended.stdout)

    def test_parameters_of_yosys(self) -> None:
        """A parameter that is neither a number nor bits is refused."""
        cell = {"type": "$lut", "parameters": {"WIDTH": [1], "LUT": "01"}, "connections": {"A": [2], "Y": [3]},
                "port_directions": {"A": "input", "Y": "output"}}
        ports = {"a": {"direction": "input", "bits": [2]}, "b": {"direction": "output", "bits": [3]}}
        netlist = {"modules": {"x": {"attributes": {"top": "1"}, "ports": ports, "cells": {"c": cell}, "netnames": {}}}}
        self.ends(1, r"n\.json: ", "route", "--circuit-only", self.file("n.json", json.dumps(netlist)))

    def test_circuits_that_do_not_end(self) -> None:
        """A circuit without `end` is refused as the program refuses it."""
        for text, sentence in [("circuit\ninput a\noutput a\n", "line 4 is refused with code 12"),
                               ("circuit\ninput a\noutput a", "line 3 is refused with code 12"),
                               ("", "line 1 is refused with code 12"),
                               ("circuit\r\n", "line 1 is refused with code 1: The line ends with CR LF")]:
            with self.subTest(text):
                self.ends(1, sentence, "route", self.file("c.txt", text))

    def test_wrong_layouts_are_named(self) -> None:
        """`certify` names a cell that is wrong with all cuts."""
        self.ends(1, r"the cell \(\d+, \d+\) in the box 0 0 8 8 is wrong at time \d+", "certify",
                  support.example("plain_no"))

    def test_boxes_of_another_layout(self) -> None:
        """A box that the layout does not have is refused before its cells are listed."""
        boxes = self.file("boxes.txt", "module 0 0 99999998 99999998\n")
        self.ends(1, "is not inside the layout of", "certify", "--boxes", boxes, support.example("plain_no"))

    def test_names_of_files(self) -> None:
        """A name of a file that is no text is shown by its bytes."""
        name = os.fsencode(self.room) + b"/b\xff.txt"
        Path(os.fsdecode(name)).write_text("layout 2 2 0\nend\n")
        self.assert_ends(0, "view", os.fsdecode(name), out="b\\xff.txt")

    def test_patterns_far_away(self) -> None:
        """A place with thousands of digits is no place."""
        far = f"#CXRLE Pos={'9' * 5000},0\nx = 2, y = 2, rule = BBM-Margolus-emulated\noo$oo!\n"
        self.assertEqual(layout_text_from_golly(far), layout_text_from_golly(far.replace("9" * 5000, "0")))

    def test_hints_are_true(self) -> None:
        """`fmt` takes out `#` comments alone, and the hint says so."""
        self.assertEqual([("bbmlab fmt" in hint) for line in ("input a # x", "input a // x") for _,
                          hint in character_hints(line)], [True, False])


class Edits(support.InRoom):
    """Edits at the end of a text and of many equal lines, and reports that are not of the text."""

    def test_ends_of_texts(self) -> None:
        """Of empty lines at the end the first is deleted, and a missing line feed is told."""
        self.assertEqual(edits_between("a\nb\n\n", "a\nb\n"), [deletion(3)])
        self.assertEqual(edits_between("a\nb\n", "a\nb\n"), [])
        self.assertEqual(edits_between("a\nb", "a\nb\n"), [addition(2, "")])
        self.assertEqual(addition(2, "").as_sentence(["a", "b"]), "Add a line feed at the end of the file.")

    def test_equal_lines(self) -> None:
        """Edits between texts of many equal lines make the one of the other."""
        old, new = "waste 2 2\n# c\n" * 1990, "waste 2 2\n" * 1990
        self.assertEqual(text_after_edits(old, edits_between(old, new)), new)

    def test_lines_of_nothing(self) -> None:
        """A line about what the text does not have, and a report that contradicts itself, are refused."""
        document = support.read_document(SOURCE)
        self.assertIsNone(document.refusal)
        head = f"bbmcheck 1\ncertificate {certificate_digest(SOURCE)}\nmodules 1\nverdict "
        for rest in ("no\ndelay 0 5 missing\n", "no\nborder 0 1 900 1\n", "no\nlocal 0 end 999999999 1 1 0\n",
                     "no\nlocal 0 end 2 1 1 1\n",
                     "no\nkeep 0 0 0\n", "no\nunkept 0\n", "no\nmeet 0 differ\n", "no\nlocal 7 end 2 1 1 0\n", "no\n",
                     "yes\nlocal 0 end 2 1 1 0\n"):
            with self.subTest(rest), self.assertRaises(ReportError):
                require_report_of_document(document, parse_report(head + rest))
        require_report_of_document(document, parse_report(head + "yes\n"))
        require_report_of_document(document, parse_report(head + "no\nlocal 0 end 2 1 1 0\n"))

    def test_faults_have_a_line(self) -> None:
        """For editors, a fault at a cell without a line is at its module's line."""
        document = support.read_document(SOURCE)
        report = f"bbmcheck 1\ncertificate {certificate_digest(SOURCE)}\nmodules 1\nverdict no\nlocal 0 end 2 0 3 0\n"
        told = gcc_error_lines(explain_answer(SOURCE, "check", report, "text"))
        module: Module = document.certificate.modules[0]
        self.assertEqual([line.split(" ")[0] for line in told], [f"text:{module.line}:"])

    def test_receipts_of_errors(self) -> None:
        """A receipt whose report is none does not count, whatever it says; nor does one of endless seconds."""
        name = "x.txt"
        file = self.room / name
        file.write_bytes(Path(support.example("gate_and_mirror")).read_bytes())
        support.lab("check", "--program", support.program(), "--receipts", f"{self.room}/r", str(file))
        receipt = json.loads(next((self.room / "r").iterdir()).read_text())
        parse_receipt(json.dumps(receipt).encode())
        for changes in ({"verdict": "error", "report": "x\ncertificate 0\n"}, {"verdict": "error", "report": "x"},
                        {"processor_seconds": 10**400}):
            with self.subTest(list(changes)), self.assertRaises(ReceiptError):
                parse_receipt(json.dumps({**receipt, **changes}).encode())


class Programs(InRoom):
    """Programs that are missing, or whose status is not that of their report."""

    def test_a_yes_is_a_line_and_a_status(self) -> None:
        """A yes with another status is no answer for `explain` and `view`."""
        odd = self.fake(f"'{support.program()}' \"$@\"\nexit 1\n")
        file = support.example("gate_and_mirror")
        self.ends(4, "the program gave no verdict", "explain", "--program", odd, file)
        self.ends(4, "gave no answer", "explain", "--fix", "--program", odd, file)
        self.assert_ends(0, "view", "--program", odd, file, err="the page has no report")

    def test_a_run_that_is_refused(self) -> None:
        """A `run` without memory says nothing about the lab's run."""
        full = self.fake("cat >/dev/null\necho 'bbmcheck: out of memory' >&2\nexit 5\n")
        self.ends(0, "the last state was not compared: bbmcheck: out of memory", "trace", "--program", full,
                  support.example("head_on"))

    def test_no_program(self) -> None:
        """Without the program nothing ends as a yes does."""
        file = support.example("full_adder")
        self.ends(1, "the lab says yes already", "explain", "--fix", file, BBMCHECK="/no/such")
        self.ends(4, "there is no program at /no/such", "check", file, BBMCHECK="/no/such")
