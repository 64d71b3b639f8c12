"""Fixes: edits that `explain` names were tried, the usual mistakes lead to their fix, and what was not tried is
unknown.
"""

import os
import unittest
from collections import Counter
from types import SimpleNamespace

import support
from bbmlab_core.explain.diagnosis import DiagnosticRuns, Tristate
from bbmlab_core.explain.edits import EditError, addition, deletion, edits_between, replacement, text_after_edits
from bbmlab_core.explain.expected_lines import BorderCheck
from bbmlab_core.explain.explaining import ExplainedAnswer, explain_answer
from bbmlab_core.explain.fixing import Fixer
from bbmlab_core.explain.refusal_edits import refusal_edits
from bbmlab_core.explain.trials import TrialBudget, TrialRunner, is_yes
from bbmlab_core.host.program import ask_program
from bbmlab_core.physics.mirrors import is_stable
from bbmlab_core.physics.own_report import lab_report
from bbmlab_core.texts.skimming import certificate_digest
from bbmlab_core.physics.simulation import LiveCells, key_of
from bbmlab_core.texts.certificates import Border, Module
from bbmlab_core.texts.layouts import Box, Layout, LayoutPart
from bbmlab_core.texts.reports import ReportError, parse_report
from measure_fixes import right_texts, rounds_to_yes
from mutations import FAMILIES, mutants
from support import text_of


def explained(text: str, command: str = "check") -> ExplainedAnswer:
    """Returns the program's answer to a text in words, with fixes that the program tried."""
    output = ask_program(support.program(), command, text.encode("latin-1")).output
    return explain_answer(text, command, output, "text", TrialRunner(support.program()))


def says_yes(text: str) -> bool:
    """Whether the program says yes to a text."""
    return "verdict yes" in support.checked(text)


class Edits(unittest.TestCase):
    """Edits of whole lines, lines that are left out of a certificate, and which mirrors fall apart."""

    def test_lines_count_in_the_text_before(self) -> None:
        """Edits do not shift each other's lines, and two lines that are added at one place keep their order."""
        text = "a\nb\nc\nd\n"
        edits = [deletion(1), addition(2, "x"), addition(2, "y"), replacement(4, "z"), addition(0, "first")]
        self.assertEqual(text_after_edits(text, edits), "first\nb\nx\ny\nc\nz\n")
        for wrong in ([deletion(9)], [deletion(0)], [deletion(2), replacement(2, "q")]):
            with self.assertRaises(EditError):
                text_after_edits(text, wrong)

    def test_edits_between_lead_from_one_to_the_other(self) -> None:
        """What is found by comparing two texts makes one of the other."""
        for one, two in (("a\nb\nc\n", "a\nc\nd\n"), ("a\n", "a\n"), ("", "x\ny\n"), ("p\nq\nr\n", "r\nq\np\n"),
                         ("a\na\na\n", "a\n")):
            with self.subTest(one=one, two=two):
                self.assertEqual(text_after_edits(one, edits_between(one, two)), two)

    def test_module_for_a_gap(self) -> None:
        """A module that was left out is added again, if no wire comes into its box."""
        head = "circuit\ninput p\noutput p\nend\nlayout 16 8 3\nin p 2 2\nout p 5 5\nend\n"
        whole = f"{head}certificate 2\nmodule 0 0 8 8\ncut p\nmodule 8 0 8 8\nend\n"
        text = whole.replace("module 8 0 8 8\n", "")
        self.assertEqual([text_after_edits(text, edits) for edits in refusal_edits(support.read_document(text))],
                         [whole])
        self.assertTrue(says_yes(whole))

    def test_one_edit(self) -> None:
        """Each `edge` line of such a wire that is left out is put back by one edit: it names the wire of the nearest
        line, or else another is tried."""
        for circuit in ("switch p q -> d y z\ndelay 40 d -> e\ndelay 30 y -> f\noutput e\noutput f\noutput z\n",
                        "switch p q -> d y z\ndelay 40 d -> e\noutput e\noutput y\noutput z\n"):
            bundle = support.lab("route", "-", "--program", support.program(),
                                 text=f"circuit\ninput p\ninput q\n{circuit}end\n").stdout
            self.assertTrue(says_yes(bundle))
            lines = bundle.split("\n")
            numbers = [number for number, line in enumerate(lines) if line.startswith("edge ") and line[-1] in "def"]
            self.assertGreater(len(numbers), 5)
            for number in numbers:
                text = "\n".join(lines[:number] + lines[number + 1:])
                report = TrialRunner(support.program()).try_text(text)
                assert report
                if not is_yes(report):
                    fix = Fixer(text, report, TrialRunner(support.program())).find_fix()
                    self.assertEqual((len(fix.edits), fix.has_new_certificate, is_yes(fix.report)), (1, False, True),
                                     (lines[number], fix.words))

    def test_nearest_line(self) -> None:
        """The wire of the line about the cell at the nearest time comes first, then those that most modules know, then
        that of a line next to it."""
        tables, layout = {"p": 5, "d": 5, "e": 5, "z": 3}, Layout(32, 32, 100)
        knowing = [Module(Box(8 * number, 0, 8, 8), tuple(names)) for number, names in enumerate(("p", "pe", "pe"))]
        for lines, modules, wanted in (([(8, 3, 41, "e"), (8, 3, 61, "p"), (9, 4, 49, "d")], [], "epd"),
                                       ([(8, 3, 41, "p"), (8, 3, 53, "e")], [], "epd"),
                                       ([(9, 4, 49, "d")], knowing, "ped"),
                                       ([(9, 4, 49, "d"), (7, 2, 47, "e"), (12, 3, 49, "p")], [], "dep"),
                                       ([], [], "pde")):
            check = BorderCheck.__new__(BorderCheck)
            at: dict[tuple[int, int], list[tuple[Module, Border]]] = {}
            for x, y, time, name in lines:
                at.setdefault((x, y), []).append((knowing[0], Border(time, x, y, name)))
            check.__dict__.update(lines_by_cell=at, layout=layout,
                                  diagnosis=SimpleNamespace(wire_tables=SimpleNamespace(tables=tables),
                                                            local_wires_of=lambda module: module.cuts))
            self.assertEqual("".join(check.likely_wires(5, modules, (8, 3), 49)), wanted, lines)

    def test_first_edit(self) -> None:
        """The first edit that is tried for such a line is the line itself, if others about its cell or next to it name
        its wire."""
        bundle = support.lab("route", "-", "--program", support.program(),
                             text="circuit\ninput p\ninput q\nswitch p q -> d y z\ndelay 40 d -> e\noutput e\n"
                             "output y\noutput z\nend\n").stdout
        lines = bundle.split("\n")
        tried = Counter[bool]()
        for number in (number for number, line in enumerate(lines) if line.startswith("edge ") and line[-1] in "de"):
            document = support.read_document("\n".join(lines[:number] + lines[number + 1:]), "check")
            _, time, x, y, name = lines[number].split(" ")
            near = [line.split(" ") for line in lines if line.startswith("edge ") and line != lines[number]]
            has_near = any(words[4] == name and max(abs(int(words[2]) - int(x)), abs(int(words[3]) - int(y))) <= 1
                           for words in near)
            found = BorderCheck(DiagnosticRuns(document)).all_cell_edits()
            group, = (group for group in found if group.cell == (int(x), int(y)))
            tried[[edit.text for edit in group.edits] == [lines[number]]] += has_near
        self.assertGreater(tried[True], 5)
        self.assertEqual(tried[False], 0)

    def test_stays_is_what_two_steps_do(self) -> None:
        """A rectangle alone stays if it is as it was after one and two steps of the automaton."""
        for x in (4, 5):
            for y in (4, 5):
                for width in range(1, 6):
                    for height in range(1, 6):
                        part = LayoutPart("mirror", None, x, y, width, height)
                        start = {key_of(cell): 1 for cell in part.cells()}
                        field = LiveCells(start)
                        kept = []
                        for _ in (1, 2):
                            field.step()
                            kept.append(set(field.live) == set(start))
                        self.assertEqual(is_stable(part), all(kept), part)

    def test_the_headline_names_it(self) -> None:
        """A mirror that was moved by one cell is named before anything else, though the fault is at an output."""
        text = text_of("machine_delay")
        line = next(line for line in text.split("\n") if line.startswith("mirror "))
        words = line.split(" ")
        told = explained(text.replace(line, " ".join([words[0], str(int(words[1]) + 1), *words[2:]])))
        self.assertIn("falls apart by itself", " ".join(told.headline))


class Mistakes(unittest.TestCase):
    """The usual mistakes of designers, each with its fix in one look."""

    def fixed(self, text: str, broken: str) -> ExplainedAnswer:
        """Returns the words on a broken text, after checking that its fix gets a yes and is about the edited lines."""
        self.assertNotEqual(text, broken)
        told = explained(broken)
        self.assertIsNotNone(told.fix, told.tried)
        self.assertEqual((told.fix.verdict, told.fix.judge), ("yes", "the program"))
        if not told.fix.certificate_again:
            self.assertTrue(says_yes(text_after_edits(broken, told.fix.edits)))
        return told

    def test_the_text_comes_back(self) -> None:
        """Where only one text is near and right, the fix gives it back."""
        plain, modules, adder = (text_of(name) for name in ("head_on_bundle", "four_modules", "machine_half_adder"))
        for name, text, old, new in [
                ("swapped outputs", plain, "out b 2 2\nout c 5 5", "out c 2 2\nout b 5 5"),
                ("comma for a space", plain, "in p 2 2", "in p 2,2"),
                ("comma after a word", plain, "in p 2 2", "in p, 2, 2"),
                ("arrow in UTF-8", plain, "->", "\xe2\x86\x92"),
                ("use out of order", adder, "use 0\nuse 1", "use 1\nuse 0"),
                ("moved in", modules, "in q 5 5", "in q 6 5"),
                ("phantom ball", plain, "in p 2 2", "ball 1 6\nin p 2 2"),
                ("capital letters", plain, "in p 2 2", "IN p 2 2")]:
            with self.subTest(name):
                self.assertIn(old, text)
                broken = text.replace(old, new)
                told = self.fixed(text, broken)
                self.assertEqual(text_after_edits(broken, told.fix.edits), text)

    def test_kinds_of_edits(self) -> None:
        """Where several texts are near and right, the fix is an edit of the line that is wrong."""
        delay, adder = text_of("machine_delay"), text_of("machine_half_adder")
        for name, text, old, new, word in [
                ("mirror parity", delay, "mirror 11 16 2 2", "mirror 12 16 2 2", "mirror"),
                ("missing mirror", adder, first_line(adder, "mirror "), "", "mirror"),
                ("missing ball", adder, first_line(adder, "ball "), "", "ball"),
                ("wrong constant", adder, "source 1 ->", "source 0 ->", "source 1")]:
            with self.subTest(name):
                self.assertIn(old, text)
                told = self.fixed(text, text.replace(old, new, 1))
                self.assertIn(f"`{word} ", " ".join(edit.text and f"`{edit.text}`" for edit in told.fix.edits))

    def test_two_fixes(self) -> None:
        """If two outputs of a gate are exchanged, both the gate and the `out` lines can be changed: each is named, and
        the program tried both."""
        text = text_of("fredkin_gate")
        for old, new in (("-> d u v", "-> d v u"), ("out u 8 11\nout v 11 8", "out v 8 11\nout u 11 8")):
            told = self.fixed(text, text.replace(old, new))
            words = " ".join([*told.fix.words, *(sentence for other in told.fix.others for sentence in other)])
            self.assertRegex(words, r"by `fredkin c x y -> d (u v|v u)`")
            self.assertRegex(words, r"by `out [uv] 8 11`")

    def test_no_certificate(self) -> None:
        """A design without a certificate leads to `bbmlab certify`."""
        told = self.fixed(text_of("head_on_bundle"), text_of("not_gate"))
        self.assertTrue(told.fix.certificate_again)
        self.assertIn("`bbmlab certify`", " ".join(told.fix.words))

    def test_one_input(self) -> None:
        """A yes to a circuit with one input is written in good English."""
        for name in ("one_wire", "mirror_bundle"):
            self.assertNotIn("the 1 inputs", " ".join(explained(text_of("mirror_bundle")).headline), name)
        self.assertIn("both values of its input", " ".join(explained(text_of("mirror_bundle")).headline))


def first_line(text: str, beginning: str) -> str:
    """Returns the first line of a text with a beginning, with its line feed."""
    return next(line for line in text.split("\n") if line.startswith(beginning)) + "\n"


class Reports(support.InRoom):
    """Reports that are not of the text or the lab's own, and what was not tried or only in samples."""

    def test_another_report_is_refused(self) -> None:
        """`explain --report` and `view --report` refuse a report with another digest, and one that names a module that
        there is not."""
        text, other = text_of("wrong_edge"), text_of("extra_cut")
        report = support.checked(other)
        with self.assertRaisesRegex(ReportError, "not of this text"):
            explain_answer(text, "check", report, "text")
        own = support.checked(text)
        with self.assertRaisesRegex(ReportError, "not of this text"):
            explain_answer(text, "check", own.replace("local 1", "local 9"), "text")
        path = self.room / "report"
        path.write_text(report)
        for command in ("explain", "view"):
            self.assert_ends(4, command, support.example("wrong_edge"), "--report", str(path), err="not of this text")

    def test_digest_is_the_program_s(self) -> None:
        """The digest of a certificate is that of the program's report."""
        for name in ("wrong_edge", "four_modules", "without_halos"):
            text = text_of(name)
            self.assertEqual(certificate_digest(text), parse_report(support.checked(text)).digest)

    def test_own_reports_are_the_program_s(self) -> None:
        """The report that the lab makes without the program is the program's, for each worked case that is small."""
        count = 0
        for case in support.worked_cases():
            if case.words[0] == "check" and case.output and len(case.input) < 6000 and not case.output.startswith(
                b"refused"):
                document = support.document_of(case)
                report, own = parse_report(case.output.decode()), lab_report(document)
                count += 1
                self.assertEqual((own.verdict, [finding.text for finding in own.findings]),
                                 (report.verdict, [finding.text for finding in report.findings]), case.name)
        self.assertGreater(count, 100)

    def many_inputs(self, is_right: bool) -> str:
        """Returns a bundle with 13 inputs, each of whose balls flies straight on; one `out` is at a wrong cell if it is
        not right."""
        names = [f"i{number}" for number in range(13)]
        spots = [(2 + 4 * (number % 7), 2 + 4 * (number // 7)) for number in range(13)]
        ins = [f"in {name} {x} {y}" for name, (x, y) in zip(names, spots)]
        outs = [f"out {name} {x + 2} {y + 2}" for name, (x, y) in zip(names, spots)]
        if not is_right:
            outs[4] = "out i4 20 2"
        modules = [["module 0 0 32 6", *(f"cut {name}" for name in names[:7])],
                   ["module 0 6 32 6", *(f"cut {name}" for name in names[7:])]]
        return "\n".join(["circuit", *(f"input {name}" for name in names), *(f"output {name}" for name in names), "end",
                          "layout 32 12 2",
                          *ins, *outs, "end", "certificate 2", *modules[0], *modules[1], "end", ""])

    def test_samples_are_named(self) -> None:
        """With 13 inputs a fault in a sample is certain, and no fault in the samples is unknown."""
        for is_right in (True, False):
            text = self.many_inputs(is_right)
            document = support.read_document(text, "check")
            self.assertIsNone(document.refusal)
            outcome = DiagnosticRuns(document).whole_run_outcome
            self.assertIs(outcome.correctness, Tristate.UNKNOWN if is_right else Tristate.NO)
        told = explained(self.many_inputs(False))
        self.assertIn("The layout itself does not do what the circuit asks", " ".join(told.headline))
        self.assertEqual([edit.text for edit in told.fix.edits], ["out i4 20 4"])

    def test_right_layout_with_a_wrong_certificate(self) -> None:
        """Of a right layout with 13 inputs it is never said that it is wrong, only that samples were tried."""
        lines = self.many_inputs(True).split("\n")
        lines.insert(lines.index("cut i6") + 1, "edge 1 5 5 1")
        told = explained("\n".join(lines))
        words = " ".join(told.headline)
        self.assertEqual(told.verdict, "no")
        self.assertIn("in 256 sampled choices of the inputs", words)
        self.assertNotIn("The layout itself does not", words)
        self.assertEqual([(edit.action, edit.line) for edit in told.fix.edits],
                         [("delete", lines.index("edge 1 5 5 1") + 1)])

    def test_never_occurs_does_not_mask_a_missing_line(self) -> None:
        """With a cut that never occurs so and a missing line too, the missing line is the cause."""
        text = text_of("extra_cut").replace("edge 3 7 7 c\n", "", 1)
        told = explained(text)
        entry = told.entries[0]
        self.assertIs(entry.facts["occurs"], False)
        self.assertEqual(entry.cause, "line")
        self.assertIn("Under values that do occur the module has a fault too", " ".join(entry.what))


class Command(support.InRoom):
    """`explain --fix`, and faulty texts made of right ones by one edit."""

    def test_files(self) -> None:
        """The text goes to standard output or to another file, and over the input only with -i."""
        path, other = self.room / "text.txt", self.room / "fixed.txt"
        path.write_text(text_of("wrong_edge"))
        program = support.program()
        ended = support.lab("explain", "--fix", str(path), "--program", program)
        self.assertEqual((ended.returncode, says_yes(ended.stdout), path.read_text()), (0, True, text_of("wrong_edge")))
        self.assertEqual(support.lab("explain", "--fix", str(path), "-o", str(path), "--program",
                                     program).returncode, 2)
        self.assertEqual(path.read_text(), text_of("wrong_edge"))
        support.lab("explain", "--fix", str(path), "-o", str(other), "--program", program)
        self.assertTrue(says_yes(other.read_text()))
        self.assertEqual(support.lab("explain", "--fix", "-i", str(path), "--program", program).returncode, 0)
        self.assertTrue(says_yes(path.read_text()))
        self.assertEqual(support.lab("explain", "-o", str(other), str(path), "--program", program).returncode, 2)

    def test_without_the_program(self) -> None:
        """Without the program the lab tries the edits by its own runs, says so, and ends with 1: it gives no verdict.
        """
        ended = self.assert_ends(1, "explain", "--fix", support.example("wrong_edge"), "--program", "/no/such/program",
                                 err="only the program gives a verdict")
        self.assertTrue(says_yes(ended.stdout))

    def test_no_fix_says_what_was_tried(self) -> None:
        """If nothing is found, standard error says how many texts were tried and which kinds of edits; nothing is
        written."""
        lines = ["circuit", "input c", "input x", "input y", "fredkin c x y -> d u v", "output d", "output u",
                 "output v", "end", "layout 8 8 1",
                 "in c 2 2", "in x 4 4", "in y 2 5", "out d 3 3", "out u 5 5", "out v 3 4", "end",
                 "certificate 2", "module 0 0 8 8", "cut c", "cut x", "cut y", "use 0", "end", ""]
        ended = self.assert_ends(1, "explain", "--fix", "-", text="\n".join(lines), BBMCHECK=support.program(),
                                 stdout="", err="No fix was found")
        self.assertIn("one gate line", ended.stderr)

    def test_mutants_are_fixed(self) -> None:
        """At least 95 percent get a yes in at most two rounds, and no fix leads to a refusal."""
        program, texts = support.program(), right_texts(2000)
        count = int(os.environ.get("BBMLAB_MUTANTS", "3"))
        total, failed = 0, []
        for family in FAMILIES:
            for name, text in mutants(family, texts, count, 7,
                                      lambda text: is_yes(TrialRunner(program).try_text(text))):
                rounds, refused = rounds_to_yes(text, program)
                total += 1
                self.assertEqual(refused, [], f"{family} {name}")
                if rounds is None:
                    failed.append(f"{family} {name}")
        self.assertGreaterEqual(total, 6 * count)
        self.assertLessEqual(len(failed), total // 20, failed)

    def test_each_printed_fix_was_tried(self) -> None:
        """Each fix of a line of a report, applied to the text, leads to no refusal, and the line is gone."""
        program, tried = support.program(), 0
        for name in ("wrong_edge", "wrong_border", "wrong_times", "wrong_stop", "extra_cut", "two_names",
                     "outside_domain", "not_kept"):
            text = text_of(name)
            trial = TrialRunner(program, TrialBudget(200, 20))
            report = trial.try_text(text)
            fixer, diagnosis = Fixer(text, report, trial), DiagnosticRuns(support.read_document(text, "check"))
            for finding in report.faults:
                fix = fixer.find_fix_of_line(diagnosis, finding)
                if fix:
                    tried += 1
                    after = support.checked(text_after_edits(text, fix.edits))
                    self.assertNotIn("refused", after)
                    self.assertNotIn(finding.text, after.split("\n"))
        self.assertGreater(tried, 6)
