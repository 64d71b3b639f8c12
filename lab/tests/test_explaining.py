"""The words of reports: what they say of faults is compared with runs and values that are made here in another way."""

import itertools
import json
import re
import unittest

import support
from bbmlab_core.explain.diagnosis import DiagnosticRuns, Tristate
from bbmlab_core.explain.explaining import explain_answer, gcc_error_lines
from bbmlab_core.explain.trials import TrialRunner
from bbmlab_core.texts.skimming import certificate_digest
from bbmlab_core.texts.circuits import values_and_undefined_gate
from bbmlab_core.texts.reports import ReportError, parse_report


def small_noes() -> list:
    """Returns worked cases with a `no` that are small enough to try all inputs."""
    found = []
    for case in support.worked_cases():
        if case.words[0] == "check" and case.status == 1 and case.output and len(case.input) < 6000:
            document = support.document_of(case)
            if len(document.circuit.inputs) <= 6:
                found.append((case, document))
    return found


class Explained(unittest.TestCase):
    """Answers and lines of reports in words, and fixes of certificates."""

    def test_what_is_no_answer(self) -> None:
        """A file that no command of the program wrote, or one of another text, is refused with a sentence."""
        run, value = (support.text_of(name) for name in ("head_on", "collision_values"))
        for text, command, output in [(run, "run", "0\n"), (run, "run", ""), (run, "run", "cells x\n"),
                                      (run, "run", "bbmcheck 1\n"),
                                      (value, "value", "p\n"), (value, "value", "undefined 99\n"),
                                      (value, "value", "p 1\nundefined 0\n"),
                                      (value + "more\n", "value", "p 1\nq 0\n"), (run, "modules", "cells 1\n")]:
            with self.subTest(output), self.assertRaises(ReportError):
                explain_answer(text, command, output, "text")

    def test_wire_named_undefined(self) -> None:
        """A wire can have the name `undefined`: its value is no gate without a row."""
        told = explain_answer("circuit\ninput undefined\noutput undefined\nend\nassign\non undefined\nend\n", "value",
                              "undefined 1\n", "text")
        self.assertEqual((told.verdict, "`undefined`" in told.headline[0]), ("values", True))

    def test_each_line_is_told(self) -> None:
        """Each line of each worked no has sentences; cells and module numbers are those of the line."""
        count = 0
        for case, _ in small_noes():
            told = explain_answer(support.decode_latin1(case.input), "check", case.output.decode(), case.name)
            report = parse_report(case.output.decode())
            self.assertEqual([entry.report_line for entry in told.entries],
                             [finding.text for finding in report.findings])
            for entry, finding in zip(told.entries, report.findings):
                words = " ".join(entry.what)
                count += 1
                if finding.word in ("local", "border"):
                    self.assertIn(f"({finding.values['x']}, {finding.values['y']})", words, case.name)
                    self.assertRegex(words, rf"[Mm]odules? {finding.values['module']}\b|{finding.values['module']} and",
                                     case.name)
        self.assertGreater(count, 100)

    def test_occurrence_is_that_of_all_values(self) -> None:
        """Whether an assignment occurs is what trying all inputs one by one says, and the inputs that are named give
        it."""
        tried = 0
        for case, document in small_noes():
            diagnosis = DiagnosticRuns(document)
            for finding in parse_report(case.output.decode()).findings:
                if finding.word != "local":
                    continue
                module = document.certificate.modules[finding.number_value("module")]
                wanted = module.cut_values(finding.number_value("assignment"))
                occurrence = diagnosis.assignment_occurrence(module, finding.number_value("assignment"))
                all_inputs = itertools.product((0, 1), repeat=len(document.circuit.inputs))
                found = any(gives(document, dict(zip(document.circuit.inputs, bits)), wanted) for bits in all_inputs)
                tried += 1
                self.assertIs(occurrence.occurs, Tristate.YES if found else Tristate.NO, f"{case.name}: {finding.text}")
                if found:
                    self.assertTrue(gives(document, occurrence.inputs, wanted), f"{case.name}: {finding.text}")
        self.assertGreater(tried, 50)

    def test_examples_name_their_cause(self) -> None:
        """docs/GUIDE.md shows these lines of reports, and their causes are those that it names, with the lines that fix
        them."""
        page = (support.TOP / "docs" / "GUIDE.md").read_text(encoding="utf-8")
        for name, report_line, cause, fix in [
                ("extra_cut", "local 0 edge 3 7 4 3", "never_occurs", "use 0"),
                ("wrong_edge", "local 1 edge 5 8 8 2", "line", "edge 5 8 8 c"),
                ("wrong_edge", "local 0 end 6 7 7 1", "not_heard", "edge 5 8 8 c"),
                ("wrong_end", "local 1 end 6 10 10 2", "layout", "out c 7 7"),
                ("wrong_stop", "local 0 stop 2 6 6 1", "line", "stop 1 q 6 6"),
                ("wrong_border", "local 0 end 3 2 2 2", "not_heard", "halo 1 4 4 q"),
                ("wrong_border", "border 0 1 4 4", "border", "halo 1 4 4 q"),
                ("outside_domain", "keep 0 1 8", "never_occurs", "use 0"),
                ("not_kept", "unkept 1", "unkept", "keep 1")]:
            told = explained_example(name)
            entry = next(entry for entry in told.entries if entry.report_line == report_line)
            with self.subTest(f"{name}: {report_line}"):
                self.assertIn(f"`{report_line}`", page)
                self.assertEqual(entry.cause, cause)
                self.assertIn(f"`{fix}`", " ".join(entry.fixes))

    def test_keep_of_many_inputs_has_no_cause(self) -> None:
        """With 13 inputs only samples are tried. None of them gives these values, so a `keep` line names no cause."""
        inputs = [f"i{number}" for number in range(1, 14)]
        chain = [f"interact {'i1' if number == 2 else f'x{number - 1}'} i{number} -> x{number} b{number} c{number} "
                 f"d{number}"
                 for number in range(2, 14)]
        left_over = [name for number in range(2, 14) for name in (f"b{number}", f"c{number}", f"d{number}")
                     if name not in ("b13", "c13")]
        cells = [f"in {name} {number % 12} {number // 12}" for number, name in enumerate(inputs)]
        cells.sort(key=lambda line: int(line.split()[2]) // 4)
        modules = [[f"module {x} 0 4 4",
                    *(f"cut {name}" for number, name in enumerate(inputs) if x <= number % 12 < x + 4)]
                   for x in (0, 4, 8)]
        lines = ["circuit", *(f"input {name}" for name in inputs), *chain, "unswitch x13 b13 c13 -> u v",
                 *(f"spill {name}" for name in [*left_over, "u", "v"]), "end", "layout 12 4 0", *cells, "end",
                 "certificate 1",
                 *modules[0], *modules[1], *modules[2], "cut x13", "cut b13", "cut c13", "use 12", "keep 12", "end", ""]
        assignment = 0b101 << (len(modules[2]) - 1)
        text = "\n".join(lines)
        report = f"bbmcheck 1\ncertificate {certificate_digest(text)}\nmodules 3\nverdict no\nkeep 2 12 {assignment}\n"
        entry = explain_answer(text, "check", report, "many_inputs").entries[0]
        self.assertIsNone(entry.facts["occurs"])
        self.assertEqual(entry.cause, "")
        self.assertIn("in 256 sampled choices of the inputs", " ".join(entry.what))
        self.assertIn("was not tried", " ".join(entry.what))

    def test_line_numbers_are_right(self) -> None:
        """The line of the text that a fault names is the one that says what was wanted."""
        entry = explained_example("extra_cut").entries[0]
        text = support.text_of("extra_cut").split("\n")
        self.assertEqual(text[entry.line - 1], "edge 3 7 4 a")
        self.assertIn("p=1 q=1 a=0", entry.what[0])

    def test_forms_for_tools(self) -> None:
        """`--gcc` has a line for each reason, and JSON is one document."""
        told = explained_example("wrong_edge")
        lines = gcc_error_lines(told)
        self.assertEqual(len(lines), 2)
        for line in lines:
            self.assertRegex(line, r"\Awrong_edge:\d+: error: ")
        program = support.program()
        ended = support.lab("explain", support.example("wrong_edge"), "--json", "--program", program)
        self.assertEqual(json.loads(ended.stdout)["verdict"], "no")
        self.assertEqual(ended.returncode, 1)

    def test_lines_that_are_left_out_come_back(self) -> None:
        """If one edge line of a good bundle is left out, the fix of the first fault is that line."""
        text = support.text_of("gate_and_mirror")
        for line in re.findall(r"^edge \d+ .*$", text, re.M):
            broken = text.replace(line + "\n", "", 1)
            told = explain_answer(broken, "check", support.checked(broken), "broken", TrialRunner(support.program()))
            first = min((entry for entry in told.entries if entry.facts.get("time") is not None),
                        key=lambda entry: entry.facts["time"])
            wires = {"a": "ad", "d": "ad"}.get(line[-1], line[-1])
            with self.subTest(line):
                self.assertTrue(any(f"`{line[:-1]}{wire}`" in " ".join(first.fixes) for wire in wires), first.fixes)

    def test_listings_are_told_as_their_own(self) -> None:
        """They are no values of a circuit."""
        text = support.text_of("four_modules")
        for command, output, words in (("modules", "module 0 0 0 4 4\nmodule 1 4 0 4 4\n", "2 modules"),
                                       ("modules", "module 0 0 0 8 8\n", "one module"), ("migrate", text, "version 2")):
            told = explain_answer(text, command, output, "four_modules.txt")
            with self.subTest(command):
                self.assertEqual((told.command, told.verdict), (command, "read"))
                self.assertIn(words, " ".join(told.headline))


def gives(document: support.Document, inputs: dict[str, int], wanted: dict[str, int]) -> bool:
    """Whether the circuit's values under these inputs are the wanted ones."""
    values, _ = values_and_undefined_gate(document.circuit, {name for name, value in inputs.items() if value})
    return all(name in values and values[name] == bool(value) for name, value in wanted.items())


def explained_example(name: str):
    """Returns the words of an example's report, which the plain programs of tools/oracle make."""
    import sys
    sys.path.insert(0, str(support.TOP / "tools" / "oracle"))
    import reference_reports
    data = (support.EXAMPLES / f"{name}.txt").read_bytes()
    return explain_answer(data.decode(), "check", reference_reports.answer(data)[1].decode(), name,
                          TrialRunner(support.program()))
