"""Runs that look only at what changes: they say what a plain run says, and take less time and memory."""

import contextlib
import io
import json
import random
import re
import tempfile
import unittest
from collections import Counter
from dataclasses import replace
from pathlib import Path
from unittest import mock

import support
from bbmlab_core.certify.certifier import CertificateOptions, certified_text
from bbmlab_core.cli import main
from bbmlab_core.explain.diagnosis import DiagnosticRuns
from bbmlab_core.explain.expected_lines import BorderCheck
from bbmlab_core.explain.explaining import explain_answer
from bbmlab_core.explain.fixing import Fixer
from bbmlab_core.explain.trials import TrialBudget, TrialRunner
from bbmlab_core.host.program import ask_program
from bbmlab_core.host.terminal import LabError
from bbmlab_core.physics import tracing
from bbmlab_core.physics.simulation import Fault, ModuleRun, WholeRun, key_of, least_assignment, layout_run
from bbmlab_core.pictures.golly import golly_text
from bbmlab_core.texts import designs
from bbmlab_core.texts.assigns import AssignReader
from bbmlab_core.texts.certificates import Certificate, CertificateReader
from bbmlab_core.texts.circuits import Circuit, CircuitReader, Gate, evaluate_samples, sampled_tables
from bbmlab_core.texts.documents import HEADER_LINE_PATTERN, HEADER_WORDS, Document
from bbmlab_core.texts.json_form import indented_json
from bbmlab_core.texts.layouts import Box, Layout, LayoutPart, LayoutReader
from bbmlab_core.texts.lines import LineForm, LineValues, match_line, word_value
from test_studio_model import random_layout

# Memory in which the trace of a large layout fits.
MEMORY = 400 << 20


def read(text: str) -> Document:
    """Returns a bundle."""
    return support.read_document(text, "check")


def bundles() -> dict[str, Document]:
    """Returns the worked cases and examples that are read, with few steps, by their names."""
    found = {case.name: read(case.input.decode("latin-1")) for case in support.worked_cases()
             if case.words[0] == "check" and len(case.input) < 9_000}
    found |= {path.stem: read(path.read_text("latin-1")) for path in sorted(support.EXAMPLES.glob("*.txt"))}
    return {name: document for name, document in found.items() if document.certificate and not document.refusal
            and document.layout and document.layout.steps <= 130}


def plain_least_fault(run: ModuleRun) -> Fault | None:
    """Returns the least fault of a module by a run that makes each step."""
    while True:
        found = [Fault(run.time, rank, cell[1], cell[0], least_assignment(table))
                 for rank, cell, table in run.faults_now()]
        if found or run.time == run.layout.steps:
            return min(found, default=None)
        run.step()


class Runs(unittest.TestCase):
    """What runs say, and what a layout of many modules asks for each of them."""

    def test_least_faults(self) -> None:
        """The least fault of each module is that of a run that makes each step, also where lines with times are left
        out or changed."""
        count = faults = 0
        chooser = random.Random(81)
        for name, document in bundles().items():
            circuit, layout, certificate = document.circuit, document.layout, document.certificate
            assert circuit and layout and certificate
            for number in range(len(certificate.modules)):
                for change in range(4):
                    module = certificate.modules[number]
                    kinds = [kind for kind in ("edges", "halos", "stops") if getattr(module, kind)]
                    if change and kinds:
                        kind = chooser.choice(kinds)
                        lines = getattr(module, kind)
                        gone = chooser.randrange(len(lines))
                        module = replace(module, **{kind: lines[:gone] + lines[gone + 1:]})
                        certificate = Certificate(certificate.version, (*certificate.modules[:number], module,
                                                                        *certificate.modules[number + 1:]))
                    wanted = plain_least_fault(ModuleRun(circuit, layout, certificate, module))
                    self.assertEqual(ModuleRun(circuit, layout, certificate, module).run_to_fault(), wanted,
                                     (name, number))
                    count, faults = count + 1, faults + (wanted is not None)
        self.assertGreater(min(count, faults), 150)

    def test_quiet_modules(self) -> None:
        """A module in which nothing moves makes few of many steps."""
        document = read("circuit\nsource 1 -> a\noutput a\nend\nlayout 16 16 65534\nmirror 2 5 4 2\nball 8 7\nball 9 "
                        "7\nball 8 8\nball 9 8\nout a 8 7\nwaste 9 7\nwaste 8 8\n"
                        "waste 9 8\nend\ncertificate 2\nmodule 0 0 16 16\nuse 0\nend\n")
        self.assertIsNone(document.refusal)
        assert document.circuit and document.layout and document.certificate
        run = ModuleRun(document.circuit, document.layout, document.certificate, document.certificate.modules[0])
        with mock.patch.object(run, "step", wraps=run.step) as step:
            self.assertIsNone(run.run_to_fault())
        self.assertLess(step.call_count, 20)

    def test_traces(self) -> None:
        """A trace has the live cells of each time, also where mirrors fall apart and balls leave."""
        chooser = random.Random(82)
        broken = 0
        for _ in range(120):
            layout = random_layout(chooser, 0, 30)
            on = [name for name in "pq" if chooser.randrange(2)]
            trace, run = tracing.trace_layout(layout, on, 0, layout.steps), layout_run(layout, on)
            states = [run.field.live_cells_under()]
            while run.time < layout.steps and run.step():
                states.append(run.field.live_cells_under())
            self.assertEqual(trace.states, states)
            self.assertEqual(trace.leaving_step, run.left and run.left[0])
            broken += any(moment.dead_mirror_cells for moment in trace.moments)
            time = chooser.randrange(len(states))
            self.assertEqual(tracing.state_at(layout, on, time), states[time])
        self.assertGreater(broken, 20)

    def test_borders(self) -> None:
        """The tables of ring cells by time are those of a run that looks at all cells at each odd time."""
        for name, document in bundles().items():
            diagnosis = DiagnosticRuns(document)
            check, run = BorderCheck(diagnosis), WholeRun(diagnosis.layout, diagnosis.wire_tables.tables,
                                                          diagnosis.wire_tables.full)
            borders = {cell for module in diagnosis.certificate.modules for cell in module.box.ring()
                       if not diagnosis.layout.is_rim(cell)}
            wanted: dict[tuple[int, int], dict[int, int]] | None = {}
            while wanted is not None and run.time < diagnosis.layout.steps:
                if run.time % 2:
                    for cell in borders:
                        if key_of(cell) in run.field.live:
                            wanted.setdefault(cell, {})[run.time] = run.field.live[key_of(cell)]
                if not run.step():
                    wanted = None
            self.assertEqual(check.ring_tables, wanted, name)

    def test_parts_of_a_box(self) -> None:
        """The parts in a box are those that a look at all parts finds, clipped, and the look is at few of many parts.
        """
        chooser = random.Random(82)
        parts = [LayoutPart("mirror", None, chooser.randrange(990), chooser.randrange(990),
                            chooser.choice((1, 2, 9, 90)), chooser.choice((1, 2, 9, 90))) for _ in range(90)]
        layout = Layout(1000, 1000, 9).with_parts(parts)
        every = [set(part.cells()) for part in parts]
        for _ in range(60):
            box = Box(chooser.randrange(0, 990, 2), chooser.randrange(0, 990, 2), chooser.randrange(2, 66, 2),
                      chooser.randrange(2, 66, 2))
            inside = set(box.cells())
            wanted = [sorted(cells & inside) for cells in every]
            self.assertEqual([sorted(part.cells()) for part in layout.clipped(box).parts],
                             [cells for cells in wanted if cells])
            self.assertEqual(box.ring(),
                             {(x, y) for x, y in box.cells() if {x - box.x, y - box.y} & {0}
                              or x - box.x == box.width - 1 or y - box.y == box.height - 1})
        cells = tuple((x, y) for x in range(0, 4096, 16) for y in range(0, 4096, 16))
        grid = Layout(4096, 4096, 9, balls=(*cells, (641, 641)))
        self.assertLess(len(grid.parts_near(Box(640, 640, 64, 64))), 50)
        self.assertEqual(grid.clipped(Box(640, 640, 4, 4)).balls, ((640, 640), (641, 641)))

    def test_samples(self) -> None:
        """Column A of a table is bit A of its number, as in a sum of single bits; the columns with all rows are found
        once."""
        names = [f"w{number}" for number in range(70)]
        tables = sampled_tables(names, 64, names[::3])
        columns = [{name for name in names if tables[name] >> column & 1} for column in range(64)]
        self.assertEqual(columns[:3], [set(names[::3]), set(), set(names)])
        chance = random.Random(1)
        single = [names[place] for place in sorted(chance.sample(range(70), 8))]
        self.assertEqual(columns[3:19], [wires for name in single for wires in ({name}, set(names) - {name})])
        for column, share in zip(range(19, 64), (0.5, 0.5, 0.25, 0.75, 0.1, 0.9, 0.03, 0.97) * 9):
            self.assertEqual(columns[column], {name for name in names if chance.random() < share}, column)
        gate = Gate("switch", (names[0], names[1]), ("d", "y", "z"))
        values = evaluate_samples(Circuit(tuple(names), (gate,)), 64)
        self.assertIs(values.defined_columns, values.defined_columns)

    def test_golly_rows(self) -> None:
        """Each sign of a Golly file is the state of its cell: 1 and 2 dead, 3 and 4 live, 1 and 3 upper left in a block
        at even times."""
        chooser = random.Random(83)
        live = {(chooser.randrange(30), chooser.randrange(20)) for _ in range(200)}
        body = golly_text(Layout(30, 20, 5), live, [], []).split("\n", 4)[-1].replace("\n", "").rstrip("!")
        rows = ["".join(sign * int(count or 1) for count, sign in re.findall(r"(\d*)([A-D])", row))
                for row in body.split("$")]
        wanted = ["".join("ABCD"[(x % 2 or y % 2) + 2 * ((x, y) in live)] for x in range(-2, 32))
                  for y in range(-2, 22)]
        self.assertEqual(rows, wanted)


class Forms(unittest.TestCase):
    """Lines that are matched as a whole, and JSON that is written at once."""

    def test_lines(self) -> None:
        """A line fits a form if each of its words fits the placeholder there."""
        chance, counts = random.Random(3), Counter[bool]()
        words = ["0", "1", "01", "17", "999999999", "1000000000", "*", "->", "a", "b_2", "_a", "A", "X", "TIME",
                 "a" * 32, "a" * 33, "", "a\n", "1\r", "\xb2"]
        for forms in (CircuitReader.forms, LayoutReader.forms, CertificateReader.forms, AssignReader.forms):
            for keyword, form in forms.items():
                for _ in range(400):
                    line = [keyword,
                            *(place if place == "->" else chance.choice(words)
                              for place in form[1:])][:chance.choice((9, 9, 2))]
                    found = match_line(" ".join(line), forms)
                    wanted = plain_values(line, form)
                    self.assertEqual(found, None if wanted is None else (keyword, wanted), line)
                    counts[found is None] += 1
        self.assertGreater(min(counts.values()), 100)

    def test_json(self) -> None:
        """JSON is as Python's own module writes it with an indent of 1, and what a generator yields is written as a
        list."""
        value = {"a": [], "b": {}, "c": [1, [2, "x\n\xe9\"", None], {"d": True, "e": [-1.5, {"f": [[]]}]}], "g": None,
                 "\x85": [[1, 2], ["a", "b"]]}
        self.assertEqual(indented_json(value, "\n"), json.dumps(value, indent=1))
        self.assertEqual(indented_json({"a": (part for part in [[1], {"b": 2}]), "c": (part for part in [])}, "\n"),
                         json.dumps({"a": [[1], {"b": 2}], "c": []}, indent=1))

    def test_headers(self) -> None:
        """The sections of a text are those of its lines whose first word is a header, with any blanks around."""
        chance = random.Random(4)
        parts = ["circuit", "layout", "assign", "certificate", "end", "x", "#", "layout2", *"\t\r\v\x1c\x85\xa0",
                 *" " * 3, *"\n" * 6]
        for _ in range(5000):
            text = "".join(chance.choice(parts) for _ in range(chance.randrange(1, 14)))
            lines = [line.strip().split(" ")[0] for line in text.split("\n")]
            self.assertEqual(HEADER_LINE_PATTERN.findall(text), [word for word in lines if word in HEADER_WORDS], text)

    def test_what_needs_no_certificate(self) -> None:
        """`trace` of a whole layout and `golly` do not read the certificate of a long text."""
        for words in (("trace", "--on", "p"), ("golly",)):
            read_sections = []
            right = CertificateReader.read
            read = mock.patch.object(CertificateReader, "read", lambda own: read_sections.append(right(own)))
            with (mock.patch.object(designs, "LONG_TEXT_CHARACTERS", 0), read,
                  contextlib.redirect_stderr(io.StringIO()),
                  contextlib.redirect_stdout(io.TextIOWrapper(io.BytesIO()))):
                self.assertEqual(main([*words, support.example("four_modules")]), 0)
            self.assertEqual(read_sections, [], words)


def plain_values(words: list[str], form: LineForm) -> LineValues | None:
    """Returns the values of the placeholders of a form for the words of a line, or None if one does not fit."""
    try:
        values = [(place, word_value(word, place)) for word, place in zip(words, form, strict=True)]
    except ValueError:
        return None
    return [value for place, value in values if place.isupper()]


class Once(support.InRoom):
    """Work that is done once, and what a large layout takes."""

    def test_one_reading_of_a_page(self) -> None:
        """`view` reads the text once, and `explain` compares the borders of its text once."""
        text = support.text_of("wrong_edge")
        with tempfile.TemporaryDirectory() as room, mock.patch("bbmlab_core.texts.certificates.CertificateReader.read",
                                                               autospec=True,
                                                               side_effect=CertificateReader.read) as reader:
            out = str(Path(room) / "page.html")
            with mock.patch("bbmlab_core.commands.view.trial_runner", return_value=None):
                self.assertEqual(main(["view", "--program", support.program(), support.example("wrong_edge"), "-o",
                                       out]), 0)
            self.assertEqual(reader.call_count, 1)
        with mock.patch("bbmlab_core.explain.expected_lines.BorderCheck.all_cell_edits", autospec=True,
                        side_effect=BorderCheck.all_cell_edits) as groups:
            explain_answer(text, "check", ask_program(support.program(), "check", text.encode()).output, "text",
                           TrialRunner(support.program()))
        own = [call for call in groups.call_args_list if call.args[0].diagnosis.document.text == text]
        self.assertEqual(len(own), 1)

    def test_effort_is_the_end(self) -> None:
        """When the effort is used up nothing more is tried, for no line of the report."""
        text = support.text_of("wrong_edge")
        trial = TrialRunner(support.program(), TrialBudget(seconds=30))
        report = trial.try_text(text)
        fixer, diagnosis = Fixer(text, report, trial), DiagnosticRuns(read(text))
        trial.budget = TrialBudget(seconds=0)
        with mock.patch.object(fixer, "text_after_edits_or_none") as applied:
            self.assertEqual([fixer.find_fix_of_line(diagnosis, finding) for finding in report.faults],
                             [None] * len(report.faults))
        self.assertEqual(applied.call_count, 0)

    def test_the_effort_is_that_of_the_search(self) -> None:
        """What `explain` did before the search does not count, so that a large text gets its search too; in the studio
        it counts."""
        text = support.text_of("wrong_edge")
        output = ask_program(support.program(), "check", text.encode()).output
        for is_of_search in (True, False):
            trial = TrialRunner(support.program(), TrialBudget(is_counted_from_search=is_of_search))
            trial.started -= 1000.0
            self.assertEqual(explain_answer(text, "check", output, "text", trial).fix is not None, is_of_search)

    def test_no_run_goes_on_after_the_effort(self) -> None:
        """No run of the search goes on when the time is over: the one that compares borders, and the one for another
        certificate, end at their first step."""
        text = support.text_of("wrong_edge")
        document = read(text)
        diagnosis = DiagnosticRuns(document)
        self.assertTrue(diagnosis.can_run_whole())
        with mock.patch("bbmlab_core.explain.expected_lines.WholeRun.step", autospec=True,
                        side_effect=WholeRun.step) as step:
            self.assertIsNone(BorderCheck(diagnosis, -1.0).ring_tables)
            self.assertLessEqual(step.call_count, 1)
            with self.assertRaises(LabError):
                certified_text(document, None, CertificateOptions(processor_deadline=0.0))
            self.assertLessEqual(step.call_count, 2)
            self.assertIsNotNone(BorderCheck(DiagnosticRuns(document), 30.0).ring_tables)
            self.assertGreater(step.call_count, 5)

    def test_trace_of_many_mirrors(self) -> None:
        """The trace of a hundred thousand mirror cells over 500 steps fits into 400 MB."""
        mirrors = "".join(f"mirror 2 {y} 500 2\n" for y in range(5, 495, 4))
        text = f"layout 512 512 500\n{mirrors}end\n"
        path = self.room / "mirrors.txt"
        path.write_text(text)
        for more in ([], ["--from", "490"]):
            ended = support.lab("trace", *more, "--program", "/nonexistent", str(path), memory=MEMORY)
            self.assertIn(ended.returncode, (0, 1), ended.stderr)
            self.assertNotIn("dead mirror cells", ended.stdout)
            self.assertEqual(ended.stderr[:42], "bbmlab: the last state was not compared: t")
