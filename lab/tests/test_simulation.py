"""The lab's simulation against the worked cases and the program."""

import random
import subprocess
import unittest
from dataclasses import replace

import support
from bbmlab_core.physics.simulation import ModuleRun, layout_run
from bbmlab_core.physics.tracing import bytes_for_run_command, layout_section_lines

# The runs of this bundle take some seconds each; it is one of many.
SLOW = {"bundle_bouncers_64_v1"}


def run_answer(document: support.Document) -> str:
    """Returns what `run` writes, by the lab's simulation."""
    run = layout_run(document.layout, document.on or [])
    left = None if run.run_to(document.layout.steps) else run.left[0]
    return support.run_words(support.sorted_cells(run.field.live_cells_under()), left)


class Simulation(unittest.TestCase):
    """Whole runs and runs of modules."""

    def test_whole_runs_of_the_cases(self) -> None:
        """Each worked run ends with the cells that the case says."""
        count = 0
        for case in support.worked_runs():
            count += 1
            with self.subTest(case.name):
                self.assertEqual(run_answer(support.document_of(case)), case.output.decode())
        self.assertGreater(count, 100)

    def test_local_runs_of_the_cases(self) -> None:
        """Each module of each worked report has the fault that its `local` line says, or none."""
        count = 0
        for case in support.worked_cases():
            if case.words[0] != "check" or case.status == 3 or case.output is None or case.name in SLOW:
                continue
            wanted = [line for line in case.output.decode().splitlines() if line.startswith("local ")]
            count += len(wanted)
            with self.subTest(case.name):
                self.assertEqual(local_lines(support.document_of(case)), wanted)
        self.assertGreater(count, 400)

    def test_runs_of_the_examples_by_the_program(self) -> None:
        """The whole run of each example under some choices of inputs, at some times, is the program's."""
        program, chooser = support.program(), random.Random(43)
        for path in sorted(support.EXAMPLES.glob("*.txt")):
            document = support.read_document(path.read_text())
            if document.layout is None or document.layout.width == 0:
                continue
            names, most = sorted({port.name for port in document.layout.ins}), document.layout.steps
            for _ in range(3):
                document.on = tuple(name for name in names if chooser.random() < 0.5)
                most = chooser.randrange(most + 1)
                document.layout = replace(document.layout, steps=most)
                lines = layout_section_lines(document)
                lines[0] = f"layout {document.layout.width} {document.layout.height} {document.layout.steps}"
                ended = subprocess.run([program, "run"], input=bytes_for_run_command(lines, document.on),
                                       capture_output=True, check=False)
                if ended.returncode != 3:
                    with self.subTest(f"{path.name} with {document.on} up to {document.layout.steps}"):
                        self.assertEqual(run_answer(document), ended.stdout.decode())


def local_lines(document: support.Document) -> list[str]:
    """Returns the `local` lines of a report, by the lab's runs."""
    lines = []
    for module in document.certificate.modules:
        fault = ModuleRun(document.circuit, document.layout, document.certificate, module).run_to_fault()
        if fault:
            lines.append(f"local {module.number} {fault.text_in_report()}")
    return lines
