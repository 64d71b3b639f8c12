"""The page: its runs under node against worked cases and the lab's runs, and the page itself in a browser where there
is one.
"""

import base64
import hashlib
import random
import re

import support
from bbmlab_core.physics.simulation import ModuleRun, layout_run
from bbmlab_core.texts.circuits import values_and_undefined_gate
from support import data_of, sorted_cells
from test_view_engine import node


def state_at(document: support.Document, on: list[str], time: int) -> list[list[int]]:
    """Returns the live cells at a time by the lab's run."""
    run = layout_run(document.layout, on)
    run.run_to(time)
    return sorted_cells(run.field.live_cells_under())


class Page(support.InRoom):
    """The page's script under node, and the page as a file and in a browser."""

    def test_last_states_of_the_cases(self) -> None:
        """The page ends each worked run as the case says."""
        cases = support.worked_runs()
        documents = [support.document_of(case) for case in cases]
        jobs = [{"data": data_of(document), "on": document.on, "times": [document.layout.steps]}
                for document in documents]
        for case, told in zip(cases, node(jobs)):
            with self.subTest(case.name):
                self.assertEqual(support.run_words(told["states"][0][1], told["left"]), case.output.decode())

    def test_seeking_back_and_forth(self) -> None:
        """States at times in any order are those of the lab's run, and values those of the circuit."""
        chooser, jobs, wanted = random.Random(5), [], []
        for name in ("full_adder", "gate_and_mirror", "fredkin_gate", "delay_line", "timed_modules"):
            document = support.read_document(support.text_of(name))
            on = [wire for wire in document.circuit.inputs if chooser.random() < 0.7]
            times = [chooser.randrange(document.layout.steps + 1) for _ in range(12)]
            jobs.append({"data": data_of(document), "on": on, "times": times})
            wanted.append([[time, state_at(document, on, time)] for time in times])
            values = values_and_undefined_gate(document.circuit, set(on))[0]
            self.assertEqual(node(jobs[-1:])[0]["values"], values, name)
        for job, told, states in zip(jobs, node(jobs), wanted):
            self.assertEqual(told["states"], states, job["on"])

    def test_modules_by_themselves(self) -> None:
        """The run of a module by itself is that of the lab, in both versions."""
        jobs, wanted = [], []
        for name in ("wrong_border", "wrong_edge", "four_modules", "without_halos", "timed_modules"):
            document = support.read_document(support.text_of(name))
            for module in document.certificate.modules:
                for assignment in range(1 << len(module.cuts)):
                    times = list(range(document.layout.steps + 1))
                    jobs.append({"data": data_of(document), "on": [], "times": times, "module": module.number,
                                 "assignment": assignment})
                    run = ModuleRun(document.circuit, document.layout, document.certificate, module)
                    states = []
                    for time in times:
                        run.run_to(time)
                        states.append([time, sorted_cells(run.field.live_cells_under(assignment))])
                    wanted.append(states)
        self.assertEqual([told["states"] for told in node(jobs)], wanted)


    def test_is_one_file(self) -> None:
        """The page asks for nothing from elsewhere, and a text can't end its data early."""
        ended = support.lab("view", support.example("wrong_edge"), "--program", support.program())
        for word in ("http://", "https://", "src=", "@import", "<link"):
            self.assertNotIn(word, ended.stdout.replace("http://www.w3.org/2000/svg", ""))
        self.assertEqual(ended.stdout.count("</script>"), 2)

    def test_runs_its_own_scripts_only(self) -> None:
        """The Content-Security-Policy allows the page's own style and scripts by their digests, and nothing else from
        anywhere."""
        text = support.lab("view", support.example("one_wire"), "--program", support.program()).stdout
        said = re.search(r'<meta http-equiv="Content-Security-Policy" content="([^"]*)">', text)[1]
        rules = {words[0]: words[1:] for words in map(str.split, said.split(";"))}
        self.assertEqual((rules.pop("default-src"), rules.pop("base-uri"), rules.pop("form-action")), (["'none'"],) * 3)
        found = {"style-src": re.findall(r"<style>(.*?)</style>", text, re.DOTALL),
                 "script-src": re.findall(r"<script>(.*?)</script>", text, re.DOTALL)}
        self.assertEqual(rules,
                         {rule: [f"'sha256-{base64.b64encode(hashlib.sha256(part.encode()).digest()).decode()}'"
                                 for part in parts]
                          for rule, parts in found.items()})
        self.assertEqual((len(rules["style-src"]), len(rules["script-src"])), (1, 1))
        self.assertIsNone(re.search(r"<[^>]* (?:style|on\w+)=", text.split("<script")[0]))

    def test_in_a_browser(self) -> None:
        """Load, step, toggle an input, click a fault: no console error, and the page shows what it should."""
        support.require_browser()
        page = f"{self.room}/page.html"
        support.lab("view", support.example("wrong_edge"), "-o", page, "--program", support.program())
        support.browse("browse_page.py", page, self.room, seconds=300)
