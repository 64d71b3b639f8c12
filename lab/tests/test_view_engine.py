"""The page's runs under node: last states against the program's `run`, the states between against the lab, and the time
they take.
"""

import random
import time
import unittest
from typing import Any

import support
from bbmlab_core.host.program import ask_program
from bbmlab_core.physics import tracing
from bbmlab_core.texts.documents import Document

# With room for a busy machine. A step that looks at each cell takes longer.
MAX_SECONDS = 200


def node(jobs: list[dict[str, Any]]) -> Any:
    """Returns what the page's automaton makes of some jobs."""
    return support.node("run_modules.js", [["states", it] for it in jobs])


def job(document: Document, on: list[str], times: list[int]) -> dict[str, Any]:
    """Returns the data of a text, the inputs that are on, and the times to go to."""
    return {"data": support.data_of(document), "on": on, "times": times}


def run_words(told: dict[str, Any]) -> str:
    """Writes the last state of a job as the program's `run` does."""
    return support.run_words(told["states"][-1][1], told["left"])


def large_layout() -> Document:
    """Returns a layout of 512 by 512 cells and 65,536 steps with 1,024 cavities in which a ball goes to and fro."""
    places = [(x, y) for y in range(0, 512, 16) for x in range(0, 512, 16)]
    lines = ["layout 512 512 65536"]
    for x, y in places:
        lines += [f"mirror {x + 2} {y + 1} 2 2", f"mirror {x + 12} {y + 9} 2 2"]
    lines += [f"ball {x + 4} {y + 2}" for x, y in places]
    return support.read_document("\n".join([*lines, "end"]) + "\n")


class Engine(unittest.TestCase):
    """The page's automaton under node."""

    def test_last_states_by_the_program(self) -> None:
        """Each example ends as the program's `run` says, under three choices of inputs, also by way of other times."""
        program, chooser, asked, jobs = support.program(), random.Random(43), [], []
        for name, document in support.drawn_documents():
            names, steps = tracing.input_names(document.layout), document.layout.steps
            for share in (0.0, 0.5, 1.0):
                on = [wire for wire in names if chooser.random() < share]
                text = tracing.bytes_for_run_command(tracing.layout_section_lines(document), on)
                asked.append((name, on, ask_program(program, "run", text).output))
                jobs.append(job(document, on,
                                [chooser.randrange(steps + 1), steps, chooser.randrange(steps + 1), 0, steps]))
        self.assertGreater(len(jobs), 30)
        for (name, on, output), told in zip(asked, node(jobs)):
            with self.subTest(name, on=on):
                self.assertEqual(run_words(told), output)

    def test_every_time_there_and_back(self) -> None:
        """Each time of each example is as in the lab's trace, on the way there and on the way back."""
        jobs, wanted = [], []
        for name, document in support.drawn_documents():
            on = tracing.input_names(document.layout)
            trace = tracing.trace_layout(document.layout, on, 0, 200)
            states = [[at, tracing.sorted_cells(state)] for at, state in enumerate(trace.states)]
            times = list(range(len(states))) + list(range(len(states) - 1, -1, -1))
            jobs.append(job(document, on, times))
            wanted.append((name, [states[at] for at in times]))
        for (name, states), told in zip(wanted, node(jobs)):
            with self.subTest(name):
                self.assertEqual(told["states"], states)

    def test_large(self) -> None:
        """512 by 512 cells and 65,536 steps with 1,024 balls: all steps and far jumps end in time, and are the
        program's."""
        document, program = large_layout(), support.program()
        text = tracing.bytes_for_run_command(tracing.layout_section_lines(document), [])
        output = ask_program(program, "run", text).output
        last = 65536
        began = time.monotonic()
        told = node([job(document, [], [last, last // 2, 3, last])])[0]
        self.assertLess(time.monotonic() - began, MAX_SECONDS)
        self.assertEqual([at for at, _ in told["states"]], [last, last // 2, 3, last])
        self.assertEqual(run_words(told), output)
