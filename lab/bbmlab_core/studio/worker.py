"""The process that makes verdicts, fixes and exports for the studio. It can be killed at any time, with the program
that it runs.

It reads a JSON document a line from standard input and writes one for each to standard output. Its arguments are the
program's path, the descriptor and the digest of its copy, which it inherits, the seconds for one verdict and the memory
in MiB.
"""

import json
import os
import queue
import resource
import signal
import sys
import threading
from dataclasses import asdict
from types import FrameType
from typing import Any

from ..explain import explaining
from ..host import program
from ..host.program import Executable
from ..host.signals import start_interrupt_timer
from ..host.terminal import LabError
from ..physics import tracing
from ..pictures import drawing, golly
from ..texts.documents import Document, read_document
from ..texts.layouts import Layout
from ..texts.reports import ReportError
from ..texts.spelling import spell_text
from ..view import viewing
from .folder import FolderError, encode_page_text
from .verdicts import VerdictFinder, explanation_json, design_explanation_json

# How many seconds a search for fixes takes, at most.
MAX_FIX_SECONDS = 8.0
# The forms in which a text is exported.
EXPORT_FORMS = ("svg", "golly", "page")


def byte_characters(text: str) -> str:
    """Returns a text of the page as the lab has it: one character for each byte."""
    return encode_page_text(text).decode("latin-1")


def verdict_answer(job: dict[str, Any], asked: Executable, seconds: float) -> dict[str, Any]:
    """Returns the verdict on a text."""
    judge = VerdictFinder(byte_characters(job["text"]), asked, seconds, byte_characters(job.get("earlier", "")))
    return asdict(judge.verdict(job.get("stage", "")))


def explanation_answer(job: dict[str, Any], asked: Executable, seconds: float) -> dict[str, Any]:
    """Returns a verdict in words, with fixes. Without a report it is one of a text for which no certificate was found.
    """
    limit = min(MAX_FIX_SECONDS, seconds)
    if not job["report"]:
        return design_explanation_json(byte_characters(job["text"]), asked, limit)
    return explanation_json(byte_characters(job["text"]), job["bundle"], job["report"], asked, limit)


def export_answer(job: dict[str, Any], asked: Executable, seconds: float) -> dict[str, Any]:
    """Returns a text in another form: `svg`, `golly` or `page`."""
    document = read_document(spell_text(byte_characters(job["bundle"] or job["text"])).text)
    if document.refusal or document.layout is None:
        raise LabError("The text is refused, so it cannot be exported.")
    form, name = job["form"], str(job["name"])
    if form not in EXPORT_FORMS:
        raise LabError(f"A text is exported as {EXPORT_FORMS[0]}, {EXPORT_FORMS[1]} or {EXPORT_FORMS[2]}.")
    if form == "svg":
        return {"text": ways_picture(document, document.layout, name)}
    if form == "golly":
        on = tracing.chosen_inputs(document, ",".join(job["on"]) or None)
        start = tracing.state_at(document.layout, on, 0)
        return {"text": golly.golly_text(document.layout, start, on, tracing.layout_section_lines(document))}
    explanation = None
    if document.certificate:
        answer = program.ask_program(asked, "check", document.text.encode("latin-1"), seconds)
        explanation = explaining.explain_answer(document.text, "check", answer.output, name, None, document)
    return {"text": viewing.page_html(document, explanation, name)}


def ways_picture(document: Document, layout: Layout, name: str) -> str:
    """Returns the ways of the balls as SVG."""
    shown = drawing.Drawing(modules=document.certificate.modules if document.certificate else [])
    on = tracing.chosen_inputs(document, None)
    shown.ways, shown.wire_labels = drawing.ball_ways_and_labels(document, None, layout.steps)
    shown.title = f"{name}: ways of the balls{drawing.sampling_note(document)}"
    is_large = max(layout.width, layout.height) > drawing.LARGE_LAYOUT_SIDE
    most = len(drawing.COLOURS) if is_large else drawing.MAX_LEGEND_WIRES
    wires = drawing.group_ways_by_level(shown, document.circuit, most) if document.circuit else on
    return drawing.layout_svg(layout, shown, wires)


JOB_HANDLERS = {"verdict": verdict_answer, "explain": explanation_answer, "export": export_answer}


def answer_job_line(line: str, asked: Executable, seconds: float) -> dict[str, Any]:
    """Returns the answer to one job."""
    try:
        job = json.loads(line)
        return JOB_HANDLERS[job["kind"]](job, asked, seconds)
    except MemoryError:
        return {"error": "The memory limit was reached."}
    except RecursionError:
        return {"error": "The text is too deeply nested."}
    except (LabError, FolderError) as error:
        return {"error": str(error)}
    except (program.BadProgramError, program.ProgramTimeout, ReportError) as error:
        return {"error": f"The program gave no answer: {error}."}


def kill_program_and_exit(_number: int, _frame: FrameType | None) -> None:
    """Kills the program that runs, and ends soon."""
    if program.SHARED_RUNNING_PROGRAMS:
        program.SHARED_RUNNING_PROGRAMS.kill_all()
    signal.signal(signal.SIGALRM, lambda *_: os._exit(143))
    signal.setitimer(signal.ITIMER_REAL, 0.1)


def main() -> int:
    """Answers jobs until the input ends."""
    asked, seconds, memory = Executable(sys.argv[1], int(sys.argv[2]),
                                        sys.argv[3]), float(sys.argv[4]), int(sys.argv[5]) * 2 ** 20
    # This user may not be allowed as much memory as is asked for.
    _, most = resource.getrlimit(resource.RLIMIT_AS)
    limit = memory if most == resource.RLIM_INFINITY else min(memory, most)
    resource.setrlimit(resource.RLIMIT_AS, (limit, limit))
    resource.setrlimit(resource.RLIMIT_CORE, (0, 0))
    program.SHARED_RUNNING_PROGRAMS = program.RunningPrograms()
    signal.signal(signal.SIGTERM, kill_program_and_exit)
    signal.signal(signal.SIGHUP, kill_program_and_exit)
    signal.signal(signal.SIGINT, signal.SIG_IGN)
    start_interrupt_timer()
    answers, sys.stdout = sys.stdout, sys.stderr
    jobs: "queue.SimpleQueue[str]" = queue.SimpleQueue()
    threading.Thread(target=read_jobs, args=(jobs,), daemon=True).start()
    while line := jobs.get():
        answers.write(json.dumps(answer_job_line(line, asked, seconds)) + "\n")
        answers.flush()
    return 0


def read_jobs(jobs: "queue.SimpleQueue[str]") -> None:
    """Reads jobs. If the server is gone, the program that runs is killed too."""
    for line in sys.stdin:
        jobs.put(line)
    os.kill(os.getpid(), signal.SIGTERM)


if __name__ == "__main__":
    sys.exit(main())
