"""What the program says: its report, and the report or a refusal in words."""

from __future__ import annotations

import json
import re
from dataclasses import dataclass
from typing import Any

from bbmlab_core.commands.explain import explanation_text
from bbmlab_core.explain.explaining import explain_answer, explanation_json_text
from bbmlab_core.explain.trials import TrialBudget, TrialRunner
from bbmlab_core.farm.answering import why_bad_answer
from bbmlab_core.host import program as programs
from bbmlab_core.texts.documents import command_for_text, read_document
from bbmlab_core.texts.refusals import explain_code, explain_refusal
from bbmlab_core.texts.reports import ReportError, parse_report
from bbmlab_core.texts.sections import Bundle

from ._errors import ProgramError, RefusedError
from ._reading import text_as_byte_characters

VERDICT_OF_STATUS = {0: "yes", 1: "no"}
COLOUR_PATTERN = re.compile(r"\033\[\d*m")
# The command of the program for texts that the lab knows and the program has no command for.
PROGRAM_COMMAND_OF = {"design": "check", "layout": "run", "circuit": "value"}


@dataclass(frozen=True)
class Finding:
    """A line of a report behind the verdict. A field that the line does not have is None."""

    word: str
    text: str
    is_against: bool
    module: int | None = None
    kind: str | None = None
    time: int | None = None
    x: int | None = None
    y: int | None = None
    assignment: int | None = None
    gate: int | None = None
    wanted: int | None = None
    found: int | str | None = None

    def __str__(self) -> str:
        """Writes the line."""
        return self.text


@dataclass(frozen=True)
class Report:
    """The report of the program: its verdict `yes` or `no`, its exit status, and the text as it printed it."""

    verdict: str
    status: int
    certificate: str
    modules: int
    findings: tuple[Finding, ...]
    text: str

    @property
    def is_yes(self) -> bool:
        """Whether the verdict is yes and the exit status 0."""
        return self.verdict == "yes" and self.status == 0

    def __str__(self) -> str:
        """Writes the report."""
        return self.text


@dataclass(frozen=True)
class Explanation:
    """An answer of the program in words, as `bbmlab explain` prints it and as its JSON document, and the text with a
    fix if there is one."""

    verdict: str
    text: str
    document: dict[str, Any]
    fixed: str | None

    def __str__(self) -> str:
        """Writes the explanation."""
        return self.text


def opened_program(program: str | None) -> programs.Executable:
    """Opens the program. Raises ProgramError if there is none."""
    try:
        return programs.find_and_open_program(program)
    except programs.BadProgramError as error:
        raise ProgramError(str(error)) from error


def answer_of(program: programs.Executable, command: str, text: str, timeout: float | None) -> programs.ProgramAnswer:
    """Returns what the program answers. Raises ProgramError and TimeoutError if it gives no answer."""
    try:
        answer = programs.ask_program(program, command, text.encode("latin-1"), timeout)
    except programs.ProgramTimeout as error:
        raise TimeoutError(str(error)) from error
    except programs.BadProgramError as error:
        raise ProgramError(str(error)) from error
    if answer.status >= 4:
        raise ProgramError(f"status {answer.status}: {answer.errors or 'no message'}")
    return answer


def refused_error(text: str, line: int, code: int) -> RefusedError:
    """Returns the error for a refusal of the program, in the words of the lab's reader if it comes to the same one."""
    document = read_document(text, "check")
    refusal = document.refusal
    same = refusal is not None and (refusal.line, refusal.code) == (line, code)
    told = explain_refusal(document, refusal) if refusal and same else explain_code(line, code)
    return RefusedError(line, code, " ".join(told.what))


def check(text: str | Bundle, *, program: str | None = None, timeout: float | None = None) -> Report:
    """Returns the report of the proved program.

    Raises RefusedError if the program refuses the text, TimeoutError after `timeout` seconds, and ProgramError if it
    gives no report.
    """
    data = text_as_byte_characters(text)
    answer = answer_of(opened_program(program), "check", data, timeout)
    try:
        report = parse_report(answer.output)
    except ReportError as error:
        raise ProgramError(str(error)) from error
    if answer.status == 3 and report.refused:
        raise refused_error(data, *report.refused)
    if report.refused or VERDICT_OF_STATUS.get(answer.status) != report.verdict:
        raise ProgramError(f"the program ended with status {answer.status}, which its report does not fit")
    findings = tuple(
        Finding(finding.word, finding.text, finding.is_reason_for_no, **finding.values)  # type: ignore[arg-type]
        for finding in report.findings)
    return Report(report.verdict, answer.status, report.digest, report.module_count, findings, answer.output)


def explain(text: str | Bundle, *, effort: float = 30.0, program: str | None = None) -> Explanation:
    """Returns what the program answers to a text, in words, with a fix that was tried if one was found in `effort`
    seconds of the processor.

    Raises ProgramError if the program gives no answer.
    """
    data = text_as_byte_characters(text)
    command, asked = command_for_text(data), opened_program(program)
    command = PROGRAM_COMMAND_OF.get(command, command)
    answer = answer_of(asked, command, data, None)
    why = why_bad_answer(answer) if command == "check" else None
    if why:
        raise ProgramError(f"the program gave no verdict: {why}")
    try:
        explanation = explain_answer(data, command, answer.output, "text",
                                     TrialRunner(asked, TrialBudget(seconds=effort)))
    except ReportError as error:
        raise ProgramError(str(error)) from error
    fixed = None if explanation.fixed is None else explanation.fixed.encode("latin-1").decode("utf-8", "replace")
    return Explanation(explanation.verdict, COLOUR_PATTERN.sub("", explanation_text(explanation)),
                       json.loads(explanation_json_text(explanation)), fixed)
