"""What the program says of one text, as a result that `bbmlab check` lists."""

import time
from dataclasses import dataclass

from ..host.program import ProgramAnswer, Executable, BadProgramError, ProgramTimeout, RunningPrograms, ask_program
from ..texts.reports import ReportError, parse_report

# The results, from best to worst, with the word that is shown.
RESULT_WORDS = {"yes": "yes", "no": "no", "refused": "refused", "timeout": "time-out", "missing": "missing",
                "error": "error"}

# The status with which the program ends after each kind of report.
PROGRAM_STATUS_OF = {"yes": 0, "no": 1, "refused": 3}


@dataclass
class CheckResult:
    """What came of one file. `detail` is the first reason against it.

    `is_from_receipt`: it is from a receipt, and the program was not run. `is_fatal`: the program contradicts itself, so
    no more is to be checked.
    """

    file: str
    result: str
    detail: str
    seconds: float
    modules: int = 0
    output: str = ""
    is_from_receipt: bool = False
    is_fatal: bool = False


def result_of_report(file: str, status: int, output: str) -> CheckResult:
    """Returns the result that a report or a refusal stands for; an error where the status is not the report's."""
    try:
        report = parse_report(output)
    except ReportError as error:
        return CheckResult(file, "error", str(error), 0)
    word = "refused" if report.refused else report.verdict
    if status != PROGRAM_STATUS_OF[word]:
        return CheckResult(file, "error", f"the report says {word}, and the status is {status}", 0)
    if report.refused:
        return CheckResult(file, "refused", output.strip(), 0, output=output)
    faults = report.faults
    more = f" and {len(faults) - 1} more" if len(faults) > 1 else ""
    count = report.module_count
    detail = f"{faults[0].text}{more}" if faults else f"{count} module{'s' if count != 1 else ''}"
    return CheckResult(file, report.verdict, detail, 0, count, output)


def why_bad_answer(said: ProgramAnswer) -> str | None:
    """Returns why an answer to `check` is neither a verdict nor a refusal, or None if it is one."""
    if said.status >= 4:
        return said.errors or f"status {said.status}"
    result = result_of_report("", said.status, said.output)
    return result.detail if result.result == "error" else None


def result_of_check(program: Executable, file: str, text: bytes, timeout: float | None,
                    running: RunningPrograms) -> CheckResult:
    """Returns what the program says of a text, without the time that it took."""
    try:
        said = ask_program(program, "check", text, timeout, running)
    except ProgramTimeout as error:
        return CheckResult(file, "timeout", str(error), 0)
    except BadProgramError as error:
        return CheckResult(file, "error", str(error), 0)
    if said.status >= 4:
        return CheckResult(file, "error", said.errors or f"status {said.status}", 0)
    return result_of_report(file, said.status, said.output)


def timed_result_of_check(program: Executable, file: str, text: bytes, timeout: float | None,
                          running: RunningPrograms) -> CheckResult:
    """Returns what the program says of a text, and how many seconds it took."""
    started = time.monotonic()
    result = result_of_check(program, file, text, timeout, running)
    result.seconds = round(time.monotonic() - started, 3)
    return result
