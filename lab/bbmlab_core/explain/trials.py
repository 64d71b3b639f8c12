"""Trials of edited texts: the program is asked whether a text is taken and what its report is, within a number of tries
and seconds.
"""

from dataclasses import dataclass

from ..farm.answering import PROGRAM_STATUS_OF
from ..host.processor import processor_seconds
from ..host.program import Executable, BadProgramError, ProgramTimeout, ask_program, open_program
from ..physics.own_report import lab_report
from ..texts.documents import read_document
from ..texts.reports import ReportLine, ReportOrRefusal, ReportError, parse_report

# The most seconds for one run of the program.
MAX_RUN_SECONDS = 60.0
# The most steps of all modules together that the lab runs in the place of the program.
MAX_LAB_RUN_STEPS = 50_000


@dataclass(frozen=True)
class TrialBudget:
    """How many texts are tried, and for how many seconds of the processor, those of the program included.

    If `is_counted_from_search`, what was done before the search for fixes does not count: reading and explaining a
    large text takes long.
    """

    tries: int = 600
    seconds: float = 30.0
    is_counted_from_search: bool = False


class TrialRunner:
    """Asks the program about texts; without a program, the lab's reader and its own runs of the modules."""

    def __init__(self, program: Executable | str | None, budget: TrialBudget = TrialBudget()) -> None:
        self.program = None if program is None else open_program(program)
        self.budget = budget
        self.tries = 0
        self.started = processor_seconds()
        self._known: dict[str, ReportOrRefusal | None] = {}

    @property
    def judge_words(self) -> str:
        """Who is asked, in words."""
        return "the program" if self.program else "the lab"

    def begin_search(self) -> None:
        """Counts the seconds from now on, if they are those of the search."""
        if self.budget.is_counted_from_search:
            self.started = processor_seconds()

    def seconds_left(self) -> float:
        """Returns how many seconds are left for trials."""
        return self.budget.seconds - (processor_seconds() - self.started)

    def is_budget_used_up(self) -> bool:
        """Whether the tries or the seconds are used up."""
        return self.tries >= self.budget.tries or self.seconds_left() <= 0

    def try_text(self, text: str) -> ReportOrRefusal | None:
        """Returns the report of a text, or None if there is none: the budget is used up, or the program did not answer.
        """
        if text not in self._known:
            if self.is_budget_used_up():
                return None
            self.tries += 1
            self._known[text] = self.ask_judge(text)
        return self._known[text]

    def ask_judge(self, text: str) -> ReportOrRefusal | None:
        """Asks about one text."""
        if self.program is None:
            return self.own_report(text)
        try:
            # A second at least: a text that was made is worth an answer.
            answer = ask_program(self.program, "check", text.encode("latin-1"),
                                 min(MAX_RUN_SECONDS, max(1.0, self.seconds_left())))
            report = parse_report(answer.output)
            return report if answer.status == PROGRAM_STATUS_OF["refused" if report.refused
                                                                else report.verdict] else None
        except (BadProgramError, ProgramTimeout, ReportError):
            return None

    def own_report(self, text: str) -> ReportOrRefusal | None:
        """Returns the lab's own report, or None if the runs of its modules would take too long."""
        document = read_document(text, "check")
        layout, certificate = document.layout, document.certificate
        if (layout and certificate and not document.refusal
                and len(certificate.modules) * layout.steps > MAX_LAB_RUN_STEPS):
            return None
        return lab_report(document)


def is_yes(report: ReportOrRefusal | None) -> bool:
    """Whether a report says yes."""
    return report is not None and report.verdict == "yes"


def fault_times(report: ReportOrRefusal) -> dict[int, int]:
    """Returns the time of the local fault of each module that has one."""
    return {finding.number_value("module"): finding.number_value("time") for finding in report.findings
            if finding.word == "local"}


def faults_besides_local(report: ReportOrRefusal) -> set[str]:
    """Returns the lines against the text that are not about a module's own run, without the numbers that later edits
    move."""
    return {finding.text for finding in report.faults if finding.word != "local"}


def has_removed_fault(before: ReportOrRefusal, after: ReportOrRefusal | None, finding: ReportLine | None) -> bool:
    """Whether a fault is gone and nothing new is against the text: it is taken, and no module is worse off than before.

    Without a finding, some fault is to be gone. A module is worse off if its own run has a fault that it did not have,
    or an earlier one.
    """
    if after is None or after.refused:
        return False
    if after.verdict == "yes":
        return True
    was, now = fault_times(before), fault_times(after)
    if (any(module not in was or time < was[module] for module, time in now.items())
            or faults_besides_local(after) - faults_besides_local(before)):
        return False
    left = {other.text for other in after.faults}
    if finding is None:
        return left != {other.text for other in before.faults}
    if finding.word == "local":
        module = finding.number_value("module")
        return module not in now or now[module] > was[module]
    return finding.text not in left
