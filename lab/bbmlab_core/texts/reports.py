"""What the program answers: reports and refusals as values."""

import re
from dataclasses import dataclass, field

REPORT_LINE_FORMS = {
    "local": r"local (?P<module>\d+) (?P<kind>edge|stop|end) (?P<time>\d+) (?P<x>\d+) (?P<y>\d+) (?P<assignment>\d+)",
    "keep": r"keep (?P<module>\d+) (?P<gate>\d+) (?P<assignment>\d+)",
    "border": r"border (?P<module>\d+) (?P<time>\d+) (?P<x>\d+) (?P<y>\d+)",
    "unkept": r"unkept (?P<gate>\d+)",
    "delay": r"delay (?P<gate>\d+) (?P<wanted>\d+) (?P<found>\d+|missing|before)",
    "meet": r"meet (?P<gate>\d+) (?P<found>\d+|differ)",
}
# What the program's `run` prints.
RUN_ANSWER_PATTERN = re.compile(r"cells [0-9]{1,9}\n([0-9]{1,9} [0-9]{1,9}\n)*|left [0-9]{1,9}\n")
REPORT_LINE_PATTERNS = {word: re.compile(form + r"\Z") for word, form in REPORT_LINE_FORMS.items()}


@dataclass(frozen=True)
class ReportLine:
    """A line of a report behind the verdict: its word, its numbers by name, and the line itself."""

    word: str
    values: dict[str, int | str]
    text: str

    def number_value(self, name: str) -> int:
        """Returns a number of the line."""
        return int(self.values[name])

    @property
    def is_reason_for_no(self) -> bool:
        """Whether the line is a reason for the verdict `no`."""
        if self.word == "delay":
            return self.values["found"] != self.values["wanted"]
        return self.word != "meet" or self.values["found"] == "differ"


@dataclass
class ReportOrRefusal:
    """A report, or a refusal where `refused` is set."""

    verdict: str = ""
    digest: str = ""
    module_count: int = 0
    findings: list[ReportLine] = field(default_factory=list)
    refused: tuple[int, int] | None = None

    @property
    def faults(self) -> list[ReportLine]:
        """The lines that are reasons for a no."""
        return [finding for finding in self.findings if finding.is_reason_for_no]


class ReportError(Exception):
    """A text that is neither a report nor a refusal."""


def parse_finding(line: str) -> ReportLine:
    """Returns a line of a report behind the verdict."""
    pattern = REPORT_LINE_PATTERNS.get(line.split(" ")[0])
    found = pattern.match(line) if pattern else None
    if not found:
        raise ReportError(f"no line of a report: {line!r}")
    values = {name: int(word) if word.isdigit() else word for name, word in found.groupdict().items()}
    return ReportLine(line.split(" ")[0], values, line)


def parse_report(text: str) -> ReportOrRefusal:
    """Reads what `check` wrote."""
    # Only LF ends a line: a report that other characters break into lines is none.
    lines = text.removesuffix("\n").split("\n")
    refused = re.match(r"refused (\d+) (\d+)\Z", lines[0]) if len(lines) == 1 else None
    if refused:
        return ReportOrRefusal(refused=(int(refused[1]), int(refused[2])))
    head = re.match(r"bbmcheck 1\ncertificate ([0-9a-f]{64})\nmodules (\d+)\nverdict (yes|no)\Z", "\n".join(lines[:4]))
    if not head:
        raise ReportError("this is no report of `bbmcheck check`: it does not begin with `bbmcheck 1`")
    return ReportOrRefusal(head[3], head[1], int(head[2]), [parse_finding(line) for line in lines[4:]])
