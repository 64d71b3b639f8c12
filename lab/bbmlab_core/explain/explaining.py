"""Explains what the program answers to a text: a report line by line, or a refusal."""

import json
import re
from dataclasses import asdict, dataclass, field, replace

from ..host.terminal import escape_controls
from ..physics.mirrors import unstable_mirrors
from ..texts.certificates import Certificate, border_or_stop_text
from ..texts.circuits import Circuit
from ..texts.code_names import CODE_NAMES
from ..texts.designs import require_report_of_document
from ..texts.documents import Document, read_document
from ..texts.refusals import ExplainedRefusal, explain_code, explain_refusal, names_words
from ..texts.reports import RUN_ANSWER_PATTERN, ReportLine, ReportOrRefusal, ReportError, parse_report
from .diagnosis import MAX_WHOLE_RUN_STEPS, DiagnosticRuns, Tristate
from .edits import Edit
from .faults import ExplainedLine, assignment_words, explain_border, explain_keep, explain_local, cell_words
from .fixing import Fix, Fixer, outcome_words
from .trials import TrialRunner

# Of how many modules the faults are told in full, with runs and pictures, and for how many lines of a report a fix is
# looked for.
MAX_DETAILED_LINES = 12
# How many mirrors that fall apart are named.
MAX_NAMED_MIRRORS = 3

# What the other commands of the program write.
ANSWER_PATTERNS = {"run": RUN_ANSWER_PATTERN, "value": re.compile(r"([a-z]\w* [01]\n)*(undefined \d+\n)?"),
                   "modules": re.compile(r"(module .*\n)+"), "migrate": re.compile(r"circuit\n.*end\n", re.DOTALL)}


@dataclass
class FixDocument:
    """A fix as a document has it: its edits, whether the certificate is made again after them, who was asked, the
    verdict, and sentences."""

    edits: list[Edit]
    certificate_again: bool
    judge: str
    verdict: str
    words: list[str]
    # Other fixes of the same size with the same verdict, each in sentences.
    others: list[list[str]] = field(default_factory=list)


@dataclass
class ExplainedAnswer:
    """An answer in words. A refusal has `refused` and no entries."""

    file: str
    command: str
    headline: list[str]
    verdict: str
    entries: list[ExplainedLine] = field(default_factory=list)
    refused: ExplainedRefusal | None = None
    line: int = 0
    code: int = 0
    line_text: str = ""
    # A fix of the whole text, and what was tried if there is none.
    fix: FixDocument | None = None
    tried: list[str] = field(default_factory=list)
    # The text with the fix. JSON documents leave it out.
    fixed: str | None = None


def stop_words(diagnosis: DiagnosticRuns, wire: str, which: int) -> str:
    """Returns the first (0) or last (-1) stop of a wire in words."""
    stops = diagnosis.certificate.stops_of(wire)
    if not stops:
        return f"`{wire}` has no stop"
    name = "first" if which == 0 else "last"
    module, stop = stops[which]
    text = border_or_stop_text("stop", stop)
    return f"the {name} stop of `{wire}` is line {module.line_number('stop', stop)} (`{text}`)"


def explain_delay(diagnosis: DiagnosticRuns, finding: ReportLine) -> ExplainedLine:
    """Returns a `delay` line in words."""
    gate = diagnosis.circuit.gates[finding.number_value("gate")]
    found, wanted = finding.values["found"], finding.values["wanted"]
    used, made = gate.ins[0], gate.outs[0]
    seen = f"{stop_words(diagnosis, used, -1)}, and {stop_words(diagnosis, made, 0)}"
    entry = ExplainedLine(finding.text, finding.is_reason_for_no,
                          [f"Gate {gate.number} is `delay {wanted} {used} -> {made}` (line {gate.line}): {seen}."],
                          line=gate.line, facts={"gate": gate.number, "wanted": wanted, "found": found})
    if not finding.is_reason_for_no:
        entry.what.append(f"So the delay takes {found} steps, as it says.")
    elif found == "missing":
        missing = [wire for wire in (used, made) if not diagnosis.certificate.stops_of(wire)]
        entry.what.append(f"So nothing shows how long the delay takes: there is no stop for {names_words(missing)}.")
    elif found == "before":
        entry.what.append("So the output is seen before the input.")
    else:
        entry.what.append(f"So the delay takes {found} steps by its stops, and {wanted} by the circuit.")
    return entry


def explain_meet(diagnosis: DiagnosticRuns, finding: ReportLine) -> ExplainedLine:
    """Returns a `meet` line in words."""
    gate = diagnosis.circuit.gates[finding.number_value("gate")]
    last = [stops[-1] for stops in map(diagnosis.certificate.stops_of, gate.ins) if stops]
    seen = [(stop, module.line_number("stop", stop)) for module, stop in last]
    told = ", ".join(f"`{stop.name}` at time {stop.time} (line {line})" for stop, line in seen)
    entry = ExplainedLine(finding.text, finding.is_reason_for_no,
                          [f"Inputs of gate {gate.number} (`{gate.kind}`, line {gate.line}) "
                           f"have their last stops: {told}."],
                          line=seen[0][1] if seen else None,
                          facts={"gate": gate.number, "last_stops": {stop.name: stop.time for stop, _ in seen}})
    if not finding.is_reason_for_no:
        entry.what.append(f"So they meet at time {finding.values['found']}.")
        return entry
    entry.what.append("So they do not meet at one time.")
    return entry


def explain_unkept(diagnosis: DiagnosticRuns, finding: ReportLine) -> ExplainedLine:
    """Returns an `unkept` line in words."""
    gate = diagnosis.circuit.gates[finding.number_value("gate")]
    users = [module.number for module in diagnosis.certificate.modules if gate.number in module.uses]
    entry = ExplainedLine(finding.text, True,
                          [f"No module has a line `keep {gate.number}` for the inverse gate {gate.number} "
                           f"(`{gate.kind}`, line {gate.line})."],
                          line=gate.line, cause="unkept", facts={"gate": gate.number, "modules_that_use_it": users})
    used = f"Modules that use it: {', '.join(map(str, users))}." if users else "No module uses it."
    entry.what.append(used)
    return entry


EXPLAINERS = {"local": explain_local, "keep": explain_keep, "border": explain_border, "unkept": explain_unkept,
              "delay": explain_delay, "meet": explain_meet}


def explain_report(document: Document, report: ReportOrRefusal, file: str,
                   trial: TrialRunner | None = None) -> ExplainedAnswer:
    """Returns a report in words, with fixes if there is somebody who tries them."""
    if report.refused:
        return explain_refused_text(document, report, file, trial)
    if document.certificate is None or document.refusal:
        raise ReportError("the report is not of this text: the lab's reader refuses the text")
    require_report_of_document(document, report)
    diagnosis = DiagnosticRuns(document)
    faults = sorted((finding for finding in report.faults if finding.word == "local"),
                    key=lambda finding: finding.number_value("time"))
    diagnosis.detailed = {finding.text for finding in faults[:MAX_DETAILED_LINES]}
    entries = [EXPLAINERS[finding.word](diagnosis, finding) for finding in report.findings]
    count = len(report.faults)
    if report.verdict == "yes":
        headline = [yes_words(len(diagnosis.circuit.inputs))]
    else:
        headline = [f"The verdict is no, for {count} reason{'s' if count != 1 else ''}."]
        if len(faults) > 1:
            headline.append(f"Begin with `{faults[0].text}`, which has the least time: others may come of it.")
        headline += unstable_mirror_words(diagnosis)
        headline += whole_run_words(diagnosis, report.faults)
    headline.append(f"The certificate has {report.module_count} module{'s' if report.module_count != 1 else ''}; its "
                    f"digest is {report.digest[:16]}..")
    explanation = ExplainedAnswer(file, "check", headline, report.verdict, entries)
    if trial and report.verdict == "no":
        add_fixes(explanation, diagnosis, report, trial)
    return explanation


def yes_words(count: int) -> str:
    """Returns what a yes means for a circuit with a number of inputs."""
    if count == 0:
        return "The verdict is yes: the layout computes the circuit, which has no inputs."
    if count == 1:
        return "The verdict is yes: for both values of its input the layout computes the circuit."
    return f"The verdict is yes: for each choice of the {count} inputs the layout computes the circuit."


def unstable_mirror_words(diagnosis: DiagnosticRuns) -> list[str]:
    """Returns which mirrors fall apart by themselves."""
    unstable = unstable_mirrors(diagnosis.layout)
    words = [f"The mirror of line {own.mirror.line} (`{diagnosis.document.line(own.mirror.line)}`) falls apart by "
             f"itself: step {own.step} "
             f"moves its cell {cell_words(own.cell)}." for own in unstable[:MAX_NAMED_MIRRORS]]
    if len(unstable) > MAX_NAMED_MIRRORS:
        words.append(f"{len(unstable) - MAX_NAMED_MIRRORS} more mirrors do.")
    if unstable:
        words.append("A mirror stays if its width and height are even and its upper left cell has exactly one odd "
                     "coordinate.")
    return words


def add_fixes(explanation: ExplainedAnswer, diagnosis: DiagnosticRuns, report: ReportOrRefusal,
              trial: TrialRunner) -> None:
    """Adds a fix of the whole text and fixes of lines of the report; each was tried."""
    trial.begin_search()
    fixer = Fixer(diagnosis.document.text, report, trial, diagnosis)
    whole = fixer.find_fix()
    if whole:
        explanation.fix, explanation.fixed = fix_document(report, whole), whole.text
    else:
        explanation.tried = tried_in_vain_words(fixer, trial)
    left = {finding.text for finding in whole.report.faults} if whole else set()
    detailed = [finding for finding in report.faults if finding.word != "local"
                or finding.text in (diagnosis.detailed or ())][:MAX_DETAILED_LINES]
    entries = {entry.report_line: entry for entry in explanation.entries}
    for finding in detailed:
        fix = fixer.find_fix_of_line(diagnosis, finding)
        if fix and not (whole and whole.text == fix.text):
            entries[finding.text].fixes = fix_document(report, fix).words
        elif whole and finding.text not in left and explanation.fix:
            entries[finding.text].fixes = explanation.fix.words


def fix_document(before: ReportOrRefusal, fix: Fix) -> FixDocument:
    """Returns a fix as a document has it."""
    return FixDocument(fix.edits, fix.has_new_certificate, fix.judge, fix.report.verdict,
                       [*fix.words, outcome_words(before, fix)], fix.others)


def tried_in_vain_words(fixer: Fixer, trial: TrialRunner) -> list[str]:
    """Returns what was tried in vain."""
    is_cut_short = fixer.is_cut_short or trial.is_budget_used_up()
    end = " The search was ended by a limit, so some edits were not tried." if is_cut_short else ""
    kinds = [f"Kinds of edits that the search came to: {'; '.join(fixer.kinds)}."] if fixer.kinds else []
    return [f"No fix was found. {trial.tries} text{'s were' if trial.tries != 1 else ' was'} checked by "
            f"{trial.judge_words}.{end}", *kinds]


def whole_run_words(diagnosis: DiagnosticRuns, faults: list[ReportLine]) -> list[str]:
    """Returns whether the whole run ends as the layout asks with a dead rim: a sentence for yes, no, and what was not
    found out."""
    outcome, values = diagnosis.whole_run_outcome, diagnosis.wire_tables
    if outcome.correctness is Tristate.NO:
        return [outcome.why_no_yes]
    if not diagnosis.can_run_whole():
        why = "it takes too long" if diagnosis.is_slow else f"it is longer than {MAX_WHOLE_RUN_STEPS} steps"
        return [f"The whole run was not tried to its end here: {why}."]
    if values.defined_columns != values.full:
        return ["The circuit has no values under some choices of its inputs. Under the others that were tried "
                f"({diagnosis.tried_choices_words}) the whole run "
                "ends as the layout asks."]
    tried = f"The whole run was tried here {diagnosis.tried_choices_words}: it ends as the layout asks"
    if outcome.correctness is Tristate.UNKNOWN:
        return [f"{tried}. The other choices were not tried."]
    is_certificate = any(finding.word in ("local", "border") for finding in faults)
    return [f"{tried}, so the fault is in the certificate." if is_certificate else f"{tried}."]


def missing_certificate_words(document: Document) -> list[str]:
    """Returns whether a certificate would help a design that has none: the whole run shows it, whatever certificate
    there is."""
    design = replace(document, certificate=Certificate())
    if design.circuit is None or design.layout is None or document.certificate and document.certificate.modules:
        return []
    outcome = DiagnosticRuns(design).whole_run_outcome
    if outcome.correctness is Tristate.NO:
        return [outcome.why_no_yes]
    return ["The text has no certificate. In the choices of the inputs that were tried the whole run ends as the "
            "layout asks."]


def explain_refused_text(document: Document, report: ReportOrRefusal, file: str,
                         trial: TrialRunner | None = None) -> ExplainedAnswer:
    """Returns a refusal in words. Where the lab's reader does not come to the same line and code, only these are told.
    """
    assert report.refused
    (line, code), refusal = report.refused, document.refusal
    same = refusal is not None and (refusal.line, refusal.code) == (line, code)
    told = explain_refusal(document, refusal) if same and refusal else explain_code(line, code)
    headline = [f"The text was refused: line {line}, code {code}."]
    explanation = ExplainedAnswer(file, document.command, headline, "refused", refused=told, line=line, code=code,
                                  line_text=document.line(line))
    if refusal and same and refusal.cause == "text_ended" and refusal.facts["section"] == "certificate":
        explanation.headline += missing_certificate_words(document)
    if trial and same and document.command == "check":
        fixer = Fixer(document.text, report, trial)
        fix = fixer.find_fix()
        if fix:
            explanation.fix, explanation.fixed = fix_document(report, fix), fix.text
        else:
            explanation.tried = tried_in_vain_words(fixer, trial)
    return explanation


def explain_run(document: Document, output: str, file: str) -> ExplainedAnswer:
    """Returns the answer of `run` in words."""
    word, count = output.split("\n", 1)[0].split(" ")
    on = names_words(document.on or []) or "none of the inputs"
    if word == "cells":
        headline = [f"With {on} on, {count} cells are live after {document.layout.steps if document.layout else 0} "
                    "steps, all in the rectangle."]
    else:
        headline = [f"With {on} on, step {count} makes a cell outside the rectangle live.",
                    "A ball leaves: put a mirror on its way, make the layout larger, or take fewer steps."]
    return ExplainedAnswer(file, "run", headline, word)


def undefined_gate_number(circuit: Circuit, output: str) -> int | None:
    """Returns the gate without a row that an answer of `value` ends with, or None.

    A wire can have the name `undefined` too.
    """
    lines = output.splitlines()
    is_gate = bool(lines) and lines[-1].startswith("undefined ") and len(lines) < len(circuit.wires)
    return int(lines[-1].split(" ")[1]) if is_gate else None


def explain_value(document: Document, output: str, file: str) -> ExplainedAnswer:
    """Returns the answer of `value` in words."""
    assert document.circuit
    number = undefined_gate_number(document.circuit, output)
    values = dict(line.split(" ") for line in output.splitlines()[:None if number is None else -1])
    true = names_words([name for name, value in values.items() if value == "1"], 40) or "none"
    headline = [f"With {names_words(document.on or []) or 'none of the inputs'} on, these wires are true: {true}."]
    if number is not None:
        gate = document.circuit.gates[number]
        headline.append(f"Gate {gate.number} (`{gate.kind}`, line {gate.line}) has no row for "
                        f"{assignment_words({n: int(values[n]) for n in gate.ins})}: "
                        "the gate that it turns back never gives these values.")
    return ExplainedAnswer(file, "value", headline, "values" if number is None else "undefined")


def explain_modules_or_migrate(command: str, output: str, file: str) -> ExplainedAnswer:
    """Returns the answer of `modules` or `migrate`, which refused nothing, in words."""
    if command == "modules":
        count = len(output.splitlines())
        modules = "one module" if count == 1 else f"{count} modules"
        return ExplainedAnswer(file, command, [f"The text is read, and its certificate has {modules}."], "read")
    headline = ["The text is read, and the program wrote it with a certificate of version 2."]
    return ExplainedAnswer(file, command, headline, "read")


def require_answer_to_text(document: Document, output: str) -> None:
    """Refuses what no command of the program writes, and an answer to another text: the answer can come from a file."""
    if not ANSWER_PATTERNS[document.command].fullmatch(output):
        raise ReportError(f"this is no answer of `bbmcheck {document.command}`")
    if document.refusal:
        raise ReportError("the answer is not of this text: the lab's reader refuses the text")
    circuit = document.circuit
    number = undefined_gate_number(circuit, output) if document.command == "value" and circuit else None
    if circuit and number is not None:
        names = {line.split(" ")[0] for line in output.splitlines()[:-1]}
        if number >= len(circuit.gates) or not set(circuit.gates[number].ins) <= names:
            raise ReportError("the answer is not of this text: it names a gate that the text does not have there")


def explain_answer(text: str, command: str, output: str, file: str, trial: TrialRunner | None = None,
                   known: Document | None = None) -> ExplainedAnswer:
    """Returns what a command of the program wrote, in words. Fixes are looked for only if there is a trial.

    `known` is the text as it was read already, if it was.
    """
    document = known if known and (known.text, known.command) == (text, command) else read_document(text, command)
    if output.startswith("refused ") or command == "check":
        return explain_report(document, parse_report(output), file, trial)
    require_answer_to_text(document, output)
    if command in ("modules", "migrate"):
        return explain_modules_or_migrate(command, output, file)
    return explain_run(document, output, file) if command == "run" else explain_value(document, output, file)


def explanation_json_text(explanation: ExplainedAnswer) -> str:
    """Writes an explanation as one JSON document."""
    members = asdict(explanation)
    del members["fixed"]
    if explanation.refused:
        members["code_name"] = CODE_NAMES.get(explanation.code, "")
    return json.dumps({"format": "bbmlab explanation 2", **members}, indent=2, ensure_ascii=True)


def gcc_error_lines(explanation: ExplainedAnswer) -> list[str]:
    """Writes an explanation as `file:line: error: text` lines for editors.

    A control character, also one of the file's name, is an escape.
    """
    if explanation.refused:
        hints = [] if explanation.fix else [f"Hint: {hint}" for hint in explanation.refused.hints[:1]]
        text = " ".join([*explanation.refused.what,
                         *labelled_fix_words(explanation.fix.words if explanation.fix else []), *hints])
        return [escape_controls(f"{explanation.file}:{explanation.line}: error: {text} [code {explanation.code}]")]
    return [escape_controls(f"{explanation.file}:{editor_line_number(entry)}: error: "
                            f"{' '.join([*entry.what, *labelled_fix_words(entry.fixes)])} "
                            f"[{entry.report_line}]")
            for entry in explanation.entries if entry.is_against]


def editor_line_number(entry: ExplainedLine) -> int:
    """Returns the line of the text that an editor shows for a line of the report: its own, else that of its module."""
    return entry.line or int(entry.facts.get("module_line", 1))


def labelled_fix_words(fixes: list[str]) -> list[str]:
    """Returns the sentences of a fix with the word `Fix:` before the first."""
    return [f"Fix: {fixes[0]}", *fixes[1:]] if fixes else []
