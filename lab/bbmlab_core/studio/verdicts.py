"""The verdict on a text that is being drawn: which certificates are tried, what the program says, and which fixes help.

Only the program gives a verdict. The lab makes the certificates, the words and the fixes.
"""

from dataclasses import dataclass, field
from typing import Any, Sequence

from ..certify.certifier import CertificateOptions, certified_text
from ..explain.diagnosis import DiagnosticRuns, Tristate
from ..explain.explaining import explain_report, tried_in_vain_words
from ..explain.fixing import Fix, Fixer, outcome_words
from ..explain.trials import TrialBudget, TrialRunner
from ..host.processor import processor_seconds
from ..host.program import ProgramAnswer, Executable, BadProgramError, ProgramTimeout, ask_program
from ..host.terminal import LabError
from ..texts.certificates import MAX_BOX_SIDE, MAX_CUTS, MAX_USES, Certificate, whole_module
from ..texts.circuits import Circuit, values_and_undefined_gate
from ..texts.documents import Document, read_document
from ..texts.layouts import Cell, Layout
from ..texts.refusals import explain_code, explain_refusal
from ..texts.reports import ReportLine, ReportOrRefusal, ReportError, parse_report
from ..texts.skimming import cuts_by_module, design_text
from ..texts.spelling import source_line_number, spell_text

# The most lines of a report for which fixes are looked for one by one, and the most lines that are sent to the page.
MAX_FIXED_LINES, MAX_SENT_LINES = 6, 200
NO_OTHER_CERTIFICATE_WORDS = {"own": "The certificate of the text was checked. The lab found no other one:",
                              "earlier": "The last certificate that got a yes was checked. The lab found no other one:"}


@dataclass
class Verdict:
    """What the page shows of a text:

    `verdict` is yes, no, refused, none (no certificate was found) or unknown (no answer).
    """

    verdict: str
    words: list[str]
    # Whose certificate was checked: own (the text's), earlier (the last one that got a yes), plain (one module, all
    # inputs) or certify.
    by: str = ""
    # The text that the program read, and what it wrote.
    bundle: str = ""
    report: str = ""
    faults: list[dict[str, Any]] = field(default_factory=list)
    # For a refusal the line of the page's text, or None if it is not known.
    line: int | None = None
    code: int = 0
    rule: str = ""
    hints: list[str] = field(default_factory=list)
    # Whether no other certificate is to be tried.
    is_last: bool = True


class VerdictFinder:
    """Asks the program about one text, within a number of seconds.

    `earlier` is a certificate that got a yes before the last edits.
    """

    def __init__(self, text: str, program: Executable, seconds: float, earlier: str = "") -> None:
        self.source, self.program, self.seconds, self.earlier = text, program, seconds, earlier
        self.text = spell_text(text).text
        self.head = design_text(self.text)
        self.until = processor_seconds() + seconds
        self.inputs: Sequence[str] = ()

    def ask_program_about(self, bundle: str) -> ProgramAnswer:
        """Returns what the program answers to a bundle."""
        return ask_program(self.program, "check", bundle.encode("latin-1"), self.seconds)

    def verdict(self, stage: str = "") -> Verdict:
        """Returns the verdict: of the stage `first` that by the certificates which need no search, of `made` that by
        the lab's, or the last one.

        `other` is `made` after a no: no certificate is made if the program's runs show that none gets a yes.
        """
        try:
            wrong = self.wrong_end_reason(read_document(self.head, "design")) if stage == "other" else None
            if wrong:
                return Verdict("none", [wrong])
            is_first_wanted = stage not in ("made", "other")
            found = self.verdict_without_search() if is_first_wanted else Verdict("none", [], is_last=False)
            return found if found.is_last or stage == "first" else self.verdict_with_made_certificate(found)
        except ProgramTimeout:
            return Verdict("unknown", [f"The program gave no answer within {self.seconds:g} seconds."])
        except (BadProgramError, ReportError) as error:
            return Verdict("unknown", [f"There is no verdict: {error}."])
        except MemoryError:
            return Verdict("unknown", ["There is no verdict: the memory limit was reached."])

    def verdict_without_search(self) -> Verdict:
        """Tries the text's own certificate, the earlier one, and for a small layout one of one module, up to a yes or a
        no that no certificate changes."""
        design = read_document(self.head, "design")
        if design.refusal or design.circuit is None or design.layout is None:
            bundle = self.text if self.head != self.text else self.head + "certificate 2\nend\n"
            return self.bundle_verdict(bundle, "own")
        self.inputs = design.circuit.inputs
        own = self.bundle_verdict(self.text, "own") if self.head != self.text else None
        if own and own.verdict == "yes":
            return own
        # The steps of a `delay` gate are shown by stops alone.
        has_delay = any(gate.kind == "delay" for gate in design.circuit.gates)
        plain = None if has_delay else one_module_certificate(design.circuit, design.layout)
        if plain:
            return self.bundle_verdict(self.head + plain, "plain")
        earlier = self.bundle_verdict(self.head + self.earlier, "earlier") if self.earlier else None
        if earlier and earlier.verdict == "yes":
            return earlier
        found = own if own and own.verdict == "no" else earlier if earlier and earlier.verdict == "no" else Verdict(
            "none", [])
        found.is_last = False
        return found

    def wrong_end_reason(self, design: Document) -> str | None:
        """Says why no certificate gets a yes, if the program's run with all inputs on, or with none, does not end as
        the circuit and the layout ask."""
        circuit, layout = design.circuit, design.layout
        if circuit is None or layout is None:
            return None
        choices: list[tuple[str, Sequence[str]]] = [("all inputs", circuit.inputs), ("no input", [])]
        for words, on in choices:
            lines = [self.head[self.head.find("\nlayout ") + 1:].rstrip("\n"), "assign", *(f"on {name}" for name in on),
                     "end", ""]
            answer = ask_program(self.program, "run", "\n".join(lines).encode("latin-1"), self.seconds)
            if answer.status != 0 or not answer.output.startswith("cells "):
                return None
            live = {(int(x), int(y)) for x, y in (line.split(" ") for line in answer.output.split("\n")[1:-1])}
            cell = wrong_cell(circuit, layout, set(on), live)
            if cell:
                is_live, other = ("live", "dead") if cell in live else ("dead", "live")
                return (f"With {words} on the cell {cell} is {is_live} at the end and should be {other}. So no "
                        "certificate gets a yes.")
        return None

    def verdict_with_made_certificate(self, first: Verdict) -> Verdict:
        """Returns the verdict with a certificate that the lab makes, or the first no if it makes none."""
        design = read_document(self.head, "design")
        self.inputs = design.circuit.inputs if design.circuit else ()
        made = self.certify_and_judge(design)
        if made.verdict == "none" and first.verdict == "no":
            first.words += [NO_OTHER_CERTIFICATE_WORDS[first.by], *made.words]
            first.is_last = True
            return first
        return made

    def certify_and_judge(self, design: Document) -> Verdict:
        """Returns the verdict with a certificate that `certify` makes: first without runs of its modules, which the
        program repeats."""
        try:
            plan = CertificateOptions(processor_deadline=self.until, runs_modules=False)
            quick = self.bundle_verdict(certified_text(design, None, plan), "certify")
            if quick.verdict == "yes":
                return quick
            outcome = DiagnosticRuns(read_document(quick.bundle, "check")).whole_run_outcome
            if outcome.correctness is Tristate.NO:
                quick.words.append(outcome.why_no_yes)
                return quick
            return self.bundle_verdict(certified_text(design, None, CertificateOptions(processor_deadline=self.until)),
                                       "certify")
        except LabError as error:
            reason = str(error)
            return Verdict("none", [f"{reason[:1].upper()}{reason[1:]}."], "certify")

    def bundle_verdict(self, bundle: str, by: str) -> Verdict:
        """Returns what the program says of a bundle."""
        answer = self.ask_program_about(bundle)
        if answer.status not in (0, 1, 3):
            raise BadProgramError(f"the program ended with status {answer.status}: {answer.errors}")
        report = parse_report(answer.output)
        if report.refused:
            return self.refusal_verdict(bundle, report.refused, answer.output)
        if (answer.status, report.verdict) not in ((0, "yes"), (1, "no")):
            raise ReportError(f"the program ended with status {answer.status} and wrote `verdict {report.verdict}`")
        found, cuts = report.faults[:MAX_SENT_LINES], cuts_by_module(bundle) if report.faults else []
        faults = [fault_json(cuts, self.inputs, finding) for finding in found]
        count = len(report.faults)
        words = [] if report.verdict == "yes" else [
            f"The report has {count} reason{'s' if count != 1 else ''} for the no."]
        return Verdict(report.verdict, words, by, bundle, answer.output, faults)

    def refusal_verdict(self, bundle: str, refused: tuple[int, int], output: str) -> Verdict:
        """Returns a refusal in words."""
        line, code = refused
        document = read_document(bundle, "check")
        same = document.refusal is not None and (document.refusal.line, document.refusal.code) == refused
        told = explain_refusal(document, document.refusal) if same and document.refusal else explain_code(line, code)
        return Verdict("refused", told.what, "own", bundle, output,
                       line=source_line_number(self.source, self.text, line), code=code, rule=told.rule,
                       hints=told.hints)


def wrong_cell(circuit: Circuit, layout: Layout, on: set[str], live: set[Cell]) -> Cell | None:
    """Returns a cell that is not as the circuit and the layout ask where just some cells are live at the end.

    None if a gate lacks its row.
    """
    values, missing = values_and_undefined_gate(circuit, on)
    if missing is not None:
        return None
    wanted = {part.cell for part in layout.of_kind("out") if values.get(part.name or "")}
    free = {part.cell for part in layout.of_kind("waste")}
    return min((wanted | layout.mirror_cells() - free) ^ (live - free), default=None)


def one_module_certificate(circuit: Circuit, layout: Layout) -> str | None:
    """Returns a certificate of one module for the whole layout that cuts all inputs and uses all gates, or None if it
    is too large.

    A no to it is about the circuit, the layout or a live rim, unless there are delays (docs/GUIDE.md).
    """
    if max(layout.width,
           layout.height) > MAX_BOX_SIDE or len(circuit.inputs) > MAX_CUTS or len(circuit.gates) > MAX_USES:
        return None
    return str(Certificate(2, (whole_module(circuit, layout),)))


def fault_json(cuts: list[list[str]], inputs: Sequence[str], finding: ReportLine) -> dict[str, Any]:
    """Returns a line of a report for the page: its words, its cell and time, and the inputs that are on if the module
    cuts inputs alone."""
    form: dict[str, Any] = {"text": finding.text}
    if "x" in finding.values:
        form |= {"cell": [finding.number_value("x"), finding.number_value("y")], "time": finding.number_value("time")}
    if "assignment" in finding.values:
        names = cuts[finding.number_value("module")]
        if set(names) <= set(inputs):
            form["on"] = [name for index, name in enumerate(names) if finding.number_value("assignment") >> index & 1]
    return form


# ---- explanations and fixes


def explanation_json(text: str, bundle: str, output: str, program: Executable, seconds: float) -> dict[str, Any]:
    """Returns a no or a refusal in words, with fixes that were tried.

    `text` is the page's, `bundle` is what the program read.
    """
    trial = TrialRunner(program, TrialBudget(200, seconds))
    has_own = design_text(spell_text(text).text) != spell_text(text).text
    report = parse_report(output)
    document = read_document(bundle, "check")
    made = explain_report(document, report, "", None)
    fixer = Fixer(bundle if has_own or not report.refused else design_text(bundle), report, trial)
    entries: list[dict[str, Any]] = [{"line": entry.report_line, "what": entry.what, "fix": None}
                                     for entry in made.entries if entry.is_against][:MAX_SENT_LINES]
    whole = fixer.find_fix()
    forms = {entry["line"]: entry for entry in entries}
    # Without a certificate of its own a text has no lines that fixes of single lines could change.
    if has_own and not report.refused and document.certificate:
        diagnosis = DiagnosticRuns(document)
        for finding in report.faults[:MAX_FIXED_LINES]:
            fix = fixer.find_fix_of_line(diagnosis, finding)
            if fix and finding.text in forms:
                forms[finding.text]["fix"] = fix_json(fix, report, has_own)
    return {"headline": made.headline[1:], "entries": entries, "fix": fix_json(whole, report, has_own),
            "tried": [] if whole else tried_in_vain_words(fixer, trial)}


def fix_json(fix: Fix | None, report: ReportOrRefusal, has_own: bool) -> dict[str, Any] | None:
    """Returns a fix for the page: its sentences, the verdict, and the text after it.

    A text without a certificate stays without one.
    """
    if fix is None:
        return None
    text = fix.text if has_own else design_text(fix.text)
    return {"words": [*fix.words, outcome_words(report, fix)], "verdict": fix.report.verdict, "text": text}


def design_explanation_json(text: str, program: Executable, seconds: float) -> dict[str, Any]:
    """Returns fixes of a text for which no certificate was found."""
    trial, head = TrialRunner(program, TrialBudget(200, seconds)), design_text(spell_text(text).text)
    report = trial.try_text(head)
    fixer = Fixer(head, report, trial) if report else None
    whole = fixer.find_fix() if fixer else None
    assert fixer is None or report is not None
    return {"headline": [], "entries": [], "fix": fix_json(whole, report, False) if report else None,
            "tried": tried_in_vain_words(fixer, trial) if fixer and not whole else []}
