"""Fixes: the search for edits after which a text is taken and gets a yes, each tried before it is named."""

from dataclasses import dataclass, field
from itertools import chain
from typing import Iterable, Iterator

from ..certify.certifier import CertificateOptions, certified_text
from ..host.processor import processor_seconds
from ..host.terminal import LabError
from ..texts.documents import Document, read_document
from ..texts.layouts import Cell
from ..texts.reports import ReportLine, ReportOrRefusal
from ..texts.skimming import design_text
from .certificate_edits import CertificateEditProposer
from .diagnosis import DiagnosticRuns, Tristate
from .edits import Edit, EditError, edits_between, text_after_edits
from .layout_changes import (DesignChange, Testbench, added_ball_changes, added_mirror_changes, circuit_changes,
                             enlarged_layout_changes, added_output_changes, moved_part_changes, output_exchanges,
                             output_place_changes, removed_part_changes, start_state_changes, step_count_changes,
                             wrong_cells)
from .mirror_changes import unstable_mirror_changes
from .refusal_edits import refusal_edits
from .trials import TrialRunner, fault_times, has_removed_fault, is_yes

# The most rounds of a search, and the most texts that are tried for one refusal or one line of a report.
MAX_FIX_ROUNDS = 12
MAX_TRIES_PER_REPORT_LINE = 80
# The most changed layouts that are kept for the program's verdict, and the most edits that a fix names one by one.
MAX_KEPT_CHANGES = 6
MAX_NAMED_EDITS = 12
# The most other fixes that are named.
MAX_OTHER_FIXES = 3
# The share of the seconds that are left which one certificate may take.
CERTIFY_SHARE = 0.3


@dataclass(frozen=True)
class TriedText:
    """A text that was tried, whether its certificate was made again, and its report."""

    text: str
    report: ReportOrRefusal
    has_new_certificate: bool = False
    # Other texts that are as good, by changes of the same size.
    alternative_texts: tuple[str, ...] = ()


@dataclass
class Fix:
    """Edits that were tried: the text after them, its report, and who was asked.

    If `has_new_certificate`, the edits are those of the circuit and the layout, and the certificate was made again by
    the lab.
    """

    text: str
    report: ReportOrRefusal
    edits: list[Edit]
    has_new_certificate: bool
    judge: str
    words: list[str] = field(default_factory=list)
    # Other fixes that are as good, in words.
    others: list[list[str]] = field(default_factory=list)


def change_words(text: str, edits: list[Edit], remakes: bool) -> list[str]:
    """Returns what a fix changes, a sentence for each edit."""
    lines = text.split("\n")
    words = [edit.as_sentence(lines) for edit in edits[:MAX_NAMED_EDITS]]
    if len(edits) > MAX_NAMED_EDITS:
        words.append(f"And {len(edits) - MAX_NAMED_EDITS} more edits: `bbmlab explain --fix` writes the whole text.")
    if remakes:
        verb = "make the certificate again" if design_text(text) != text else "add a certificate"
        words.append(f"Then {verb}: `bbmlab certify` does." if edits
                     else f"{verb.capitalize()}: `bbmlab certify` does.")
    return words


class Fixer:
    """Looks for fixes of a text whose report is given."""

    def __init__(self, text: str, report: ReportOrRefusal, trial: TrialRunner,
                 diagnosis: DiagnosticRuns | None = None) -> None:
        # `own` is the diagnosis of the text itself, if there is one: its runs need not be made again.
        self.text, self.report, self.trial, self.own = text, report, trial, diagnosis
        # The kinds of edits that were tried, in words.
        self.kinds: dict[str, None] = {}
        # Whether a limit ended some search before all edits of its kind were tried.
        self.is_cut_short = False
        self._editor: CertificateEditProposer | None = None

    # ---- the whole text

    def find_fix(self) -> Fix | None:
        """Returns a fix of the whole text: rounds of edits, up to a yes or to the last text that was better; None if
        there is none."""
        steps = [TriedText(self.text, self.report)]
        while len(steps) <= MAX_FIX_ROUNDS and not is_yes(steps[-1].report) and not self.trial.is_budget_used_up():
            step = self.improved_text(steps[-1])
            if step is None:
                break
            steps.append(step)
        good = [step for step in steps[1:] if not step.report.refused]
        fix = self.fix_to_tried_text(good[-1], any(step.has_new_certificate for step in steps)) if good else None
        if fix and len(steps) == 2:
            fix.others = [change_words(self.text, edits_between(self.text, text), False)
                          for text in steps[1].alternative_texts]
        return fix

    def fix_to_tried_text(self, step: TriedText, remakes: bool) -> Fix | None:
        """Returns a step as edits of the text; None if the edits do not lead to it."""
        old, new = (design_text(text) if remakes else text for text in (self.text, step.text))
        if remakes and old == self.text:
            old, new = (text.rstrip("\n") for text in (old, new))
        edits = edits_between(old, new)
        if text_after_edits(old, edits) != new:
            return None
        return Fix(step.text, step.report, edits, remakes, self.trial.judge_words,
                   change_words(self.text, edits, remakes))

    def improved_text(self, step: TriedText) -> TriedText | None:
        """Returns a better text than that of a step."""
        is_own = self.own is not None and step.text == self.text
        document = self.own.document if self.own and is_own else read_document(step.text, "check")
        if step.report.refused:
            return self.text_past_refusal(step, document)
        if document.refusal or document.circuit is None or document.layout is None or document.certificate is None:
            return None
        diagnosis = self.own if self.own and is_own else DiagnosticRuns(document)
        if diagnosis.whole_run_outcome.correctness is Tristate.NO:
            return self.text_with_changed_design(step, document) or self.text_with_edited_certificate(step, diagnosis)
        return self.text_with_edited_certificate(step, diagnosis) or self.text_with_changed_design(step, document)

    # ---- refusals

    def text_past_refusal(self, step: TriedText, document: Document) -> TriedText | None:
        """Returns a text that is taken, or one that is refused at a later line: a yes if there is one, else one with
        the fewest faults."""
        if document.refusal is None or step.report.refused != (document.refusal.line, document.refusal.code):
            return None
        changed = self.text_with_wrong_design_changed(step)
        if changed:
            return changed
        best: TriedText | None = None
        later: TriedText | None = None
        for text in self.texts_edited_for_refusal(step.text, document):
            report = self.trial.try_text(text)
            if report is None or is_yes(report):
                return TriedText(text, report) if report else best or later
            if report.refused is None and (best is None or len(report.faults) < len(best.report.faults)):
                best = TriedText(text, report)
            elif report.refused and later is None and self.is_refused_later(step, text, report):
                later = TriedText(text, report)
        return best or self.text_with_added_ports(step, document) or self.text_from_design_alone(step) or later

    def is_refused_later(self, step: TriedText, text: str, report: ReportOrRefusal) -> bool:
        """Whether a text is refused at a later line than that of a step, counted from the ends of both texts."""
        assert step.report.refused and report.refused
        was = len(step.text.split("\n")) - step.report.refused[0]
        return len(text.split("\n")) - report.refused[0] < was

    def texts_edited_for_refusal(self, text: str, document: Document) -> Iterator[str]:
        """Yields texts with edits for a refusal."""
        self.kinds["edits of the refused line and of lines that it needs"] = None
        for count, edits in enumerate(refusal_edits(document)):
            if count == MAX_TRIES_PER_REPORT_LINE:
                self.is_cut_short = True
                return
            try:
                yield text_after_edits(text, edits)
            except EditError:
                continue

    def text_with_wrong_design_changed(self, step: TriedText) -> TriedText | None:
        """Returns a text with a changed design, if circuit and layout are taken and do not end as the layout asks."""
        head = read_document(design_text(step.text), "design")
        if head.refusal or design_text(step.text) == step.text:
            return None
        bench = self.testbench_of(step, head)
        is_right = bench.last is not None and not wrong_cells(bench.values, bench.layout, bench.last)
        return None if is_right or bench.is_out_of_time() else self.text_with_changed_design(step, head)

    def text_from_design_alone(self, step: TriedText) -> TriedText | None:
        """Returns a text whose certificate was made by the lab, if circuit and layout are taken; if that fails, with a
        changed design."""
        head = read_document(design_text(step.text), "design")
        if head.refusal:
            return None
        return self.text_with_made_certificate(head) or self.text_with_changed_design(step, head)

    def text_with_added_ports(self, step: TriedText, document: Document) -> TriedText | None:
        """Returns a text with cells for inputs or outputs without one."""
        if document.refusal is None or document.refusal.cause != "port_without_cell":
            return None
        bench = self.testbench_of(step, document)
        for change in chain(added_output_changes(bench), start_state_changes(bench)):
            text = text_after_edits(step.text, change.edits)
            report = self.trial.try_text(text)
            if report and not report.refused:
                return TriedText(text, report)
        return None

    # ---- the certificate

    def text_with_edited_certificate(self, step: TriedText, diagnosis: DiagnosticRuns) -> TriedText | None:
        """Returns a text with an edited certificate, or one that the lab made again: a yes if there is one, else one
        that is better."""
        editor, best = self.editor_of(diagnosis), None
        for proposal in editor.proposals_for_report(step.report.faults):
            self.kinds[proposal.kind] = None
            text = self.text_after_edits_or_none(step.text, proposal.edits)
            report = self.trial.try_text(text) if text else None
            if text and is_yes(report):
                assert report
                return TriedText(text, report)
            if text and report and best is None and has_removed_fault(step.report, report, None):
                best = TriedText(text, report)
            if self.trial.is_budget_used_up():
                self.is_cut_short = True
                break
        if best:
            return best
        made = self.text_with_made_certificate(diagnosis.document)
        return made if made and has_removed_fault(step.report, made.report, None) else None

    def editor_of(self, diagnosis: DiagnosticRuns) -> CertificateEditProposer:
        """Returns the editor of a certificate.

        That of the text itself is kept, since it compares all borders with a run.
        """
        if diagnosis is not self.own:
            return CertificateEditProposer(diagnosis, self.trial.seconds_left())
        if self._editor is None:
            self._editor = CertificateEditProposer(diagnosis, self.trial.seconds_left())
        return self._editor

    def text_after_edits_or_none(self, text: str, edits: tuple[Edit, ...]) -> str | None:
        """Returns a text after edits, or None if they do not go together."""
        try:
            return text_after_edits(text, edits)
        except EditError:
            return None

    def text_with_made_certificate(self, document: Document) -> TriedText | None:
        """Returns a design with a certificate that the lab made: with the boxes that it has, or else with others."""
        self.kinds["a certificate that is made again"] = None
        certificate = document.certificate
        version = certificate.version if certificate and certificate.version else 2
        own = [module.box for module in certificate.modules] if certificate and not document.refusal else None
        for boxes in ([own] if own else []) + [None]:
            if self.trial.is_budget_used_up():
                return None
            try:
                until = processor_seconds() + self.trial.seconds_left() * CERTIFY_SHARE
                text = certified_text(document, boxes, CertificateOptions(version, processor_deadline=until))
            except LabError:
                continue
            report = self.trial.try_text(text)
            if is_yes(report):
                assert report
                return TriedText(text, report, True)
        return None

    # ---- the design

    def first_fault_cell(self, report: ReportOrRefusal) -> Cell | None:
        """Returns the cell of the first fault of a report."""
        faults = [finding for finding in report.findings if finding.word == "local"]
        first = min(faults, key=lambda finding: finding.number_value("time"), default=None)
        return (first.number_value("x"), first.number_value("y")) if first else None

    def testbench_of(self, step: TriedText, document: Document) -> Testbench:
        """Returns what changes of a design are tried on."""
        assert document.circuit and document.layout
        return Testbench(step.text, document.circuit, document.layout, max(0.1, 0.8 * self.trial.seconds_left()),
                         self.first_fault_cell(step.report))

    def text_with_changed_design(self, step: TriedText, document: Document) -> TriedText | None:
        """Returns a text with a changed layout or circuit that gets a yes, with its certificate or with one that the
        lab makes."""
        bench = self.testbench_of(step, document)
        has_certificate = design_text(step.text) != step.text
        kept: list[tuple[DesignChange, str]] = []
        for change in design_changes(bench, self.kinds):
            if self.trial.is_budget_used_up() or bench.is_out_of_time() or len(kept) >= MAX_KEPT_CHANGES:
                self.is_cut_short = True
                break
            if not bench.is_fixed_by(change):
                continue
            text = text_after_edits(step.text, change.edits)
            kept.append((change, text))
            report = self.trial.try_text(text) if has_certificate else None
            if is_yes(report):
                assert report
                return TriedText(text, report, alternative_texts=self.other_fixed_texts(bench, step.text, text))
        for _, text in kept:
            made = self.text_with_made_certificate(read_document(design_text(text), "design"))
            if made:
                return made
        return None

    def other_fixed_texts(self, bench: Testbench, text: str, found: str) -> tuple[str, ...]:
        """Returns other texts with changes of names, ports and gates that get a yes too: which one is meant only the
        designer knows."""
        texts: list[str] = []
        for change in chain(output_exchanges(bench), output_place_changes(bench, None, True), circuit_changes(bench)):
            if len(texts) == MAX_OTHER_FIXES or self.trial.is_budget_used_up() or bench.is_out_of_time():
                break
            other = text_after_edits(text, change.edits)
            if (other != found and other not in texts and bench.is_fixed_by(change)
                    and is_yes(self.trial.try_text(other))):
                texts.append(other)
        return tuple(texts)

    # ---- one line of the report

    def find_fix_of_line(self, diagnosis: DiagnosticRuns, finding: ReportLine) -> Fix | None:
        """Returns a fix of one line of the report: after its edits the line is gone, and nothing new is against the
        text."""
        if self.trial.is_budget_used_up():
            return None
        self.own = diagnosis
        best: Fix | None = None
        for _, proposal in zip(range(MAX_TRIES_PER_REPORT_LINE), self.editor_of(diagnosis).proposals_for_line(finding)):
            text = self.text_after_edits_or_none(self.text, proposal.edits)
            report = self.trial.try_text(text) if text else None
            if text and report and has_removed_fault(self.report, report, finding) and (best is None or is_yes(report)):
                edits = list(proposal.edits)
                best = Fix(text, report, edits, False, self.trial.judge_words, change_words(self.text, edits, False))
            if best and is_yes(best.report) or self.trial.is_budget_used_up():
                break
        return best


def design_changes(bench: Testbench, kinds: dict[str, None]) -> Iterator[DesignChange]:
    """Yields changes of a design, the likeliest first, and notes the kinds that were come to."""
    families: list[tuple[str, Iterable[DesignChange]]] = [
        ("mirrors at legal places", unstable_mirror_changes(bench)),
        ("other names of outputs", output_exchanges(bench)),
        ("outputs that take each other's cells", output_place_changes(bench, None, True)),
        ("outputs at most 2 cells away", output_place_changes(bench, 2)),
        ("another number of steps", step_count_changes(bench)),
        ("one gate line", circuit_changes(bench)),
        ("`in` and `ball` lines from the run backwards", start_state_changes(bench)),
        ("one more mirror", added_mirror_changes(bench, True)),
        ("ports moved by at most 2 cells", moved_part_changes(bench, ("in", "ball"))),
        ("a mirror moved by at most 2 cells", moved_part_changes(bench, ("mirror",))),
        ("a part left out", removed_part_changes(bench)), ("one more `ball`", added_ball_changes(bench)),
        ("outputs at any cell, and `waste`", output_place_changes(bench, None)),
        ("a larger layout", enlarged_layout_changes(bench)), ("one more mirror", added_mirror_changes(bench, False))]
    if bench.near and bench.layout.is_rim(bench.near):
        families.insert(0, ("a larger layout", enlarged_layout_changes(bench)))
    for kind, changes in families:
        kinds[kind] = None
        yield from changes


def outcome_words(before: ReportOrRefusal, fix: Fix) -> str:
    """Returns what the report of a fixed text says."""
    edited = "" if not fix.edits else "this edit" if len(fix.edits) == 1 else "these edits"
    made = "the new certificate" if fix.has_new_certificate else ""
    asked = f"With {' and '.join(part for part in (edited, made) if part)} {fix.judge}"
    if is_yes(fix.report):
        return (f"{asked} says yes." if fix.judge == "the program"
                else f"{asked} finds no fault; only the program gives a verdict.")
    count = len(fix.report.faults)
    left = f"{count} line{'s' if count != 1 else ''} of the report {'are' if count != 1 else 'is'} left"
    if before.refused:
        return f"{asked} takes the text, and still says no: {left}."
    was, now = fault_times(before), fault_times(fix.report)
    later = sum(module in was and now[module] > was[module] for module in now)
    return f"{asked} still says no: {left}{f', {later} of them at a later time than before' if later else ''}."
