"""Runs `bbmlab explain`."""

import argparse

from ..circuits.netlists import NetlistFormat, guessed_netlist_format
from ..explain import explaining
from ..explain.explaining import ExplainedAnswer
from ..explain.fixing import Fixer, outcome_words
from ..explain.trials import TrialBudget, TrialRunner
from ..farm.answering import why_bad_answer
from ..host.program import Executable, BadProgramError, ask_program, find_and_open_program
from ..host.terminal import LabError, coloured, read_latin1_text, tell_user, wrapped_paragraph, write_bytes
from ..texts.cell_pictures import LEGEND
from ..texts.documents import command_for_text, read_document


def run(options: argparse.Namespace) -> int:
    """Explains the answer of the program, or of the lab's reader where there is no program."""
    if not options.fix and (options.output or options.in_place):
        raise LabError("-o and -i need --fix", 2)
    text = read_latin1_text(options.file)
    form = guessed_netlist_format(text)
    # The program refuses plain gates behind the line `circuit`, and the explanation names what makes a circuit of them.
    if form is not None and not (form is NetlistFormat.GATES and command_for_text(text) == "circuit"):
        what = {NetlistFormat.YOSYS_JSON: "JSON", NetlistFormat.GATES: "a text of plain gates"}.get(form, "a netlist")
        more = ", and `bbmlab json --back` its own documents" if form is NetlistFormat.YOSYS_JSON else ""
        raise LabError(f"{options.file}: this is {what}: `bbmlab circuit` and `route` read it{more}", 1)
    command = options.command_of_program or {"design": "check", "layout": "run",
                                             "circuit": "value"}.get(command_for_text(text), command_for_text(text))
    program = program_if_found(options)
    if options.fix:
        return find_and_write_fix(text, command, program, options)
    by_lab = False
    if options.report:
        output = read_latin1_text(options.report)
    elif program:
        output = program_output(program, command, text, options)
    else:
        refusal = read_document(text, command).refusal
        if refusal is None:
            find_and_open_program(options.program)
            raise LabError("The lab's reader takes the text, but only the program gives a verdict.")
        output, by_lab = f"refused {refusal.line} {refusal.code}\n", True
    trial = TrialRunner(program, TrialBudget(seconds=options.effort, is_counted_from_search=True))
    explanation = explaining.explain_answer(text, command, output, options.file, trial)
    if by_lab:
        explanation.headline.append("The program was not found: this is the lab's reading, and no verdict.")
    return write_explanation(explanation, options)


def program_if_found(options: argparse.Namespace) -> Executable | None:
    """Returns the program, or None if it is not found."""
    try:
        return find_and_open_program(options.program)
    except BadProgramError:
        return None


def program_output(program: Executable, command: str, text: str, options: argparse.Namespace) -> str:
    """Returns what a command of the program writes."""
    answer = ask_program(program, command, text.encode("latin-1"), options.timeout)
    if answer.status >= 4:
        raise LabError(f"the program answered: {answer.errors}")
    why = why_bad_answer(answer) if command == "check" else None
    if why:
        raise LabError(f"the program gave no verdict: {why}")
    return answer.output


def find_and_write_fix(text: str, command: str, program: Executable | None, options: argparse.Namespace) -> int:
    """Writes the text with a fix; what it changes goes to standard error. Returns 0 only if the program says yes to it.
    """
    if command != "check":
        raise LabError("--fix takes a text with a circuit and a layout", 2)
    if options.in_place and (options.output or options.file == "-"):
        raise LabError("-i writes the file itself: it goes with a file, and without -o", 2)
    report, trial = TrialRunner(program).try_text(text), TrialRunner(program, TrialBudget(seconds=options.effort))
    if report is None:
        raise LabError(f"{trial.judge_words} gave no answer")
    fixer = Fixer(text, report, trial)
    fix = None if report.verdict == "yes" else fixer.find_fix()
    if fix is None and report.verdict != "yes":
        for line in explaining.tried_in_vain_words(fixer, trial):
            tell_user(line)
        return 1
    words = [*fix.words,
             outcome_words(report, fix)] if fix else [f"{trial.judge_words} says yes already: there is nothing to fix."]
    for line in words:
        tell_user(line)
    data = (fix.text if fix else text).encode("latin-1")
    if options.in_place:
        if fix:
            write_bytes(options.file, data, before=text.encode("latin-1"))
    else:
        write_bytes(options.output, data, [options.file])
    return 0 if program and (fix is None or fix.report.verdict == "yes") else 1


def write_explanation(explanation: ExplainedAnswer, options: argparse.Namespace) -> int:
    """Writes an explanation in the form that is asked for."""
    if options.json:
        print(explaining.explanation_json_text(explanation))
    elif options.gcc:
        for line in explaining.gcc_error_lines(explanation):
            print(line)
    else:
        print(explanation_text(explanation))
    return 1 if explanation.verdict in ("no", "refused", "left", "undefined") else 0


def explanation_text(explanation: ExplainedAnswer) -> str:
    """Writes an explanation for people."""
    good = explanation.verdict not in ("no", "refused", "left", "undefined")
    blocks = ["\n".join([coloured(explanation.headline[0], "green" if good else "red"),
                         *(wrapped_paragraph(line) for line in explanation.headline[1:])])]
    told = explanation.refused
    if told:
        blocks.append(f"  line {explanation.line}: {explanation.line_text!r}"[:160] if explanation.line_text
                      else f"  line {explanation.line}")
        blocks.append("\n".join(wrapped_paragraph(what, "  ") for what in told.what))
        blocks.append(wrapped_paragraph(f"Rule: {told.rule}", "  "))
        if explanation.fix is None:
            blocks.append("\n".join(wrapped_paragraph(hint, f"  {coloured('Hint:', 'bold')} ", "        ")
                                    for hint in told.hints))
    blocks += fix_paragraphs(explanation)
    for entry in explanation.entries:
        lines = [coloured(entry.report_line, "bold" if entry.is_against else "dim")]
        lines += [wrapped_paragraph(what, "  ") for what in entry.what]
        if explanation.fix is None or entry.fixes != explanation.fix.words:
            lines += labelled_sentences("Fix:", entry.fixes)
        if entry.picture:
            lines += ["", *(f"    {row}" for row in entry.picture)]
        blocks.append("\n".join(lines))
    if any(entry.picture for entry in explanation.entries):
        blocks.append(coloured(LEGEND, "dim"))
    return "\n\n".join(blocks)


def fix_paragraphs(explanation: ExplainedAnswer) -> list[str]:
    """Returns the fix of the whole text, or what was tried in vain."""
    if explanation.fix:
        others = [line for words in explanation.fix.others for line in labelled_sentences("Or:", words)]
        return ["\n".join(labelled_sentences("Fix:", explanation.fix.words) + others)]
    return ["\n".join(wrapped_paragraph(line, "  ") for line in explanation.tried)] if explanation.tried else []


def labelled_sentences(label: str, sentences: list[str]) -> list[str]:
    """Returns sentences, one a line, with a label before the first."""
    margin = " " * (len(label) + 3)
    return [wrapped_paragraph(sentence, margin if index else f"  {coloured(label, 'bold')} ", margin) for index,
            sentence in enumerate(sentences)]
