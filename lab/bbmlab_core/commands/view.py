"""Runs `bbmlab view`."""

import argparse
import os

from ..explain import explaining
from ..explain.trials import TrialBudget, TrialRunner
from ..farm.answering import why_bad_answer
from ..host.program import BadProgramError, ProgramTimeout, ask_program, find_and_open_program
from ..host.terminal import read_latin1_text, tell_user, write_utf8_text
from ..texts.designs import read_layout_file
from ..view import viewing


def run(options: argparse.Namespace) -> int:
    """Writes the page of a layout. A bundle is checked by the program, where there is one."""
    (document, _), explanation = read_layout_file(options.file), None
    if document.certificate:
        try:
            output = read_latin1_text(options.report) if options.report else program_report(document.text, options)
            explanation = explaining.explain_answer(document.text, "check", output, options.file, trial_runner(options),
                                                    document)
        except (BadProgramError, ProgramTimeout) as error:
            tell_user(f"the page has no report: {error}")
    write_utf8_text(options.output, viewing.page_html(document, explanation, os.path.basename(options.file)))
    return 0


def program_report(text: str, options: argparse.Namespace) -> str:
    """Returns the report or the refusal of the program. Raises BadProgramError if its status is not that of the report.
    """
    answer = ask_program(find_and_open_program(options.program), "check", text.encode("latin-1"), options.timeout)
    why = why_bad_answer(answer)
    if why:
        raise BadProgramError(f"the program gave no verdict: {why}")
    return answer.output


def trial_runner(options: argparse.Namespace) -> TrialRunner | None:
    """Returns who tries fixes: the program, if it is found."""
    try:
        return TrialRunner(find_and_open_program(options.program), TrialBudget(200, 10.0))
    except BadProgramError:
        return None
