"""Runs `bbmlab trace`."""

import argparse

from ..host.program import BadProgramError, ProgramTimeout, ask_program, find_and_open_program
from ..host.terminal import LabError, tell_user, write_utf8_text
from ..physics import tracing
from ..texts.designs import read_layout_file


def run(options: argparse.Namespace) -> int:
    """Writes the live cells at each time."""
    document, layout = read_layout_file(options.file, options.module is not None)
    last = layout.steps if options.to is None else options.to
    if options.start > last:
        raise LabError(f"--from {options.start} is later than --to {last}", 2)
    if options.module is not None:
        if options.on is not None:
            raise LabError("--on is not for --module, whose values are --assignment", 2)
        trace = tracing.trace_module(document, options.module, options.assignment, options.start, last)
    else:
        on = tracing.chosen_inputs(document, options.on)
        trace = tracing.trace_layout(layout, on, options.start, last)
        compare_with_program(options, trace, tracing.bytes_for_run_command(tracing.layout_section_lines(document), on))
    mirrors = layout.mirror_cells()
    write_utf8_text(options.output, tracing.trace_json_text(trace, mirrors) if options.json
                    else tracing.trace_text(trace, mirrors, options.pictures))
    return 1 if trace.leaving_step is not None else 0


def compare_with_program(options: argparse.Namespace, trace: tracing.Trace, text: bytes) -> None:
    """Compares the last state with the program's `run`, where there is a program, and says what came of it on standard
    error."""
    try:
        answer = ask_program(find_and_open_program(options.program), "run", text, options.timeout)
    except (BadProgramError, ProgramTimeout) as error:
        tell_user(f"the last state was not compared: {error}")
        return
    if answer.status >= 3:
        tell_user(f"the last state was not compared: {answer.errors or answer.output.strip()}")
        return
    differs = tracing.describe_difference_from_run(trace, answer.output)
    if differs:
        raise LabError(f"the lab's run is wrong: {differs}")
    tell_user("the last state is what the program's run says")
