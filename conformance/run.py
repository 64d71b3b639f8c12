#!/usr/bin/env python3
"""conformance/run.py PROGRAM [FOLDER..] [--commands A,B] [--all] [--huge] [--seconds N] [--jobs N]

Runs PROGRAM on each worked case and compares the exit status and standard output. Prints a line for each case that does
not hold, and last how many held. The status is 0 if all did.

Without FOLDER the cases are those of the repository, with the large bundles of conformance/data, texts at each limit
and one beyond it, and each case once more with the line `limits 2` in front of its text, if the line cannot change the
answer. With FOLDER they are the case folders at or below each FOLDER, such as conformance/unpack.py writes. --commands
takes the cases of these commands alone. --all also takes the cases that are about the words of a command and no text,
unless --commands is given, and compares standard error if a case gives it: both are this project's own. --huge also
takes texts of 16 and 256 MiB, which need some GB of memory for each case that runs. A case has 120 seconds, or N. Two
run at a time, or N.
"""
import argparse
import shutil
import subprocess
import sys
from concurrent.futures import ThreadPoolExecutor
from pathlib import Path

sys.dont_write_bytecode = True
sys.path.insert(0, str(Path(__file__).resolve().parent))
from cases import COMMANDS, Case, all_cases, behind_the_line, case_of_folder, is_about_texts, limit_cases  # noqa: E402


def short(line):
    text = "nothing" if line is None else repr(line)[1:]
    return text if len(text) <= 70 else text[:67] + "..."


def difference(what, wanted, got):
    """The first line in which two texts differ."""
    wanted, got = wanted.splitlines(keepends=True), got.splitlines(keepends=True)
    same = next((at for at, pair in enumerate(zip(wanted, got)) if pair[0] != pair[1]), min(len(wanted), len(got)))
    first = [lines[same] if same < len(lines) else None for lines in (wanted, got)]
    return f"line {same + 1} of {what}: wanted {short(first[0])}, got {short(first[1])}"


def fault_of(program, case, errors, seconds):
    """What the program does on a case that it must not do, or None."""
    try:
        ended = subprocess.run([program, *case.words], input=case.input, capture_output=True, timeout=seconds,
                               check=False)
    except subprocess.TimeoutExpired:
        return f"it had not ended after {seconds} seconds"
    except BrokenPipeError:
        return "it ended before it had read its text"
    if ended.returncode != case.status:
        return f"the status is {ended.returncode} and not {case.status}"
    if not case.has_output(ended.stdout):
        return "the output has another digest" if case.output is None else difference("standard output", case.output,
                                                                                      ended.stdout)
    if errors and case.errors is not None and case.errors != ended.stderr:
        return difference("standard error", case.errors, ended.stderr)
    return None


def behind_wrapper(program):
    """The program that the repository's wrapper runs, so that its choice is made once; any other program as it is."""
    wrapper = Path(__file__).resolve().parent.parent / "bbmcheck"
    if program != wrapper or program.read_bytes()[:2] != b"#!":
        return program
    asked = subprocess.run([program, "--wrapper-program"], stdin=subprocess.DEVNULL, stdout=subprocess.PIPE,
                           check=False)
    if asked.returncode:
        sys.exit(f"run.py: {program} ended with status {asked.returncode}")
    return Path(asked.stdout.decode().removesuffix("\n"))


def cases_of_repository(with_huge: bool) -> list[Case]:
    """Returns all cases, without or with those of huge texts."""
    worked = all_cases()
    behind = [case for case in map(behind_the_line, worked) if case]
    return worked + behind + [case for case in limit_cases() if with_huge or not case.is_huge]


def chosen(options):
    folders = sorted({path.parent for folder in options.folders for path in folder.glob("**/args")})
    cases = [case_of_folder(folder) for folder in folders] if options.folders else cases_of_repository(options.huge)
    if options.all and not options.commands:
        return cases
    return [case for case in cases if is_about_texts(case) and case.words[0] in (options.commands or COMMANDS)]


def main():
    parser = argparse.ArgumentParser(usage=__doc__)
    parser.add_argument("program", type=Path)
    parser.add_argument("folders", nargs="*", type=Path)
    parser.add_argument("--commands", type=lambda names: names.split(","), default=None)
    parser.add_argument("--all", action="store_true")
    parser.add_argument("--huge", action="store_true")
    parser.add_argument("--seconds", type=int, default=120)
    parser.add_argument("--jobs", type=int, default=2)
    options = parser.parse_args()
    if not shutil.which(options.program.resolve()):
        parser.exit(2, f"run.py: {options.program} is no program that can be run\n")
    program, cases, failed = behind_wrapper(options.program.resolve()), chosen(options), 0
    with ThreadPoolExecutor(max_workers=options.jobs) as pool:
        faults = pool.map(lambda case: fault_of(program, case, options.all, options.seconds), cases)
        for case, fault in zip(cases, faults):
            if fault:
                failed += 1
                print(f"{case.name}: {fault}")
    print(f"{len(cases) - failed} held, {failed} failed")
    return 1 if failed or not cases else 0


sys.exit(main())
