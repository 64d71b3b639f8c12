#!/usr/bin/env python3
"""make_front_cases.py > crates/run_cases/data/front_line.txt

Writes small cases of every command about the line `limits 2`, in the form that crates/case_text/src/lib.rt describes:
the line in front, lines that are nearly it, the line at every other place, and texts that end in it. The plain Python
programs answer. Two rules of docs/FORMATS.md decide many of the answers, and are compared with them: a text behind the
line has the answer that it has alone, one line further, and a text that begins with another line of this kind is
refused with code 1 at line 1.
"""
import sys
from collections.abc import Iterator
from pathlib import Path

sys.dont_write_bytecode = True
sys.path.insert(0, str(Path(__file__).resolve().parent))
from make_cases import answered_case  # noqa: E402
from reference import FRONT_LINE  # noqa: E402
from reference_reports import answer_to as answer  # noqa: E402

HEAD = ("# The line `limits 2` and lines that are nearly it, in the form of cases.txt. "
        "tools/oracle/make_front_cases.py writes this file.\n")
CIRCUIT = b"circuit\ninput a\ninput b\nswitch a b -> c d e\noutput c\nspill d\nspill e\nend\n"
ASSIGN = b"assign\non a\nend\n"
LAYOUT = b"layout 16 8 3\nmirror 3 2 2 2\nball 4 4\nin a 8 2\nin b 12 2\nout c 11 5\nwaste 7 7\nwaste 15 5\nend\n"
CERTIFICATE = (b"certificate 1\nmodule 0 0 4 8\nedge * 3 2 1\nedge * 3 3 1\nhalo * 4 2 1\nhalo * 4 3 1\nmodule 4 0 12 "
               b"8\ncut a\ncut b\nuse 0\n"
               b"edge * 4 2 1\nedge * 4 3 1\nhalo * 3 2 1\nhalo * 3 3 1\nstop 0 a 8 2\nend\n")
BUNDLE = CIRCUIT + LAYOUT + CERTIFICATE
TEXTS = {"value": CIRCUIT + ASSIGN, "run": LAYOUT + ASSIGN, "check": BUNDLE, "modules": BUNDLE, "migrate": BUNDLE}
# Lines that are not `limits 2`.
NEARLY = {
    "of_0": b"limits 0", "of_1": b"limits 1", "of_3": b"limits 3", "of_02": b"limits 02", "of_20": b"limits 20",
    "of_22": b"limits 22",
    "of_a_large_number": b"limits 4294967298", "of_plus_2": b"limits +2", "of_minus_2": b"limits -2",
    "of_a_word": b"limits two",
    "of_two_numbers": b"limits 2 2", "with_a_word": b"limits 2 check", "with_two_spaces": b"limits  2",
    "with_a_space_before": b" limits 2",
    "with_a_space_behind": b"limits 2 ", "with_a_tab": b"limits\t2", "with_a_tab_behind": b"limits 2\t",
    "with_a_return": b"limits 2\r",
    "with_a_letter_behind": b"limits 2x", "with_a_point": b"limits 2.", "with_no_number": b"limits",
    "with_a_space_alone": b"limits ",
    "without_a_space": b"limits2", "of_one_limit": b"limit 2", "in_capitals": b"LIMITS 2",
    "with_a_capital": b"Limits 2",
    "with_a_zero_byte": b"limits 2\0", "with_a_byte_order_mark": b"\xef\xbb\xbflimits 2",
    "with_another_digit": "limits ２".encode(),
}


def one_further(command: str, found: tuple[int, bytes]) -> tuple[int, bytes]:
    """Returns the answer that a text has behind one more line, from the one that it has alone."""
    status, output = found
    if status == 3:
        _, line, code = output.split(b" ")
        return status, b"refused %d %s" % (int(line) + 1, code)
    return status, FRONT_LINE + output if command == "migrate" else output


def texts_in_front(command: str, text: bytes) -> Iterator[tuple[str, bytes]]:
    """Yields texts that begin with the line, each with the rest of its case's name."""
    lines = text.splitlines(keepends=True)
    for count in range(len(lines), -1, -1):
        yield f"of_{count}_lines", b"".join(lines[:count])
    for at in range(1, len(lines), 3):
        yield f"with_a_wrong_line_{at}", b"".join([*lines[:at], b"x\n", *lines[at:]])
    yield "without_the_last_line_feed", text[:-1]
    yield "with_a_line_behind", text + b"end\n"


def cases_of(command: str, text: bytes) -> Iterator[tuple[str, bytes]]:
    """Yields the cases of a command: the rest of the name, and the text."""
    for name, behind in texts_in_front(command, text):
        if answer(command, FRONT_LINE + behind) != one_further(command, answer(command, behind)):
            sys.exit(f"{command} {name}: the line changes the answer")
        yield f"front_{name}", FRONT_LINE + behind
    for name, line in NEARLY.items():
        if answer(command, line + b"\n" + text) != (3, b"refused 1 1\n"):
            sys.exit(f"{command} {name}: a wrong line is accepted")
        yield f"front_{name}", line + b"\n" + text
        yield f"front_again_{name}", FRONT_LINE + line + b"\n" + text
    lines = text.splitlines(keepends=True)
    for at in range(1, len(lines) + 1):
        yield f"front_behind_line_{at}", b"".join([*lines[:at], FRONT_LINE, *lines[at:]])
    yield "front_twice", FRONT_LINE + FRONT_LINE + text
    yield "front_thrice", 3 * FRONT_LINE + text
    yield "front_behind_an_empty_line", b"\n" + FRONT_LINE + text
    for count in range(1, len(FRONT_LINE)):
        yield f"front_of_{count}_bytes", FRONT_LINE[:count]
    yield "front_with_returns", (FRONT_LINE + text).replace(b"\n", b"\r\n")


def main() -> None:
    """Writes the cases."""
    out = sys.stdout.buffer
    out.write(HEAD.encode())
    for command, text in TEXTS.items():
        # three commands read a bundle alike
        for name, given in list(cases_of(command, text))[::4 if command in ("modules", "migrate") else 1]:
            out.write(answered_case(f"{name}_{command}", command, given, *answer(command, given)))


if __name__ == "__main__":
    main()
