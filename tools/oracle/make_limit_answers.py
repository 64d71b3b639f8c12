#!/usr/bin/env python3
"""make_limit_answers.py [LIMIT..] [--without-huge] > conformance/data/limits.json

Writes what each command must answer to the texts of conformance/limit_texts.py, by the plain Python programs: the exit
status, and the output, or its SHA-256 if it is long. First it compares each answer with the table of limits: a text is
refused with code 2, or for a text that is too long ends with status 4, if and only if its value is over the limit. With
names of limits, it writes those alone. The huge texts take some minutes and 6 GB. --without-huge takes their answers
from the file that is there.
"""
import argparse
import hashlib
import json
import sys
from pathlib import Path

HERE = Path(__file__).resolve().parent
TOP = HERE.parent.parent
sys.dont_write_bytecode = True
sys.path[:0] = [str(HERE), str(TOP / "conformance")]
import reference  # noqa: E402
from limit_texts import LIMITS, Limit, text_of  # noqa: E402
from reference_reports import answer_to  # noqa: E402

ANSWERS = TOP / "conformance" / "data" / "limits.json"
# A longer output is told by its digest.
MOST_OUTPUT = 200
TOO_LONG = (4, b"")
Answer = tuple[int, bytes]


def answer(command: str, text: bytes) -> Answer:
    """Returns the exit status and the output for a text."""
    return TOO_LONG if len(text) > reference.limits_of(text).text_bytes else answer_to(command, text)


# The code with which a text is refused whose value is within the limit, or None, and that of a text over it.
CODES = {"mirror_beyond": (7, 2), "stop_time": (None, 10), "edge_time": (None, 10), "gate_beyond": (3, 2),
         "name_length": (None, 1),
         "digits": (7, 1), "one_line": (1, None), "nearly_front": (1, None), "text_bytes": (None, None),
         "wire_twice": (4, 2), "gate_of_unknown": (3, 2),
         "module_over_another": (8, 2), "module_without_a_wire": (11, 2)}


def is_as_limited(limit: Limit, number: int, has_front: bool, found: Answer) -> bool:
    """Returns whether an answer is one of those that the table of limits allows."""
    status, output = found
    is_over = number > (limit.second if has_front else limit.first)
    if limit.huge and is_over:
        return found == TOO_LONG
    code = CODES.get(limit.name, (None, 2))[is_over]
    return status in (0, 1) if code is None else status == 3 and output.endswith(b" %d\n" % code)


def record(found: Answer) -> list[object]:
    """Returns an answer as it is kept."""
    status, output = found
    return [status, output.decode() if len(output) <= MOST_OUTPUT else {"sha256": hashlib.sha256(output).hexdigest()}]


def answers_of(limit: Limit) -> dict[str, list[object]]:
    """Returns the answers to all texts of a limit, by the words of a case's name."""
    found = {}
    for has_front in (False, True):
        for number in limit.values():
            text = text_of(limit, number, has_front)
            for command in limit.commands:
                name = f"{limit.name} {number} {'front' if has_front else 'plain'} {command}"
                given = answer(command, text)
                if not is_as_limited(limit, number, has_front, given):
                    sys.exit(f"{name}: {given[0]} {given[1][:300]!r}")
                print(f"{name}: {given[0]} {given[1][:60]!r}", file=sys.stderr, flush=True)
                found[name] = record(given)
    return found


def main() -> None:
    """Writes the answers."""
    parser = argparse.ArgumentParser(usage=__doc__)
    parser.add_argument("limits", nargs="*")
    parser.add_argument("--without-huge", action="store_true")
    given = parser.parse_args()
    kept = json.loads(ANSWERS.read_text()) if given.without_huge and ANSWERS.exists() else {}
    found: dict[str, list[object]] = {}
    for limit in LIMITS:
        if given.limits and limit.name not in given.limits:
            continue
        if limit.huge and given.without_huge:
            found |= {name: value for name, value in kept.items() if name.split(" ")[0] == limit.name}
        else:
            found |= answers_of(limit)
    lines = ",\n".join(f"{json.dumps(name)}: {json.dumps(value)}" for name, value in found.items())
    print(f"{{\n{lines}\n}}")


if __name__ == "__main__":
    main()
