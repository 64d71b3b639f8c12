"""Measures `explain --fix` on faulty texts: how many get a yes in at most two rounds, by the family of the mutation.

    python3 lab/tests/measure_fixes.py [COUNT [SEED]]
"""

import sys
import time

import support
from bbmlab_core.explain.fixing import Fixer
from bbmlab_core.explain.trials import TrialBudget, TrialRunner, is_yes
from mutations import FAMILIES, mutants

MAX_BYTES = 12_000
ROUNDS = 2


def right_texts(most: int = MAX_BYTES) -> dict[str, str]:
    """Returns the small right bundles of the repository: examples, standard cells, and large worked bundles."""
    program = support.program()
    files = [*support.EXAMPLES.glob("*.txt"), *(support.LAB / "cells").glob("*.txt"),
             *(support.TOP / "conformance" / "data").glob("cascade*.txt")]
    texts = {path.stem: path.read_text() for path in sorted(files) if path.stat().st_size <= most
             or "cascade" in path.stem and most >= MAX_BYTES}
    return {name: text for name, text in texts.items() if is_yes(TrialRunner(program).try_text(text))}


def rounds_to_yes(text: str, program: str) -> tuple[int | None, list[str]]:
    """Returns after how many rounds a text gets a yes, or None, and the fixes of these rounds that led to a refusal."""
    refused = []
    for number in range(1, ROUNDS + 1):
        trial = TrialRunner(program, TrialBudget(600, 30))
        report = trial.try_text(text)
        assert report
        fix = Fixer(text, report, trial).find_fix()
        if fix is None:
            return None, refused
        if fix.report.refused:
            refused.append(" ".join(fix.words))
        text = fix.text
        if is_yes(TrialRunner(program).try_text(text)):
            return number, refused
    return None, refused


def main() -> int:
    """Prints a line for each family, and each text that was not fixed."""
    count, seed = (int(word) for word in [*sys.argv[1:], "30",
                                          "1"][:2]) if len(sys.argv) < 3 else map(int, sys.argv[1:3])
    program, texts = support.program(), right_texts()
    fixed = total = 0
    for family in FAMILIES:
        started, good, made, rounds = time.monotonic(), 0, 0, {1: 0, 2: 0}
        for name, text in mutants(family, texts, count, seed, lambda text: is_yes(TrialRunner(program).try_text(text))):
            begun = time.monotonic()
            number, refused = rounds_to_yes(text, program)
            made += 1
            good += number is not None
            if number:
                rounds[number] += 1
            for words in refused:
                print(f"  refused after a fix: {name}: {words}")
            if number is None:
                old, new = texts[name].split("\n"), text.split("\n")
                print(f"  not fixed: {name}: {sorted(set(old) - set(new))} -> {sorted(set(new) - set(old))} in "
                      f"{time.monotonic() - begun:.1f} s")
        fixed, total = fixed + good, total + made
        print(f"{family}: {good} of {made} fixed, {rounds[1]} in one round; {time.monotonic() - started:.0f} s",
              flush=True)
    print(f"in all: {fixed} of {total}, {100 * fixed / max(1, total):.1f} percent")
    return 0


if __name__ == "__main__":
    sys.exit(main())
