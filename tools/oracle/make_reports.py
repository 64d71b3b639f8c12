#!/usr/bin/env python3
"""make_reports.py COUNT DENSE SECOND SEED > crates/run_cases/data/reports.txt

Writes cases of `check`, in the form that crates/case_text/src/lib.rt describes: COUNT bundles of
mostly_right_bundle.py, then DENSE ones with many balls and SECOND ones in version 2, each with the report of
reference_reports.py. The repository's file is made with `100 25 25 1`.
"""
import argparse
import random
import sys
from pathlib import Path

sys.dont_write_bytecode = True
sys.path.insert(0, str(Path(__file__).resolve().parent))
from make_cases import answered_case  # noqa: E402
from mostly_right_bundle import mostly_right_bundle  # noqa: E402
from random_bundle import second_version  # noqa: E402
from reference_reports import answer  # noqa: E402

HEAD = ("# Random bundles, in the form of cases.txt, and their reports by a slow program. "
        "tools/oracle/make_reports.py writes this file.\n")
SORTS = ["verdict yes", " edge ", " end ", "border ", "\nkeep ", "\nunkept "]


def main():
    reader = argparse.ArgumentParser(usage=__doc__)
    for name in ("count", "dense", "second", "seed"):
        reader.add_argument(name, type=int)
    given = reader.parse_args()
    count, dense, second, seed = given.count, given.dense, given.second, given.seed
    rng, reports = random.Random(seed), []
    sys.stdout.buffer.write(HEAD.encode())
    for number in range(count + dense + second):
        text = mostly_right_bundle(rng, is_dense=count <= number < count + dense)
        if number >= count + dense:
            text = second_version(text)
        status, report = answer(text)
        reports.append(report.decode())
        sys.stdout.buffer.write(answered_case(f"random_{number}", "check", text, status, report))
    missing = [sort for sort in SORTS if not any(sort in report for report in reports)]
    if missing:
        sys.exit(f"no report has {missing}")


main()
