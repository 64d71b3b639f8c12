#!/usr/bin/env python3
"""conformance/unpack.py FOLDER [--largest BYTES] [--all]

Writes the worked cases into FOLDER, which is made, a folder for each: args, stdin, status, stdout, and stderr if a case
gives it. --largest leaves out cases with more bytes of standard input; left out, it is 200000. --all also writes the
cases that are about the words of a command and no text.
"""
import argparse
import sys
from pathlib import Path

sys.dont_write_bytecode = True
sys.path.insert(0, str(Path(__file__).resolve().parent))
from cases import all_cases, is_about_texts, limit_cases, write_folder  # noqa: E402


def main() -> None:
    parser = argparse.ArgumentParser(usage=__doc__)
    parser.add_argument("folder", type=Path)
    parser.add_argument("--largest", type=int, default=200000)
    parser.add_argument("--all", action="store_true")
    options = parser.parse_args()
    limits = [case for case in limit_cases() if not case.is_huge]
    cases = [case for case in all_cases() + limits if options.all or is_about_texts(case)]
    small = [case for case in cases if len(case.input) <= options.largest]
    for case in small:
        write_folder(case, options.folder / case.name)
    print(f"{len(small)} cases, {len(cases) - len(small)} left out")


main()
