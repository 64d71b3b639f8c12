"""The proved program of this checkout: the one that ./bbmcheck runs, which it proves and builds first if need be."""
import argparse
import subprocess
from pathlib import Path

TOP = Path(__file__).resolve().parent.parent.parent


def program():
    told = subprocess.run([TOP / "bbmcheck", "--wrapper-program"], stdin=subprocess.DEVNULL, stdout=subprocess.PIPE,
                          check=True)
    return told.stdout.decode()[:-1]


def fuzz_options(usage, runs, seed=1, commands=()):
    """How many texts are tried, the seed, a program in place of the proved one, and which of some commands are tried.
    """
    parser = argparse.ArgumentParser(usage=usage)
    parser.add_argument("runs", nargs="?", type=int, default=runs)
    parser.add_argument("seed", nargs="?", type=int, default=seed)
    parser.add_argument("--program")
    if commands:
        parser.add_argument("--commands", type=lambda names: names.split(","), default=list(commands))
    options = parser.parse_args()
    options.program = options.program or program()
    return options
