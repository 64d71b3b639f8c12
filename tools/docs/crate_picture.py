#!/usr/bin/env python3
"""tools/docs/crate_picture.py [--check PAGE]: the pictures of the crates and of the lab's packages in
docs/ARCHITECTURE.md, as Mermaid blocks, from crates.txt and lab/packages.txt.

An arrow goes from a crate to one that it uses, without those that follow from others. Arrows of crates that the program
does not use, those of tests, are dotted. Crates of the kit are left out. With --check the status is 1 if the page has
other blocks.
"""
import argparse
import sys
from pathlib import Path

TOP = Path(__file__).resolve().parent.parent.parent


def layers(path):
    """For each crate or package of a list, in its order, those that it stands on."""
    below = {}
    for line in path.read_text().splitlines():
        names, found, others = line.partition(":")
        if found and not line.startswith("#"):
            below[names.split(" ")[0]] = others.split()
    return {name: [other for other in others if other in below] for name, others in below.items()}


def reached(below, name):
    """All crates that this one stands on."""
    return set(below[name]).union(*(reached(below, other) for other in below[name]))


def picture(below, top):
    """The lines of the picture. `top` is what stands on all that is needed."""
    needed = {top} | reached(below, top)
    yield "```mermaid"
    yield "flowchart TD"
    for name, others in reversed(below.items()):
        through = set().union(*(reached(below, other) for other in others))
        direct = [other for other in others if other not in through]
        if direct:
            yield f"    {name} {'-->' if name in needed else '-.->'} {' & '.join(direct)}"
    yield "```"


def main():
    parser = argparse.ArgumentParser(usage=__doc__)
    parser.add_argument("--check", type=Path, metavar="PAGE")
    page = parser.parse_args().check
    for place, top in ((TOP / "crates.txt", "bbmcheck"), (TOP / "lab" / "packages.txt", "cli")):
        block = "\n".join(picture(layers(place), top)) + "\n"
        if page is None:
            print(block, end="")
        elif block not in page.read_text():
            sys.exit(f"{page}: the picture of {place.name} is not that of tools/docs/crate_picture.py")


if __name__ == "__main__":
    main()
