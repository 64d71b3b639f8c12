#!/usr/bin/env python3
"""make_routed.py NAME [--kept FOLDER] [--program PATH] > bundle, or make_routed.py --list

Writes a bundle that `bbmlab route` makes of a circuit of random_circuits.py, with a fixed seed. Bundles of 16 gates or
more take minutes to hours: with --kept a bundle that is in FOLDER as NAME.txt is taken from there, and one that is made
is kept there. Another version of the lab may make another bundle. PATH is the program that the lab asks.
"""
import argparse
import subprocess
import sys
import tempfile
from dataclasses import dataclass
from pathlib import Path

HERE = Path(__file__).resolve().parent
sys.dont_write_bytecode = True
sys.path.insert(0, str(HERE))
from random_circuits import made_circuit  # noqa: E402


@dataclass(frozen=True)
class Routed:
    """A circuit by its kind and size, and how many seconds the search may take."""

    kind: str
    gates: int
    inputs: int
    effort: int

    def circuit(self) -> str:
        """Returns the circuit."""
        return str(made_circuit(self.kind, self.gates, self.inputs, 1))


# From ten gates to an adder of 16 bits, 160 gates with their sources.
BUNDLES = {
    "any10": Routed("any", 10, 6, 600), "fred10": Routed("fredkin", 10, 6, 600), "wide48": Routed("wide", 48, 64, 600),
    "mult2": Routed("multiply", 2, 0, 600), "inv40": Routed("inverse", 40, 10, 600),
    "adder8": Routed("ripple", 8, 0, 3600),
    "adder16": Routed("ripple", 16, 0, 7200),
}


def routed(bundle: Routed, program: str | None) -> bytes:
    """Places and routes the circuit, and returns the bundle."""
    with tempfile.TemporaryDirectory() as room:
        circuit, made = Path(room) / "circuit.txt", Path(room) / "bundle.txt"
        circuit.write_text(bundle.circuit())
        route = [sys.executable, str(HERE.parent / "lab" / "bbmlab"), "route"]
        words = [*route, str(circuit), "-o", str(made), "--seed", "1", "--effort", str(bundle.effort)]
        subprocess.run([*words, *(["--program", program] if program else [])], check=True)
        return made.read_bytes()


def kept(name: str, folder: Path | None, program: str | None) -> bytes:
    """Returns a bundle, from the folder if it is there."""
    path = folder / f"{name}.txt" if folder else None
    if path and path.exists():
        return path.read_bytes()
    text = routed(BUNDLES[name], program)
    if path:
        path.parent.mkdir(parents=True, exist_ok=True)
        path.write_bytes(text)
    return text


def main() -> None:
    """Writes the bundle that is asked for."""
    parser = argparse.ArgumentParser(usage=__doc__)
    parser.add_argument("name", nargs="?", choices=BUNDLES)
    parser.add_argument("--kept", type=Path)
    parser.add_argument("--program")
    parser.add_argument("--list", action="store_true")
    given = parser.parse_args()
    if given.list:
        print("\n".join(BUNDLES))
    elif given.name:
        sys.stdout.buffer.write(kept(given.name, given.kept, given.program))
    else:
        parser.exit(2, __doc__)


if __name__ == "__main__":
    main()
