"""What the tests of the operations share: the checkout, the program under test, and how a test is skipped or fails."""
import os
import shutil
import subprocess
from pathlib import Path

TOP = Path(__file__).resolve().parent.parent.parent.parent
RELEASED = "release/x86_64-linux-gnu/bbmcheck"
MANIFEST = "release/x86_64-linux-gnu/MANIFEST"
# The program for x86-64-v3 processors, and its MANIFEST.
FAST, FAST_MANIFEST = "release/x86_64-v3-linux-gnu/bbmcheck", "release/x86_64-v3-linux-gnu/MANIFEST"


class Given:
    """What try_operations was given: the seed, and the program for devices and limits."""

    seed = 0
    program = ""


class Skipped(Exception):
    """What a test needs is not there."""


def need(*tools):
    for tool in tools:
        if not shutil.which(tool):
            raise Skipped(f"there is no {tool}")


def same(found, wanted, what=""):
    if found != wanted:
        raise AssertionError(f"{what}: {found!r}, and not {wanted!r}")


def holds(fact, what):
    if not fact:
        raise AssertionError(what)


def ran(*command, **more):
    """Runs a command, and returns how it ended and what it wrote."""
    return subprocess.run(command, **{"capture_output": True, "text": True, **more})


def path_without(room, *missing):
    """A folder with links to every tool of PATH but these."""
    folder = Path(room) / ("without_" + "_".join(missing))
    folder.mkdir()
    for part in os.environ["PATH"].split(":"):
        for name in os.listdir(part) if os.path.isdir(part) else ():
            if name not in missing and name != "rt" and not os.path.lexists(folder / name):
                (folder / name).symlink_to(os.path.join(part, name))
    return str(folder)


def copy_of_checkout(room, name="copy"):
    """A copy of this checkout without what rt made."""
    top = Path(room) / name
    shutil.copytree(TOP, top, symlinks=True, ignore=shutil.ignore_patterns("out", "dist", ".git", "__pycache__"))
    return top


def in_namespace(command, environment, **more):
    """Runs a command in a mount namespace, or skips the test."""
    need("unshare")
    start = ["unshare", "-m"] if os.geteuid() == 0 else ["unshare", "-r", "-m"]
    if subprocess.run([*start, "mount", "-t", "tmpfs", "none", "/mnt"], capture_output=True).returncode:
        raise Skipped("no mount namespace can be made here")
    return subprocess.run([*start, *command], env=environment, stdin=subprocess.DEVNULL, capture_output=True, text=True,
                          **more)


def text_of(name):
    return (TOP / "examples" / f"{name}.txt").read_bytes()
