"""The lab as a Python package, in an environment of its own."""

import shutil
import subprocess
import sys
from pathlib import Path

import support

PYTHON = "/usr/bin/python3"


def output(*words: str) -> str:
    """Runs a command, which must succeed, and returns what it wrote."""
    ended = subprocess.run(words, capture_output=True, text=True, check=False)
    if ended.returncode:
        raise AssertionError(f"{words} ended with {ended.returncode}: {ended.stdout}{ended.stderr}")
    return ended.stdout


class Package(support.InRoom):
    """`pip install ./lab`, without a network, and what `make install` copies."""

    def test_installed_package(self) -> None:
        """The installed `bbmlab` lists and checks its cells, writes a page, and finds a program beside itself; so does
        the package."""
        if not Path(PYTHON).exists():
            self.skipTest(f"there is no {PYTHON}")
        needs = subprocess.run([PYTHON, "-c", "import venv, ensurepip"], capture_output=True, check=False)
        if needs.returncode:
            self.skipTest("/usr/bin/python3 lacks venv (Debian: python3-venv)")
        program = support.program()
        shutil.copytree(support.LAB, self.room / "lab", ignore=shutil.ignore_patterns("tests", "__pycache__"))
        before = sorted(self.room.glob("lab/**/*"))
        output(PYTHON, "-m", "venv", str(self.room / "env"))
        output("env", "-u", "PYTHONDONTWRITEBYTECODE", str(self.room / "env" / "bin" / "pip"), "install", "--quiet",
               "--no-index", str(self.room / "lab"))
        self.assertEqual(sorted(self.room.glob("lab/**/*")), before, "the build leaves nothing next to the sources")
        self.assertIn("Only the checker `bbmcheck` gives verdicts, and it is not in this package",
                      output(str(self.room / "env" / "bin" / "python3"), "-c",
                             "from importlib.metadata import metadata; print(metadata('bbmlab').get_payload())"))
        shutil.rmtree(self.room / "lab")
        shutil.copy(program, self.room / "env" / "bin" / "bbmcheck")
        lab = str(self.room / "env" / "bin" / "bbmlab")
        self.assertIn("a at (", output(lab, "cells", "not").replace("     ", " "))
        bundle = self.room / "not.txt"
        output(lab, "cells", "not", "--bundle", "-o", str(bundle))
        self.assertIn("1 yes", output("env", "-u", "BBMCHECK", lab, "check", str(bundle)))
        output("env", "-u", "BBMCHECK", lab, "view", str(bundle), "-o", str(self.room / "page.html"))
        self.assertIn("<canvas", (self.room / "page.html").read_text())
        code = "import sys, bbmlab; print(bbmlab.check(open(sys.argv[1]).read()).verdict, bbmlab.__file__)"
        verdict, file = output("env", "-u", "BBMCHECK", "-u", "PYTHONPATH", str(self.room / "env" / "bin" / "python3"),
                               "-c", code, str(bundle)).split()
        self.assertEqual((verdict, Path(file).is_relative_to(self.room)), ("yes", True))
        self.assertEqual([self.room for self.room in ("bbmlab", "bbmlab_core")
                          if not (Path(file).parent.parent / self.room / "py.typed").exists()], [])

    def test_pipx(self) -> None:
        """pipx installs the wheel that pip builds, without a network, and the command runs."""
        needs = subprocess.run([PYTHON, "-c", "import venv, ensurepip"], capture_output=True,
                               check=False) if Path(PYTHON).exists() else None
        if not shutil.which("pipx") or not needs or needs.returncode:
            self.skipTest("there is no pipx, or /usr/bin/python3 lacks venv (Debian: pipx python3-venv)")
        shutil.copytree(support.LAB, self.room / "lab", ignore=shutil.ignore_patterns("tests", "__pycache__"))
        output(PYTHON, "-m", "pip", "wheel", "--quiet", "--no-deps", "--no-index", "-w", str(self.room / "made"),
               str(self.room / "lab"))
        shutil.rmtree(self.room / "lab")
        [wheel] = (self.room / "made").iterdir()
        places = [f"PIPX_HOME={self.room / 'pipx'}", f"PIPX_BIN_DIR={self.room / 'bin'}", f"HOME={self.room}"]
        output("env", *places, "pipx", "install", "--python", PYTHON, "--pip-args=--no-index", str(wheel))
        shutil.copy(support.program(), self.room / "bin" / "bbmcheck")
        self.assertIn("1 yes",
                      output("env", "-u", "BBMCHECK", str(self.room / "bin" / "bbmlab"), "check",
                             support.example("fredkin_gate")))

    def test_install_lab(self) -> None:
        """The command and the package run from a folder, also over an earlier installation, and nothing is left after
        the removal."""
        tool, program = str(support.TOP / "tools" / "package" / "install_files"), support.program()
        usr = self.room / "usr"
        # Where an earlier installation had the command.
        (usr / "lib" / "bbmlab").mkdir(parents=True)
        (usr / "lib" / "bbmlab" / "bbmlab").write_text("#!/bin/sh\n")
        output(tool, "install_lab", str(usr))
        shutil.copy(program, usr / "bin" / "bbmcheck")
        bundle = support.example("fredkin_gate")
        self.assertIn("1 yes", output("env", "-u", "BBMCHECK", str(usr / "bin" / "bbmlab"), "check", bundle))
        code = "import sys, bbmlab; print(bbmlab.check(open(sys.argv[1]).read()).verdict)"
        self.assertEqual(output("env", "-u", "BBMCHECK", f"PYTHONPATH={usr / 'lib' / 'bbmlab'}", sys.executable,
                                "-c", code, bundle), "yes\n")
        self.assertIn("bbmlab.1", output("find", str(usr / "share")))
        output(tool, "uninstall_lab", str(usr))
        self.assertEqual([path for path in usr.rglob("*") if not path.is_dir() and path.name != "bbmcheck"], [])
