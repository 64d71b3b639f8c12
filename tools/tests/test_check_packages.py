"""Tests of tools/sources/check_packages: it notices each import against lab/packages.txt."""
import shutil
import subprocess
import sys

from planted import TOP, InRoom

LIMITS = "bbmlab_core/texts/limits.py"


class CheckPackages(InRoom):
    """The tool on a copy of the lab's modules."""

    def setUp(self) -> None:
        super().setUp()
        self.lab = self.top
        shutil.copytree(TOP / "lab" / "bbmlab_core", self.lab / "bbmlab_core",
                        ignore=shutil.ignore_patterns("__pycache__"))
        shutil.copy(TOP / "lab" / "packages.txt", self.lab)

    def said(self) -> list[str]:
        """Returns what the tool says of the copy."""
        ended = subprocess.run([sys.executable, TOP / "tools" / "sources" / "check_packages", self.lab],
                               capture_output=True, text=True, check=False)
        found = ended.stdout.splitlines()
        self.assertEqual((ended.returncode, ended.stderr), (1 if found else 0, ""))
        return found

    def add(self, path: str, text: str) -> None:
        """Adds a line to a file of the copy."""
        with open(self.lab / path, "a", encoding="utf-8") as file:
            file.write(f"{text}\n")

    def test_nothing_planted(self) -> None:
        self.assertEqual(self.said(), [])

    def test_import_from_above(self) -> None:
        line = len((self.lab / LIMITS).read_text().splitlines()) + 1
        for words in ("from ..physics.simulation import WholeRun", "from bbmlab_core.physics import simulation",
                      "from .. import physics",
                      "import bbmlab_core.physics.simulation", "def late(): from ..physics import simulation"):
            with self.subTest(words=words):
                old = (self.lab / LIMITS).read_text()
                self.add(LIMITS, words)
                self.assertEqual(self.said(), [f"{LIMITS}:{line}: texts may not import physics"])
                (self.lab / LIMITS).write_text(old)

    def test_package_that_is_not_listed(self) -> None:
        (self.lab / "bbmlab_core" / "attic").mkdir()
        self.add("bbmlab_core/attic/old.py", "from ..texts import limits")
        self.assertEqual(self.said(), ["bbmlab_core/attic/old.py: lab/packages.txt does not list attic"])

    def test_import_that_nobody_needs(self) -> None:
        text = (self.lab / "packages.txt").read_text()
        (self.lab / "packages.txt").write_text(text.replace("route: host texts circuits",
                                                            "route: host texts physics circuits"))
        self.assertEqual(self.said(), ["packages.txt: no module of route imports physics"])

    def test_circle(self) -> None:
        text = (self.lab / "packages.txt").read_text()
        (self.lab / "packages.txt").write_text(text.replace("texts: host", "texts: host physics"))
        self.add(LIMITS, "from ..physics import simulation")
        self.assertEqual(self.said(), ["packages.txt: texts is above physics in the list"])
