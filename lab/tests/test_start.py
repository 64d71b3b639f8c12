"""What a start of the lab imports, and that it says the same however it starts."""

import os
import subprocess
import sys

import support

# What a start must not import: each takes longer than the lab may.
HEAVY = {"dataclasses", "inspect", "json", "multiprocessing", "pathlib", "subprocess", "typing"}


class Start(support.InRoom):
    """`bbmlab --help` and its kin."""

    def test_late_imports(self) -> None:
        """`--help` imports none of the modules that make a start slow, beyond those that Python itself imports."""
        code = ("import sys; before = set(sys.modules); sys.path.insert(0, sys.argv[1]); from bbmlab_core.cli import "
                "parsers_for; "
                "parsers_for(['--help'])[0].format_help(); print(*sorted(set(sys.modules) - before))")
        ended = subprocess.run([sys.executable, "-S", "-c", code, str(support.LAB)], capture_output=True, text=True,
                               check=True)
        self.assertEqual(HEAVY & set(ended.stdout.split()), set())

    def test_list_has_all_commands(self) -> None:
        """`--help` lists each command, and each of them has a help of its own that names its arguments."""
        listed = support.lab("--help").stdout
        for name in ("check", "explain", "trace", "draw", "view", "studio", "certify", "route", "cells", "fmt", "json",
                     "golly", "from-golly"):
            with self.subTest(name=name):
                self.assertRegex(listed, rf"(?m)^    {name}\s+\w")
                own = support.lab(name, "--help")
                self.assertEqual((own.returncode, own.stdout.split()[:3]), (0, ["usage:", "bbmlab", name]))
                self.assertIn("Example: bbmlab", own.stdout)

    def test_compiled_modules(self) -> None:
        """Compiled modules are kept in the user's cache, and nothing of them next to the sources.

        Another user's cache is not used.
        """
        for is_own in (True, False):
            cache = self.room / str(is_own)
            cache.mkdir()
            if not is_own:
                if os.getuid():
                    continue
                os.chown(cache, 12345, 12345)
            self.assert_ends(0, "cells", XDG_CACHE_HOME=str(cache), PYTHONDONTWRITEBYTECODE="")
            self.assertEqual(any(path.name.startswith("standard_cells.") for path in cache.rglob("*.pyc")), is_own)
        self.assertEqual(list(support.LAB.rglob("*.pyc")), [])

    def test_wrong_command(self) -> None:
        """A command that there is not is refused with the list of those that there are."""
        ended = self.assert_ends(2, "shake", "file", err="invalid choice: 'shake'")
        self.assertIn("'from-golly'", ended.stderr)
