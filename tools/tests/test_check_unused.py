"""Tests of tools/sources/check_unused: it notices what nothing uses, and what is proved twice, in a small tree."""
import subprocess
import sys

from planted import TOP, InRoom

LIB, BELOW, ABOVE, NAMES = "one/src/lib.rt", "one/proofs/Below.antt", "two/proofs/Above.antt", "two/proofs/Imports.antt"
NEXT = "next' : (k : ℕ) → k + 1 ≡ k + 1\nnext' k = refl"
TREE = {
    LIB: """ghost use Rattle.std.specs.Prelude.{◌≡◌, ◌+◌};
use std::marker::Model;

#[tactic(auto, using(crate::proofs::Below::same))]
fn twice(n: u32) -> u32
    ensures { result ≡ n + n }
{
    n + n
}

pub fn four_times(n: u32, model: &Model) -> u32 {
    twice(twice(n))
}
""",
    BELOW: """use Rattle.std.proofs.Common.{ℕ, ◌≡◌, refl}

pub same : (n : ℕ) → n ≡ n
same n = refl
""",
    NAMES: """pub use Rattle.std.proofs.Common.{ℕ, ◌+◌, ◌≡◌, refl}
""",
    ABOVE: """-- A comment that names unused, next and sym.
use Rattle.two.proofs.Imports.{ℕ, ◌+◌, ◌≡◌, refl}

next : (n : ℕ) → n + 1 ≡ n + 1
next n = refl

pub again : (n : ℕ) → n + 1 ≡ n + 1 → n + 1 ≡ n + 1
again n e = next n
""",
    "two/src/lib.rt": """#[tactic(auto, using(crate::proofs::Above::again))]
pub fn none() {}
""",
}


class CheckUnused(InRoom):
    """The tool on a tree of two crates."""

    def setUp(self) -> None:
        super().setUp()
        for path, text in TREE.items():
            file = self.top / "crates" / path
            file.parent.mkdir(parents=True, exist_ok=True)
            file.write_text(text)

    def said(self) -> list[str]:
        """Returns what the tool finds in the tree."""
        ended = subprocess.run([sys.executable, TOP / "tools" / "sources" / "check_unused", self.top],
                               capture_output=True, text=True, check=False)
        *found, last = ended.stdout.splitlines()
        self.assertEqual((ended.returncode, ended.stderr, last),
                         (1 if found else 0, "", f"{len(TREE)} files, {len(found)} findings"))
        return found

    def plant(self, path: str, old: str, new: str) -> None:
        """Exchanges a text that a file of the tree contains once."""
        file = self.top / "crates" / path
        self.assertEqual(file.read_text().count(old), 1)
        file.write_text(file.read_text().replace(old, new))

    def test_nothing_planted(self) -> None:
        self.assertEqual(self.said(), [])

    def test_import_that_only_a_comment_names(self) -> None:
        self.plant(BELOW, "ℕ, ◌≡◌, refl", "ℕ, ◌≡◌, refl, sym")
        self.plant(BELOW, "pub same :", "-- sym\npub same :")
        self.assertEqual(self.said(), [f"{BELOW}: nothing uses the import of sym"])

    def test_operator_that_no_clause_has(self) -> None:
        self.plant(LIB, "◌≡◌, ◌+◌", "◌≡◌, ◌+◌, ◌≤◌")
        self.assertEqual(self.said(), [f"{LIB}: nothing uses the import of ◌≤◌"])

    def test_import_by_another_name(self) -> None:
        self.plant(LIB, "std::marker::Model;", "std::marker::Model as View;")
        self.assertEqual(self.said(), [f"{LIB}: nothing uses the import of View"])

    def test_export_that_nobody_takes(self) -> None:
        self.plant(NAMES, "refl}", "refl, suc}")
        self.assertEqual(self.said(), [f"{NAMES}: no file takes suc"])

    def test_lemma_and_function_without_user(self) -> None:
        self.plant(ABOVE, "again n e = next n", "again n e = e")
        self.plant(LIB, "twice(twice(n))", "n")
        self.assertEqual(self.said(), [f"{LIB}: nothing uses twice", f"{ABOVE}: nothing uses next"])

    def test_definition_without_user(self) -> None:
        self.plant(BELOW, "pub same :", "abbrev pub one : ℕ\none = 1\n\npub same :")
        self.assertEqual(self.said(), [f"{BELOW}: nothing uses one"])

    def test_statement_under_other_names(self) -> None:
        self.plant(BELOW, "refl}", "◌+◌, refl}")
        self.plant(BELOW, "same n = refl", f"same n = (next' n).0\n\n{NEXT}")
        self.assertEqual(self.said(), [f"{BELOW} next': stated again as {ABOVE} next"])

    def test_same_words_of_other_modules(self) -> None:
        self.plant(BELOW, "Common.{ℕ, ◌≡◌, refl}", "Common.{◌≡◌, refl}\nuse Rattle.one.specs.Other.{ℕ, ◌+◌}")
        self.plant(BELOW, "same n = refl", f"same n = (next' n).0\n\n{NEXT}")
        self.assertEqual(self.said(), [])
