"""Tests of tools/gate/compare_contracts: each planted change makes a statement say less, and the words of its clauses
stay as they were.
"""
import subprocess

import planted


class CompareContracts(planted.Planted):
    def setUp(self) -> None:
        super().setUp()
        self.git("init", "-q")
        self.git("add", "-A")
        self.git("-c", "user.name=t", "-c", "user.email=t@t", "commit", "-qm", "before")

    def git(self, *words: str) -> None:
        """Runs git in the copy."""
        subprocess.run(["git", *words], cwd=self.top, check=True, capture_output=True)

    def compare(self, *words: str) -> tuple[int, str]:
        """Returns the status and the output of the tool."""
        ended = self.run_tool("tools/gate/compare_contracts", "HEAD", *words)
        self.assertEqual(ended.stderr, "")
        return ended.returncode, ended.stdout

    def assert_listed(self, *parts: str) -> None:
        """The tool ends with 1, and its list contains some texts."""
        status, said = self.compare()
        self.assertEqual(status, 1, said)
        for part in parts:
            self.assertIn(part, said)

    def test_nothing_planted(self) -> None:
        self.assertEqual(self.compare()[0], 0)

    def test_names_bound_to_other_files(self) -> None:
        self.change("crates/circuit/specs/Meaning.antt",
                    "use Rattle.circuit.specs.Gates.{row, uses, defines, is_inverse}",
                    "use Rattle.circuit.specs.Gates.{uses, defines, is_inverse}\nuse Rattle.circuit.specs.Rows.{row}")
        self.change("crates/check_main/src/bundle.rt", "ghost use Rattle.headline.specs.RightInFull.{IsRightInFull};",
                    "ghost use Rattle.headline.specs.Weaker.{IsRightInFull};")
        self.assert_listed("the name row is now Rattle.circuit.specs.Rows.row, and was Rattle.circuit.specs.Gates.row",
                           "the name IsRightInFull is now Rattle.headline.specs.Weaker.IsRightInFull")

    def test_ghost_field_that_is_gone(self) -> None:
        self.change("crates/local_run/src/finding.rt", "    pub ghost honest: { IsLeastFault (arc_value job) fault }"
                    " by { IsLeastFault-prop (arc_value job) fault },\n", "")
        self.assert_listed("the type or constant Finding", "was: pub struct Finding", "ghost honest:")

    def test_ghost_item_that_is_always_false(self) -> None:
        path = "crates/streams/src/over.rt"
        text = (self.top / path).read_text()
        (self.top / path).write_text(text.replace("ghost has_failed = { λ s. failed_of s };",
                                                  "ghost has_failed = { λ s. false };"))
        self.assert_listed("the ghost item has_failed of", "now: ghost has_failed = { λ s. false }")

    def test_kind_of_gate_that_is_new(self) -> None:
        self.change("crates/circuit/src/circuit_line.rt", "    Unswitch,\n    Uninteract,\n}",
                    "    Unswitch,\n    Uninteract,\n    Anything,\n}")
        self.assert_listed("the type or constant GateKind", "Anything")

    def test_text_in_a_clause(self) -> None:
        path = self.top / "crates/certificate/src/printing.rt"
        text = path.read_text()
        self.assertIn('line_text (codes "certificate")', text)
        path.write_text(text.replace('line_text (codes "certificate")', 'line_text (codes "Certificate")'))
        self.assert_listed('codes "certificate"', 'codes "Certificate"')

    def test_renames_are_shown_apart(self) -> None:
        for path in (self.top / "crates").rglob("*"):
            if path.suffix in (".rt", ".antt") and "IsLeastKeepFault" in path.read_text():
                path.write_text(path.read_text().replace("IsLeastKeepFault", "IsLeastKeep"))
        self.assert_listed("IsLeastKeep")
        (self.top / "list").write_text("# old new\nIsLeastKeepFault IsLeastKeep\nIsLeastKeepFault-prop "
                                       "IsLeastKeep-prop\n")
        status, said = self.compare("--renames", "list")
        self.assertEqual(status, 0, said)
        self.assertIn("renamed IsLeastKeepFault to IsLeastKeep in ", said)
        # What is no rename is still listed.
        self.change("crates/circuit/src/circuit_line.rt", "    Unswitch,\n    Uninteract,\n}",
                    "    Unswitch,\n    Uninteract,\n    Anything,\n}")
        status, said = self.compare("--renames", "list")
        self.assertEqual(status, 1)
        self.assertEqual(len(said.splitlines()), 6, said)

    def test_rename_to_a_name_that_meant_something(self) -> None:
        path = self.top / "crates/meaning/specs/Printed.antt"
        self.assertIn("IsLine", path.read_text())
        (self.top / "list").write_text("IsForm IsLine\n")
        status, said = self.compare("--renames", "list")
        self.assertEqual(status, 1)
        self.assertIn("the list renames IsForm to IsLine, which meant something at HEAD", said)
