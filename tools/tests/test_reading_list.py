"""Tests of tools/docs/reading_list.py: the prover accepts each of the planted changes, so the list must follow them or
say that it can't.
"""

import planted

GATES = "crates/circuit/specs/Gates.antt"
MEANING = "crates/circuit/specs/Meaning.antt"
USE = "use Rattle.circuit.specs.Gates.{row, uses, defines, is_inverse}"


class ReadingList(planted.Planted):
    def listed(self) -> tuple[int, str]:
        """Returns the status and the list of the statement, with the definitions."""
        ended = self.run_tool("tools/docs/reading_list.py", "--definitions")
        return ended.returncode, ended.stdout

    def check(self) -> tuple[int, str]:
        """Returns the status and the output of the comparison with the page."""
        ended = self.run_tool("tools/docs/reading_list.py", "--check", "docs/ASSURANCE.md")
        return ended.returncode, ended.stdout

    def move_row(self, use: str) -> None:
        """Moves the table of the gates to a file of its own."""
        text = (self.top / GATES).read_text()
        start, end = text.index("-- the outputs of a gate"), text.index("-- how many wires a gate uses")
        first = text.index("-- the outputs of a gate")
        (self.top / GATES.replace("Gates", "Rows")).write_text(text[:first]
                                                               + text[start:end].replace("(c && x)", "(c || x)"))
        (self.top / GATES).write_text(text[:first] + text[end:])
        self.change(GATES, "use Rattle.circuit.specs.declared.circuit_line.GateKind.{GateKind}\n",
                    f"use Rattle.circuit.specs.declared.circuit_line.GateKind.{{GateKind}}\n{use}\n")

    def test_nothing_planted(self) -> None:
        status, said = self.check()
        self.assertEqual((status, said), (0, ""))

    def test_row_without_its_link(self) -> None:
        self.change("docs/ASSURANCE.md", "| [`crates/bbm_rule/src/block.rt`](../crates/bbm_rule/src/block.rt) |",
                    "| `crates/bbm_rule/src/block.rt` |")
        self.assertEqual(self.check()[0], 1)

    def test_name_that_another_file_passes_on(self) -> None:
        self.move_row("pub use Rattle.circuit.specs.Rows.{row}")
        status, said = self.listed()
        self.assertEqual(status, 0, said)
        self.assertRegex(said, r"crates/circuit/specs/Rows\.antt` \| 14 \|.*\n\|   row \|")
        self.assertEqual(self.check()[0], 1)

    def test_comment_behind_a_use_line(self) -> None:
        status, before = self.listed()
        self.change(MEANING, USE, f"{USE} -- a comment")
        self.assertEqual(self.listed(), (status, before))

    def test_name_behind_its_module(self) -> None:
        before = self.listed()
        self.change(MEANING, USE, "use Rattle.circuit.specs.Gates\nuse Rattle.circuit.specs.Gates.{uses, defines, "
                    "is_inverse}")
        self.rename_row("Gates.row")
        self.assertEqual([line for line in before[1].splitlines() if "Gates.antt" in line],
                         [line for line in self.listed()[1].splitlines() if "Gates.antt" in line])

    def test_whole_path_without_a_use_line(self) -> None:
        before = self.listed()
        self.change(MEANING, USE, USE.replace("row, ", ""))
        self.rename_row("Rattle.circuit.specs.Gates.row")
        self.assertEqual([line for line in before[1].splitlines() if "Gates.antt" in line],
                         [line for line in self.listed()[1].splitlines() if "Gates.antt" in line])

    def rename_row(self, new: str) -> None:
        """Writes another name of the table where definitions use it."""
        for path in (self.top / "crates/circuit/specs").glob("*.antt"):
            if path.name == "Meaning.antt":
                lines = path.read_text().splitlines(keepends=True)
                changed = [line if line.startswith(("use ", "--"))
                           else line.replace(" row ", f" {new} ").replace("(row ", f"({new} ") for line in lines]
                self.assertNotEqual(lines, changed)
                path.write_text("".join(changed))

    def assert_fails(self, word: str) -> None:
        """The list and the comparison name a word and fail."""
        for status, said in (self.listed(), self.check()):
            self.assertEqual(status, 1)
            self.assertIn("not found", said)
            self.assertIn(word, said)

    def test_glob_is_not_understood(self) -> None:
        self.change(MEANING, USE, f"{USE}\nuse Gates.*")
        self.assert_fails("use Gates.*")

    def test_line_that_names_nothing_of_the_crate(self) -> None:
        self.change(MEANING, USE, f"{USE}\nuse Rattle.circuit.specs.Nowhere.{{some}}")
        self.assert_fails("Rattle.circuit.specs.Nowhere.some")

    def test_name_that_is_not_passed_on(self) -> None:
        self.move_row("use Rattle.circuit.specs.Rows.{row}")
        self.assert_fails("row")

    def test_body_behind_an_empty_line(self) -> None:
        self.change(GATES, "uses (Source b) = 0", "\nuses (Source b) = 0")
        self.assert_fails("uses (Source b) = 0")
