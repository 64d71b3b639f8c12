"""Hints for people who write their first circuits: gates of logic, forms, copies, comments, and designs without a
certificate.
"""


import support
from bbmlab_core.texts.gates import GATE_SIZES
from bbmlab_core.physics.standard_cells import cell_names


class Hints(support.InRoom):
    """What `explain` says, and texts with comments."""

    def explained(self, text: str, *words: str) -> str:
        """Returns what `explain` prints, in one line."""
        return " ".join(support.lab("explain", *words, "-", text=text, BBMCHECK=support.program()).stdout.split())

    def test_gates_of_logic(self) -> None:
        """A gate that conservative logic lacks is answered by its gates and by the cell that makes one."""
        for word, cell in (("and", "and"), ("AND", "and"), ("or", "or"), ("xor", "xor"), ("not", "not"),
                           ("nand", "and"), ("mux", "fredkin"), ("copy", "fan_out")):
            said = self.explained(f"circuit\ninput a\ninput b\n{word} a b -> c\noutput c\nend\n")
            self.assertIn(f"`bbmlab cells {cell}`", said, word)
            self.assertIn(cell, cell_names())
            for gate in GATE_SIZES:
                self.assertIn(f"`{gate}`", said)
            self.assertNotIn("`end` is near", said)
        self.assertIn("`output` is near", self.explained("circuit\ninput a\noutptu a\nend\n"))

    def test_forms_for_editors(self) -> None:
        """A line with too few words shows its form also in the form for editors."""
        said = self.explained("circuit\ninput a\ninput b\ninteract a b -> c\noutput c\nend\n", "--gcc")
        self.assertIn("Hint: Write it as `interact A B -> C D E F`.", said)

    def test_a_wire_that_is_used_twice(self) -> None:
        """A wire that is used twice is to be copied by the cell `fan_out`."""
        self.assertIn("the standard cell `fan_out`", self.explained("circuit\ninput a\noutput a\noutput a\nend\n"))

    def test_a_design_without_certificate(self) -> None:
        """Of a design without a certificate `explain` says whether one would help."""
        good = support.text_of("not_gate")
        self.assertIn("The text has no certificate. In the choices of the inputs that were tried the whole run ends as "
                      "the layout asks.", self.explained(good))
        crossing = (support.LAB / "cells" / "crossing.txt").read_text().split("certificate ")[0]
        lines = crossing.split("\n")
        # One of the two balls comes two steps later: each of its cells begins two steps further back.
        late = []
        for line in lines:
            words = line.split(" ")
            late.append(" ".join([*words[:2], str(int(words[2]) - 2), str(int(words[3]) - 2)])
                        if words[:2] == ["in", "a"] else line)
        self.assertNotEqual(late, lines)
        said = self.explained("\n".join(late))
        self.assertRegex(said, r"The layout itself does not do what the circuit asks: with a=\d b=\d the cell \(\d+, "
                         r"\d+\) is (live|dead) at the end")

    def test_commands_that_take_comments(self) -> None:
        """What only reads a text takes comments, any spaces and unsorted lists, and says what it says of the one
        spelling."""
        plain = support.text_of("wrong_edge")
        free = "# by hand\n\n" + plain
        free = free.replace("\nlayout", "\n  layout").replace("\nend\n", "  # the end\nend # of it\n")
        (self.room / "free").mkdir()
        (self.room / "free" / "a.txt").write_text(free)
        (self.room / "a.txt").write_text(plain)
        for words in (["trace"], ["draw"], ["draw", "--ways"], ["view"], ["golly"], ["json"]):
            one, other = (support.lab(*words, str(self.room / name), BBMCHECK=support.program())
                          for name in ("free/a.txt", "a.txt"))
            self.assertEqual((one.returncode, one.stdout.replace("free/a.txt", "a.txt")),
                             (other.returncode, other.stdout), words)
        text = support.text_of("half_adder")
        one, other = (support.lab("route", "--circuit-only", "-", text=own)
                      for own in ("# an adder\n" + text.replace("\n", "  # why\n"), text))
        self.assertEqual((one.returncode, one.stdout), (0, other.stdout))

    def test_lines_of_the_file(self) -> None:
        """A refusal of a text with comments names the line of the file."""
        text = "# one\n\ncircuit\ninput a # two\noutput b\nend\nlayout 8 8 3\nend\n"
        for command in ("draw", "json", "trace", "route"):
            self.assert_ends(1, command, "-", text=text, BBMCHECK=support.program(),
                             err="line 5 is refused with code 3")

    def test_commands_give_hints(self) -> None:
        """What only refuses a text says in its one line how to write it, as `explain` does."""
        for line, hint in (("and a b -> c", "`bbmlab cells and`"),
                           ("interact a b -> c", "Write it as `interact A B -> C D E F`."),
                           ("fredkin a b a -> c d e", "`bbmlab cells fan_out`")):
            text = f"circuit\ninput a\ninput b\n{line}\noutput c\nend\n"
            # `route` takes plain gates.
            for command in ("certify", "json") if line.startswith("and") else ("route", "certify", "json"):
                ended = support.lab(command, "-", text=text, BBMCHECK=support.program())
                self.assertEqual((ended.returncode, len(ended.stderr.splitlines())), (1, 1), ended.stderr)
                self.assertIn("line 4 is refused with code", ended.stderr)
                self.assertIn(hint, ended.stderr, command)
