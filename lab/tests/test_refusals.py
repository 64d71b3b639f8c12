"""The words of refusals against the names and texts of the worked cases."""

import re
import unittest

import support
from bbmlab_core.texts.refusals import CODE_RULES, REFUSAL_EXPLAINERS, SENTENCES_BY_CAUSE, explain_refusal

# What the explanation of a code is about; each is a word of docs/FORMATS.md, and not of the lab's output.
ABOUT = {
    2: r"(even|odd|most|outside|limit|1 to|no certificate version|already|more than)",
    3: r"(not defined|no wire|no gate|no input|no output|no inverse|can't be turned on)",
    4: r"(already)", 5: r"consumed already", 6: r"(after|before|header|rise|same|lower|smaller|first)",
    7: r"(outside the rectangle|taken)",
    8: r"(odd|overlaps|not inside)", 9: r"(not local|does not use)",
    10: r"(even|odd|not below|ring|rim|halo|outside|already|after the last|not in the box)",
    11: r"(not consumed|no `in` cell|no `out` cell|does not know|no module|gap)",
    12: r"(ends before|line feed|goes on)",
}
KEYWORDS = set("circuit input source fredkin cswap interact switch delay unswitch uninteract output spill layout "
               "mirror ball in out waste "
               "assign on certificate module cut use keep edge halo stop".split())


class Refusals(unittest.TestCase):
    """A sentence for each refusal."""

    @classmethod
    def setUpClass(cls) -> None:
        """Explains all refused cases once."""
        cls.told = []
        for case in support.worked_cases():
            document = support.document_of(case)
            if document.refusal:
                cls.told.append((case, document, document.refusal, explain_refusal(document, document.refusal)))

    def test_each_has_sentences(self) -> None:
        """Each refusal has a sentence on what is wrong, the rule of its code and a hint."""
        self.assertGreater(len(self.told), 900)
        for case, _, refusal, told in self.told:
            self.assertTrue(told.what and told.hints, case.name)
            self.assertEqual(told.rule, CODE_RULES[refusal.code])
            for sentence in [*told.what, *told.hints]:
                self.assertRegex(sentence, r"[.?]$")
                self.assertNotIn("None", sentence)

    def test_code_of_the_name(self) -> None:
        """The words fit the code that stands in the name of the case (`refuse_edge_10_3`)."""
        count = 0
        for case, _, refusal, told in self.told:
            code = re.match(r"refuse_[a-z_]+?_(\d\d)_\d+", case.name)
            if code and int(code[1]) in ABOUT:
                count += 1
                self.assertEqual(int(code[1]), refusal.code)
                self.assertRegex(" ".join(told.what), ABOUT[int(code[1])])
        self.assertGreater(count, 300)

    def test_kind_of_the_name(self) -> None:
        """A refusal of code 6 or 1 names the kind of line that stands in the name of the case."""
        count = 0
        for case, document, refusal, told in self.told:
            found = re.match(r"refuse_([a-z]+)_(01|06)_\d+", case.name)
            words = document.line(refusal.line).split(" ")
            if found and found[1] in KEYWORDS and words[0] == found[1] and refusal.cause != "shape":
                count += 1
                kind = "gate" if refusal.facts.get("kind") == "gate" else found[1]
                self.assertIn(kind, " ".join(told.what) + " ".join(told.hints))
        self.assertGreater(count, 50)

    def test_names_are_those_of_the_line(self) -> None:
        """The names that codes 3, 4, 5 and 9 are about stand in the refused line, or are wires of its gate, and in the
        words."""
        count = 0
        for case, document, refusal, told in self.told:
            if refusal.code in (3, 4, 5, 9):
                count += 1
                line = document.line(refusal.line).split(" ")
                self.assertTrue(told.names)
                if refusal.cause in ("use_input_not_local", "use_output_local"):
                    gate = document.circuit.gates[int(line[1])]
                    self.assertLessEqual(set(told.names), set(gate.ins + gate.outs))
                else:
                    self.assertIn(told.names[0], line)
                self.assertIn(told.names[0], " ".join(told.what))
        self.assertGreater(count, 150)

    def test_lines_are_earlier_ones_with_the_name(self) -> None:
        """A line that is named as the earlier one has the name or the cell in question."""
        for case, document, refusal, told in self.told:
            if refusal.code in (4, 5) and told.lines and refusal.cause != "use_output_local":
                self.assertLessEqual(told.lines[0], refusal.line)
                self.assertIn(told.names[0], document.line(told.lines[0]).split(" "))
            if refusal.cause == "border_not_rising":
                self.assertEqual(document.line(told.lines[0]).split(" ")[0], document.line(refusal.line).split(" ")[0])

    def test_missing_things_are_missing(self) -> None:
        """What code 11 says to be missing is so by the text."""
        for case, document, refusal, told in self.told:
            text = document.text
            if refusal.cause == "wire_not_consumed":
                head = text.split("\nend")[0]
                for name in told.names:
                    self.assertEqual(len(re.findall(rf"(?<![a-z0-9_]){name}(?![a-z0-9_])", head)), 1)
            if refusal.cause == "port_without_cell":
                for name in told.names:
                    self.assertNotRegex(text, rf"\n(in|out) {name} ")
            if refusal.cause == "port_not_local":
                self.assertRegex(text, rf"\n(in|out) {told.names[0]} ")

    def test_places_of_code_10(self) -> None:
        """Each reason that is told for a place holds by the numbers of the text, and each that holds is told."""
        for case, document, refusal, told in self.told:
            if refusal.code != 10:
                continue
            words = " ".join(told.what)
            for reason, holds in place_reasons(document, refusal.line).items():
                self.assertEqual(reason in words, holds, f"{case.name}: {reason}: {words}")

    def test_cells_of_code_7(self) -> None:
        """A cell that is said to be taken is one of the refused line and of the line that is named."""
        for case, document, refusal, told in self.told:
            if refusal.cause == "cell_taken":
                x, y = map(int, re.search(r"\((\d+), (\d+)\)", told.what[0]).groups())
                for number in (refusal.line, told.lines[0]):
                    u, v, *sides = [int(word) for word in document.line(number).split(" ") if word.isdigit()]
                    w, h = sides or (1, 1)
                    self.assertTrue(u <= x < u + w and v <= y < v + h, f"{case.name}: line {number}")

    def test_bytes_of_code_1(self) -> None:
        """What is wrong with the bytes of a line is said."""
        base = "circuit\ninput p\noutput p\nend\n"
        for text, words in [("\xef\xbb\xbf" + base, "byte order mark"), (base.replace("\n", "\r\n"), "CR LF"),
                            (base.replace("t p", "t\tp", 1), "tab"), (base.replace("t p", "t p # x", 1), "comment"),
                            (base.replace("t p", "t  p", 1), "Two spaces"), ("\n" + base, "empty"),
                            (base.replace("input p", "input P", 1), "capital"),
                            (base.replace("input p", "inptu p", 1), "`input` is near"),
                            ("layout 2 2 0\n" + base, "another section"),
                            (base.replace("input p", "delay 01 a -> b", 1), "leading zero"),
                            (base.replace("input p", "fredkin a b c = d e f", 1), "arrow"),
                            (base.replace("input p", "ball 1 2", 1), "layout section")]:
            document = support.read_document(text, "check")
            with self.subTest(words):
                self.assertEqual(document.refusal.code, 1)
                self.assertIn(words, " ".join(explain_refusal(document, document.refusal).what))

    def test_each_cause_is_told(self) -> None:
        """Each cause of the worked cases has its words, and all words but two are used by some case."""
        used = {refusal.cause for _, _, refusal, _ in self.told}
        self.assertLessEqual(used - {"shape"}, {*REFUSAL_EXPLAINERS, *SENTENCES_BY_CAUSE})
        self.assertEqual({*REFUSAL_EXPLAINERS, *SENTENCES_BY_CAUSE} - used, {"keep_not_used", "border_count"})


def place_reasons(document: support.Document, number: int) -> dict[str, bool]:
    """Returns which reasons of code 10 hold for a line, by the numbers of the text alone."""
    lines = document.text.split("\n")
    kind, *words = lines[number - 1].split(" ")
    x, y = (int(word) for word in (words[2:4] if kind == "stop" else words[1:3]))
    time = None if words[0] == "*" else int(words[0])
    box = next(line for line in reversed(lines[:number]) if line.startswith("module ")).split(" ")
    left, top, w, h = map(int, box[1:])
    width, height, steps = map(int, next(line for line in lines if line.startswith("layout ")).split(" ")[1:])
    inside = left <= x < left + w and top <= y < top + h
    inner = left < x < left + w - 1 and top < y < top + h - 1
    beside = not inside and left - 1 <= x <= left + w and top - 1 <= y <= top + h
    if kind == "stop":
        return {"is not in the box": not inside, "after the last time": time > steps}
    return {"is even": time is not None and time % 2 == 0, "is not below the steps": time is not None and time >= steps,
            "is not in the ring": kind == "edge" and (not inside or inner),
            "is on the rim": kind == "edge" and inside and not inner and (x in (0, width - 1) or y in (0, height - 1)),
            "is not in the halo": kind == "halo" and not beside,
            "is outside the rectangle": kind == "halo" and beside and (x >= width or y >= height)}
