"""The sentences of `explain` about a few faulty texts are true by the simulation of tools/oracle, and its comparison
notices false ones.
"""

import re
import unittest
from typing import Any

import support
from check_sentences import Sentences, explained, with_edits


def wrong_edge() -> str:
    """Returns a text with two faults of its certificate."""
    return support.text_of("wrong_edge")


class Compared(unittest.TestCase):
    """check_sentences.py."""

    def told(self, text: str, explanation: dict[str, Any]) -> list[tuple[bool | None, str]]:
        """Returns the sentences with whether they are true."""
        return list(Sentences(text, explanation, support.program()).all())

    def test_examples(self) -> None:
        """No sentence about wrong examples is false, and many are compared."""
        compared = 0
        for name in ("wrong_edge", "wrong_border", "plain_no", "plain_rim", "wrong_times", "not_kept",
                     "head_on_bundle"):
            text = support.text_of(name)
            with self.subTest(name):
                told = self.told(text, explained(text))
                self.assertEqual([sentence for is_true, sentence in told if is_true is False], [])
                compared += sum(is_true is True for is_true, _ in told)
        self.assertGreater(compared, 25)

    def test_false_sentences(self) -> None:
        """A sentence with another wire, cell, time, count or edit is noticed."""
        text = wrong_edge()
        explanation = explained(text)
        changes = [(r"if and only if `c`", "if and only if `a`"), (r"1 of 4 choices", "2 of 4 choices"),
                   (r"all 4 choices", "all 8 choices"),
                   (r"is live in the whole run", "is dead in the whole run"), (r"inputs p=1 q=0", "inputs p=0 q=0"),
                   (r"Add `edge 5 8 8 c`", "Add `edge 5 8 8 a`"),
                   (r"At time 5 the cell \(8, 8\) of", "At time 5 the cell (9, 9) of")]
        for old, new in changes:
            with self.subTest(new):
                other = changed(explanation, old, new)
                self.assertNotEqual(other, explanation)
                self.assertIn(False, [is_true for is_true, _ in self.told(text, other)])

    def test_edits(self) -> None:
        """The edits of a fix count lines as they were before all of them."""
        self.assertEqual(with_edits("a\nb\nc\n",
                                    ["Delete line 1 (`a`).", "Add `x` after line 2 (`b`).",
                                     "Replace line 3 (`c`) by `d`."]), "b\nx\nd\n")
        self.assertIsNone(with_edits("a\n", ["Then make the certificate again: `bbmlab certify` does."]))


def changed(form: Any, old: str, new: str) -> Any:
    """Returns a JSON value with other words in all its texts."""
    if isinstance(form, str):
        return re.sub(old, new, form)
    if isinstance(form, list):
        return [changed(part, old, new) for part in form]
    return {name: changed(part, old, new) for name, part in form.items()} if isinstance(form, dict) else form
