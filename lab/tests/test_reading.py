"""The lab's reader against the worked cases."""

import unittest

import support


class Reading(unittest.TestCase):
    """Refusals and their absence."""

    def test_refuses_what_the_cases_refuse(self) -> None:
        """Each worked case is refused at its line with its code, or is taken."""
        refused = 0
        for case in support.worked_cases():
            refusal = support.document_of(case).refusal
            got = f"refused {refusal.line} {refusal.code}\n" if refusal else None
            wanted = case.output.decode() if case.status == 3 else None
            refused += case.status == 3
            with self.subTest(case.name):
                self.assertEqual(got, wanted)
        self.assertGreater(refused, 900)
