"""What `try_wrong_bodies` makes of the lines of a check, and of edits that are gone."""
from __future__ import annotations

import tempfile
import unittest
from pathlib import Path
from types import SimpleNamespace
from typing import Any

from planted import TOP, gate_script

TRIED = gate_script("try_wrong_bodies")


class Refusals(unittest.TestCase):
    """The outcome by what was not proved, and the numbers of docs/TESTING.md."""

    def outcome(self, line: str) -> Any:
        """Returns the outcome of a function `c::m::f` with this line."""
        return TRIED.Check("c", f"fn c::m::f: {line}\n").of("c::m::f").outcome

    def test_clauses_refuse(self) -> None:
        """A clause of the function, of a callee, of a type, or what a loop keeps."""
        for goal in ("returns", "returns-in-Ok-clause-text", "push-requires-clause-room", "invariant_of-self",
                     "loop-k-preserved"):
            self.assertEqual(self.outcome("no proof: expected answers in ./proofs/m/f/Answers.antt; `search` did not "
                                          f"prove `{goal}`"),
                             TRIED.Outcome.REFUSED, goal)

    def test_safety_alone_is_a_fault(self) -> None:
        """An overflow or an index tells nothing of the clauses, unless a clause fails too."""
        for goal in ("overflow_add-number", "index-requires"):
            self.assertEqual(self.outcome(f"not proved: `search` did not prove `{goal}`"), TRIED.Outcome.SAFETY, goal)
        self.assertEqual(self.outcome("not proved: `search` did not prove `overflow_add-number`, `returns`"),
                         TRIED.Outcome.REFUSED)

    def test_others(self) -> None:
        """What is proved, what waits, and what the prover could not tell."""
        self.assertEqual(self.outcome("proved"), TRIED.Outcome.PROVED)
        self.assertEqual(self.outcome("no proof: it calls `c::m::g`, which is not proved"), TRIED.Outcome.WAITS)
        self.assertEqual(self.outcome("could not tell: a limit"), TRIED.Outcome.LIMIT)

    def test_a_missing_edit_is_seen(self) -> None:
        """The numbers fit these folders, and no longer after an edit is gone or one more is refused."""
        page = (TOP / "docs" / "TESTING.md").read_text(encoding="utf-8")
        found = TRIED.COUNTS.search(page)
        assert found is not None
        tried, whole, alone, more = (int(number) for number in found.groups())
        self.assertEqual((whole, more, alone), (alone + more, len([*TOP.glob("crates/*/must-fail-more/*.edit")]),
                                                len([*TOP.glob("crates/*/must-fail/*.edit")])))
        with tempfile.TemporaryDirectory() as room:
            crate = Path(room)
            for folder, count in (("must-fail", alone), ("must-fail-more", more)):
                (crate / folder).mkdir()
                for number in range(count):
                    (crate / folder / f"{number}.edit").write_text("")
            crates = [SimpleNamespace(folder=str(crate))]
            self.assertEqual(TRIED.wrong_counts(tried - alone, crates, "must-fail-more"), [])
            self.assertEqual(len(TRIED.wrong_counts(tried - alone - 1, crates, "must-fail-more")), 1)
            (crate / "must-fail-more" / "0.edit").unlink()
            self.assertEqual(len(TRIED.wrong_counts(tried - alone, crates, "must-fail-more")), 1)
