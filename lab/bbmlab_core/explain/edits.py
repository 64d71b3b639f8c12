"""Edits of a text: whole lines to add, to replace and to delete, and their application to a text in memory."""

import difflib
from collections import Counter
from dataclasses import dataclass
from typing import Iterable

from ..texts.spelling import line_kind_rank, module_line_key, SECTION_ORDERS

ACTIONS = ("add", "replace", "delete")
# The most lines between the first and the last difference of two texts for which the fewest edits are looked for.
MAX_COMPARED_LINES = 4000
# The most pairs of equal lines for that: a search for the longest match looks at all of them, and each match is
# searched by itself.
MAX_EQUAL_LINE_PAIRS = 40_000


class EditError(Exception):
    """Edits that do not go together, or a line that the text does not have."""


@dataclass(frozen=True, order=True)
class Edit:
    """An edit of one line of a text. Lines count from 1, as they are before all edits.

    An added line comes behind the line `line`, where 0 means before all lines. `text` has no line feed; it is empty for
    `delete`.
    """

    line: int
    action: str
    text: str = ""

    def as_sentence(self, lines: list[str]) -> str:
        """Returns the edit as a sentence; `lines` are those of the text before all edits."""
        old = lines[self.line - 1] if 0 < self.line <= len(lines) else ""
        if self.action == "add":
            if not self.text and self.line == len(lines):
                return "Add a line feed at the end of the file."
            return (f"Add `{self.text}` after line {self.line} (`{old}`)." if self.line
                    else f"Add `{self.text}` before the first line.")
        if self.action == "replace":
            return f"Replace line {self.line} (`{old}`) by `{self.text}`."
        return f"Delete line {self.line} (`{old}`)."


def addition(line: int, text: str) -> Edit:
    """Returns an edit that adds a line behind another one."""
    return Edit(line, "add", text)


def replacement(line: int, text: str) -> Edit:
    """Returns an edit that replaces a line."""
    return Edit(line, "replace", text)


def deletion(line: int) -> Edit:
    """Returns an edit that deletes a line."""
    return Edit(line, "delete")


def text_after_edits(text: str, edits: Iterable[Edit]) -> str:
    """Returns the text after all edits. Lines that are added at one place keep the order of the edits."""
    lines = text.split("\n")
    added: dict[int, list[str]] = {}
    changed: dict[int, str | None] = {}
    for edit in edits:
        if not (0 if edit.action == "add" else 1) <= edit.line <= len(lines) or edit.action not in ACTIONS:
            raise EditError(f"{edit.action} line {edit.line}: the text has {len(lines)} lines")
        if edit.action == "add":
            added.setdefault(edit.line, []).append(edit.text)
        elif edit.line in changed:
            raise EditError(f"line {edit.line} is changed twice")
        else:
            changed[edit.line] = edit.text if edit.action == "replace" else None
    result = list(added.get(0, ()))
    for number, line in enumerate(lines, 1):
        new = changed.get(number, line)
        if new is not None:
            result.append(new)
        result += added.get(number, ())
    return "\n".join(result)


def edits_between(old: str, new: str) -> list[Edit]:
    """Returns edits that make one text of another."""
    before, after = old.split("\n"), new.split("\n")
    first = 0
    # The last line is not compared here, so that an edit names the first of equal lines at the end.
    while first < min(len(before), len(after)) - 1 and before[first] == after[first]:
        first += 1
    last = 0
    while last < min(len(before), len(after)) - first and before[-1 - last] == after[-1 - last]:
        last += 1
    middle, other = before[first:len(before) - last], after[first:len(after) - last]
    # In how many ways a line of one text and an equal line of the other can be chosen.
    counts = Counter(other)
    if max(len(middle), len(other)) > MAX_COMPARED_LINES or sum(counts[line] for line in middle) > MAX_EQUAL_LINE_PAIRS:
        return hunk_edits(first, len(middle), other)
    edits: list[Edit] = []
    for _, low, high, start, end in difflib.SequenceMatcher(None, middle, other, autojunk=False).get_opcodes():
        if middle[low:high] != other[start:end]:
            edits += hunk_edits(first + low, high - low, other[start:end])
    return edits


def hunk_edits(before: int, count: int, new: list[str]) -> list[Edit]:
    """Returns edits that put new lines in the place of the `count` lines behind line `before`."""
    both = min(count, len(new))
    edits = [replacement(before + index + 1, new[index]) for index in range(both)]
    edits += [deletion(before + index + 1) for index in range(both, count)]
    return edits + [addition(before + both, text) for text in new[both:]]


def insertion_line_in_module(lines: list[str], first: int, text: str) -> int:
    """Returns the line behind which a line of a module belongs; `first` is the number of the `module` line."""
    place, key = first, module_line_key(text)
    while place < len(lines):
        line = lines[place]
        if line.partition(" ")[0] in ("module", "end", "") or module_line_key(line) > key:
            break
        place += 1
    return place


def insertion_line_in_section(lines: list[str], header: str, text: str) -> int:
    """Returns the line behind which a line of the circuit or the layout belongs, as the last of its kind."""
    order = SECTION_ORDERS[header]
    start = next((number for number, line in enumerate(lines, 1) if line.partition(" ")[0] == header), 0)
    place, rank = start, line_kind_rank(text, order)
    while place < len(lines) and lines[place] not in ("end", "") and line_kind_rank(lines[place], order) <= rank:
        place += 1
    return place
