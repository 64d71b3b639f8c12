"""Compares the sentences of `explain` about faulty texts with the simulation and the circuits of tools/oracle, which
share no code with the lab.

    python3 lab/tests/check_sentences.py [COUNT [SEED]]

COUNT texts of each family of mutations are explained. Each sentence that says something about a run, about values of
the circuit, or about what the program says after a fix is tried again. The tool prints each false sentence, and last
how many were true, false, and not read.
"""

import json
import re
import subprocess
import sys
from collections import Counter
from itertools import product
from typing import Any, Callable, Iterator

import support
from bbmlab_core.explain.trials import TrialRunner, is_yes
from measure_fixes import right_texts
from mutations import FAMILIES, mutants

sys.path.insert(0, str(support.TOP / "tools" / "oracle"))
import meaning  # noqa: E402
import reference  # noqa: E402

Cell = tuple[int, int]
MAX_INPUTS = 8
MAX_STEPS = 2000
CELL = r"\((\d+), (\d+)\)"


class Whole:
    """All whole runs of a text and the values of its circuit, by the oracle."""

    def __init__(self, text: str) -> None:
        circuit, self.layout = meaning.sections(text.encode())
        self.circuit = meaning.read_circuit(circuit)
        lines = reference.Lines(self.layout)
        self.plane = reference.read_section(lines, reference.Layout(lines.limits))
        self.inputs: list[str] = [name.decode() for name in self.circuit.inputs]
        self.wires: list[str] = [name.decode() for name in self.circuit.wires]
        self.known: dict[frozenset[str], list[set[Cell]]] = {}

    def is_small(self) -> bool:
        """Whether all runs can be made."""
        return len(self.inputs) <= MAX_INPUTS and self.plane.steps <= MAX_STEPS

    def choices(self) -> Iterator[frozenset[str]]:
        """Yields all choices of the inputs, each as those that are on."""
        for bits in product((False, True), repeat=len(self.inputs)):
            yield frozenset(name for name, bit in zip(self.inputs, bits) if bit)

    def values(self, on: frozenset[str]) -> dict[str, bool]:
        """Returns the values of the wires."""
        found = meaning.values_of(self.circuit, {name.encode() for name in on})
        return {name.decode(): bool(value) for name, value in found.items()}

    def run(self, on: frozenset[str]) -> list[set[Cell]]:
        """Returns the live cells at each time, up to the step that leaves the rectangle."""
        if on not in self.known:
            ins = {cell for cell, name in self.plane.ports[b"in"].items() if name.decode() in on}
            states = [set(self.plane.live) | ins]
            while len(states) <= self.plane.steps and self.is_inside(states[-1]):
                states.append(reference.stepped(states[-1], len(states) - 1))
            self.known[on] = states
        return self.known[on]

    def is_inside(self, live: set[Cell]) -> bool:
        """Whether all live cells are in the rectangle."""
        return all(0 <= x < self.plane.w and 0 <= y < self.plane.h for x, y in live)

    def is_live(self, on: frozenset[str], time: int, cell: Cell) -> bool:
        """Whether a cell is live at a time."""
        return cell in self.run(on)[time]

    def faults(self, on: frozenset[str]) -> list[Cell]:
        """Returns the cells that are wrong at the end, and those of the rim that are live at odd times before."""
        states, values = self.run(on), self.values(on)
        wanted = {cell for _, cell in meaning.cells_named(self.layout, b"mirror")}
        wanted |= {cell for name, cell in meaning.cells_named(self.layout, b"out") if values[name.decode()]}
        free = {cell for _, cell in meaning.cells_named(self.layout, b"waste")}
        rim = [cell for state in states[1:self.plane.steps:2] for cell in state if self.is_rim(cell)]
        return [*sorted((states[-1] ^ wanted) - free), *rim]

    def is_rim(self, cell: Cell) -> bool:
        """Whether a cell is one of the outermost."""
        return cell[0] in (0, self.plane.w - 1) or cell[1] in (0, self.plane.h - 1)


def named(words: str) -> frozenset[str]:
    """Returns the names that are on in words such as `p=1 q=0`."""
    return frozenset(re.findall(r"(\w+)=1", words))


class Sentences:
    """Tries each sentence of the explanation of one text:

    True, False, or None for a sentence that says nothing that is tried here.
    """

    def __init__(self, text: str, explanation: dict[str, Any], program: str) -> None:
        self.text, self.explanation, self.program = text, explanation, program
        self.whole = Whole(text)
        # The inputs, the time and the cell that the sentences before are about, and what the module's own run has
        # there.
        self.on: frozenset[str] = frozenset()
        self.at: tuple[int, Cell] | None = None
        self.is_found_live = False
        self.module_values: dict[str, int] = {}
        self.rules: list[tuple[str, Callable[[re.Match[str]], bool]]] = [
            (r"tried here in all (\d+) choices of the inputs: it ends as the layout asks", self.ends_right),
            (rf"circuit asks: with ([\w= ]+) the cell {CELL} is (live|dead) at the end", self.ends_wrong),
            (r"circuit asks: with ([\w= ]+) step (\d+) makes the cell \((-?\d+), (-?\d+)\) outside the rectangle live",
             self.leaves),
            (rf"In the whole run with ([\w= ]+) the cell {CELL} of the rim is live at time (\d+)", self.has_live_rim),
            (rf"^At time (\d+)(?:, the last time,)? the cell {CELL} is (live|dead) and should be", self.takes_place),
            (r"^This can occur, for example with the inputs ([\w= ]+?)(?: \((\d+) of (\d+) choices.*)?\.?$",
             self.can_occur),
            (r"^The circuit never gives ([\w= ]+):", lambda _: self.count_of_values(self.whole.inputs) == 0),
            (r"^The run of the whole layout (has the cell|ends) ", lambda _: self.has_found()),
            (r"^In the run of the whole layout it is not so", lambda _: not self.has_found()),
            (rf"^At time (\d+) the cell {CELL} of module \d+ is (live|dead) in the whole run", self.is_so),
            (r"^In the whole run (?:it|the cell) is live then if and only if `(\w+)` is true\.$", self.carries),
            (r"^In the whole run (?:it|the cell) is (always|never) live then\.$",
             lambda match: self.table() == [match.group(1) == "always"] * 2 ** len(self.whole.inputs)),
            (rf"The mirror of line (\d+) .* falls apart by itself: step (\d+) moves its cell {CELL}", self.falls_apart),
            (r"^No wire of the circuit is true in just the choices", lambda _: self.carries_none()),
        ]

    def ends_right(self, match: re.Match[str]) -> bool:
        """All choices end as the layout asks, and there are so many."""
        return int(match.group(1)) == 2 ** len(self.whole.inputs) and not any(self.whole.faults(on)
                                                                              for on in self.whole.choices())

    def ends_wrong(self, match: re.Match[str]) -> bool:
        """A cell is wrong at the end, and so as it says."""
        on, cell = named(match.group(1)), (int(match.group(2)), int(match.group(3)))
        last = self.whole.run(on)
        return len(last) == self.whole.plane.steps + 1 and cell in self.whole.faults(on) and (cell in last[-1]) == (
            match.group(4) == "live")

    def leaves(self, match: re.Match[str]) -> bool:
        """A step is the first that makes cells outside the rectangle live, and the cell is one of them."""
        states, step, cell = self.whole.run(named(match.group(1))), int(match.group(2)), (int(match.group(3)),
                                                                                          int(match.group(4)))
        return len(states) == step + 1 and cell in states[-1] and not self.whole.is_inside({cell})

    def falls_apart(self, match: re.Match[str]) -> bool:
        """A mirror that is alone stays as it is until a step moves a cell."""
        line, step, cell = int(match.group(1)), int(match.group(2)), (int(match.group(3)), int(match.group(4)))
        states = [{at for _, at in meaning.cells_named(self.text.split("\n")[line - 1].encode(), b"mirror")}]
        for time in range(step):
            states.append(reference.stepped(states[-1], time))
        return all(state == states[0] for state in states[:-1]) and cell in states[0] - states[-1]

    def has_live_rim(self, match: re.Match[str]) -> bool:
        """A cell of the rim is live at an odd time before the end."""
        cell, time = (int(match.group(2)), int(match.group(3))), int(match.group(4))
        return self.whole.is_rim(cell) and time % 2 == 1 and time < self.whole.plane.steps and self.whole.is_live(
            named(match.group(1)), time, cell)

    def takes_place(self, match: re.Match[str]) -> bool:
        """Takes the place that the next sentences are about. The report's line has the same one."""
        self.at = int(match.group(1)), (int(match.group(2)), int(match.group(3)))
        self.is_found_live = match.group(4) == "live"
        return True

    def count_of_values(self, names: list[str]) -> int:
        """Returns how many choices of some inputs give the values of the module; others are off."""
        choices = [frozenset(name for name, bit in zip(names, bits) if bit)
                   for bits in product((0, 1), repeat=len(names))]
        return sum(all(self.whole.values(on)[name] == value for name, value in self.module_values.items())
                   for on in choices)

    def can_occur(self, match: re.Match[str]) -> bool:
        """The inputs give the values of the module, and so do as many choices as it says."""
        self.on = named(match.group(1))
        values = self.whole.values(self.on)
        names = re.findall(r"(\w+)=", match.group(1))
        is_count_right = match.group(2) is None or (self.count_of_values(names),
                                                    2 ** len(names)) == (int(match.group(2)), int(match.group(3)))
        return all(values[name] == value for name, value in self.module_values.items()) and is_count_right

    def has_found(self) -> bool:
        """Whether the whole run has the cell as the module's own run."""
        assert self.at
        return self.whole.is_live(self.on, *self.at) == self.is_found_live

    def is_so(self, match: re.Match[str]) -> bool:
        """A cell is live or dead in the whole run."""
        self.at = int(match.group(1)), (int(match.group(2)), int(match.group(3)))
        return self.whole.is_live(self.on, *self.at) == (match.group(4) == "live")

    def table(self) -> list[bool]:
        """Returns whether the cell is live, for each choice of the inputs."""
        assert self.at
        return [self.whole.is_live(on, *self.at) for on in self.whole.choices()]

    def carries(self, match: re.Match[str]) -> bool:
        """The cell is live if and only if a wire is true."""
        return self.table() == [self.whole.values(on)[match.group(1)] for on in self.whole.choices()]

    def carries_none(self) -> bool:
        """No wire is true in just the choices in which the cell is live, and it is neither always nor never live."""
        table, values = self.table(), [self.whole.values(on) for on in self.whole.choices()]
        return len(set(table)) == 2 and not any(table == [value[wire] for value in values] for wire in self.whole.wires)

    def tried(self, sentence: str) -> bool | None:
        """Tries a sentence."""
        for pattern, rule in self.rules:
            match = re.search(pattern, sentence)
            if match:
                return rule(match)
        return None

    def all(self) -> Iterator[tuple[bool | None, str]]:
        """Yields each sentence of the explanation, and whether it is true."""
        for sentence in self.explanation["headline"]:
            yield self.tried(sentence), sentence
        for entry in self.explanation["entries"]:
            yield from self.of_entry(entry)
        for fixes in [(self.explanation.get("fix") or {}).get("words", []),
                      *(entry["fixes"] for entry in self.explanation["entries"])]:
            if fixes:
                yield self.fixed(fixes), " ".join(fixes)

    def of_entry(self, entry: dict[str, Any]) -> Iterator[tuple[bool | None, str]]:
        """Yields each sentence about a line of the report, and whether it is true, up to one about another fault of the
        module."""
        facts = entry.get("facts", {})
        self.at = (facts["time"], (facts["cell"][0], facts["cell"][1])) if isinstance(facts.get("time"), int) else None
        self.module_values = facts.get("assignment", {})
        self.on = frozenset()
        for sentence in entry["what"]:
            if sentence.startswith("Under values that do occur the module has a fault too"):
                break
            yield self.tried(sentence), sentence

    def fixed(self, fixes: list[str]) -> bool | None:
        """Makes the edits of a fix, and asks the program."""
        edited = with_edits(self.text, fixes[:-1])
        if edited is None:
            return None
        report = subprocess.run([self.program, "check"], input=edited.encode(), capture_output=True,
                                check=False).stdout.decode()
        left = re.search(r"still says no: (\d+) lines? of the report", fixes[-1])
        if left:
            return "\nverdict no\n" in report and sum(map(is_against, report.splitlines())) == int(left.group(1))
        return "\nverdict yes\n" in report if "the program says yes" in fixes[-1] else None


def is_against(line: str) -> bool:
    """Whether a line of a report is a reason for a no."""
    words = line.split(" ")
    if words[0] == "delay":
        return words[2] != words[3]
    return words[0] in ("local", "border", "keep", "unkept") or words[0] == "meet" and words[2] == "differ"


def with_edits(text: str, edits: list[str]) -> str | None:
    """Returns a text with the edits of a fix, all by the numbers of the lines that were there, or None for an edit of
    another kind."""
    lines: list[list[str]] = [[line] for line in text.split("\n")]
    for edit in edits:
        added = re.match(r"Add `([^`]*)` after line (\d+) ", edit)
        replaced = re.match(r"Replace line (\d+) \(`[^`]*`\) by `([^`]*)`", edit)
        deleted = re.match(r"Delete line (\d+) ", edit)
        if added:
            lines[int(added.group(2)) - 1].append(added.group(1))
        elif replaced:
            lines[int(replaced.group(1)) - 1][0] = replaced.group(2)
        elif deleted:
            del lines[int(deleted.group(1)) - 1][0]
        else:
            return None
    return "\n".join(line for group in lines for line in group)


def explained(text: str) -> dict[str, Any]:
    """Returns the explanation of a text."""
    ended = support.lab("explain", "--json", "--effort", "1", "-", text=text)
    found: dict[str, Any] = json.loads(ended.stdout)
    return found


def main() -> int:
    """Prints false sentences and the counts."""
    count, seed = (int(word) for word in [*sys.argv[1:], *("4", "1")[len(sys.argv) - 1:]][:2])
    program, texts = support.program(), right_texts()
    counts: Counter[bool | None] = Counter()
    for family in FAMILIES:
        for name, text in mutants(family, texts, count, seed, lambda text: is_yes(TrialRunner(program).try_text(text))):
            explanation = explained(text)
            if explanation["verdict"] != "no" or not Whole(text).is_small():
                continue
            for is_true, sentence in Sentences(text, explanation, program).all():
                counts[is_true] += 1
                if is_true is False:
                    print(f"false: {name}, {family}: {sentence}", flush=True)
        print(f"{family}: {counts[True]} true, {counts[False]} false, {counts[None]} not read so far", flush=True)
    return int(counts[False] > 0)


if __name__ == "__main__":
    sys.exit(main())
