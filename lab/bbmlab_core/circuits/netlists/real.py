"""Reads the `.real` files of RevLib, versions 1 and 2 (Wille, Große, Teuber, Dueck and Drechsler 2008)."""

import re
from typing import Iterator

from .model import MAX_PORTS, NetlistError
from .reversible import Control, ReversibleNetlist, ReversibleNetlistBuilder, require_distinct_lines

GATE_WORD_PATTERN = re.compile(r"(t|f)([1-9][0-9]*)\Z")
WORD_PATTERN = re.compile(r'"([^"]*)"|(\S+)')
QUANTUM_GATES = {"v": "a square root of NOT", "v+": "a square root of NOT", "h": "a Hadamard gate", "q": "a rotation",
                 "rx": "a rotation", "ry": "a rotation", "rz": "a rotation"}
SKIPPED_KEYWORDS = {".version", ".inputbus", ".outputbus", ".state", ".specification"}


def numbered_word_lines(text: str) -> Iterator[tuple[int, list[str]]]:
    """Yields the number and the words of each line that has words. A name in quotes is one word."""
    for number, line in enumerate(text.split("\n"), 1):
        words = [quoted or plain for quoted, plain in WORD_PATTERN.findall(line.split("#")[0])]
        if words:
            yield number, words


class RealReader:
    """Reads the lines of a file."""

    def __init__(self) -> None:
        self.heads: dict[str, list[str]] = {}
        self.builder = ReversibleNetlistBuilder()
        self.variables: list[str] = []
        self.has_begun = self.has_ended = False

    def read_line(self, number: int, words: list[str]) -> None:
        """Reads one line."""
        keyword = words[0].lower()
        if self.has_ended:
            raise NetlistError(f"Line {number} follows `.end`.")
        if keyword == ".begin":
            self.make_lines(number)
        elif keyword == ".end":
            self.has_ended = True
        elif self.has_begun:
            self.read_gate(number, keyword, words[1:])
        elif keyword in (".numvars", ".variables", ".inputs", ".outputs", ".constants", ".garbage"):
            self.heads[keyword] = words[1:]
        elif keyword == ".define":
            raise NetlistError(f"Line {number}: `.define` is not read. Write the gates out.")
        elif keyword not in SKIPPED_KEYWORDS:
            raise NetlistError(f"Line {number}: `{words[0]}` is no line before `.begin`.")

    def make_lines(self, number: int) -> None:
        """Makes the lines of the circuit from those before `.begin`."""
        if self.has_begun:
            raise NetlistError(f"Line {number}: a second `.begin`.")
        self.has_begun, self.variables = True, self.heads.get(".variables", [])
        wanted = self.heads.get(".numvars", [])
        count = len(self.variables)
        if not count or wanted not in ([str(count)], []):
            raise NetlistError(f"Line {number}: `.numvars` says {' '.join(wanted) or 'nothing'}, and `.variables` "
                               f"names {count}.")
        if count > MAX_PORTS:
            raise NetlistError(f"Line {number}: there are {count} variables. A circuit has at most {MAX_PORTS} wires.")
        if len(set(self.variables)) != count:
            raise NetlistError(f"Line {number}: a variable is named twice.")
        constants = self.header_signs(number, ".constants", "01-")
        inputs = self.header_names(number, ".inputs")
        for line, name, sign in zip(self.variables, inputs, constants):
            if sign == "-":
                self.builder.add_input(line, name)
            else:
                self.builder.add_constant(line, sign == "1")
        if len(set(self.builder.netlist.inputs)) != len(self.builder.netlist.inputs):
            raise NetlistError(f"Line {number}: an input is named twice.")

    def header_signs(self, number: int, keyword: str, allowed: str) -> str:
        """Returns a sign for each variable, `-` if the line is missing."""
        signs = "".join(self.heads.get(keyword, [])) or "-" * len(self.variables)
        if len(signs) != len(self.variables) or set(signs) - set(allowed):
            raise NetlistError(f"Line {number}: `{keyword}` has one of {', '.join(f'`{sign}`' for sign in allowed)} "
                               "for each variable.")
        return signs

    def header_names(self, number: int, keyword: str) -> list[str]:
        """Returns a name for each variable: its own if the line is missing."""
        names = self.heads.get(keyword) or self.variables
        if len(names) != len(self.variables):
            raise NetlistError(f"Line {number}: `{keyword}` has {len(names)} names, and there are "
                               f"{len(self.variables)} variables.")
        return names

    def read_gate(self, number: int, keyword: str, words: list[str]) -> None:
        """Reads a gate: Toffoli `t`, Fredkin `f`, or Peres `p`."""
        if keyword in QUANTUM_GATES:
            raise NetlistError(f"Line {number}: `{keyword}` is {QUANTUM_GATES[keyword]}, a quantum gate, which no bits "
                               "can compute.")
        controls = [self.control_of(number, word) for word in words]
        lines = [line for line, _ in controls]
        require_distinct_lines(number, lines)
        found = GATE_WORD_PATTERN.match(keyword)
        targets = 2 if found and found[1] == "f" else 1
        if keyword in ("p", "p3", "pi") and len(words) == 3:
            self.add_peres(keyword == "pi", controls)
        elif found is None:
            raise NetlistError(f"Line {number}: `{keyword}` is no gate that is read. They are t1, t2, .., f2, f3, .., "
                               "and p.")
        elif int(found[2]) != len(words) or len(words) < targets:
            raise NetlistError(f"Line {number}: `{keyword}` takes {found[2]} variables, and {len(words)} are named.")
        elif not all(value for _, value in controls[-targets:]):
            raise NetlistError(f"Line {number}: a target has no `-`.")
        elif targets == 2:
            self.builder.add_swap(controls[:-2], lines[-2], lines[-1])
        else:
            self.builder.add_not(controls[:-1], lines[-1])

    def add_peres(self, is_inverse: bool, controls: list[Control]) -> None:
        """Adds a Peres gate: a Toffoli gate and then a NOT of the second line, controlled by the first; or its inverse.
        """
        (first, one), (second, other), (third, _) = controls
        if not is_inverse:
            self.builder.add_not([(first, one), (second, other)], third)
        self.builder.add_not([(first, one)], second)
        if is_inverse:
            self.builder.add_not([(first, one), (second, other)], third)

    def control_of(self, number: int, word: str) -> Control:
        """Returns a line and its value: false after `-`."""
        line = word if word in self.builder.nets else word.removeprefix("-")
        if line not in self.builder.nets:
            raise NetlistError(f"Line {number}: `{word}` is no variable.")
        return line, line == word

    def finish_netlist(self, last: int) -> ReversibleNetlist:
        """Returns the netlist after the last line."""
        if not self.has_begun or not self.has_ended:
            raise NetlistError(f"Line {last}: the file ends without `.begin` and `.end`.")
        garbage = self.header_signs(last, ".garbage", "-1")
        names = self.header_names(last, ".outputs")
        ends = {line: None if sign == "1" else name for line, name, sign in zip(self.variables, names, garbage)}
        kept = [name for name in ends.values() if name is not None]
        if len(set(kept)) != len(kept):
            raise NetlistError(f"Line {last}: an output is named twice.")
        return self.builder.finish_netlist(ends)


def read_real(text: str) -> ReversibleNetlist:
    """Returns the netlist of a `.real` file.

    Raises NetlistError at the first line that is wrong or that no bits can compute.
    """
    reader, last = RealReader(), 1
    for last, words in numbered_word_lines(text):
        reader.read_line(last, words)
    return reader.finish_netlist(last)
