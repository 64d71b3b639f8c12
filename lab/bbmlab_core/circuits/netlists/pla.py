"""Reads two-level logic in the PLA form of Berkeley's espresso."""

import re

from .model import MAX_PORTS, LogicNetlist, NetlistError, TableNode

COUNT_PATTERN = re.compile(r"[0-9]{1,9}\Z")
SKIPPED_KEYWORDS = {".p", ".phase", ".pair", ".mv"}
PLA_TYPES = {"f", "fd", "fr", "fdr"}


class PlaReader:
    """Reads the lines of a file."""

    def __init__(self) -> None:
        self.counts: dict[str, int] = {}
        self.names: dict[str, list[str]] = {}
        self.rows: list[tuple[str, str]] = []
        self.kind = "fd"

    def read_line(self, number: int, words: list[str]) -> None:
        """Reads one line."""
        keyword = words[0]
        if keyword in (".i", ".o"):
            if len(words) != 2 or not COUNT_PATTERN.match(words[1]) or int(words[1]) > MAX_PORTS:
                raise NetlistError(f"Line {number}: `{keyword}` takes a number, at most {MAX_PORTS}.")
            self.counts[keyword] = int(words[1])
        elif keyword in (".ilb", ".ob"):
            self.names[keyword] = words[1:]
        elif keyword == ".type":
            self.kind = words[1] if len(words) > 1 else ""
            if self.kind not in PLA_TYPES:
                raise NetlistError(f"Line {number}: a type is one of {', '.join(sorted(PLA_TYPES))}.")
        elif keyword.startswith("."):
            if keyword not in SKIPPED_KEYWORDS:
                raise NetlistError(f"Line {number}: `{keyword}` is no line of a PLA that is read.")
        else:
            self.read_row(number, "".join(words).replace("|", ""))

    def read_row(self, number: int, signs: str) -> None:
        """Reads a product and the outputs that it is in."""
        inputs, outputs = self.counts.get(".i", 0), self.counts.get(".o", 0)
        product, values = signs[:inputs].replace("2", "-"), signs[inputs:]
        if len(signs) != inputs + outputs or set(product) - set("01-") or set(values) - set("01-~2"):
            raise NetlistError(f"Line {number}: a row has {inputs} of `0`, `1` and `-`, and then {outputs} of `0`, "
                               "`1`, `-` and `~`.")
        self.rows.append((product, values))

    def finish_netlist(self) -> LogicNetlist:
        """Returns the netlist. An output that no row asks for is 0; values that do not matter are 0 too."""
        if ".i" not in self.counts or ".o" not in self.counts:
            raise NetlistError("A PLA has the lines `.i` and `.o`.")
        ins = self.names.get(".ilb") or [f"i{at}" for at in range(self.counts[".i"])]
        outs = self.names.get(".ob") or [f"o{at}" for at in range(self.counts[".o"])]
        if len(ins) != self.counts[".i"] or len(outs) != self.counts[".o"] or len(set(ins)) + len(set(outs)) != len(
            ins) + len(outs):
            raise NetlistError("`.ilb` and `.ob` name each input and each output once.")
        netlist = LogicNetlist("", inputs=ins)
        for at, name in enumerate(outs):
            rows = tuple(dict.fromkeys(product for product, values in self.rows if values[at] == "1"))
            netlist.add_node(TableNode(f" {name}", tuple(ins), rows, True))
            netlist.outputs_with_nets.append((name, f" {name}"))
        return netlist


def read_pla(text: str) -> LogicNetlist:
    """Returns the netlist of a PLA. Raises NetlistError at the first line that is wrong."""
    reader = PlaReader()
    for number, line in enumerate(text.split("\n"), 1):
        words = line.split("#")[0].split()
        if words and words[0] in (".e", ".end"):
            break
        if words:
            reader.read_line(number, words)
    return reader.finish_netlist()
