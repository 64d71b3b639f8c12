"""Netlists of Boolean logic, of machines and of reversible gates: reads their formats, and maps them to circuits of
conservative logic.

Sources: Fredkin and Toffoli 1982 for the gates, and for constants and garbage; Berkeley Logic Interchange Format (1992)
for BLIF.
"""

import re
from dataclasses import dataclass
from typing import Any, Callable

from ...texts.circuits import Circuit
from ...texts.documents import read_document
from ...texts.gates import input_tables
from ...texts.sections import section_text_with_limits
from .aiger import read_aiger
from .blif import read_blif
from .circuit_text import NamedCircuit
from .comparing import verify_and_describe_scope, net_tables
from .exchanging import map_exchanges
from .gate_text import is_gate_text, read_gates
from .graph import MAX_TABLE_INPUTS, LogicGraph, graph_of_netlist, table_literal
from .model import LogicNetlist, NetlistError, NetlistFormat
from .pla import read_pla
from .qasm import read_qasm
from .real import read_real
from .reversible import ReversibleNetlist
from .search import map_graph
from .unrolling import unrolled_netlist
from .yosys_json import read_yosys_json

__all__ = ["MappedNetlist", "NetlistError", "NetlistFormat", "ReadingOptions", "circuit_text_from_netlist_text",
           "guessed_netlist_format", "map_netlist", "map_parsed_netlist", "read_netlist"]

MAX_NETLIST_BYTES = 16_777_216
# The most outputs of a netlist whose tables are tried.
MAX_OUTPUTS_MAPPED_BY_TABLE = 16
# How much of a text is looked at to find its format.
HEAD_CHARACTERS = 1_000_000
# Some editors put these bytes before a text; each is a character here.
BYTE_ORDER_MARK = "\xef\xbb\xbf"
AIGER_HEAD = re.compile(r"a[ai]g [0-9]+ [0-9]+ [0-9]+ [0-9]+ [0-9]+")
QASM_HEAD = re.compile(r"OPENQASM\b|include\s*\"|qreg\b|qubit\b|creg\b|gate\s+\w+\s*[\w(].*\{")
# A comment of OpenQASM at the beginning of a text.
LEADING_COMMENTS = re.compile(r"\A(?:\s|//[^\n]*\n|/\*.*?\*/)+", re.DOTALL)
READERS: dict[NetlistFormat, Callable[[str], LogicNetlist]] = {
    NetlistFormat.BLIF: read_blif, NetlistFormat.YOSYS_JSON: read_yosys_json, NetlistFormat.REAL: read_real,
    NetlistFormat.QASM: read_qasm,
    NetlistFormat.PLA: read_pla, NetlistFormat.AIGER: read_aiger, NetlistFormat.GATES: read_gates,
}


@dataclass(frozen=True)
class ReadingOptions:
    """How a netlist is read: its format, or None if its content says it, and how a machine becomes a circuit.

    A machine runs for some cycles, and None refuses it. Its state comes in and leaves by ports, or begins with its
    first values.
    """

    form: NetlistFormat | None = None
    cycles: int | None = None
    has_state_ports: bool = True

    @classmethod
    def from_options(cls, options: Any) -> "ReadingOptions":
        """Returns what the options `--from`, `--cycles` and `--state` of a command say."""
        given = getattr(options, "given", None)
        return cls(NetlistFormat(given) if given else None, getattr(options, "cycles", None),
                   getattr(options, "state", "ports") == "ports")


@dataclass(frozen=True)
class MappedNetlist:
    """The circuit of a netlist, its section as a text, and sentences on what the user should know of it."""

    text: str
    notes: list[str]
    circuit: Circuit


def guessed_netlist_format(text: str) -> NetlistFormat | None:
    """Returns the format of a netlist by its first characters and its lines, or None if the text is no netlist."""
    if is_gate_text(text):
        return NetlistFormat.GATES
    text = text[:HEAD_CHARACTERS].removeprefix(BYTE_ORDER_MARK)
    if text.lstrip().startswith("{"):
        return NetlistFormat.YOSYS_JSON
    if AIGER_HEAD.match(text):
        return NetlistFormat.AIGER
    first = first_line_without_comment(text)
    if QASM_HEAD.match(first):
        return NetlistFormat.QASM
    if not first.startswith("."):
        return None
    keywords = set(re.findall(r"^[ \t]*(\.[a-z]+)", text, re.MULTILINE))
    if keywords & {".numvars", ".variables", ".begin"}:
        return NetlistFormat.REAL
    return NetlistFormat.PLA if {".i", ".o"} <= keywords else NetlistFormat.BLIF


def first_line_without_comment(text: str) -> str:
    """Returns the first line with more than a comment, without spaces around it."""
    for line in LEADING_COMMENTS.sub(" ", text).split("\n"):
        words = line.split("#")[0].split("//")[0].strip()
        if words:
            return words
    return ""


def read_netlist(text: str, form: NetlistFormat | None = None) -> LogicNetlist:
    """Returns the netlist of a text, by its format or the one that the text seems to have.

    Raises NetlistError with a sentence for the user if the text is no netlist.
    """
    if len(text) > MAX_NETLIST_BYTES:
        raise NetlistError(f"The netlist is longer than {MAX_NETLIST_BYTES} bytes.")
    text = text.removeprefix(BYTE_ORDER_MARK)
    form = form or guessed_netlist_format(text)
    if form is None:
        raise NetlistError("The text is none of the netlists that are read: BLIF, the JSON of yosys, RevLib's .real, "
                           "OpenQASM, PLA, AIGER and gates.")
    return READERS[form](text)


def map_netlist(text: str, form: NetlistFormat | None = None,
                reading: ReadingOptions = ReadingOptions()) -> MappedNetlist:
    """Maps a netlist to a circuit section. Raises NetlistError if it has none within the limits of the formats."""
    return map_parsed_netlist(read_netlist(text, form or reading.form), reading)


def map_parsed_netlist(netlist: LogicNetlist, reading: ReadingOptions = ReadingOptions()) -> MappedNetlist:
    """Maps a netlist that was read, as `map_netlist` does."""
    netlist = unrolled_netlist(netlist, reading.cycles, reading.has_state_ports)
    if isinstance(netlist, ReversibleNetlist) and netlist.exchanges_if_all is not None:
        found = map_exchanges(netlist)
    else:
        found = cheapest_circuit(netlist)
    text = section_text_with_limits(found.circuit)
    document = read_document(text, "circuit")
    if document.circuit is None or document.refusal is not None:
        raise NetlistError(f"The mapped circuit is wrong: {document.refusal}.")
    scope = verify_and_describe_scope(netlist, document.circuit)
    notes = [*netlist.notes, *found.notes, f"The circuit has the outputs of the netlist in {scope}."]
    return MappedNetlist(text, notes, document.circuit)


def cheapest_circuit(netlist: LogicNetlist) -> NamedCircuit:
    """Returns the circuit of a netlist's gates, or that of the tables of its outputs if the netlist is small and the
    circuit is cheaper.

    Networks of reversible gates often make values that no output needs, so that their tables are simpler than they are.
    """
    found = map_graph(graph_of_netlist(netlist))
    if len(netlist.inputs) > MAX_TABLE_INPUTS or len(netlist.outputs_with_nets) > MAX_OUTPUTS_MAPPED_BY_TABLE:
        return found
    full = (1 << (1 << len(netlist.inputs))) - 1
    tables = net_tables(netlist, dict(zip(netlist.inputs, input_tables(len(netlist.inputs)))), full)
    graph = LogicGraph(netlist.inputs)
    literals = [2 * at + 2 for at in range(len(netlist.inputs))]
    graph.outputs = [(name, table_literal(graph, tables[net], literals)) for name, net in netlist.outputs_with_nets]
    if len(graph.needed_nodes()) > 2 * len(found.circuit.gates):
        return found
    return min(found, map_graph(graph), key=NamedCircuit.cost)


def circuit_text_from_netlist_text(text: str) -> str:
    """Returns the circuit section for a netlist. Raises NetlistError as `map_netlist` does."""
    return map_netlist(text).text
