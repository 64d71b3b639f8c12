"""What a netlist is: ports, nets, and nodes that are tables or simple cells."""

from dataclasses import dataclass, field
from enum import Enum

from ...host.terminal import LabError
from ...texts.limits import SECOND_LIMITS

# A circuit section takes 16,384 gates, and a gate makes at most three nodes of logic. More nets cannot be mapped.
MAX_NODES = 65_536
MAX_PORTS = SECOND_LIMITS.max_wires


class NetlistError(LabError):
    """A netlist that cannot be mapped. The message is a sentence for the user, and the command ends with status 1."""

    def __init__(self, message: str) -> None:
        super().__init__(message, 1)


class NetlistFormat(Enum):
    """The formats that are read."""

    BLIF = "blif"
    YOSYS_JSON = "json"
    REAL = "real"
    QASM = "qasm"
    PLA = "pla"
    AIGER = "aiger"
    GATES = "gates"


class CellType(Enum):
    """The simple cells of yosys, by their types. Inputs come in the order of `INPUT_PORTS`."""

    BUF = "$_BUF_"
    NOT = "$_NOT_"
    AND = "$_AND_"
    NAND = "$_NAND_"
    OR = "$_OR_"
    NOR = "$_NOR_"
    XOR = "$_XOR_"
    XNOR = "$_XNOR_"
    ANDNOT = "$_ANDNOT_"
    ORNOT = "$_ORNOT_"
    MUX = "$_MUX_"
    NMUX = "$_NMUX_"
    AOI3 = "$_AOI3_"
    OAI3 = "$_OAI3_"
    AOI4 = "$_AOI4_"
    OAI4 = "$_OAI4_"


INPUT_PORTS = {
    CellType.BUF: "A", CellType.NOT: "A", CellType.AND: "AB", CellType.NAND: "AB", CellType.OR: "AB",
    CellType.NOR: "AB", CellType.XOR: "AB", CellType.XNOR: "AB", CellType.ANDNOT: "AB", CellType.ORNOT: "AB",
    CellType.MUX: "ABS", CellType.NMUX: "ABS", CellType.AOI3: "ABC", CellType.OAI3: "ABC", CellType.AOI4: "ABCD",
    CellType.OAI4: "ABCD",
}


@dataclass(frozen=True)
class CellNode:
    """A simple cell that drives the net `output`."""

    output: str
    cell_type: CellType
    inputs: tuple[str, ...]


@dataclass(frozen=True)
class TableNode:
    """A table that drives the net `output`: it is `value` if and only if one of the rows fits the inputs.

    A row has one of `0`, `1` and `-` for each input. Without rows the output is the other value.
    """

    output: str
    inputs: tuple[str, ...]
    rows: tuple[str, ...]
    value: bool


Node = CellNode | TableNode


@dataclass(frozen=True)
class Latch:
    """A bit that is stored from one cycle to the next: the net that it drives, the net of its next value, and its first
    value if it has one.

    `clock_and_edge` is the net at whose edge the bit changes, with the word for the edge, or None for a clock that is
    not written.
    """

    name: str
    output: str
    data: str
    start: bool | None = None
    clock_and_edge: tuple[str, str] | None = None


@dataclass
class LogicNetlist:
    """A netlist. `outputs_with_nets` are pairs of a port's name and the net that drives it.

    Without latches it is combinational.
    """

    name: str
    inputs: list[str] = field(default_factory=list)
    outputs_with_nets: list[tuple[str, str]] = field(default_factory=list)
    nodes: dict[str, Node] = field(default_factory=dict)
    notes: list[str] = field(default_factory=list)
    latches: list[Latch] = field(default_factory=list)

    def add_latch(self, latch: Latch) -> None:
        """Adds a latch. Raises NetlistError if there are too many."""
        if len(self.latches) >= MAX_PORTS:
            raise NetlistError(f"The netlist has more than {MAX_PORTS} latches. A circuit has at most {MAX_PORTS} "
                               "wires.")
        self.latches.append(latch)

    def add_node(self, node: Node) -> None:
        """Adds a node. Raises NetlistError if its net is driven already, or if there are too many nodes."""
        if node.output in self.nodes:
            raise NetlistError(f"The net `{node.output}` has two drivers.")
        if len(self.nodes) >= MAX_NODES:
            raise NetlistError(f"The netlist has more than {MAX_NODES} nodes. A circuit has at most "
                               f"{SECOND_LIMITS.max_gates} gates.")
        self.nodes[node.output] = node

    def needed_nodes_in_order(self) -> list[Node]:
        """Returns the nodes on which the outputs depend, each after the nodes that drive its inputs.

        Raises NetlistError at a net without a driver and at a combinational loop.
        """
        known, open_nets, ordered = set(self.inputs), set[str](), list[Node]()
        todo = [(net, False) for _, net in reversed(self.outputs_with_nets)]
        while todo:
            net, is_leaving = todo.pop()
            if is_leaving:
                open_nets.discard(net)
                known.add(net)
                ordered.append(self.nodes[net])
            elif net in open_nets:
                raise NetlistError(f"The net `{net}` depends on itself. A circuit of conservative logic has no "
                                   "combinational loop.")
            elif net not in known:
                if net not in self.nodes:
                    raise NetlistError(f"Nothing drives the net `{net}`.")
                open_nets.add(net)
                todo.append((net, True))
                todo += [(name, False) for name in self.nodes[net].inputs if name not in known]
        return ordered
