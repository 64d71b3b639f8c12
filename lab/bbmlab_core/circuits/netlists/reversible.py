"""Circuits of reversible gates on lines: each gate changes the values of some lines, and the others keep theirs.

Sources: Toffoli 1980 and Fredkin and Toffoli 1982 for the gates; Peres 1985 for the gate of his name.
"""

from dataclasses import dataclass, field

from .model import MAX_NODES, CellType, CellNode, LogicNetlist, NetlistError, TableNode

# A control: a line, and the value at which it lets the gate act.
Control = tuple[str, bool]


@dataclass(frozen=True)
class Exchange:
    """Two lines that change places if a third one is true, or always."""

    control: str | None
    first: str
    second: str


@dataclass
class ReversibleNetlist(LogicNetlist):
    """A netlist that was made of gates on lines.

    `exchanges_if_all` has them if all only exchange lines, which is conservative.
    """

    lines: list[str] = field(default_factory=list)
    constants: dict[str, bool] = field(default_factory=dict)
    # The name of each line's output, or None for garbage.
    output_names: dict[str, str | None] = field(default_factory=dict)
    exchanges_if_all: list[Exchange] | None = field(default_factory=list[Exchange])


class ReversibleNetlistBuilder:
    """Adds gates to lines. A line's net is that of its value after the gates so far."""

    def __init__(self, name: str = "") -> None:
        self.netlist = ReversibleNetlist(name)
        self.nets: dict[str, str] = {}
        self.made = 0

    def fresh_net(self) -> str:
        """Returns the name of a new net, which no line can have."""
        self.made += 1
        if self.made > MAX_NODES:
            raise NetlistError(f"The gates need more than {MAX_NODES} nodes of logic.")
        return f" {self.made}"

    def add_input(self, line: str, name: str) -> None:
        """Adds a line with the value of an input."""
        self.netlist.lines.append(line)
        self.netlist.inputs.append(name)
        self.nets[line] = name

    def add_constant(self, line: str, bit: bool) -> None:
        """Adds a line that begins with a constant."""
        net = self.fresh_net()
        self.netlist.add_node(TableNode(net, (), ("",) if bit else (), True))
        self.netlist.lines.append(line)
        self.netlist.constants[line] = bit
        self.nets[line] = net

    def add_cell(self, cell: CellType, *inputs: str) -> str:
        """Adds a cell, and returns its net."""
        net = self.fresh_net()
        self.netlist.add_node(CellNode(net, cell, inputs))
        return net

    def add_condition(self, controls: list[Control]) -> str | None:
        """Returns the net that is true if all controls have their values, or None if there are no controls."""
        found: str | None = None
        for line, value in controls:
            own = self.nets[line]
            if found is None:
                found = own if value else self.add_cell(CellType.NOT, own)
            else:
                found = self.add_cell(CellType.AND if value else CellType.ANDNOT, found, own)
        return found

    def add_not(self, controls: list[Control], target: str) -> None:
        """Adds a NOT of a line, if all controls have their values."""
        self.netlist.exchanges_if_all = None
        own, condition = self.nets[target], self.add_condition(controls)
        self.nets[target] = (self.add_cell(CellType.NOT, own) if condition is None
                             else self.add_cell(CellType.XOR, own, condition))

    def add_swap(self, controls: list[Control], first: str, second: str) -> None:
        """Exchanges two lines, if all controls have their values."""
        exchanges = self.netlist.exchanges_if_all
        if len(controls) > 1 or not all(value for _, value in controls):
            self.netlist.exchanges_if_all = None
        elif exchanges is not None:
            exchanges.append(Exchange(controls[0][0] if controls else None, first, second))
        condition, one, other = self.add_condition(controls), self.nets[first], self.nets[second]
        if condition is None:
            self.nets[first], self.nets[second] = other, one
        else:
            self.nets[first] = self.add_cell(CellType.MUX, one, other, condition)
            self.nets[second] = self.add_cell(CellType.MUX, other, one, condition)

    def finish_netlist(self, ends: dict[str, str | None]) -> ReversibleNetlist:
        """Returns the netlist. `ends` has the name of each line's output, or None for garbage."""
        self.netlist.output_names = ends
        self.netlist.outputs_with_nets = [(name, self.nets[line]) for line, name in ends.items() if name is not None]
        return self.netlist


def require_distinct_lines(number: int, lines: list[str]) -> None:
    """Raises NetlistError if a gate names a line twice."""
    twice = next((line for at, line in enumerate(lines) if line in lines[:at]), None)
    if twice is not None:
        raise NetlistError(f"Line {number}: the gate names `{twice}` twice.")
