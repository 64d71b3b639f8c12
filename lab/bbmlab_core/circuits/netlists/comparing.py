"""Compares a netlist with the circuit to which it was mapped, by values of both under the same inputs."""

from ...texts.circuits import Circuit, evaluate_under_tables, sampled_tables
from ...texts.gates import input_tables
from .model import CellType, CellNode, LogicNetlist, NetlistError, TableNode

# Up to so many inputs all choices are tried, and above them so many samples.
MAX_EXHAUSTIVE_INPUTS = 16
SAMPLE_COUNT = 4096

TruthTable = int


def cell_table(cell: CellType, full: TruthTable, ins: list[TruthTable]) -> TruthTable:
    """Returns the table of a simple cell of yosys."""
    a, b, c, d = (ins + [0, 0, 0])[:4]
    values = {
        CellType.BUF: a, CellType.NOT: ~a, CellType.AND: a & b, CellType.NAND: ~(a & b), CellType.OR: a | b,
        CellType.NOR: ~(a | b),
        CellType.XOR: a ^ b, CellType.XNOR: ~(a ^ b),
        CellType.ANDNOT: a & ~b, CellType.ORNOT: a | ~b, CellType.MUX: c & b | ~c & a, CellType.NMUX: ~(c & b | ~c & a),
        CellType.AOI3: ~(a & b | c),
        CellType.OAI3: ~((a | b) & c), CellType.AOI4: ~(a & b | c & d), CellType.OAI4: ~((a | b) & (c | d)),
    }
    return values[cell] & full


def table_of_table_node(node: TableNode, full: TruthTable, ins: list[TruthTable]) -> TruthTable:
    """Returns the table of a node with rows."""
    fits = 0
    for row in node.rows:
        own = full
        for sign, table in zip(row, ins):
            own &= full if sign == "-" else table if sign == "1" else full & ~table
        fits |= own
    return fits if node.value else full & ~fits


def net_tables(netlist: LogicNetlist, tables: dict[str, TruthTable], full: TruthTable) -> dict[str, TruthTable]:
    """Returns the table of each net on which outputs depend, from those of the inputs."""
    found = dict(tables)
    for node in netlist.needed_nodes_in_order():
        ins = [found[net] for net in node.inputs]
        found[node.output] = (cell_table(node.cell_type, full, ins) if isinstance(node, CellNode)
                              else table_of_table_node(node, full, ins))
    return found


def verify_and_describe_scope(netlist: LogicNetlist, circuit: Circuit) -> str:
    """Returns in which inputs the circuit has the outputs of the netlist, in words.

    Raises NetlistError where it has others.
    """
    count = len(netlist.inputs)
    if count <= MAX_EXHAUSTIVE_INPUTS:
        full, scope = ((1 << (1 << count)) - 1, f"all {1 << count} choices of the inputs" if count
                       else "the one choice of the inputs")
        columns = dict(zip(netlist.inputs, input_tables(count)))
    else:
        full, scope = (1 << SAMPLE_COUNT) - 1, f"{SAMPLE_COUNT} samples of the {count} inputs"
        columns = sampled_tables(netlist.inputs, SAMPLE_COUNT)
    theirs = net_tables(netlist, columns, full)
    mine = {name: columns[net] for name, net in zip(circuit.inputs, netlist.inputs)}
    own = evaluate_under_tables(circuit, mine, full, range(len(circuit.gates)))
    for name, (port, net) in zip(circuit.outputs, netlist.outputs_with_nets):
        if own.defined_columns != full or own.tables[name] != theirs[net]:
            raise NetlistError(f"The mapped circuit is wrong: its output `{name}` is not always `{port}` of the "
                               "netlist. This is a fault of the lab.")
    return scope
