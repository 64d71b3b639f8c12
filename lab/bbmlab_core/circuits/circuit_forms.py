"""A circuit in the forms of other tools: BLIF, Verilog, and the graph language of dot."""

from typing import Iterator

from ..texts.circuits import Circuit, Gate

# For each output of a gate the rows of its table, in the order of the inputs. An inverse gate has what it has where it
# has a row.
OUTPUT_ROWS: dict[str, list[list[str]]] = {
    "fredkin": [["1--"], ["11-", "0-1"], ["1-1", "01-"]], "cswap": [["1--"], ["1-1", "01-"], ["11-", "0-1"]],
    "interact": [["11"], ["01"], ["10"], ["11"]], "switch": [["1-"], ["11"], ["01"]], "delay": [["1"]],
    "unswitch": [["1--"], ["-1-", "--1"]], "uninteract": [["1---", "--1-"], ["1---", "-1--"]],
}
# Words of Verilog that a wire of a circuit may be called.
VERILOG_KEYWORDS = set("""always and assign begin buf case deassign default defparam disable edge else end endcase
endfunction endmodule event for force forever fork function if initial inout input integer join module nand negedge nor
not or output parameter posedge primitive real reg release repeat supply0 supply1 table task time tri wait wand while
wire wor xnor xor""".split())


def output_rows(gate: Gate) -> Iterator[tuple[str, list[str]]]:
    """Yields each output of a gate with the rows of its table."""
    if gate.kind == "source":
        yield gate.outs[0], [""] if gate.parameter else []
    else:
        yield from zip(gate.outs, OUTPUT_ROWS[gate.kind])


def blif_text(circuit: Circuit) -> str:
    """Returns the circuit in BLIF: a table for each wire."""
    lines = [".model circuit", " ".join([".inputs", *circuit.inputs]), " ".join([".outputs", *circuit.outputs])]
    for gate in circuit.gates:
        for name, rows in output_rows(gate):
            lines.append(" ".join([".names", *gate.ins, name]))
            lines += [f"{row} 1".strip() for row in rows]
    return "\n".join([*lines, ".end", ""])


def verilog_name(name: str) -> str:
    """Returns the name of a wire in Verilog: one of its reserved words is escaped."""
    return f"\\{name} " if name in VERILOG_KEYWORDS else name


def verilog_expression(gate: Gate, rows: list[str]) -> str:
    """Returns the expression of a table's rows."""
    products = []
    for row in rows:
        factors = [f"{'' if sign == '1' else '~'}{verilog_name(name)}" for sign,
                   name in zip(row, gate.ins) if sign != "-"]
        products.append(" & ".join(factors) or "1'b1")
    return " | ".join(f"({product})" if " " in product and len(products) > 1 else product
                      for product in products) or "1'b0"


def verilog_text(circuit: Circuit) -> str:
    """Returns the circuit as a module of Verilog with an assignment for each wire.

    An output that is an input gets a name of its own, with `_out` at its end.
    """
    outs, ends, taken = [], [], set(circuit.wires)
    for name in circuit.outputs:
        own = name
        while own in circuit.inputs or own != name and own in taken:
            own += "_out"
        taken.add(own)
        outs.append(verilog_name(own))
        if own != name:
            ends.append(f"  assign {verilog_name(own)} = {verilog_name(name)};")
    lines = [f"module circuit({', '.join([verilog_name(name) for name in circuit.inputs] + outs)});"]
    lines += [f"  input {verilog_name(name)};" for name in circuit.inputs] + [f"  output {name};" for name in outs]
    wires = [name for gate in circuit.gates for name in gate.outs if name not in circuit.outputs]
    lines += [f"  wire {verilog_name(name)};" for name in wires]
    lines += [f"  assign {verilog_name(name)} = {verilog_expression(gate, rows)};" for gate in circuit.gates for name,
              rows in output_rows(gate)]
    return "\n".join([*lines, *ends, "endmodule", ""])


def dot_text(circuit: Circuit) -> str:
    """Returns the circuit as a graph for dot: its gates as boxes, and its wires as arrows with their names."""
    lines = ["digraph circuit {", "  rankdir=LR;", "  node [shape=box];"]
    ends: dict[str, str] = {}
    for kind, names in (("input", circuit.inputs), ("output", circuit.outputs), ("spill", circuit.spills)):
        lines += [f'  "{kind} {name}" [shape=plain];' for name in names]
        if kind != "input":
            ends.update((name, f"{kind} {name}") for name in names)
    starts = {name: f"input {name}" for name in circuit.inputs}
    for gate in circuit.gates:
        number = f" {gate.parameter}" if gate.parameter is not None else ""
        lines.append(f'  "gate {gate.number}" [label="{gate.kind}{number}"];')
        starts.update((name, f"gate {gate.number}") for name in gate.outs)
        ends.update((name, f"gate {gate.number}") for name in gate.ins)
    lines += [f'  "{starts[name]}" -> "{ends[name]}" [label="{name}"];' for name in circuit.wires if name in ends]
    return "\n".join([*lines, "}", ""])
