"""Unrolls a machine: the logic of its cycles, one after the other, as one combinational netlist."""

from dataclasses import replace

from .model import MAX_NODES, MAX_PORTS, CellNode, Latch, LogicNetlist, NetlistError, Node, TableNode


def unrolled_netlist(netlist: LogicNetlist, cycles: int | None, has_state_ports: bool) -> LogicNetlist:
    """Returns the logic of some cycles of a machine. A netlist without latches stays as it is, and takes no number of
    cycles.

    The input `d` of cycle T, from 0, is `d_T`, and so are outputs. The state of `q` comes in by `q_start`, or is the
    first value of `q`, and leaves by `q_end`. Raises NetlistError if a machine cannot be unrolled, or would be too
    large.
    """
    if not netlist.latches:
        if cycles is not None:
            raise NetlistError("The netlist stores no bit, so it has no cycles. Leave out --cycles.")
        return netlist
    if cycles is None:
        count = len(netlist.latches)
        raise NetlistError(f"The netlist stores {count} bit{'s' if count > 1 else ''}: say for how many cycles it "
                           "runs, such as --cycles 4.")
    require_distinct_latches(netlist)
    clock = clock_of(netlist)
    inputs = [name for name in netlist.inputs if name != clock] + [latch.output for latch in netlist.latches]
    outputs = netlist.outputs_with_nets + [(latch.name, latch.data) for latch in netlist.latches]
    core = replace(netlist, inputs=inputs, latches=[], outputs_with_nets=outputs)
    order = cycle_nodes(core, clock)
    if cycles * max(1, len(order), len(core.inputs), len(core.outputs_with_nets)) > MAX_NODES:
        raise NetlistError(f"{cycles} cycles of {len(order)} nodes of logic and {len(netlist.latches)} stored bits are "
                           "too many: all together "
                           f"have at most {MAX_NODES} nodes and {MAX_PORTS} ports.")
    return Unroller(replace(netlist, inputs=[name for name in netlist.inputs if name != clock]),
                    order).unroll_cycles(cycles, has_state_ports)


def cycle_nodes(core: LogicNetlist, clock: str | None) -> list[Node]:
    """Returns the nodes of one cycle in order. Raises NetlistError if the clock is used as a bit."""
    driven = next((name for name in core.inputs if name in core.nodes), None)
    if driven is not None:
        raise NetlistError(f"The net `{driven.strip()}` is driven by a latch or an input and by logic.")
    known = core if clock is None else replace(core, inputs=[*core.inputs, clock])
    order = known.needed_nodes_in_order()
    used = {name for node in order for name in node.inputs} | {net for _, net in core.outputs_with_nets}
    if clock is not None and clock in used:
        raise NetlistError(f"The clock `{clock}` is also used as a bit, which it is not in an unrolled machine.")
    return order


def require_distinct_latches(netlist: LogicNetlist) -> None:
    """Raises NetlistError if two stored bits have one name or one net."""
    for kind, names in (("name", [latch.name for latch in netlist.latches]),
                        ("net", [latch.output for latch in netlist.latches])):
        seen: set[str] = set()
        for name in names:
            if name in seen:
                raise NetlistError(f"Two stored bits have the {kind} `{name.strip()}`.")
            seen.add(name)


def clock_of(netlist: LogicNetlist) -> str | None:
    """Returns the input that is the clock of all latches, or None if it is not written.

    Raises NetlistError if there are two clocks or edges, or if the clock is made by logic.
    """
    clocks = {latch.clock_and_edge: latch for latch in netlist.latches}
    if len(clocks) > 1:
        one, other = list(clocks.values())[:2]
        raise NetlistError(f"The stored bits `{one.name}` and `{other.name}` have different clocks or edges. One edge "
                           "of one clock is read.")
    [(clock, latch)] = clocks.items()
    if clock is None:
        return None
    net, passed, stored = clock[0], set[str](), {latch.output for latch in netlist.latches}
    while net in netlist.nodes or net in stored:
        node = netlist.nodes.get(net)
        if net in passed or not (isinstance(node, TableNode) and node.rows == ("1",) and node.value):
            raise NetlistError(f"Logic makes the clock of `{latch.name}`. The clock of a machine that is unrolled is "
                               "an input.")
        passed.add(net)
        net = node.inputs[0]
    return net


class Unroller:
    """Adds one cycle after the other."""

    def __init__(self, netlist: LogicNetlist, order: list[Node]) -> None:
        self.netlist, self.order = netlist, order
        self.result = LogicNetlist(netlist.name, notes=list(netlist.notes))

    def unroll_cycles(self, cycles: int, has_state_ports: bool) -> LogicNetlist:
        """Returns the netlist of all cycles."""
        state = {latch.output: self.add_first_value(latch, has_state_ports) for latch in self.netlist.latches}
        for cycle in range(cycles):
            state = self.add_cycle(cycle, state)
        self.result.outputs_with_nets += [(f"{latch.name}_end", state[latch.output]) for latch in self.netlist.latches]
        begins = "comes in by `NAME_start`" if has_state_ports else "begins with its first values"
        self.result.notes.append(f"The machine runs for {cycles} cycle{'s' if cycles > 1 else ''}. Its state {begins} "
                                 "and leaves by `NAME_end`.")
        return self.result

    def add_first_value(self, latch: Latch, has_state_ports: bool) -> str:
        """Returns the net of the first value of a latch: an input, or a constant."""
        net = f"{latch.name}_start"
        if has_state_ports:
            self.result.inputs.append(net)
            return net
        if latch.start is None:
            raise NetlistError(
                f"The stored bit `{latch.name}` has no first value: use `--state ports`, or give it one.")
        self.result.add_node(TableNode(net, (), ("",) if latch.start else (), True))
        return net

    def add_cycle(self, cycle: int, state: dict[str, str]) -> dict[str, str]:
        """Adds a cycle, and returns the nets of the state after it."""
        nets = dict(state)
        for name in self.netlist.inputs:
            nets[name] = f"{name}_{cycle}"
            self.result.inputs.append(nets[name])
        for node in self.order:
            nets[node.output] = f" {cycle} {node.output}"
            ins = tuple(nets[name] for name in node.inputs)
            if isinstance(node, CellNode):
                self.result.add_node(CellNode(nets[node.output], node.cell_type, ins))
            else:
                self.result.add_node(TableNode(nets[node.output], ins, node.rows, node.value))
        self.result.outputs_with_nets += [(f"{name}_{cycle}", nets[net]) for name,
                                          net in self.netlist.outputs_with_nets]
        return {latch.output: nets[latch.data] for latch in self.netlist.latches}
