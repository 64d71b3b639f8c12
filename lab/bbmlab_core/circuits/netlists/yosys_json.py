"""Reads the JSON that `write_json` of yosys makes, of a flat module with simple cells, tables and flip-flops."""

import json
import re
from dataclasses import replace
from typing import Any

from .model import MAX_PORTS, INPUT_PORTS, CellType, CellNode, Latch, LogicNetlist, NetlistError, TableNode

MAX_LUT_WIDTH = 8
SIMPLE_CELLS = {cell.value: cell for cell in CellType}
STORING_CELL_PREFIXES = ("$_DFF", "$_SDFF", "$_ALDFF", "$_DLATCH", "$_SR", "$_FF_", "$dff", "$adff", "$sdff", "$dlatch",
                         "$mem", "$ff", "$aldff")
# A flip-flop by its clock, with or without an enable or a reset at the edge of the clock: whether the enable comes
# before the reset, and the polarities of clock, reset and enable, with the value of the reset.
FLIP_FLOP_TYPE = re.compile(
    r"\$_(?:FF_|DFF_(?P<c1>[NP])_|DFFE_(?P<c2>[NP])(?P<e2>[NP])_|SDFF_(?P<c3>[NP])(?P<r3>[NP])(?P<v3>[01])_"
                            r"|SDFF(?P<first>C?)E_(?P<c4>[NP])(?P<r4>[NP])(?P<v4>[01])(?P<e4>[NP])_)\Z")
ASYNCHRONOUS_CELL_TYPE = re.compile(r"\$_DFFE?_[NP][NP][01][NP]?_\Z|\$_ALDFF|\$_DFFSR|\$al?dff")
FLATTENING_ADVICE = "Make a flat netlist of simple cells with `synth -flatten; abc -g AND,XOR,MUX` in yosys."


def require_member(value: Any, name: str, kind: type, where: str) -> Any:
    """Returns a member of a JSON object, if it is there and of its kind."""
    found = value.get(name) if isinstance(value, dict) else None
    if not isinstance(found, kind):
        raise NetlistError(f"The JSON of yosys has no member `{name}` in {where}, or it is of another kind.")
    return found


def top_module(document: Any) -> tuple[str, Any]:
    """Returns the name and the object of the top module: the one with the attribute `top`, or the only one."""
    modules = require_member(document, "modules", dict, "the document")
    tops = [name for name, module in modules.items() if isinstance(module, dict)
            and has_top_attribute(module.get("attributes"))]
    names = tops or list(modules)
    if len(names) != 1:
        raise NetlistError(f"The JSON has {len(names)} modules and no single top module. Flatten the design, and keep "
                           "its top alone.")
    return names[0], modules[names[0]]


def has_top_attribute(attributes: Any) -> bool:
    """Whether the attributes of a module say that it is the top."""
    value = attributes.get("top", 0) if isinstance(attributes, dict) else 0
    return bool(value.strip("0")) if isinstance(value, str) else bool(value)


class ModuleReader:
    """Reads the ports and the cells of a module."""

    def __init__(self, name: str, module: Any) -> None:
        self.netlist, self.module = LogicNetlist(name), module
        self.made = 0

    def ensure_net(self, bit: Any, where: str) -> str:
        """Returns the name of the net of a bit: a number, or a constant of one character."""
        if isinstance(bit, int) and not isinstance(bit, bool):
            return f"net {bit}"
        if bit not in ("0", "1", "x"):
            raise NetlistError(f"{where} is connected to {bit!r}. A bit is the number of a net, `0`, `1` or `x`.")
        if bit == "x":
            note = "Undefined bits (`x`) of the netlist are 0 in the circuit."
            self.netlist.notes += [] if note in self.netlist.notes else [note]
        net = f"constant {bit}"
        if net not in self.netlist.nodes:
            self.netlist.add_node(TableNode(net, (), ("",) if bit == "1" else (), True))
        return net

    def read_ports(self) -> None:
        """Reads the ports. A bit of a port with more bits gets the port's name and its number."""
        ports = require_member(self.module, "ports", dict, f"the module `{self.netlist.name}`")
        for name, port in ports.items():
            direction = require_member(port, "direction", str, f"the port `{name}`")
            bits = require_member(port, "bits", list, f"the port `{name}`")
            if direction not in ("input", "output"):
                raise NetlistError(f"The port `{name}` is `{direction}`. A port of a circuit is an input or an output.")
            if len(bits) > MAX_PORTS:
                raise NetlistError(f"The port `{name}` has {len(bits)} bits. A circuit has at most {MAX_PORTS} wires.")
            for position, bit in enumerate(bits):
                named = name if len(bits) == 1 else f"{name}[{verilog_index(port, position, len(bits))}]"
                net = self.ensure_net(bit, f"The port `{named}`")
                if direction == "input":
                    self.add_input(named, net)
                else:
                    self.netlist.outputs_with_nets.append((named, net))

    def add_input(self, name: str, net: str) -> None:
        """Adds an input port: a net of its own name, which drives the net with the number."""
        if name in self.netlist.inputs:
            raise NetlistError(f"The input `{name}` is named twice.")
        self.netlist.inputs.append(name)
        self.netlist.add_node(TableNode(net, (name,), ("1",), True))

    def read_cells(self) -> None:
        """Reads the cells."""
        for name, cell in require_member(self.module, "cells", dict, f"the module `{self.netlist.name}`").items():
            kind = require_member(cell, "type", str, f"the cell `{name}`")
            if kind in SIMPLE_CELLS:
                simple = SIMPLE_CELLS[kind]
                inputs = tuple(self.port_nets(cell, name, port, 1)[0] for port in INPUT_PORTS[simple])
                self.netlist.add_node(CellNode(self.port_nets(cell, name, "Y", 1)[0], simple, inputs))
            elif kind == "$lut":
                self.read_lut(name, cell)
            elif (found := FLIP_FLOP_TYPE.match(kind)) is not None:
                self.read_flip_flop(name, cell,
                                    {key[0]: sign for key, sign in found.groupdict().items() if sign is not None})
            elif ASYNCHRONOUS_CELL_TYPE.match(kind):
                raise NetlistError(f"The cell `{name}` is `{kind}`, which is set without its clock. Use `async2sync` "
                                   "in yosys before `synth`.")
            elif kind.startswith(STORING_CELL_PREFIXES):
                raise NetlistError(f"The cell `{name}` is `{kind}`, which stores a bit and is no simple flip-flop such "
                                   f"as `$_DFF_P_`. {FLATTENING_ADVICE}")
            elif kind != "$scopeinfo":
                raise NetlistError(f"The cell `{name}` is `{kind}`, which is no simple cell. {FLATTENING_ADVICE}")

    def set_latch_names_and_starts(self) -> None:
        """Gives each flip-flop the name and the first value of the net that it drives. Names that yosys made come last.
        """
        nets, latches = self.module.get("netnames", {}), self.netlist.latches
        if not isinstance(nets, dict) or not latches:
            return
        stored, names = {latch.output for latch in latches}, dict[str, tuple[str, bool | None]]()
        for name, net in sorted(nets.items(), key=lambda own: isinstance(own[1], dict)
                                and bool(own[1].get("hide_name"))):
            bits = net.get("bits") if isinstance(net, dict) else None
            if not isinstance(bits, list):
                continue
            attributes = net.get("attributes")
            init = attributes.get("init", "") if isinstance(attributes, dict) else ""
            signs = init[::-1] if isinstance(init, str) else ""
            for position, wire in ((position, f"net {bit}") for position, bit in enumerate(bits)
                                   if isinstance(bit, int) and f"net {bit}" in stored):
                own = name if len(bits) == 1 else f"{name}[{verilog_index(net, position, len(bits))}]"
                before = names.get(wire, (own, None))
                names[wire] = before[0], {"0": False, "1": True}.get(signs[position:position + 1], before[1])
        found = ((latch, *names.get(latch.output, (latch.name, None))) for latch in latches)
        self.netlist.latches = sorted((replace(latch, name=name, start=start) for latch, name, start in found),
                                      key=lambda latch: natural_key(latch.name))

    def add_cell(self, cell: CellType, *inputs: str) -> str:
        """Returns the net of a new cell."""
        self.made += 1
        self.netlist.add_node(CellNode(f"made {self.made}", cell, inputs))
        return f"made {self.made}"

    def read_flip_flop(self, name: str, cell: Any, signs: dict[str, str]) -> None:
        """Reads a flip-flop.

        An enable keeps the bit or takes the new one, and a reset takes its value, both at the edge of the clock.
        """
        output, data = self.port_nets(cell, name, "Q", 1)[0], self.port_nets(cell, name, "D", 1)[0]
        chosen: list[tuple[str, bool, str]] = []
        if "r" in signs:
            chosen.append((self.port_nets(cell, name, "R", 1)[0], signs["r"] == "P", self.ensure_net(signs["v"], name)))
        if "e" in signs:
            # Without the enable the flip-flop keeps its bit.
            chosen.append((self.port_nets(cell, name, "E", 1)[0], signs["e"] == "N", output))
        # The choice that comes last in the list of cells is the first one to be made: a reset, unless the enable comes
        # before it.
        for select, is_high, value in chosen if signs.get("f") else chosen[::-1]:
            data = self.add_cell(CellType.MUX, *((data, value) if is_high else (value, data)), select)
        clock = (self.port_nets(cell, name, "C", 1)[0], "rising edge" if signs["c"] == "P"
                 else "falling edge") if "c" in signs else None
        self.netlist.add_latch(Latch(name, output, data, None, clock))

    def port_nets(self, cell: Any, name: str, port: str, width: int) -> list[str]:
        """Returns the nets of a cell's port, which has `width` bits."""
        bits = require_member(require_member(cell, "connections", dict, f"the cell `{name}`"), port, list,
                              f"the connections of `{name}`")
        if len(bits) != width:
            raise NetlistError(f"The port `{port}` of the cell `{name}` has {len(bits)} bits in place of {width}.")
        return [self.ensure_net(bit, f"The port `{port}` of the cell `{name}`") for bit in bits]

    def read_lut(self, name: str, cell: Any) -> None:
        """Reads a cell `$lut`: bit I of the parameter LUT is the output at the inputs that make the number I."""
        parameters = require_member(cell, "parameters", dict, f"the cell `{name}`")
        try:
            width, table = parameter_number(parameters["WIDTH"]), parameter_number(parameters["LUT"])
            bits = parameters["LUT"] if isinstance(parameters["LUT"], str) else f"{table:b}"
        except (KeyError, TypeError, ValueError) as error:
            raise NetlistError(f"The cell `{name}` needs the numbers WIDTH and LUT.") from error
        if not 0 <= width <= MAX_LUT_WIDTH:
            raise NetlistError(f"The table of the cell `{name}` has {width} inputs. At most {MAX_LUT_WIDTH} are read.")
        if table < 0 or len(bits) > 1 << width or isinstance(parameters["LUT"], str) and len(bits) != 1 << width:
            raise NetlistError(f"The table of the cell `{name}` has {len(bits)} bits, and {width} inputs make "
                               f"{1 << width}.")
        rows = tuple(f"{index:0{width}b}"[::-1] if width else "" for index in range(1 << width) if table >> index & 1)
        self.netlist.add_node(TableNode(self.port_nets(cell, name, "Y", 1)[0],
                                        tuple(self.port_nets(cell, name, "A", width)), rows, True))


def verilog_index(port: Any, position: int, width: int) -> int:
    """Returns the index that Verilog has for a bit of a port: bits come from the lowest, whose index is the last one of
    `[0:3]`."""
    offset = port.get("offset", 0)
    return (offset if isinstance(offset, int) else 0) + (width - 1 - position if port.get("upto") else position)


def natural_key(name: str) -> list[tuple[int, str]]:
    """Returns a key that sorts `q[2]` before `q[10]`."""
    return [(int(digits or 0), rest) for digits, rest in re.findall(r"([0-9]{0,9})([^0-9]*)", name)]


def parameter_number(value: Any) -> int:
    """Returns the number of a parameter, which yosys writes as a number or as bits. An undefined bit is 0."""
    if isinstance(value, int):
        return value
    if not isinstance(value, str):
        raise TypeError("a parameter is a number or bits")
    return int(value.replace("x", "0"), 2)


def read_yosys_json(text: str) -> LogicNetlist:
    """Returns the netlist of a JSON document of yosys.

    Raises NetlistError if it is none, or has more than simple cells.
    """
    try:
        document = json.loads(text)
    except (ValueError, RecursionError) as error:
        raise NetlistError(f"The text is not JSON: {error}.") from error
    reader = ModuleReader(*top_module(document))
    reader.read_ports()
    reader.read_cells()
    reader.set_latch_names_and_starts()
    return reader.netlist
