"""The certificate section: its values and its reader."""

from dataclasses import dataclass, field, replace
from functools import cached_property, partial
from operator import attrgetter
from typing import Any, Iterable, Iterator, NamedTuple, Sequence

from .circuits import Circuit
from .layouts import Box, Cell, Layout, LayoutPart
from .lines import LineForm, SectionReader, TextLines, forms_by_keyword, later_kinds
from .owners import NOBODY, BlockOwners

MAX_BOX_SIDE = 64
MAX_CUTS = 12
MAX_USES = 64
MAX_BORDER_LINES = 65_536
PORT_TILE_SIDE = 16
KIND_ORDER = ["cut", "use", "keep", "edge", "halo", "stop"]
LATER_KINDS = later_kinds(KIND_ORDER)


class Border(NamedTuple):
    """An `edge` or a `halo` line. The time None is `*`: all odd times below the steps."""

    time: int | None
    x: int
    y: int
    signal: str

    @property
    def cell(self) -> Cell:
        """The cell of the line."""
        return self.x, self.y

    @property
    def order_key(self) -> tuple[int, int, int]:
        """The key by which lines of a kind rise."""
        return -1 if self.time is None else self.time, self.y, self.x


class Stop(NamedTuple):
    """A `stop` line."""

    time: int
    name: str
    x: int
    y: int

    @property
    def cell(self) -> Cell:
        """The cell of the line."""
        return self.x, self.y

    @property
    def order_key(self) -> tuple[int, int, int]:
        """The key by which stops rise."""
        return self.time, self.y, self.x


def border_or_stop_text(kind: str, line: Border | Stop) -> str:
    """Writes an `edge`, a `halo` or a `stop` line."""
    if isinstance(line, Stop):
        return f"stop {line.time} {line.name} {line.x} {line.y}"
    return f"{kind} {'*' if line.time is None else line.time} {line.x} {line.y} {line.signal}"


def sorted_borders(lines: Iterable[Border]) -> tuple[Border, ...]:
    """Returns `edge` or `halo` lines in the order of the formats: those with `*` first, then by time, y and x."""
    return tuple(sorted(lines, key=attrgetter("order_key")))


@dataclass(frozen=True, slots=True)
class Module:
    """A module of a certificate. Its builders put each line where the formats want it.

    `number` is its place in its certificate, and `line` that in the text from which it was read, or 0.
    """

    box: Box
    cuts: tuple[str, ...] = ()
    uses: tuple[int, ...] = ()
    keeps: tuple[int, ...] = ()
    edges: tuple[Border, ...] = ()
    halos: tuple[Border, ...] = ()
    stops: tuple[Stop, ...] = ()
    number: int = field(default=0, compare=False, repr=False)
    line: int = field(default=0, compare=False, repr=False)

    def cut(self, *names: str) -> "Module":
        """Returns the module with more cuts."""
        return replace(self, cuts=(*self.cuts, *names))

    def use(self, *gates: int) -> "Module":
        """Returns the module with more gates that it uses."""
        return replace(self, uses=tuple(sorted((*self.uses, *gates))))

    def keep(self, *gates: int) -> "Module":
        """Returns the module with more gates that it keeps."""
        return replace(self, keeps=tuple(sorted((*self.keeps, *gates))))

    def edge(self, time: int | None, x: int, y: int, signal: str) -> "Module":
        """Returns the module with one more `edge` line."""
        return replace(self, edges=sorted_borders((*self.edges, Border(time, x, y, signal))))

    def halo(self, time: int | None, x: int, y: int, signal: str) -> "Module":
        """Returns the module with one more `halo` line."""
        return replace(self, halos=sorted_borders((*self.halos, Border(time, x, y, signal))))

    def stop(self, time: int, name: str, x: int, y: int) -> "Module":
        """Returns the module with one more `stop` line."""
        return replace(self, stops=tuple(sorted((*self.stops, Stop(time, name, x, y)), key=attrgetter("order_key"))))

    def __str__(self) -> str:
        """Writes the module's lines."""
        lines = [f"module {self.box.numbers_text}", *(f"cut {name}" for name in self.cuts),
                 *(f"use {gate}" for gate in self.uses), *(f"keep {gate}" for gate in self.keeps),
                 *(border_or_stop_text("edge", line) for line in self.edges),
                 *(border_or_stop_text("halo", line) for line in self.halos),
                 *(border_or_stop_text("stop", line) for line in self.stops)]
        return "\n".join(lines) + "\n"

    def border_lines(self, kind: str) -> tuple[Border, ...]:
        """Returns the lines of a kind, `edge` or `halo`."""
        return self.edges if kind == "edge" else self.halos

    def line_at(self, kind: str, time: int, cell: Cell) -> Border | None:
        """Returns the line of a kind that speaks of the cell at an odd time."""
        return next((line for line in self.border_lines(kind) if line.cell == cell and line.time in (None, time)), None)

    def numbered_lines(self, kind: str) -> Iterator[tuple[int, Any]]:
        """Yields the lines of a kind, each after its place in the text from which the module was read."""
        lists = (self.cuts, self.uses, self.keeps, self.edges, self.halos, self.stops)
        rank = KIND_ORDER.index(kind)
        return enumerate(lists[rank], self.line + 1 + sum(map(len, lists[:rank])))

    def line_number(self, kind: str, line: Border | Stop | int) -> int:
        """Returns where a line of a kind is in that text. A gate stands for its line."""
        return next(number for number, other in self.numbered_lines(kind) if other == line)

    def cut_values(self, assignment: int) -> dict[str, int]:
        """Returns the value of each cut under an assignment."""
        return {name: assignment >> index & 1 for index, name in enumerate(self.cuts)}


def local_wires(circuit: Circuit, module: "Module | ModuleDraft") -> dict[str, None]:
    """Returns the wires that a module knows, as a set in order: its cuts, and the outputs of the gates that it uses."""
    return dict.fromkeys([*module.cuts, *(name for number in module.uses for name in circuit.gates[number].outs)])


def whole_module(circuit: Circuit, layout: Layout) -> Module:
    """Returns a module for the whole layout that cuts all inputs, uses all gates and keeps all inverse ones."""
    keeps = tuple(gate.number for gate in circuit.gates if gate.is_inverse)
    return Module(Box(0, 0, layout.width, layout.height), circuit.inputs, tuple(range(len(circuit.gates))), keeps)


@dataclass
class ModuleDraft:
    """A module whose lines are still being found."""

    box: Box
    number: int = 0
    line: int = 0
    cuts: list[str] = field(default_factory=list)
    uses: list[int] = field(default_factory=list)
    keeps: list[int] = field(default_factory=list)
    edges: list[Border] = field(default_factory=list)
    halos: list[Border] = field(default_factory=list)
    stops: list[Stop] = field(default_factory=list)

    def finished_module(self) -> Module:
        """Returns the module with the lines that were found."""
        return Module(self.box, tuple(self.cuts), tuple(self.uses), tuple(self.keeps), tuple(self.edges),
                      tuple(self.halos), tuple(self.stops), self.number, self.line)


@dataclass(frozen=True)
class Certificate:
    """A certificate section."""

    version: int = 2
    modules: tuple[Module, ...] = ()

    def __post_init__(self) -> None:
        """Numbers the modules."""
        if any(module.number != number for number, module in enumerate(self.modules)):
            numbered = tuple(replace(module, number=number) for number, module in enumerate(self.modules))
            object.__setattr__(self, "modules", numbered)

    def module(self, *modules: Module) -> "Certificate":
        """Returns the certificate with more modules."""
        return replace(self, modules=(*self.modules, *modules))

    def __str__(self) -> str:
        """Writes the section."""
        return f"certificate {self.version}\n{''.join(map(str, self.modules))}end\n"

    @cached_property
    def owners(self) -> BlockOwners:
        """Which module owns each block."""
        boxes = [module.box for module in self.modules]
        owners = BlockOwners(max((box.x + box.width for box in boxes), default=0),
                             max((box.y + box.height for box in boxes), default=0))
        for number, box in enumerate(boxes):
            owners.give_blocks_if_free(box, number)
        return owners

    def owner(self, cell: Cell) -> Module | None:
        """Returns the module that has the cell."""
        number = self.owners.owner_at(cell)
        return None if number == NOBODY else self.modules[number]

    def neighbours(self, module: Module) -> list[Module]:
        """Returns the modules whose boxes touch that of `module`."""
        return [self.modules[number] for number in self.owners.module_numbers_near(module.box)
                if number != module.number]

    def stops_of(self, wire: str) -> list[tuple[Module, Stop]]:
        """Returns the stops of a wire with their modules, in order of time."""
        found = [(module, stop) for module in self.modules for stop in module.stops if stop.name == wire]
        return sorted(found, key=lambda pair: pair[1].order_key)

    def heard_lines(self, module: Module) -> Sequence[Border]:
        """Returns what the module hears: its halo lines, in version 2 the edge lines beside it."""
        if self.version == 1:
            return module.halos
        return [line for other in self.neighbours(module) for line in other.edges if module.box.has_in_halo(line.cell)]


class CertificateReader(SectionReader):
    """Reads a certificate section behind a circuit and a layout."""

    name = "certificate"

    def __init__(self, lines: TextLines, circuit: Circuit, layout: Layout) -> None:
        super().__init__(lines)
        self.circuit, self.layout = circuit, layout
        self.owners = BlockOwners(layout.width, layout.height)
        self.version = 0
        self.modules: list[Module] = []
        # The module that is open, the line that makes each wire known in it, and those that name cells at all times.
        self.draft: ModuleDraft | None = None
        self.local: dict[str, int] = {}
        self.stars: dict[str, dict[Cell, int]] = {}
        # The `in` and `out` cells with their lines, by tiles of a usual box's size.
        self.ports: dict[Cell, list[LayoutPart]] = {}
        for port in layout.parts:
            if port.kind in ("in", "out"):
                self.ports.setdefault((port.x // PORT_TILE_SIDE, port.y // PORT_TILE_SIDE), []).append(port)

    def section_so_far(self) -> Certificate:
        """Returns the certificate, of a text that is refused what came before."""
        return Certificate(self.version, tuple([*self.modules, self.draft.finished_module()] if self.draft
                                               else self.modules))

    def current_forms(self) -> dict[str, LineForm]:
        """Returns the forms, in version 2 without `halo`."""
        return self.forms_of_version_2 if self.version == 2 else self.forms

    def require_open_module(self, kind: str) -> ModuleDraft:
        """Returns the module that is open. Refuses a line before the first one, and a kind after a later kind."""
        if self.draft is None:
            self.lines.refuse(6, "before_first_module", kind=kind)
        self.require_kind_order(kind, LATER_KINDS)
        return self.draft

    def read_certificate(self, version: int) -> None:
        """Reads the header."""
        if version not in (1, 2):
            self.lines.refuse(2, "certificate_version", number=version)
        self.version = version

    def read_module(self, x: int, y: int, width: int, height: int) -> None:
        """Reads a line `module`, which ends the module before it."""
        self.close_module()
        for what, side in (("width", width), ("height", height)):
            if side % 2 or not 2 <= side <= MAX_BOX_SIDE:
                self.lines.refuse(2, "box_side", what=what, number=side)
        if len(self.modules) == self.lines.limits.max_modules:
            self.lines.refuse(2, "module_count", limits=self.lines.limits)
        box = Box(x, y, width, height)
        if x % 2 or y % 2:
            self.lines.refuse(8, "box_odd", box=box)
        if x + width > self.layout.width or y + height > self.layout.height:
            self.lines.refuse(8, "box_outside", box=box, size=(self.layout.width, self.layout.height))
        self.open_module(box)
        for kind in KIND_ORDER:
            self.kind_lines.pop(kind, None)

    def open_module(self, box: Box) -> None:
        """Opens a module, whose box lies over no earlier one."""
        number = len(self.modules)
        if not self.owners.give_blocks_if_free(box, number):
            cell, owner = self.owners.first_owned_block_and_owner(box)
            other = self.modules[owner]
            self.lines.refuse(8, "box_overlap", box=box, other=owner, other_box=other.box, at=other.line, cell=cell)
        self.draft = ModuleDraft(box, number, self.lines.taken)
        self.local, self.stars = {}, {"edge": {}, "halo": {}}

    def read_cut(self, name: str) -> None:
        """Reads a line `cut`."""
        module = self.require_open_module("cut")
        if len(module.cuts) == MAX_CUTS:
            self.lines.refuse(2, "cut_count", module=module.number, name=name)
        self.require_wire(name)
        if name in self.local:
            self.lines.refuse(4, "cut_twice", name=name, at=self.local[name], module=module.number)
        self.local[name] = self.lines.taken
        module.cuts.append(name)

    def require_rising_gate(self, kind: str, gates: list[int], number: int) -> None:
        """Refuses a gate number that does not rise."""
        if gates and number <= gates[-1]:
            self.lines.refuse(6, "gate_not_rising", kind=kind, number=number, last=gates[-1], at=self.kind_lines[kind])

    def read_use(self, number: int) -> None:
        """Reads a line `use`."""
        module = self.require_open_module("use")
        self.require_rising_gate("use", module.uses, number)
        if len(module.uses) == MAX_USES:
            self.lines.refuse(2, "use_count", module=module.number)
        if number >= len(self.circuit.gates):
            self.lines.refuse(3, "gate_unknown", number=number, count=len(self.circuit.gates))
        gate = self.circuit.gates[number]
        missing = [name for name in gate.ins if name not in self.local]
        if missing:
            self.lines.refuse(9, "use_input_not_local", module=module.number, number=number, gate=gate, names=missing)
        again = [name for name in gate.outs if name in self.local]
        if again:
            at = [self.local[name] for name in again]
            self.lines.refuse(4, "use_output_local", module=module.number, number=number, gate=gate, names=again, at=at)
        module.uses.append(number)
        self.local.update((name, self.lines.taken) for name in gate.outs)

    def read_keep(self, number: int) -> None:
        """Reads a line `keep`."""
        module = self.require_open_module("keep")
        self.require_rising_gate("keep", module.keeps, number)
        if number >= len(self.circuit.gates):
            self.lines.refuse(3, "gate_unknown", number=number, count=len(self.circuit.gates))
        if not self.circuit.gates[number].is_inverse:
            inverse = [gate.number for gate in self.circuit.gates if gate.is_inverse]
            self.lines.refuse(3, "keep_not_inverse", number=number, gate=self.circuit.gates[number], inverse=inverse)
        if number not in module.uses:
            self.lines.refuse(9, "keep_not_used", module=module.number, number=number, gate=self.circuit.gates[number])
        module.keeps.append(number)

    def require_wire(self, name: str) -> None:
        """Refuses a name that is no wire of the circuit."""
        if name not in self.circuit.wires:
            self.lines.refuse(3, "wire_unknown", name=name, known=list(self.circuit.wires))

    def require_local_wire(self, name: str, kind: str, module: ModuleDraft) -> None:
        """Refuses a name that is no wire, or none that the module knows."""
        self.require_wire(name)
        if name not in self.local:
            gate = self.circuit.maker.get(name)
            self.lines.refuse(9, "wire_not_local", kind=kind, name=name, module=module.number, gate=gate,
                              local=list(self.local))

    def require_rising_line(self, kind: str, lines: Sequence[Border | Stop], line: Border | Stop) -> None:
        """Refuses an edge, halo or stop line that does not rise, or that would pass the limit of their number."""
        if lines and line.order_key <= lines[-1].order_key:
            self.lines.refuse(6, "border_not_rising", kind=kind, new=line, last=lines[-1], at=self.kind_lines[kind])
        module = self.draft
        assert module is not None
        if len(module.edges) + len(module.halos) + len(module.stops) == MAX_BORDER_LINES:
            self.lines.refuse(2, "border_count", module=module.number)

    def read_border(self, time: int | None, x: int, y: int, signal: str, kind: str) -> None:
        """Reads an `edge` or `halo` line."""
        module, line = self.require_open_module(kind), Border(time, x, y, signal)
        lines = module.edges if kind == "edge" else module.halos
        self.require_rising_line(kind, lines, line)
        self.require_border_place(kind, line, module)
        if signal != "1":
            self.require_local_wire(signal, kind, module)
        if time is None:
            self.stars[kind][line.cell] = self.lines.taken
        lines.append(line)

    def require_border_place(self, kind: str, line: Border, module: ModuleDraft) -> None:
        """Refuses a time or a cell for which the line may not speak."""
        box, cell, time, is_edge, faults = module.box, line.cell, line.time, kind == "edge", []
        if not (box.has_in_ring(cell) if is_edge else box.has_in_halo(cell)):
            faults.append("not_in_ring" if is_edge else "not_in_halo")
        elif is_edge and self.layout.is_rim(cell):
            faults.append("on_rim")
        elif not is_edge and not self.layout.has(cell):
            faults.append("halo_outside")
        if time is not None and time % 2 == 0:
            faults.append("even_time")
        if time is not None and time >= self.layout.steps:
            faults.append("time_not_below_steps")
        if time is not None and cell in self.stars[kind]:
            faults.append("star_cell")
        if faults:
            self.refuse_place(line, faults, module, self.stars[kind].get(cell))

    def refuse_place(self, line: Border | Stop, faults: list[str], module: ModuleDraft, star: int | None) -> None:
        """Refuses a line for its time or its cell. `star` is the line that names its cell at all times."""
        self.lines.refuse(10, "border_place", faults=faults, new=line, module=module.number, box=module.box, star=star,
                          steps=self.layout.steps, size=(self.layout.width, self.layout.height))

    def read_stop(self, time: int, name: str, x: int, y: int) -> None:
        """Reads a line `stop`."""
        module, stop = self.require_open_module("stop"), Stop(time, name, x, y)
        self.require_rising_line("stop", module.stops, stop)
        late, outside = time > self.layout.steps, not module.box.has((x, y))
        if late or outside:
            self.refuse_place(stop, ["stop_late"] * late + ["stop_outside"] * outside, module, None)
        self.require_local_wire(name, "stop", module)
        module.stops.append(stop)

    def ports_in(self, box: Box) -> Iterator[LayoutPart]:
        """Yields the `in` and `out` cells of a box."""
        for row in range(box.y // PORT_TILE_SIDE, (box.y + box.height - 1) // PORT_TILE_SIDE + 1):
            for column in range(box.x // PORT_TILE_SIDE, (box.x + box.width - 1) // PORT_TILE_SIDE + 1):
                yield from (port for port in self.ports.get((column, row), ()) if box.has(port.cell))

    def close_module(self) -> None:
        """Ends the module that is open. Refuses one that has a port whose wire it does not know."""
        module = self.draft
        if module is None:
            return
        missing = [port for port in self.ports_in(module.box) if port.name not in self.local]
        if missing:
            missing.sort(key=lambda port: port.line)
            makers = {port.name: self.circuit.maker.get(port.name or "") for port in missing}
            self.lines.refuse(11, "port_not_local", module=module.number, at=module.line, ports=missing, makers=makers)
        self.modules.append(module.finished_module())
        self.draft = None

    def read_end(self) -> None:
        """Reads the line `end`."""
        self.close_module()
        if not self.modules:
            self.lines.refuse(11, "no_module", size=(self.layout.width, self.layout.height))
        blocks = (self.layout.width // 2) * (self.layout.height // 2)
        if self.owners.owned_count < blocks:
            self.lines.refuse(11, "gap", gaps=self.owners.gaps(), modules=len(self.modules))
        if self.version == 2 and self.layout.steps >= 2:
            self.require_neighbour_wires()

    def require_neighbour_wires(self) -> None:
        """Refuses a module that does not know the wire of an edge line beside it."""
        missing: list[tuple[int, Border, int, int]] = []
        certificate = self.section_so_far()
        for module in certificate.modules:
            local = local_wires(self.circuit, module)
            for other in certificate.neighbours(module):
                missing += [(module.number, line, other.number, at) for at, line in other.numbered_lines("edge")
                            if line.signal != "1" and line.signal not in local and module.box.has_in_halo(line.cell)]
        if missing:
            self.lines.refuse(11, "heard_not_local", missing=missing)

    readers = {
        "certificate VERSION": read_certificate, "module X Y W H": read_module, "cut NAME": read_cut,
        "use GATE": read_use,
        "keep GATE": read_keep, "edge TIME X Y SIGNAL": partial(read_border, kind="edge"),
        "halo TIME X Y SIGNAL": partial(read_border, kind="halo"), "stop T NAME X Y": read_stop, "end": read_end}
    forms = forms_by_keyword(*readers)
    forms_of_version_2 = {word: form for word, form in forms.items() if word != "halo"}
