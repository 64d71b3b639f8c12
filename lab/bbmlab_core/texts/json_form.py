"""`bbmlab json`: a text and its report as one JSON document, and back."""

import json
from types import GeneratorType
from typing import Any, Callable

from ..host.terminal import LabError
from .certificates import Certificate, Module
from .circuits import Circuit
from .documents import Document, pause_garbage_collection
from .gates import GATE_SIZES
from .layouts import Layout
from .limits import FIRST_LIMITS, SECOND_LIMITS
from .lines import NAME_PATTERN
from .refusals import refusal_words
from .reports import ReportOrRefusal

BUNDLE_JSON_FORMAT = "bbmlab bundle 1"
# Writes a text as JSON. `json.dumps` takes four times as long.
json_string = json.JSONEncoder().encode


def circuit_members(circuit: Circuit) -> dict[str, Any]:
    """Returns a circuit as JSON values."""
    gates = [{"gate": gate.kind, "parameter": gate.parameter, "ins": gate.ins, "outs": gate.outs}
             for gate in circuit.gates]
    return {"inputs": circuit.inputs, "gates": gates, "outputs": circuit.outputs, "spills": circuit.spills}


def layout_members(layout: Layout) -> dict[str, Any]:
    """Returns a layout as JSON values."""
    ins, outs = ([{"name": port.name, "cell": port.cell} for port in ports] for ports in (layout.ins, layout.outs))
    return {"width": layout.width, "height": layout.height, "steps": layout.steps, "mirrors": layout.mirrors,
            "balls": layout.balls, "ins": ins, "outs": outs, "wastes": layout.wastes}


def module_members(module: Module) -> dict[str, Any]:
    """Returns a module as JSON values. The time `*` is null."""
    return {"box": module.box, "cuts": module.cuts, "uses": module.uses, "keeps": module.keeps, "edges": module.edges,
            "halos": module.halos, "stops": module.stops}


def report_members(report: ReportOrRefusal) -> dict[str, Any]:
    """Returns a report as JSON values."""
    if report.refused:
        return {"refused": {"line": report.refused[0], "code": report.refused[1]}}
    return {"verdict": report.verdict, "certificate": report.digest, "modules": report.module_count,
            "findings": [{"kind_of_line": finding.word, **finding.values} for finding in report.findings]}


def document_json_text(document: Document, report: ReportOrRefusal | None) -> str:
    """Writes the sections of a text, and a report if there is one, as one JSON document."""
    if document.refusal:
        raise LabError(f"the text is refused: {refusal_words(document)}", 1)
    parts: dict[str, Any] = {"format": BUNDLE_JSON_FORMAT}
    if document.limits is not FIRST_LIMITS:
        parts["limits"] = document.limits.number
    if document.circuit:
        parts["circuit"] = circuit_members(document.circuit)
    if document.layout:
        parts["layout"] = layout_members(document.layout)
    if document.on is not None:
        parts["assign"] = {"on": document.on}
    if document.certificate:
        certificate: Certificate = document.certificate
        parts["certificate"] = {"version": certificate.version,
                                "modules": (module_members(module) for module in certificate.modules)}
    if report:
        parts["report"] = report_members(report)
    with pause_garbage_collection():
        return indented_json(parts, "\n") + "\n"


def indented_json(value: Any, begin: str) -> str:
    """Writes a JSON value as `json.dumps` does with an indent of 1, in half of its time. `begin` is a line feed and the
    present indent.

    The values of a generator are written as a list, and none is kept.
    """
    inner, kind = f"{begin} ", type(value)
    if kind is int:
        return str(value)
    if kind is str:
        return json_string(value)
    if value and isinstance(value, (tuple, list)):
        members = f",{inner}".join([str(member) if type(member) is int else indented_json(member, inner)
                                    for member in value])
        return f"[{inner}{members}{begin}]"
    if kind is GeneratorType:
        members = f",{inner}".join([indented_json(member, inner) for member in value])
        return f"[{inner}{members}{begin}]" if members else "[]"
    if kind is dict and value:
        members = f",{inner}".join([f"{json_string(name)}: {indented_json(member, inner)}" for name,
                                    member in value.items()])
        return f"{{{inner}{members}{begin}}}"
    return json.dumps(value)


class JsonMember:
    """A value of a JSON document with its path, such as `certificate.modules[2].cuts[0]`.

    What is wrong with it is a `LabError`.
    """

    def __init__(self, value: Any, path: str) -> None:
        self.value, self.path = value, path

    def error_for(self, wanted: str) -> LabError:
        """Returns the error that says what the member should be."""
        shown = json.dumps(self.value)
        return LabError(f"{self.path} is {shown if len(shown) <= 60 else shown[:57] + '...'}, and not {wanted}")

    def __getitem__(self, name: str) -> "JsonMember":
        """Returns a member of an object."""
        if not isinstance(self.value, dict):
            raise self.error_for("an object")
        path = f"{self.path}.{name}" if self.path else name
        if name not in self.value:
            raise LabError(f"{path} is missing")
        return JsonMember(self.value[name], path)

    def has_member(self, name: str) -> bool:
        """Whether an object contains a member."""
        return isinstance(self.value, dict) and name in self.value

    def list_items(self, count: int | None = None) -> "list[JsonMember]":
        """Returns the values of a list, which has `count` of them if that is given."""
        if not isinstance(self.value, list) or count is not None and len(self.value) != count:
            raise self.error_for("a list" if count is None else f"a list of {count} values")
        return [JsonMember(value, f"{self.path}[{index}]") for index, value in enumerate(self.value)]

    def number_text(self) -> str:
        """Returns a number as a text writes it."""
        if type(self.value) is not int or not 0 <= self.value < 10 ** 9:
            raise self.error_for("a whole number from 0 to 999999999")
        return str(self.value)

    def wire_name(self) -> str:
        """Returns a name of a wire."""
        if not isinstance(self.value, str) or not NAME_PATTERN.match(self.value):
            raise self.error_for("a name of a wire: a to z, then a to z, 0 to 9 and _, at most 32 of them")
        return str(self.value)

    def signal_text(self) -> str:
        """Returns a name of a wire, or `1`."""
        return "1" if self.value == "1" else self.wire_name()

    def time_text(self) -> str:
        """Returns a time, with `*` for null."""
        return "*" if self.value is None else self.number_text()

    def numbers_text(self, count: int) -> str:
        """Returns so many numbers with spaces between them."""
        return " ".join(item.number_text() for item in self.list_items(count))


def gate_line_from_json(gate: JsonMember) -> str:
    """Returns the line of a gate."""
    word, parameter = gate["gate"].value, gate["parameter"]
    if not isinstance(word, str) or word not in GATE_SIZES:
        raise gate["gate"].error_for("the word of a gate")
    ins, outs = GATE_SIZES[word]
    number = [parameter.number_text()] if word in ("source", "delay") else []
    if not number and parameter.value is not None:
        raise parameter.error_for("null")
    return " ".join([word, *number, *(item.wire_name() for item in gate["ins"].list_items(ins)), "->",
                     *(item.wire_name() for item in gate["outs"].list_items(outs))])


def circuit_lines_from_json(circuit: JsonMember) -> list[str]:
    """Returns the lines of a circuit."""
    return ["circuit", *(f"input {item.wire_name()}" for item in circuit["inputs"].list_items()),
            *(gate_line_from_json(gate) for gate in circuit["gates"].list_items()),
            *(f"output {item.wire_name()}" for item in circuit["outputs"].list_items()),
            *(f"spill {item.wire_name()}" for item in circuit["spills"].list_items()), "end"]


def layout_lines_from_json(layout: JsonMember) -> list[str]:
    """Returns the lines of a layout."""
    def port_lines(word: str) -> list[str]:
        """Returns the lines of ports."""
        return [f"{word} {port['name'].wire_name()} {port['cell'].numbers_text(2)}"
                for port in layout[f"{word}s"].list_items()]

    return [f"layout {layout['width'].number_text()} {layout['height'].number_text()} {layout['steps'].number_text()}",
            *(f"mirror {box.numbers_text(4)}" for box in layout["mirrors"].list_items()),
            *(f"ball {cell.numbers_text(2)}" for cell in layout["balls"].list_items()),
            *port_lines("in"), *port_lines("out"),
            *(f"waste {cell.numbers_text(2)}" for cell in layout["wastes"].list_items()),
            "end"]


def border_line_from_json(word: str, line: JsonMember) -> str:
    """Returns an `edge` or `halo` line."""
    time, x, y, signal = line.list_items(4)
    return f"{word} {time.time_text()} {x.number_text()} {y.number_text()} {signal.signal_text()}"


def stop_line_from_json(line: JsonMember) -> str:
    """Returns a `stop` line."""
    time, name, x, y = line.list_items(4)
    return f"stop {time.number_text()} {name.wire_name()} {x.number_text()} {y.number_text()}"


def module_lines_from_json(module: JsonMember) -> list[str]:
    """Returns the lines of a module."""
    kinds: list[tuple[str, Callable[[JsonMember], str]]] = [("cut", JsonMember.wire_name),
                                                            ("use", JsonMember.number_text),
                                                            ("keep", JsonMember.number_text)]
    lines = [f"module {module['box'].numbers_text(4)}"]
    for word, value in kinds:
        lines += [f"{word} {value(item)}" for item in module[f"{word}s"].list_items()]
    for word in ("edge", "halo"):
        lines += [border_line_from_json(word, line) for line in module[f"{word}s"].list_items()]
    return lines + [stop_line_from_json(line) for line in module["stops"].list_items()]


def text_from_json(text: str) -> str:
    """Returns the text of a JSON document. A report in it is left out. A member that is wrong is named."""
    try:
        document = JsonMember(json.loads(text), "")
    except (ValueError, RecursionError) as error:
        raise LabError(f"this is no JSON document: {error}") from error
    if not isinstance(document.value, dict) or document.value.get("format") != BUNDLE_JSON_FORMAT:
        raise LabError(f"the JSON document has not the format `{BUNDLE_JSON_FORMAT}`")
    lines: list[str] = []
    if document.has_member("limits"):
        limits = document["limits"]
        if type(limits.value) is not int or limits.value not in (FIRST_LIMITS.number, SECOND_LIMITS.number):
            raise limits.error_for(f"{FIRST_LIMITS.number} or {SECOND_LIMITS.number}")
        lines += SECOND_LIMITS.line_text.splitlines() if limits.value == SECOND_LIMITS.number else []
    if document.has_member("circuit"):
        lines += circuit_lines_from_json(document["circuit"])
    if document.has_member("layout"):
        lines += layout_lines_from_json(document["layout"])
    if document.has_member("assign"):
        lines += ["assign", *(f"on {item.wire_name()}" for item in document["assign"]["on"].list_items()), "end"]
    if document.has_member("certificate"):
        certificate = document["certificate"]
        lines.append(f"certificate {certificate['version'].number_text()}")
        lines += [line for module in certificate["modules"].list_items()
                  for line in module_lines_from_json(module)] + ["end"]
    return "\n".join(lines) + "\n"
