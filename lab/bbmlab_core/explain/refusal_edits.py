"""Edits that may remove a refusal, by its cause. They are tried before one of them is printed."""

import difflib
from typing import Any, Callable, Iterable, Iterator

from ..texts.certificates import Module, local_wires
from ..texts.circuits import Circuit
from ..texts.documents import Document
from ..texts.limits import FIRST_LIMITS, LIMITS_2_LINE
from ..texts.lines import match_line
from ..texts.spelling import spell_text
from .edits import Edit, addition, deletion, edits_between, insertion_line_in_module, replacement

Edits = tuple[Edit, ...]
EditFinder = Callable[[Document, int, dict[str, Any]], Iterable[Edits]]
# The arrows and signs that editors write for those of the formats, as their UTF-8 bytes read as Latin-1.
SIGN_REPLACEMENTS = {"\xe2\x86\x92": "->", "\xe2\x9f\xb6": "->", "\xe2\x87\x92": "->", "=>": "->",
                     "\xe2\x80\x93>": "->", "\xe2\x88\x92>": "->",
                     "\xe2\x80\x94>": "->", "\xc2\xa0": " ", "\xef\xbb\xbf": "", ",": " ", ";": " ", "\t": " ",
                     "\r": ""}
# The most names of near spelling, and the most lines that one fix changes in the same way.
MAX_SIMILAR_NAMES = 4


def cleaned_line(line: str) -> str:
    """Returns a line with the signs of the formats in place of those that editors write, and with single spaces."""
    for sign, plain in SIGN_REPLACEMENTS.items():
        line = line.replace(sign, plain)
    return spell_text(line + "\n").text.rstrip("\n")


def shape_edits(document: Document, number: int, facts: dict[str, Any]) -> Iterator[Edits]:
    """Yields edits for a line of no form: all lines with such signs cleaned, this one alone, a near keyword, the line
    left out."""
    lines = document.text.split("\n")
    forms, line = facts["forms"], cleaned_line(document.line(number))
    every = [(at, old, cleaned_line(old)) for at, old in enumerate(lines[:-1], 1)]
    edits = tuple(replacement(at, new) if new else deletion(at) for at, old, new in every if old != new)
    if edits:
        yield edits
    if line and line != document.line(number):
        yield (replacement(number, line),)
    for words in similar_lines(line.split(" "), forms):
        near = " ".join(words)
        if match_line(near, forms):
            yield (replacement(number, near),)
    yield (deletion(number),)


def similar_lines(words: list[str], forms: dict[str, Any]) -> Iterator[list[str]]:
    """Yields a line with another keyword, in small letters, without a last word, or with the arrow in its place."""
    for word in difflib.get_close_matches(words[0].lower(), forms, MAX_SIMILAR_NAMES, 0.5):
        yield [word, *words[1:]]
        yield [word, *(other.lower() for other in words[1:])]
    if words[0] in forms and "->" in forms[words[0]] and "->" not in words:
        place = forms[words[0]].index("->")
        yield [*words[:place], "->", *words[place:]]
    yield words[:-1] or words


def header_edits(_document: Document, number: int, facts: dict[str, Any]) -> Iterator[Edits]:
    """Yields a header that is missing."""
    header = {"certificate": "certificate 2", "layout": ""}.get(facts["section"], facts["section"])
    if header:
        yield (addition(number - 1, header),)
    yield (deletion(number),)


def line_deletion_edits(_document: Document, number: int, _facts: dict[str, Any]) -> Iterator[Edits]:
    """Yields the text without the line."""
    yield (deletion(number),)


def unconsumed_wire_edits(_document: Document, number: int, facts: dict[str, Any]) -> Iterator[Edits]:
    """Yields `spill` lines for wires that nothing consumes, or the only one as an `output`."""
    yield tuple(addition(number - 1, f"spill {name}") for name in facts["names"])


def local_wire_edits(lines: list[str], circuit: Circuit, module: Module, name: str) -> Iterator[Edit]:
    """Yields lines by which a module comes to know a wire: the gate that makes it, if the module knows what it uses,
    and a cut."""
    gate, local = circuit.maker.get(name), local_wires(circuit, module)
    for text in ([f"use {gate.number}"] if gate and all(wire in local for wire in gate.ins) else []) + [f"cut {name}"]:
        yield addition(insertion_line_in_module(lines, module.line, text), text)


def nonlocal_wire_edits(document: Document, number: int, facts: dict[str, Any]) -> Iterator[Edits]:
    """Yields edits for a line whose wire the module does not know."""
    assert document.circuit and document.certificate
    lines, module = document.text.split("\n"), document.certificate.modules[facts["module"]]
    for name in [facts["name"]] if "name" in facts else facts["names"]:
        for edit in local_wire_edits(lines, document.circuit, module, name):
            yield (edit,)
        gate = document.circuit.maker.get(name)
        if gate:
            missing = [wire for wire in gate.ins if wire not in local_wires(document.circuit, module)]
            new = [f"cut {wire}" for wire in missing] + [f"use {gate.number}"]
            yield tuple(addition(insertion_line_in_module(lines, module.line, text), text) for text in new)
    yield (deletion(number),)


def nonlocal_input_edits(document: Document, number: int, facts: dict[str, Any]) -> Iterator[Edits]:
    """Yields cuts of all inputs of a gate that a module does not know."""
    assert document.certificate
    lines, module = document.text.split("\n"), document.certificate.modules[facts["module"]]
    cuts = [f"cut {name}" for name in facts["names"]]
    yield tuple(addition(insertion_line_in_module(lines, module.line, text), text) for text in cuts)
    yield from nonlocal_wire_edits(document, number, facts)


def nonlocal_port_wire_edits(document: Document, _number: int, facts: dict[str, Any]) -> Iterator[Edits]:
    """Yields lines by which a module comes to know the wires of its ports."""
    assert document.certificate and document.circuit
    lines, module = document.text.split("\n"), document.certificate.modules[facts["module"]]
    names = list(dict.fromkeys(port.name for port in facts["ports"]))
    choices = [list(local_wire_edits(lines, document.circuit, module, name)) for name in names]
    yield tuple(dict.fromkeys(choice[0] for choice in choices))
    yield tuple(dict.fromkeys(choice[-1] for choice in choices))


def heard_wire_edits(document: Document, _number: int, facts: dict[str, Any]) -> Iterator[Edits]:
    """Yields lines by which modules come to know the wires of the `edge` lines beside them, or the text without these
    lines."""
    assert document.certificate and document.circuit
    lines = document.text.split("\n")
    wanted = dict.fromkeys((number, line.signal) for number, line, _, _ in facts["missing"])
    modules = document.certificate.modules
    choices = [list(local_wire_edits(lines, document.circuit, modules[number], name)) for number, name in wanted]
    yield tuple(dict.fromkeys(choice[0] for choice in choices))
    yield tuple(dict.fromkeys(choice[-1] for choice in choices))
    yield tuple(dict.fromkeys(deletion(at) for *_, at in facts["missing"]))


def other_name_edits(document: Document, number: int, facts: dict[str, Any]) -> Iterator[Edits]:
    """Yields the line with another name: one that is spelt alike, then the others; and the text without the line."""
    known, line = facts["known"], document.line(number)
    near = difflib.get_close_matches(facts["name"], known, MAX_SIMILAR_NAMES, 0.3)
    for name in dict.fromkeys([*near, *known[:40]]):
        words = [name if word == facts["name"] else word for word in line.split(" ")]
        yield (replacement(number, " ".join(words)),)
    yield (deletion(number),)


def near_number_edits(document: Document, number: int, facts: dict[str, Any]) -> Iterator[Edits]:
    """Yields the line with a number one or two away."""
    words = document.line(number).split(" ")
    for place, word in enumerate(words):
        for step in (1, -1, 2, -2):
            if word.isdecimal() and int(word) + step >= 0:
                yield (replacement(number, " ".join([*words[:place], str(int(word) + step), *words[place + 1:]])),)
    if "count" in facts and facts["count"]:
        yield (replacement(number, f"{words[0]} {facts['count'] - 1}"),)
    yield (deletion(number),)


def near_place_edits(document: Document, number: int, facts: dict[str, Any]) -> Iterator[Edits]:
    """Yields the line of a part at most 2 cells away, the nearest first, then with other numbers, then left out."""
    words = document.line(number).split(" ")
    at = 2 if words[0] in ("in", "out") else 1
    steps = sorted(((dx, dy) for dx in range(-2, 3) for dy in range(-2, 3) if dx or dy),
                   key=lambda step: abs(step[0]) + abs(step[1]))
    for dx, dy in steps:
        x, y = int(words[at]) + dx, int(words[at + 1]) + dy
        if min(x, y) >= 0:
            yield (replacement(number, " ".join([*words[:at], str(x), str(y), *words[at + 2:]])),)
    yield from near_number_edits(document, number, facts)


def twice_consumed_edits(document: Document, number: int, facts: dict[str, Any]) -> Iterator[Edits]:
    """Yields the line with wires that nothing consumes in the place of one that is consumed already."""
    assert document.circuit
    circuit = document.circuit
    consumed = {*circuit.outputs, *circuit.spills, *(name for gate in circuit.gates for name in gate.ins)}
    free = [name for name in circuit.wires if name not in consumed]
    yield from other_name_edits(document, number, {"name": facts["name"], "known": free})


def missing_end_edits(document: Document, _number: int, _facts: dict[str, Any]) -> Iterator[Edits]:
    """Yields the text with the `end` that is missing at its end."""
    lines = document.text.split("\n")
    if lines[-1] == "":
        yield (addition(len(lines) - 1, "end"),)
    else:
        yield (addition(len(lines), ""),)
        yield (addition(len(lines), "end"), addition(len(lines), ""))


def trailing_line_deletion_edits(document: Document, number: int, _facts: dict[str, Any]) -> Iterator[Edits]:
    """Yields the text up to its last section."""
    lines = document.text.split("\n")
    count = len(lines) if lines[-1] else len(lines) - 1
    yield tuple(deletion(at) for at in range(number, count + 1))


def gap_edits(document: Document, number: int, facts: dict[str, Any]) -> Iterator[Edits]:
    """Yields a module for each part of a gap that is small enough."""
    if all(max(gap.width, gap.height) <= 64 for gap in facts["gaps"]):
        yield tuple(addition(number - 1, f"module {gap.numbers_text}") for gap in facts["gaps"])


def no_module_edits(document: Document, number: int, facts: dict[str, Any]) -> Iterator[Edits]:
    """Yields one module for the whole rectangle."""
    width, height = facts["size"]
    if document.circuit and max(width, height) <= 64:
        inputs = document.circuit.inputs
        cuts = [addition(number - 1, f"cut {name}") for name in inputs]
        uses = [addition(number - 1, f"use {gate.number}") for gate in document.circuit.gates]
        yield (addition(number - 1, f"module 0 0 {width} {height}"), *cuts, *uses)


def limit_edits(document: Document, number: int, facts: dict[str, Any]) -> Iterator[Edits]:
    """Yields the text with the line that raises its limits, and then the line with another number."""
    if facts["limits"] is FIRST_LIMITS:
        yield (addition(0, LIMITS_2_LINE),)
    if "number" in facts:
        yield from near_number_edits(document, number, facts)


EDIT_FINDERS: dict[str, EditFinder] = {cause: finder for finder, causes in (
    (shape_edits, "shape"),
    (line_deletion_edits, "kind_after_later_kind gate_not_rising border_not_rising before_first_module second_header "
                    "keep_not_used wire_defined cut_twice use_output_local cut_count"),
    (header_edits, "first_not_header"),
    (unconsumed_wire_edits, "wire_not_consumed"),
    (nonlocal_port_wire_edits, "port_not_local"),
    (heard_wire_edits, "heard_not_local"),
    (gap_edits, "gap"),
    (no_module_edits, "no_module"),
    (nonlocal_wire_edits, "wire_not_local"),
    (nonlocal_input_edits, "use_input_not_local"),
    (other_name_edits, "wire_not_defined wire_unknown port_unknown"),
    (near_number_edits, "gate_unknown keep_not_inverse border_place box_odd box_outside box_overlap box_side "
                   "certificate_version delay_limit"),
    (twice_consumed_edits, "wire_consumed"),
    (limit_edits, "layout_side mirror_side layout_steps wire_count gate_count module_count"),
    (near_place_edits, "cell_outside cell_taken"),
    (missing_end_edits, "text_ended line_not_ended"),
    (trailing_line_deletion_edits, "text_goes_on"),
) for cause in causes.split()}


def refusal_edits(document: Document) -> Iterator[Edits]:
    """Yields edits that may remove the refusal of the lab's reader, the likeliest first."""
    refusal = document.refusal
    if refusal is None:
        return
    in_order = edits_between(document.text, spell_text(document.text).text)
    if in_order:
        yield tuple(in_order)
    if refusal.cause == "use_output_local":
        yield from ((deletion(at),) for at in dict.fromkeys(refusal.facts["at"]))
    finder = EDIT_FINDERS.get(refusal.cause)
    if finder:
        yield from finder(document, refusal.line, refusal.facts)
