"""Refusals in plain English: for each cause that the lab's reader finds, what is wrong, which rule it breaks, and a
hint.
"""

import difflib
from dataclasses import dataclass, field
from string import Formatter
from typing import Any, Callable, NamedTuple, Sequence

from .certificates import border_or_stop_text
from .documents import Document
from .limits import limits_line_hint
from .lines import Refusal
from .shape_hints import shape_hints

CODE_RULES = {
    1: "Each line has one of the forms of its section, with one space between words.",
    2: "Each number and each count has a limit.",
    3: "A name or a gate number is used after it is defined.",
    4: "A name is defined, cut or turned on once.",
    5: "Each wire is consumed once: by a gate, an `output` or a `spill`.",
    6: "Kinds of line come in the order of docs/FORMATS.md, and lists rise.",
    7: "Each cell lies in the rectangle, and no two parts share a cell.",
    8: "A box has even corners, lies in the rectangle, and overlaps no earlier box.",
    9: "A line of a module names wires that the module knows: its cuts and the outputs of the gates that it uses.",
    10: "A line names a time and a cell at which a signal or a stop may be.",
    11: "A section or a module ends when nothing is missing.",
    12: "A text has its sections and nothing else, and its last line ends with a line feed.",
}


@dataclass
class ExplainedRefusal:
    """A refusal in words: what is wrong, the rule, hints that were not tried, and the names and lines that are meant.
    """

    what: list[str]
    hints: list[str]
    rule: str = ""
    names: list[str] = field(default_factory=list)
    lines: list[int] = field(default_factory=list)


RefusalFacts = dict[str, Any]


def names_words(names: Sequence[str], most: int = 8) -> str:
    """Returns names in backticks with commas, at most `most` of them."""
    shown = ", ".join(f"`{name}`" for name in names[:most])
    return shown + (f" and {len(names) - most} more" if len(names) > most else "")


def similar_names_hint(name: str, known: list[str]) -> str:
    """Returns a hint at names that are written alike."""
    alike = difflib.get_close_matches(name, known, 2, 0.5)
    return f" Did you mean {' or '.join(f'`{other}`' for other in alike)}?" if alike else ""


def earlier_line_words(facts: RefusalFacts) -> str:
    """Returns the line of what comes before, where it is not the refused line itself."""
    return "on this line" if facts["at"] == facts["here"] else f"line {facts['at']}"


def box_words(box: Any) -> str:
    """Returns a box as its columns and rows."""
    return f"columns {box.x} to {box.x + box.width - 1}, rows {box.y} to {box.y + box.height - 1}"


def kind_words(kind: str) -> str:
    """Returns how a kind of line is called."""
    return "gate" if kind == "gate" else f"`{kind}`"


def gate_numbers_words(count: int) -> str:
    """Returns the numbers of some gates."""
    return f"gates 0 to {count - 1}" if count > 1 else "gate 0 alone" if count else "no gate"


def corner_words(x: int, y: int, width: int, height: int) -> str:
    """Returns the first and the last cell of a rectangle."""
    return f"({x}, {y})" if width == height == 1 else f"({x}, {y}) to ({x + width - 1}, {y + height - 1})"


class CauseSentences(NamedTuple):
    """What is wrong, and a hint, as format strings over the facts of a cause.

    `names_field` and `lines_field` say where the facts have the names and lines that are meant. The hint goes on with
    how the line is called for which `limits 2` is needed, if that is given.
    """

    what: str
    hint: str
    names_field: str = ""
    lines_field: str = ""
    beyond_limits: str = ""


SENTENCES_BY_CAUSE = {
    "line_not_ended": CauseSentences("The last line, `{rest:.60}`, does not end with a line feed.",
                                     "Add a line feed at the end of the file. `bbmlab fmt` does."),
    "text_goes_on": CauseSentences(
        "The text goes on after the {section} section, which is the last: {rest_words}.",
        "Remove what comes after the last `end`, or use the command that reads these sections."),
    "first_not_header": CauseSentences(
        "The {section} section begins here with a line `{keyword}` and not with its header.",
        "Write the header `{header}` first."),
    "kind_after_later_kind": CauseSentences(
        "This {kind_words} line comes after the {later_words} line {at}; it belongs before all {later_words} lines.",
        "Move the line up. `bbmlab fmt` sorts the kinds.", lines_field="at"),
    "no_module": CauseSentences(
        "The certificate has no module.",
        "Add modules that cover the rectangle of {size[0]} by {size[1]} cells, such as `module 0 0 {largest_sides}`."),
    "second_header": CauseSentences("The {section} section has a second header; the first is line {first}.",
                                    "Remove this header, or write `end` before it.", lines_field="first"),
    "before_first_module": CauseSentences(
        "This `{kind}` line comes before the first `module` line, so it belongs to no module.",
        "Write a line `module X Y W H` before it."),
    "layout_steps": CauseSentences("The layout runs {number} steps; {limits.max_steps} is the most.",
                                   "Take fewer steps.", beyond_limits="A layout of more than {limits.max_steps} steps"),
    "delay_limit": CauseSentences("The delay has {number} steps; it has 1 to 4096.",
                                  "Take a number from 1 to 4096, or several delays in a row."),
    "wire_count": CauseSentences("With this line the circuit has more than {limits.max_wires} wires.",
                                 "Split the design into smaller circuits.",
                                 beyond_limits="A circuit of more than {limits.max_wires} wires"),
    "gate_count": CauseSentences(
        "With this line the circuit has more than {limits.max_gates} gates, sources among them.",
        "Split the design into smaller circuits.", beyond_limits="A circuit of more than {limits.max_gates} gates"),
    "box_side": CauseSentences("The {what} of the box is {number}, which is {why_no_side}.",
                               "Take an even {what} from 2 to 64."),
    "certificate_version": CauseSentences("There is no certificate version {number}.",
                                          "Write `certificate 2`, or `certificate 1` with `halo` lines."),
    "module_count": CauseSentences(
        "This is module {limits.max_modules} from 0; a certificate has at most {limits.max_modules} modules.",
        "Take larger boxes.", beyond_limits="A certificate of more than {limits.max_modules} modules"),
    "cut_count": CauseSentences("Module {module} has 12 `cut` lines already; `{name}` would be the thirteenth.",
                                "Use gates in place of cutting their outputs, or take a smaller box."),
    "use_count": CauseSentences("Module {module} has 64 `use` lines already.",
                                "Cut a wire in place of using the gates before it, or take a smaller box."),
    "border_count": CauseSentences("Module {module} has 65536 `edge`, `halo` and `stop` lines already.",
                                   "Take a smaller box, or a border that fewer balls cross."),
    "wire_not_defined": CauseSentences(
        "The wire `{name}` is not defined before this line.{near}",
        "Define `{name}` first, by an `input` or behind the arrow of an earlier gate. A circuit has no loops.",
        names_field="name"),
    "wire_unknown": CauseSentences("The circuit has no wire `{name}`.{near}", "Write the name as the circuit has it.",
                                   names_field="name"),
    "gate_unknown": CauseSentences(
        "There is no gate {number}: the circuit has {gate_numbers}.",
        "Count gate lines from 0, `source` lines among them, in the order of their lines.", "number"),
    "keep_not_inverse": CauseSentences(
        "Gate {number} is `{gate.kind}` (line {gate.line}), which is no inverse gate. {inverse_gates}",
        "Remove the line, or give the number of an `unswitch` or `uninteract`.", "number", "gate.line"),
    "on_unknown": CauseSentences("`{name}` can't be turned on: {why_not_on}.{near}", "{names_to_turn_on}", "name"),
    "on_twice": CauseSentences("`{name}` is on already (line {at}).", "Remove one of the two lines.", "name", "at"),
    "gate_not_rising": CauseSentences(
        "`{kind} {number}` has {same_or_lower} `{kind} {last}` on line {at}; the gate numbers of a module rise.",
        "{sort_or_remove}", lines_field="at"),
    "port_unknown": CauseSentences("`{name}` is no {side} of the circuit.{near_port}", "{names_of_side}", "name"),
    "wire_defined": CauseSentences("The wire `{name}` is defined already ({earlier}).",
                                   "Give one of the two another name.", "name", "at"),
    "wire_consumed": CauseSentences(
        "The wire `{name}` is consumed already ({earlier}): no wire branches.",
        "To use a wire twice, copy it: the standard cell `fan_out` does, by a `switch` and a `source` (`bbmlab cells "
        "fan_out`).", "name", "at"),
    "cut_twice": CauseSentences("Module {module} cuts `{name}` already (line {at}).", "Remove one of the two lines.",
                                "name", "at"),
    "use_output_local": CauseSentences(
        "Gate {gate.number} (`{gate.kind}`, line {gate.line}) makes {listed}, which module {module} cuts already "
        "(line {at[0]}).", "Remove `cut {names[0]}`: a wire is cut, or made by a used gate, and not both.",
        "names", "at"),
    "cell_outside": CauseSentences(
        "The `{kind}` lies at {corners}, outside the rectangle of {size[0]} by {size[1]} cells, from (0, 0) to "
        "{last_cell}.", "Move it, or make the layout larger."),
    "cell_taken": CauseSentences("The cell ({cell[0]}, {cell[1]}) is taken by {other_part} already (line {at}).",
                                 "Move one of the two, or remove it. An `in` and an `out` may share a cell.",
                                 lines_field="at"),
    "box_odd": CauseSentences("The corner of the box is odd: {odd_sides}.", "Move the box so that X and Y are even."),
    "box_outside": CauseSentences(
        "The box ({box_words}) is not inside the rectangle of {size[0]} by {size[1]} cells.",
        "Make the box smaller, or move it."),
    "box_overlap": CauseSentences(
        "The box ({box_words}) overlaps that of module {other} ({other_box_words}, line {at}): the cell ({cell[0]}, "
        "{cell[1]}) is in both.", "Move one of the boxes, or make it smaller.", lines_field="at"),
    "use_input_not_local": CauseSentences(
        "Gate {gate.number} (`{gate.kind}`, line {gate.line}) uses {listed}, which {is_or_are} not local in module "
        "{module}.", "Add `cut {names[0]}`, or `use` the gate that makes `{names[0]}`, before this line.",
        "names", "gate.line"),
    "wire_not_local": CauseSentences("The wire `{name}` is not local in module {module}. {local_words}", "{make_local}",
                                     "name"),
    "keep_not_used": CauseSentences(
        "Module {module} keeps gate {gate.number} (`{gate.kind}`, line {gate.line}) and does not use it.",
        "Add `use {gate.number}` before it, with the wires {wires_of_gate} local.", "gate.number", "gate.line"),
}
# What the sentences say of the facts in other words.
DERIVED_FACTS: dict[str, Callable[[RefusalFacts], str]] = {
    "near": lambda facts: similar_names_hint(facts["name"], facts["known"]),
    "earlier": lambda facts: earlier_line_words(facts),
    "listed": lambda facts: names_words(facts["names"]), "box_words": lambda facts: box_words(facts["box"]),
    "other_box_words": lambda facts: box_words(facts["other_box"]),
    "rest_words": lambda facts: f"`{facts['rest'][:60]}`" if facts["rest"] else "an empty line",
    "header": lambda facts: {"layout": "layout W H STEPS", "certificate": "certificate 2"}.get(facts["section"],
                                                                                               facts["section"]),
    "kind_words": lambda facts: kind_words(facts["kind"]), "later_words": lambda facts: kind_words(facts["later"]),
    "largest_sides": lambda facts: " ".join(str(min(side, 64)) for side in facts["size"]),
    "why_no_side": lambda facts: "odd" if 2 <= facts["number"] <= 64 else "outside 2 to 64",
    "gate_numbers": lambda facts: gate_numbers_words(facts["count"]),
    "inverse_gates": lambda facts: (f"Its inverse gates are {', '.join(map(str, facts['inverse']))}."
                                    if facts["inverse"] else "The circuit has no inverse gate."),
    "why_not_on": lambda facts: ("no `in` line of the layout has that name" if facts["command"] == "run"
                                 else "the circuit has no such input"),
    "names_to_turn_on": lambda facts: (f"The names are {names_words(facts['known'])}." if facts["known"]
                                       else "There is none: remove the `on` line."),
    "corners": lambda facts: corner_words(*facts["box"]),
    "last_cell": lambda facts: f"({facts['size'][0] - 1}, {facts['size'][1] - 1})",
    "other_part": lambda facts: (f"`{facts['other']} {facts['other_name']}`" if facts["other_name"]
                                 else f"a `{facts['other']}`"),
    "odd_sides": lambda facts: " and ".join(f"{name} {value}" for name, value in zip("xy", facts["box"]) if value % 2),
    "is_or_are": lambda facts: "are" if len(facts["names"]) > 1 else "is",
    "local_words": lambda facts: (f"Local there: {names_words(facts['local'])}." if facts["local"]
                                  else "No wire is local there."),
    "same_or_lower": lambda facts: ("the same number as" if facts["number"] == facts["last"]
                                    else "a lower number than"),
    "sort_or_remove": lambda facts: ("Remove the line." if facts["number"] == facts["last"]
                                     else "Sort these lines by number. `bbmlab fmt` does."),
    "side": lambda facts: "input" if facts["kind"] == "in" else "output",
    "near_port": lambda facts: (f" It is a wire, and no {facts['side']}." if facts["is_wire"]
                                else similar_names_hint(facts["name"], facts["known"])),
    "names_of_side": lambda facts: (f"Name one of the {facts['side']}s: {names_words(facts['known'])}."
                                    if facts["known"]
                                    else f"The circuit has no {facts['side']}."),
    "make_local": lambda facts: nonlocal_wire_hint(facts["name"], facts["gate"]),
    "wires_of_gate": lambda facts: names_words(facts["gate"].ins),
}


class FactsWithDerived(dict[str, Any]):
    """The facts of a cause, and what is derived of them, by name."""

    def __missing__(self, name: str) -> str:
        """Returns what is derived of the facts."""
        return DERIVED_FACTS[name](self)


def explain_by_sentences(sentences: CauseSentences, facts: RefusalFacts) -> ExplainedRefusal:
    """Returns a refusal in the sentences of its cause."""
    words = FactsWithDerived(facts)
    named, lines = (value if isinstance(value, list) else [value]
                    for value in (Formatter().get_field(place, (), words)[0] if place else []
                                  for place in (sentences.names_field, sentences.lines_field)))
    names = list(map(str, named))
    more = limits_line_hint(sentences.beyond_limits.format_map(words),
                            facts["limits"]) if sentences.beyond_limits else ""
    return ExplainedRefusal([sentences.what.format_map(words)], [sentences.hint.format_map(words) + more], names=names,
                            lines=lines)


# ---- code 12

def explain_text_ended(facts: RefusalFacts) -> ExplainedRefusal:
    """Explains a text that ends before its last section does."""
    section = facts["section"]
    return ExplainedRefusal([f"The text ends before the {section} section is complete: no line is left."],
                            [f"Write the {section} section up to its line `end`. The file may have been cut off.",
                             *(["`bbmlab certify` makes a certificate."] if section == "certificate" else [])])


# ---- code 6

def explain_border_not_rising(facts: RefusalFacts) -> ExplainedRefusal:
    """Explains an `edge`, `halo` or `stop` line that is out of order."""
    kind, new, last = facts["kind"], facts["new"], facts["last"]
    if new.order_key == last.order_key:
        what, hint = "names the same time and cell as", "Keep one of the two lines."
    elif new.order_key[0] == -1:
        what, hint = ("has `*`, and lines with `*` come first; it is out of order with",
                      "Move it up. `bbmlab fmt` sorts.")
    else:
        part = next(name for name, a, b in zip(("time", "y", "x"), new.order_key, last.order_key) if a != b)
        what, hint = f"has a smaller {part} than", "Sort by time, then y, then x. `bbmlab fmt` does."
    return ExplainedRefusal([f"`{border_or_stop_text(kind, new)}` {what} the line before it in the list, "
                             f"`{border_or_stop_text(kind, last)}` (line {facts['at']})."], [hint],
                            lines=[facts["at"]])


# ---- code 11

def explain_wire_not_consumed(facts: RefusalFacts) -> ExplainedRefusal:
    """Explains wires that nothing consumes at the end of a circuit."""
    names = facts["names"]
    lines = [facts["defined"][name] for name in names]
    where = ", ".join(f"`{name}` (line {line})" for name, line in list(zip(names, lines))[:8])
    verb = "wires are" if len(names) > 1 else "wire is"
    return ExplainedRefusal([f"{len(names)} {verb} defined and not consumed: {where}."],
                            [f"Add `output {names[0]}`, or `spill {names[0]}` for a wire that is left over."],
                            names=names, lines=lines)


def explain_port_without_cell(facts: RefusalFacts) -> ExplainedRefusal:
    """Explains inputs or outputs without a cell at the end of a layout."""
    what, hints = [], []
    for kind, side in (("in", "inputs"), ("out", "outputs")):
        names = facts[side]
        if names:
            what.append(f"The layout has no `{kind}` cell for {side[:-1] if len(names) == 1 else side}"
                        f" {names_words(names)} of the circuit.")
            hints.append(f"Add a line `{kind} {names[0]} X Y`.")
    return ExplainedRefusal(what, hints, names=facts["inputs"] + facts["outputs"])


def explain_port_not_local(facts: RefusalFacts) -> ExplainedRefusal:
    """Explains a port in a box whose wire the module does not know."""
    what = [f"Module {facts['module']} (line {facts['at']}) has the cell of `{port.kind} {port.name} {port.x} "
            f"{port.y}` (line {port.line}) "
            f"in its box, and does not know the wire `{port.name}`." for port in facts["ports"][:8]]
    hints = [nonlocal_wire_hint(port.name, facts["makers"][port.name]) for port in facts["ports"][:8]]
    names = list(dict.fromkeys(port.name for port in facts["ports"]))
    return ExplainedRefusal(what, list(dict.fromkeys(hints)), names=names,
                            lines=[facts["at"]] + [port.line for port in facts["ports"]])


def nonlocal_wire_hint(name: str, gate: Any) -> str:
    """Returns how a module comes to know a wire."""
    if gate is None:
        return f"Add `cut {name}` to the module."
    if not gate.ins:
        return f"Add `use {gate.number}` to the module: that source makes `{name}`."
    return (f"Add `use {gate.number}` to the module: that {gate.kind} makes `{name}` from {names_words(gate.ins)}, "
            "which the module then knows too. "
            f"Or add `cut {name}` if the module lies away from that gate.")


def explain_gap(facts: RefusalFacts) -> ExplainedRefusal:
    """Explains cells that are in no box."""
    gaps = facts["gaps"]
    shown = "; ".join(box_words(gap) for gap in gaps[:4]) + (f"; and {len(gaps) - 4} more" if len(gaps) > 4 else "")
    boxes = "The box of the only module leaves" if facts[
        "modules"] == 1 else f"The boxes of the {facts['modules']} modules leave"
    return ExplainedRefusal([f"{boxes} a gap: {shown} are in no box."],
                            [f"Add a module for the gap, such as `module {gaps[0].x} {gaps[0].y} "
                             f"{min(gaps[0].width, 64)} {min(gaps[0].height, 64)}`, or make a neighbour larger."])


def explain_heard_not_local(facts: RefusalFacts) -> ExplainedRefusal:
    """Explains an edge line beside a module that does not know its wire."""
    missing = facts["missing"]
    what = [f"Module {module} does not know the wire `{line.signal}`: line {at} "
            f"(`{border_or_stop_text('edge', line)}`, of module {other}) speaks of a cell beside its box."
            for module, line, other, at in missing[:4]]
    more = [f"There are {len(missing) - 4} more lines of that kind."] if len(missing) > 4 else []
    hints = [f"Add `cut {line.signal}` to module {module}, or `use` the gate that makes it."
             for module, line, _, _ in missing[:4]]
    return ExplainedRefusal(what + more, list(dict.fromkeys(hints)),
                            names=list(dict.fromkeys(line.signal for _, line, _, _ in missing)),
                            lines=[at for *_, at in missing])


# ---- code 2

def explain_layout_side(facts: RefusalFacts) -> ExplainedRefusal:
    """Explains a side of a layout that is odd or outside its limits."""
    number, limits = facts["number"], facts["limits"]
    most = limits.max_side
    why = f"outside 2 to {most}" if not 2 <= number <= most else "odd"
    size = {"width": "wider", "height": "higher"}[facts["what"]]
    return ExplainedRefusal([f"The {facts['what']} of the layout is {number}, which is {why}."],
                            [f"Take an even {facts['what']} from 2 to {most}"
                             + (f", such as {number + 1}." if number % 2 and number < most else ".")
                             + (limits_line_hint(f"A layout {size} than {most}", limits) if number > most else "")])


def explain_mirror_side(facts: RefusalFacts) -> ExplainedRefusal:
    """Explains a side of a mirror outside its limits."""
    most = facts["limits"].max_side
    more = limits_line_hint(f"A side of more than {most}", facts["limits"]) if facts["number"] > most else ""
    return ExplainedRefusal([f"The {facts['what']} of the mirror is {facts['number']}; it is 1 to {most}."],
                            [f"A `mirror` line is `mirror X Y W H`: the cell, then width and height.{more}"])


# ---- code 10

def even_time_hint(time: int, steps: int) -> str:
    """Returns a hint for an edge or halo line at an even time: the odd times beside it that are below the steps."""
    times = [str(odd) for odd in (time - 1, time + 1) if 0 < odd < steps]
    return f"Take the odd time at which the cell is live: {' or '.join(times)}." if times else "Remove the line."


def place_fault_and_hint(fault: str, facts: RefusalFacts) -> tuple[str, str]:
    """Returns what is wrong with a time or a cell, and a hint."""
    new, box, steps = facts["new"], facts["box"], facts["steps"]
    cell, last = f"({new.x}, {new.y})", steps - 1 if steps % 2 == 0 else steps - 2
    corner = f"({box.x + box.width - 1}, {box.y + box.height - 1})"
    return {
        "not_in_ring": (f"The cell {cell} is not in the ring of module {facts['module']}, the outermost cells of its "
                        f"box ({box_words(box)}).",
                        "Name a cell of the ring; a cell inside the box needs no line."),
        "on_rim": (f"The cell {cell} is on the rim, the outermost cells of the whole rectangle, where nothing is live "
                   "at odd times.",
                   "Remove the line; make the layout larger if a ball or a mirror is there."),
        "not_in_halo": (f"The cell {cell} is not in the halo of module {facts['module']}, the cells around its box "
                        f"({box_words(box)}).",
                        "Name a cell that touches the box from outside."),
        "halo_outside": (f"The cell {cell} is outside the rectangle.", "Remove the line."),
        "even_time": (f"The time {new.time} is even; edge and halo lines have odd times.",
                      even_time_hint(new.time or 0, steps)),
        "time_not_below_steps": (f"The time {new.time} is not below the steps, {steps}.",
                                 f"The last odd time below the steps is {last}." if last > 0
                                 else "There is no odd time below the steps: remove the line."),
        "star_cell": (f"The cell {cell} has a line with `*` already (line {facts['star']}).",
                      "Remove one of the two lines."),
        "stop_late": (f"The time {new.time} is after the last time, {steps}.", f"Take a time from 0 to {steps}."),
        "stop_outside": (f"The cell {cell} is not in the box of module {facts['module']}, from ({box.x}, {box.y}) to "
                         f"{corner}.",
                         "Move the stop into the module that has the cell."),
    }[fault]


def explain_border_place(facts: RefusalFacts) -> ExplainedRefusal:
    """Explains a time or a cell at which no line may be."""
    told = [place_fault_and_hint(fault, facts) for fault in facts["faults"]]
    star = [facts["star"]] if facts["star"] else []
    return ExplainedRefusal([what for what, _ in told], [hint for _, hint in told], lines=star)


# The causes that more than their facts decide.
REFUSAL_EXPLAINERS: dict[str, Callable[[RefusalFacts], ExplainedRefusal]] = {
    "text_ended": explain_text_ended, "border_not_rising": explain_border_not_rising,
    "wire_not_consumed": explain_wire_not_consumed, "port_without_cell": explain_port_without_cell,
    "port_not_local": explain_port_not_local, "gap": explain_gap, "heard_not_local": explain_heard_not_local,
    "layout_side": explain_layout_side, "mirror_side": explain_mirror_side, "border_place": explain_border_place}


def explain_refusal(document: Document, refusal: Refusal) -> ExplainedRefusal:
    """Returns a refusal of the lab's reader in words."""
    if refusal.cause == "shape":
        line = document.line(refusal.line)
        hints = shape_hints(line, refusal.facts["section"], refusal.facts["begun"], refusal.facts["forms"])
        explained = ExplainedRefusal([what for what, _ in hints], list(dict.fromkeys(hint for _, hint in hints)))
    else:
        facts = {"here": refusal.line, **refusal.facts}
        sentences = SENTENCES_BY_CAUSE.get(refusal.cause)
        explained = explain_by_sentences(sentences, facts) if sentences else REFUSAL_EXPLAINERS[refusal.cause](facts)
    explained.rule = CODE_RULES[refusal.code]
    return explained


def refusal_words(document: Document, line: int | None = None) -> str:
    """Returns in one line where the lab's reader refuses a text, the code, why, and the first hint.

    `line` is the line of a file that has another spelling.
    """
    assert document.refusal
    explained = explain_refusal(document, document.refusal)
    hint = f" Hint: {explained.hints[0]}" if explained.hints else ""
    return (f"line {line or document.refusal.line} is refused with code {document.refusal.code}: "
            f"{' '.join(explained.what)}{hint}")


def explain_code(line: int, code: int) -> ExplainedRefusal:
    """Returns what a refusal alone says, where the lab's reader does not come to the same one."""
    rule = CODE_RULES.get(code, "There is no such code.")
    return ExplainedRefusal([f"The program refuses line {line} with code {code}."],
                            ["docs/FORMATS.md has the rules of that line."], rule)
