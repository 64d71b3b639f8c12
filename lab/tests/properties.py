"""What tests of properties share: circuits, layouts, certificates and damaged texts that hypothesis chooses, and runs
of the lab's commands.
"""

import atexit
import os
import signal
import sys
import tempfile
import traceback
from typing import IO

from hypothesis import strategies as st
from hypothesis.configuration import set_hypothesis_home_dir

import support

sys.path.insert(0, str(support.LAB / "public"))
import bbmlab  # noqa: E402
from bbmlab_core.cli import main  # noqa: E402
from bbmlab_core.texts.gates import GATE_SIZES, INVERSE_GATES  # noqa: E402

# Where hypothesis keeps its tables of characters, in place of a folder beside the tests.
ROOM = tempfile.TemporaryDirectory(prefix="hypothesis-")
atexit.register(ROOM.cleanup)
set_hypothesis_home_dir(ROOM.name)

NAMES = st.from_regex(r"[a-z][a-z0-9_]{0,5}", fullmatch=True) | st.from_regex(r"[a-z][a-z0-9_]{31}",
                                                                              fullmatch=True) | st.sampled_from(
    ["circuit", "end", "input", "layout", "certificate", "cut", "x"])
# Texts of examples/ that are damaged: each kind of section and of line.
SEEDS = ["one_wire", "not_gate", "wrong_edge", "wrong_border", "four_modules", "there_and_back", "not_kept",
         "timed_modules", "head_on", "collision_values", "half_adder", "outside_values", "leaves"]
WORDS = ["0", "1", "-1", "00", "7", "8", "513", "65537", "999999999", "9999999999", "*", "->", "", " ", "end", "p",
         "zz", "P", "a.b", "\u00e9", "\t", "#",
         "\x1b[31m", "\x00", "circuit", "layout 8 8 3", "certificate 2", "assign", "module 0 0 8 8"]
# A child that takes longer is ended by SIGALRM.
MAX_SECONDS = 60
CRASHED = 70


@st.composite
def circuits(draw: st.DrawFn) -> bbmlab.Circuit:
    """Draws a circuit of up to four inputs and six gates."""
    names = draw(st.lists(NAMES, min_size=30, max_size=30, unique=True))
    circuit = bbmlab.Circuit().input(*(names.pop() for _ in range(draw(st.integers(0, 4)))))
    free = list(circuit.inputs)
    for _ in range(draw(st.integers(0, 6))):
        kind = draw(st.sampled_from(sorted(kind for kind, (ins, _) in GATE_SIZES.items() if ins <= len(free))))
        ins = [free.pop(draw(st.integers(0, len(free) - 1))) for _ in range(GATE_SIZES[kind][0])]
        outs = [names.pop() for _ in range(GATE_SIZES[kind][1])]
        parameter = {"source": [draw(st.sampled_from("01"))], "delay": [str(draw(st.integers(1, 4096)))]}.get(kind, [])
        circuit = circuit.gate(" ".join([kind, *parameter, *ins, "->", *outs]))
        free += outs
        if len(names) < 5:
            break
    free = draw(st.permutations(free))
    count = draw(st.integers(0, len(free)))
    return circuit.output(*free[:count]).spill(*free[count:])


@st.composite
def layouts(draw: st.DrawFn, circuit: bbmlab.Circuit) -> bbmlab.Layout:
    """Draws a layout for a circuit, whose cells are anywhere."""
    width, height = (2 * draw(st.integers(4, 12)) for _ in range(2))
    layout = bbmlab.Layout(width, height, draw(st.integers(0, 40)))
    cells = draw(st.permutations([(x, y) for y in range(height) for x in range(width)]))[:40]
    for _ in range(draw(st.integers(0, 3))):
        layout = layout.mirror(*cells.pop(), 1, 1)
    for _ in range(draw(st.integers(0, 3))):
        layout = layout.ball(*cells.pop())
    for name in draw(st.permutations(circuit.inputs)):
        layout = layout.in_cell(name, *cells.pop())
    for name in draw(st.permutations(circuit.outputs)):
        layout = layout.out_cell(name, *cells.pop())
    for _ in range(min(len(cells), draw(st.integers(0, 3)))):
        layout = layout.waste(*cells.pop())
    return layout


def ring_and_halo(box: bbmlab.Box, layout: bbmlab.Layout) -> tuple[list[tuple[int, int]], list[tuple[int, int]]]:
    """Returns the cells of a box's ring that are not on the rim, and those of its halo that are in the rectangle."""
    around = [(x, y) for y in range(box.y - 1, box.y + box.height + 1) for x in range(box.x - 1, box.x + box.width + 1)
              if 0 <= x < layout.width and 0 <= y < layout.height]
    inside = {(x, y) for x, y in around if box.x <= x < box.x + box.width and box.y <= y < box.y + box.height}
    inner = {(x, y) for x, y in inside if box.x < x < box.x + box.width - 1 and box.y < y < box.y + box.height - 1}
    rim = {(x, y) for x, y in around if x in (0, layout.width - 1) or y in (0, layout.height - 1)}
    return sorted(inside - inner - rim), sorted(set(around) - inside)


@st.composite
def modules(draw: st.DrawFn, box: bbmlab.Box, circuit: bbmlab.Circuit, layout: bbmlab.Layout,
            version: int) -> bbmlab.Module:
    """Draws a module that knows all wires, with lines at any allowed cell and time."""
    module = bbmlab.Module(box).cut(*draw(st.permutations(circuit.inputs))).use(*range(len(circuit.gates)))
    wires = [*circuit.inputs, *(name for gate in circuit.gates for name in gate.outs)]
    signals = st.sampled_from(["1", *wires])
    inverse = [number for number, gate in enumerate(circuit.gates) if gate.kind in INVERSE_GATES]
    module = module.keep(*[number for number in inverse if draw(st.booleans())])
    times = st.none() | st.sampled_from([time for time in range(1, layout.steps, 2)]) if layout.steps > 1 else st.none()
    for cells, add in zip(ring_and_halo(box, layout), ("edge", "halo")):
        if add == "halo" and version == 2:
            continue
        for x, y in draw(st.lists(st.sampled_from(cells), max_size=4, unique=True)) if cells else []:
            module = getattr(module, add)(draw(times), x, y, draw(signals))
    for _ in range(draw(st.integers(0, 2)) if wires else 0):
        place = draw(st.integers(box.x, box.x + box.width - 1)), draw(st.integers(box.y, box.y + box.height - 1))
        time = draw(st.integers(0, layout.steps))
        if not any((stop.time, stop.x, stop.y) == (time, *place) for stop in module.stops):
            module = module.stop(time, draw(st.sampled_from(wires)), *place)
    return module


@st.composite
def bundles(draw: st.DrawFn) -> bbmlab.Bundle:
    """Draws a bundle that no reader refuses, in boxes of one grid."""
    circuit = draw(circuits())
    layout, version = draw(layouts(circuit)), draw(st.sampled_from([1, 2]))
    width, height = (2 * draw(st.integers(2, 12)) for _ in range(2))
    boxes = [bbmlab.Box(x, y, min(width, layout.width - x), min(height, layout.height - y))
             for y in range(0, layout.height, height) for x in range(0, layout.width, width)]
    certificate = bbmlab.Certificate(version, tuple(draw(modules(box, circuit, layout, version)) for box in boxes))
    return bbmlab.Bundle(circuit, layout, certificate)


def with_step(words: list[str], draw: st.DrawFn) -> list[str]:
    """Returns a line with one of its numbers a little larger or smaller, or with one of its names changed."""
    places = [place for place, word in enumerate(words) if place and word]
    if places:
        place = draw(st.sampled_from(places))
        number = int(words[place]) + draw(st.sampled_from([-2, -1, 1, 2, 4])) if words[place].isdecimal() else -1
        words[place] = str(number) if number >= 0 else draw(st.sampled_from(["p", "q", "a", "b", "0", "1"]))
    return words


def damaged(lines: list[str], index: int, kind: str, draw: st.DrawFn) -> list[str]:
    """Returns lines with one damage of a kind at a line."""
    words = lines[index].split(" ")
    if kind == "drop":
        return lines[:index] + lines[index + 1:] or [""]
    if kind == "twice":
        return lines[:index] + [lines[index]] + lines[index:]
    if kind == "cut":
        return lines[:index + 1]
    if kind == "swap":
        other = draw(st.integers(0, len(lines) - 1))
        lines[index], lines[other] = lines[other], lines[index]
    elif kind == "step":
        lines[index] = " ".join(with_step(words, draw))
    elif kind == "word":
        words[draw(st.integers(0, len(words) - 1))] = draw(st.sampled_from(WORDS) | st.integers(0, 600).map(str))
        lines[index] = " ".join(words)
    elif kind == "line":
        lines.insert(index, draw(st.sampled_from(WORDS)))
    else:
        lines[index] += draw(st.sampled_from(["  ", "\r", " 1", " # why", "\u2192"]))
    return lines


@st.composite
def damaged_texts(draw: st.DrawFn) -> bytes:
    """Draws a text of examples/ with some damages.

    Most of them change a number a little, so that many texts are still taken.
    """
    lines = (support.EXAMPLES / f"{draw(st.sampled_from(SEEDS))}.txt").read_text().split("\n")
    for _ in range(draw(st.integers(0, 3))):
        kind = draw(st.sampled_from(["step"] * 8 + ["drop", "drop", "swap", "twice", "word", "line", "cut", "more"]))
        lines = damaged(lines, draw(st.integers(0, len(lines) - 1)), kind, draw)
    return "\n".join(lines).encode("utf-8")[:draw(st.sampled_from([None] * 9 + [50]))]


def run_in_child(words: list[str], seconds: int, out: IO[bytes], errors: IO[bytes]) -> int:
    """Runs a command in a process of its own, and returns its status:

    CRASHED after a traceback, and less than 0 after a signal.
    """
    child = os.fork()
    if child:
        return os.waitstatus_to_exitcode(os.waitpid(child, 0)[1])
    status: object = CRASHED
    try:
        os.dup2(os.open(os.devnull, os.O_RDONLY), 0)
        os.dup2(out.fileno(), 1)
        os.dup2(errors.fileno(), 2)
        sys.stdin, sys.stdout, sys.stderr = open(0, closefd=False), open(1, "w",
                                                                         closefd=False), open(2, "w", closefd=False)
        signal.alarm(seconds)
        try:
            status = main(words)
        except SystemExit as end:
            status = end.code
        sys.stdout.flush()
    except BaseException:
        traceback.print_exc()
        status = CRASHED
    finally:
        sys.stderr.flush()
        os._exit(status if isinstance(status, int) else 1 if status else 0)


def run_lab(words: list[str], seconds: int = MAX_SECONDS) -> tuple[int, str, str]:
    """Runs a command of the lab, and returns its status and what it wrote."""
    with tempfile.TemporaryFile() as out, tempfile.TemporaryFile() as errors:
        status = run_in_child(words, seconds, out, errors)
        written = []
        for file in (out, errors):
            file.seek(0)
            written.append(file.read().decode("utf-8", "replace"))
        return status, written[0], written[1]
