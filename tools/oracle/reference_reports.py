"""`check` in plain Python, straight from docs/FORMATS.md: the findings are those of reference_findings.py, and borders
are compared cell by cell.

answer(text) gives the exit status and what is written for a text of bytes, and answer_to(command, text) that of any
command.
"""
import hashlib

import reference
from reference import INVERSE, Certificate, Circuit, Lines, Refused, read_section
from reference_findings import KINDS, Pattern, least_fault, least_keep


def border_fault(certificate, module):
    """The time, y and x of the least one, or None.

    A difference begins at time 1, at the time of a line, or right after it.
    """
    halos, edges = dict(module.lines[b"halo"]), dict(certificate.beside(module))

    def signal(lines, time, y, x):
        return lines.get((time, y, x), lines.get((-1, y, x)))

    named = halos.keys() | edges.keys()
    places = {(1, y, x) for _, y, x in named} | {(time + 2 * late, y, x) for time, y,
                                                 x in named if time > 0 for late in (0, 1)}
    differ = (place for place in places if place[0] < certificate.layout.steps
              and signal(halos, *place) != signal(edges, *place))
    return min(differ, default=None)


def report(circuit, certificate):
    layout, modules = certificate.layout, certificate.modules
    for number, module in enumerate(modules):
        fault = least_fault(circuit, layout, module)
        if fault:
            time, kind, y, x, assignment = fault
            yield b"local %d %s %d %d %d %d\n" % (number, KINDS[kind].encode(), time, x, y, assignment)
        fault = least_keep(circuit, module)
        if fault:
            yield b"keep %d %d %d\n" % (number, *fault)
        fault = border_fault(certificate, module)
        if fault:
            time, y, x = fault
            yield b"border %d %d %d %d\n" % (number, time, x, y)
    kept = {number for module in modules for number in module.lines[b"keep"]}
    for number, (word, *_) in enumerate(circuit.gates):
        if word in INVERSE and number not in kept:
            yield b"unkept %d\n" % number


def seen_times(modules):
    """For each wire that has stops their times."""
    times = {}
    for module in modules:
        for (time, _, _), name in module.lines[b"stop"]:
            times.setdefault(name, []).append(time)
    return times


def time_lines(circuit, modules):
    """The lines of delays and then those of meetings, and of each whether its rule is kept."""
    times = seen_times(modules)
    for number, (word, wanted, ins, outs) in enumerate(circuit.gates):
        if word == b"delay":
            used, made = times.get(ins[0]), times.get(outs[0])
            gap = b"missing" if not (used
                                     and made) else b"before" if min(made) < max(used) else b"%d" % (
                                         min(made) - max(used))
            yield b"delay %d %d %s\n" % (number, wanted, gap), gap == b"%d" % wanted
    for number, (_, _, ins, _) in enumerate(circuit.gates):
        lasts = [max(times[name]) for name in ins if name in times]
        if len(lasts) >= 2:
            met = len(set(lasts)) == 1
            yield b"meet %d %s\n" % (number, b"%d" % lasts[0] if met else b"differ"), met


def answer(text: bytes) -> tuple[int, bytes]:
    lines = Lines(text)
    try:
        circuit = read_section(lines, Circuit(lines.limits))
        layout = read_section(lines, Pattern(lines.limits, {b"in": set(circuit.inputs), b"out": set(circuit.outputs)}))
        first = lines.taken
        certificate = read_section(lines, Certificate(circuit, layout))
        # In version 2 the edge lines beside a module are its halo lines.
        for module in certificate.modules if certificate.version == 2 else []:
            module.lines[b"halo"] = certificate.beside(module)
        last = lines.taken
        lines.finish()
    except Refused as refused:
        return 3, b"refused %d %d\n" % refused.args
    section = b"\n".join(lines.parts[first:last]) + b"\n"
    faults = list(report(circuit, certificate))
    timing = list(time_lines(circuit, certificate.modules))
    digest = hashlib.sha256(section).hexdigest().encode()
    head = b"bbmcheck 1\ncertificate %s\nmodules %d\n" % (digest, len(certificate.modules))
    is_yes = not faults and all(kept for _, kept in timing)
    lines = b"".join([*faults, *(line for line, _ in timing)])
    return (0, head + b"verdict yes\n" + lines) if is_yes else (1, head + b"verdict no\n" + lines)


def answer_to(command: str, text: bytes) -> tuple[int, bytes]:
    return answer(text) if command == "check" else reference.answer(command, text)
