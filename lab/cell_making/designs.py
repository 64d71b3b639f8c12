"""The standard cells: what each computes, where its balls come in and leave, and its mirrors.

The gates are those of Fredkin and Toffoli 1982. The mirrors of the larger machines were found by a search.
"""

from dataclasses import replace

from bbmlab_core.route.balls import Ball, BounceKind, Leg, Mirror, follow_legs
from bbmlab_core.route.cells import GateCell, base_gate_cells

from .bundles import Machine, rectangles_of_cells
from .full_adder import full_adder_machine

FLAT, UPRIGHT = BounceKind.FLAT, BounceKind.UPRIGHT
# The steps from the start of a cell's run until its inputs arrive.
LEAD_IN_STEPS = 4


def path_machine(name: str, legs: list[Leg], gates: list[str], out: str) -> Machine:
    """Returns a machine of one ball and its mirrors."""
    start = Ball(4, 4, 1, 1, LEAD_IN_STEPS)
    end, mirrors = follow_legs(start, legs)
    return Machine(name, gates, {"a": start}, {out: end}, mirrors)


def delay_machine(steps: int) -> Machine:
    """Returns a delay: two flat mirrors move the track aside, and two upright ones move it back.

    The ball leaves on the track on which it came, `steps` later than without mirrors. The steps are even, and at least
    10.
    """
    aside = (steps - 4) // 2
    legs = [Leg(3, FLAT), Leg(aside, FLAT), Leg(5, UPRIGHT), Leg(aside, UPRIGHT), Leg(4, None)]
    total = sum(leg.steps for leg in legs)
    return path_machine(f"delay_{steps}", legs, [f"delay {total} a -> b"], "b")


def crossing_machine() -> Machine:
    """Returns two balls whose tracks cross. The second is at the crossing four steps after the first."""
    ins = {"a": Ball(4, 4, 1, 1, LEAD_IN_STEPS), "b": Ball(0, 17, 1, -1, LEAD_IN_STEPS)}
    return Machine("crossing", [], ins, {name: ball.after_flight(20) for name, ball in ins.items()})


def collision_machine() -> Machine:
    """Returns two balls that meet at a right angle, without a mirror."""
    ins = {"p": Ball(4, 4, 1, 1, LEAD_IN_STEPS), "q": Ball(4, 17, 1, -1, LEAD_IN_STEPS)}
    late = {name: ball.shifted_by(-2, 0, 0) for name, ball in ins.items()}
    outs = {"a": late["q"], "b": ins["q"], "c": ins["p"], "d": late["p"]}
    return Machine("collision", ["interact p q -> a b c d"], ins,
                   {name: ball.after_flight(14) for name, ball in outs.items()})


def gate_machine(name: str, cell: GateCell) -> Machine:
    """Returns the machine of a gate's cell. Its inputs arrive together, when the first of them has to."""
    arrival = min(ball.time for ball in cell.ins.values())
    shift = LEAD_IN_STEPS - arrival + arrival % 2
    ins = {port: ball.at_time(arrival).shifted_by(0, 0, shift) for port, ball in cell.ins.items()}
    outs = {port: ball.shifted_by(0, 0, shift) for port, ball in cell.outs.items()}
    line = f"{cell.word} {' '.join(ins)} -> {' '.join(outs)}"
    return Machine(name, [line], ins, outs, rectangles_of_cells(set(cell.mirrors)))


def renamed_machine(machine: Machine, name: str, names: dict[str, str], gates: list[str]) -> Machine:
    """Returns a machine with other names and gate lines.

    An output whose name begins with `*` is garbage, and an input named `1` is a constant.
    """
    ins = {names[port]: ball for port, ball in machine.ins.items() if names[port] != "1"}
    constants = [ball for port, ball in machine.ins.items() if names[port] == "1"]
    outs = {names[port]: ball for port, ball in machine.outs.items() if not names[port].startswith("*")}
    garbage = {names[port][1:]: ball for port, ball in machine.outs.items() if names[port].startswith("*")}
    return replace(machine, name=name, gates=gates, ins=ins, outs=outs, constants=constants, garbage=garbage)


def mirrors_from_numbers(sides: list[tuple[int, int, int, int]]) -> list[Mirror]:
    """Returns mirrors from their corners, widths and heights."""
    return [Mirror(*side) for side in sides]


UNSWITCH_MIRRORS = [
    (25, -32, 4, 2), (40, -19, 2, 4), (-1, -16, 8, 2), (-8, -9, 2, 4), (-11, -4, 2, 4), (-6, -3, 4, 2), (18, -3, 2, 4),
    (6, -1, 2, 4),
    (-1, 0, 2, 4), (8, 2, 1, 4), (7, 3, 1, 3), (12, 3, 4, 2), (-5, 4, 4, 2), (24, 5, 2, 4), (17, 6, 2, 4),
    (26, 8, 1, 4), (25, 9, 1, 3),
    (13, 10, 4, 2), (-6, 11, 4, 2), (-2, 12, 3, 2), (-3, 13, 1, 1), (12, 17, 4, 2), (16, 18, 3, 2), (15, 19, 1, 1),
]


def unswitch_machine() -> Machine:
    """Returns a switch, six mirrors that lead its outputs on, and an inverse switch."""
    ins = {"c": Ball(9, 9, 1, 1, 3), "x": Ball(9, 12, 1, -1, 3)}
    inner = {"d": Ball(-4, -6, 1, 1, 56), "y": Ball(-3, -6, -1, 1, 56), "z": Ball(-7, 4, -1, 1, 82).at_time(56)}
    outs = {"e": Ball(-11, 1, -1, -1, 86), "w": Ball(-11, 8, -1, 1, 86)}
    gates = ["switch c x -> d y z", "unswitch d y z -> e w"]
    return Machine("unswitch", gates, ins, outs, mirrors_from_numbers(UNSWITCH_MIRRORS), inner=inner)


UNINTERACT_MIRRORS = [
    (11, -2, 4, 2), (8, -1, 3, 2), (11, 0, 1, 1), (15, 0, 2, 4), (14, 3, 1, 4), (15, 4, 1, 3), (16, 5, 2, 2),
    (20, 9, 2, 4), (-3, 14, 2, 6),
    (9, 14, 4, 2), (8, 15, 1, 2), (9, 16, 3, 1), (21, 18, 2, 4), (14, 25, 4, 2),
]


def uninteract_machine() -> Machine:
    """Returns a collision, twelve mirrors that lead its outputs on, and a collision run backwards."""
    ins = {"p": Ball(5, 5, 1, 1, 3), "q": Ball(5, 8, 1, -1, 3)}
    inner = {"a": Ball(5, 23, 1, 1, 37), "b": Ball(5, 21, 1, 1, 37), "c": Ball(6, 21, -1, 1, 37),
             "d": Ball(6, 23, -1, 1, 37)}
    outs = {"r": Ball(2, 25, -1, 1, 41), "s": Ball(9, 25, 1, 1, 41)}
    gates = ["interact p q -> a b c d", "uninteract a b c d -> r s"]
    return Machine("uninteract", gates, ins, outs, mirrors_from_numbers(UNINTERACT_MIRRORS), inner=inner)


HALF_ADDER_MIRRORS = [
    (-15, -40, 4, 2), (5, -40, 4, 2), (12, -39, 4, 2), (-2, -33, 2, 6), (-23, -32, 2, 4), (-10, -29, 4, 2),
    (0, -29, 2, 2), (24, -29, 2, 4),
    (-23, -24, 2, 4), (-9, -24, 2, 4), (-16, -23, 2, 4), (-24, -21, 1, 4), (-23, -20, 1, 3), (-14, -19, 4, 2),
    (3, -16, 2, 4),
    (34, -13, 2, 4), (-13, -12, 4, 2), (-5, -12, 2, 4), (-16, -11, 3, 2), (-13, -10, 1, 1), (6, -7, 2, 4),
    (22, -7, 2, 4), (9, -6, 4, 2),
    (-22, -1, 2, 4), (-9, 0, 2, 4), (6, 1, 4, 2), (7, 3, 2, 3), (12, 3, 4, 2), (-6, 5, 4, 2), (24, 5, 2, 4),
    (17, 6, 2, 4), (26, 8, 1, 4),
    (25, 9, 1, 3), (-13, 10, 4, 2), (13, 10, 4, 2), (12, 17, 4, 2), (16, 18, 3, 2), (15, 19, 1, 1),
]


def half_adder_machine() -> Machine:
    """Returns a switch that copies a, a collision of a copy with b, and an inverse switch that joins the two lone
    balls."""
    gates = ["source 1 -> k", "switch a k -> a1 a2 not_a", "interact a1 b -> carry b_alone a_alone again",
             "unswitch a2 a_alone b_alone -> a3 sum"]
    ins = {"a": Ball(6, 6, 1, 1, 0).at_time(2), "b": Ball(0, -23, 1, -1, 0).at_time(2)}
    outs = {"sum": Ball(-21, -31, -1, -1, 98).at_time(96), "carry": Ball(4, -23, 1, -1, 98).at_time(76)}
    garbage = {"not_a": Ball(34, 2, 1, 1, 98).at_time(66), "again": Ball(2, -22, 1, 1, 98).at_time(84),
               "a3": Ball(-10, -31, 1, -1, 98).at_time(96)}
    return Machine("half_adder", gates, ins, outs, mirrors_from_numbers(HALF_ADDER_MIRRORS), [Ball(6, 15, 1, -1, 0)],
                   garbage)


def xor_machine() -> Machine:
    """Returns the half adder with the carry as garbage."""
    half = half_adder_machine()
    return replace(half, name="xor", outs={"sum": half.outs["sum"]},
                   garbage={"carry": half.outs["carry"], **half.garbage})


def renamed_switch_machines(switch: Machine) -> list[Machine]:
    """Returns the machines that are a switch with other names: copies, NOT and AND."""
    copying = ["source 1 -> k", "switch a k -> d y z"]
    return [
        renamed_machine(switch, "fan_out", {"c": "a", "x": "1", "d": "d", "y": "y", "z": "*z"}, copying),
        renamed_machine(switch, "not", {"c": "a", "x": "1", "d": "*d", "y": "*y", "z": "z"}, copying),
        renamed_machine(switch, "and", {"c": "a", "x": "b", "d": "*d", "y": "y", "z": "*z"}, ["switch a b -> d y z"]),
    ]


def all_machines() -> list[Machine]:
    """Returns the machines of all cells."""
    cells = base_gate_cells()
    switch, fredkin = gate_machine("switch", cells["switch"][0]), gate_machine("fredkin", cells["fredkin"][0])
    either = renamed_machine(fredkin, "or", {"c": "a", "x": "1", "y": "b", "d": "*d", "u": "u", "v": "*v"},
                             ["source 1 -> k", "fredkin a k b -> d u v"])
    return [
        path_machine("turn_left", [Leg(4, FLAT), Leg(6, None)], [], "a"),
        path_machine("turn_right", [Leg(4, UPRIGHT), Leg(6, None)], [], "a"),
        path_machine("turn_back", [Leg(4, FLAT), Leg(2, UPRIGHT), Leg(8, None)], [], "a"),
        delay_machine(10), delay_machine(24), crossing_machine(), collision_machine(),
        gate_machine("interact", cells["interact"][0]), uninteract_machine(), switch, unswitch_machine(),
        fredkin, gate_machine("fredkin_inverse", cells["fredkin"][1]),
        gate_machine("cswap", cells["cswap"][0]), gate_machine("cswap_inverse", cells["cswap"][1]),
        *renamed_switch_machines(switch), either, xor_machine(), half_adder_machine(), full_adder_machine(),
    ]
