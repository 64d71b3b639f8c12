"""What is known of a search before it begins: the circuit's size, the side that is tried first, and how such circuits
fared when measured.
"""

from dataclasses import dataclass

from .netlist import RouterNetlist


@dataclass(frozen=True)
class MeasuredCircuits:
    """Circuits that `bench/route` tried on 2026-12-01 (bench/README.md): how many got a yes, within the goal or not,
    and the median of their processor seconds.

    `most_gates` is the most gates that one of them has.
    """

    most_gates: int
    found: int
    tried: int
    seconds: int


MEASURED_CIRCUITS = (MeasuredCircuits(12, 40, 40, 1), MeasuredCircuits(42, 40, 40, 4), MeasuredCircuits(56, 40, 40, 7),
                     MeasuredCircuits(106, 40, 40, 19))


@dataclass(frozen=True)
class RouteEstimate:
    """The gates, levels and ends of a circuit, and the side that is tried first. An end is a ball at the last time."""

    gates: int
    levels: int
    ends: int
    first_side: int

    def words(self) -> str:
        """Returns the estimate as sentences."""
        size = (f"{counted_noun(self.gates, 'gate')} in {counted_noun(self.levels, 'level')}, "
                f"{counted_noun(self.ends, 'ball')} at the end: first side {self.first_side}.")
        like = next((row for row in MEASURED_CIRCUITS if self.gates <= row.most_gates), None)
        if like is None:
            return f"{size} No circuit of more than {MEASURED_CIRCUITS[-1].most_gates} gates was measured."
        return (f"{size} When measured, {like.found} of {counted_noun(like.tried, 'circuit')} of up to "
                f"{like.most_gates} gates got a route. The median took "
                f"{counted_noun(like.seconds, 'processor second')}.")


def counted_noun(count: int, noun: str) -> str:
    """Returns a number with its noun."""
    return f"{count} {noun}{'' if count == 1 else 's'}"


def estimate_of(netlist: RouterNetlist, side: int) -> RouteEstimate:
    """Returns the estimate for a circuit that is tried first with a side."""
    levels: dict[str, int] = {}
    for gate in netlist.circuit.gates:
        own = 0 if gate.kind in ("source", "delay") else 1
        level = max((levels.get(wire, 0) for wire in gate.ins), default=0) + own
        levels.update((wire, level) for wire in gate.outs)
    ends = [wire for wire in (*netlist.circuit.outputs, *netlist.circuit.spills) if not netlist.has_no_ball(wire)]
    return RouteEstimate(len(netlist.gates), max(levels.values(), default=0), len(ends), side)
