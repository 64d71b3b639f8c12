"""Searches for a cheap circuit: maps a graph in many orders, and asks that each inverse gate can be kept by a module.
"""

import random

from ...texts.limits import SECOND_LIMITS
from ..cones import cone_for_inverse_gate
from .circuit_text import NamedCircuit, named_circuit
from .graph import LogicGraph
from .mapping import Mapper, MappingPreferences, MappedGates
from .model import NetlistError

RANDOM_TRY_COUNT = 20
MAX_MAPPING_TRIES = 1000
# Tries times nodes and outputs: some seconds.
MAX_NODE_TRIES = 40_000
# One interaction gate makes three products, and no gate makes more.
MAX_NEEDED_NODES = 3 * SECOND_LIMITS.max_gates


def require_section_limits(gate_count: int, wire_count: int) -> None:
    """Raises NetlistError if a circuit section cannot have so many gates or wires."""
    for count, most, what in ((gate_count, SECOND_LIMITS.max_gates, "gates"),
                              (wire_count, SECOND_LIMITS.max_wires, "wires")):
        if count > most:
            raise NetlistError(f"The circuit would need {count} {what}. A circuit has at most {most}.")


def cheapest_wiring(graph: LogicGraph, separate: frozenset[int], size: int) -> MappedGates:
    """Returns the cheapest of some wirings: the best of some at random, improved by small changes of its preferences.

    The same graph gets the same wiring each time.
    """
    chooser, tries = random.Random(1), max(2, min(MAX_MAPPING_TRIES, MAX_NODE_TRIES // max(1, size)))

    def map_by_preferences(preferences: MappingPreferences) -> tuple[float, MappingPreferences, MappedGates]:
        """Returns the cost, the preferences and the wiring of a try."""
        wiring = Mapper(graph, separate, preferences).map_needed_nodes()
        return wiring.cost(), preferences, wiring

    first = min(tries, RANDOM_TRY_COUNT)
    cost, best, wiring = min((map_by_preferences(MappingPreferences.at_random(graph, chooser)) for _ in range(first)),
                             key=lambda found: found[0])
    if best.ranks:
        for _ in range(tries - first):
            found = map_by_preferences(best.with_small_change(chooser))
            if found[0] <= cost:
                cost, best, wiring = found
    return wiring


def map_graph(graph: LogicGraph) -> NamedCircuit:
    """Maps a graph. Raises NetlistError if the circuit does not fit the limits of a circuit section."""
    needed = graph.needed_nodes()
    if len(needed) > MAX_NEEDED_NODES:
        raise NetlistError(f"The netlist needs {len(needed)} nodes of logic, and so more than "
                           f"{SECOND_LIMITS.max_gates} gates. A circuit has at most {SECOND_LIMITS.max_gates}.")
    separate: frozenset[int] = frozenset()
    while True:
        wiring = cheapest_wiring(graph, separate, len(needed) + len(graph.outputs))
        found = named_circuit(graph, wiring)
        require_section_limits(len(found.circuit.gates), len(found.circuit.wires))
        # The nodes whose inverse gate has no cone that shows that it always has a row.
        failed = frozenset(gate.joined_node for number, gate in enumerate(wiring.gates)
                           if gate.gate_kind == "unswitch" and gate.joined_node is not None
                           and cone_for_inverse_gate(found.circuit, number) is None)
        if not failed:
            return found
        separate |= failed
