"""Changes of a layout that put mirrors which fall apart at legal places."""

from itertools import product
from typing import Iterator

from ..physics.mirrors import stable_mirrors_near, unstable_mirrors
from .layout_changes import DesignChange, Testbench, shifted_part

# The most mirrors that are moved together, and how many places of each are tried then.
MAX_MIRRORS_MOVED_TOGETHER = 3
MAX_PLACES_PER_MIRROR = 6


def unstable_mirror_changes(bench: Testbench) -> Iterator[DesignChange]:
    """Yields the layout with each mirror that falls apart at a legal place next to it; a few of them together, then
    each by itself."""
    unstable = sorted((own.mirror for own in unstable_mirrors(bench.layout)), key=bench.distance_to_fault)
    if not unstable:
        return
    if len(unstable) <= MAX_MIRRORS_MOVED_TOGETHER:
        count = 40 if len(unstable) == 1 else MAX_PLACES_PER_MIRROR
        for places in product(*(stable_mirrors_near(part)[:count] for part in unstable)):
            yield from bench.possible_change_as_list(dict(zip(unstable, places)))
    for part in unstable:
        for place in [*stable_mirrors_near(part)[:MAX_PLACES_PER_MIRROR],
                      *(shifted_part(part, dx, dy) for dy in (-1, 0, 1) for dx in (-1, 0, 1) if dx or dy)]:
            yield from bench.possible_change_as_list({part: place})
