"""The picture that moves: its balls are where the lab's simulation has live cells, at each time."""
import itertools
import re
import unittest
import xml.etree.ElementTree as ET

import support
from bbmlab_core.physics import tracing
from bbmlab_core.pictures import animating
from bbmlab_core.texts.designs import read_layout_file

CELLS = ["fredkin", "switch", "interact", "half_adder", "crossing", "delay_10", "unswitch"]


class Animation(unittest.TestCase):
    """The cells of the balls, and the SVG."""

    def test_tracks_are_live_cells(self) -> None:
        """At each time, under all inputs, the cells of the tracks are the live cells outside of mirrors."""
        for name in CELLS:
            layout = read_layout_file(str(support.LAB / "cells" / f"{name}.txt"))[1]
            names = animating.layout_input_names(layout)
            for bits in itertools.product((False, True), repeat=len(names)):
                on = [name for name, bit in zip(names, bits) if bit]
                found = animating.ball_paths(layout, on)
                for time in range(0, layout.steps + 1, 7):
                    live = tracing.state_at(layout, on, time) - layout.mirror_cells()
                    self.assertEqual({cells[time] for _, cells in found}, live, (name, on, time))

    def test_attributes_move_together(self) -> None:
        """Each ball has as many places as there are steps in all runs, and is out of sight in the runs of others."""
        layout = read_layout_file(str(support.LAB / "cells" / "fredkin.txt"))[1]
        picture = ET.fromstring(animating.animation_svg(layout, [["c"], ["x", "y"]], "two runs"))
        space = "{http://www.w3.org/2000/svg}"
        values = [it.attrib["values"].split(";") for it in picture.iter(f"{space}animate")
                  if it.attrib["attributeName"] in "xy"]
        own = layout.steps + 1 + animating.REST_STEPS
        self.assertEqual({len(it) for it in values}, {2 * own})
        self.assertEqual(len(values), 2 * 6)
        for it in values:
            seen = [at < own for at, value in enumerate(it) if value != "-99"]
            self.assertTrue(all(seen) or not any(seen))
            self.assertEqual(len(seen), own)

    def test_captions(self) -> None:
        """Each run has a caption with the values of all inputs."""
        layout = read_layout_file(str(support.LAB / "cells" / "fredkin.txt"))[1]
        found = re.findall(r">(c = \d, x = \d, y = \d)\n", animating.animation_svg(layout, [["c"], ["x", "y"]], ""))
        self.assertEqual(found, ["c = 1, x = 0, y = 0", "c = 0, x = 1, y = 1"])
