"""Names of ports: in the pictures of `draw` they cover no port of another and no other name; and the page places them
by the same rules.
"""

import unittest
import xml.etree.ElementTree as ET
from pathlib import Path

import support
from bbmlab_core.commands.draw import picture_of
from bbmlab_core.pictures.label_places import NameToPlace, Rect, choose_name_places
from bbmlab_core.texts.designs import read_layout_file

SVG = "{http://www.w3.org/2000/svg}"
# Less than the width of any bold letter, as a part of the size, so that names that meet here meet in any font.
LEAST_WIDTH = 0.5
BUNDLES = ["examples/full_adder.txt", "examples/fredkin_gate.txt", "examples/machine_full_adder.txt",
           "examples/timed_modules.txt", "lab/cells/crossing.txt", "lab/cells/half_adder.txt"]


def number(part: ET.Element, name: str) -> float:
    """Returns a number of an element."""
    return float(part.get(name, "0"))


def name_box(part: ET.Element, size: float) -> Rect:
    """Returns the least room that a name takes: its text stands on the line `y`, with its middle at `x`."""
    width = LEAST_WIDTH * size * len(part.text or "")
    return Rect(number(part, "x") - width / 2, number(part, "y") - 0.7 * size, width, 0.7 * size)


def covered(picture: str, size: float) -> list[str]:
    """Returns which names of a picture cover a port's square or each other."""
    root = ET.fromstring(picture)
    names = [(part.text or "", name_box(part, size)) for part in root.iter(f"{SVG}text") if part.get("class") == "name"]
    ports = [Rect(number(part, "x"), number(part, "y"), number(part, "width"), number(part, "height"))
             for part in root.iter(f"{SVG}rect") if part.get("class") in ("in", "out")]
    found = [f"{text} covers the port at {port.x}, {port.y}" for text,
             box in names for port in ports if box.shared_area(port) > 0.5]
    found += [f"{text} covers {other}" for index, (text, box) in enumerate(names) for other,
              rect in names[:index] if box.shared_area(rect) > 0.5]
    return found


class Labels(unittest.TestCase):
    """The names of ports."""

    def test_no_name_covers_a_port(self) -> None:
        """In pictures of small and large layouts each name can be read, and each port can be seen."""
        for file in BUNDLES:
            layout = support.read_document(Path(support.TOP, file).read_text()).layout
            size = 8 * max(1.0, max(layout.width, layout.height) / 64)
            with self.subTest(file):
                self.assertEqual(covered(picture_of(read_layout_file(str(support.TOP / file)), None, None), size), [])

    def test_alone_a_name_keeps_its_side(self) -> None:
        """With nothing near, an input's name is above its cell and an output's below, both in the middle."""
        cell = Rect(100, 100, 12, 12)
        above, below = (choose_name_places([NameToPlace(cell, 20, 8, is_above)], [], [])[0].box
                        for is_above in (True, False))
        self.assertEqual((above.x, below.x), (96, 96))
        self.assertLess(above.y + above.height, 100)
        self.assertGreater(below.y, 112)

    def test_a_name_stays_in_the_picture(self) -> None:
        """A long name at the border is moved, so that it is not cut off."""
        bounds = Rect(0, 0, 200, 200)
        box = choose_name_places([NameToPlace(Rect(2, 2, 12, 12), 60, 8, True)], [], [], bounds)[0].box
        self.assertEqual(box.shared_area(bounds), 60 * 8)

    def test_a_crowd(self) -> None:
        """Names of a block of sixteen ports cover no port and no name, though some are away from their cells."""
        cells = [Rect(100 + 12 * (index % 4), 100 + 12 * (index // 4), 12, 12) for index in range(16)]
        boxes = [place.box for place in choose_name_places([NameToPlace(cell, 30, 8, False) for cell in cells], [], [])]
        self.assertEqual(sum(box.shared_area(cell) for box in boxes for cell in cells), 0)
        self.assertEqual(sum(one.shared_area(other) for index, one in enumerate(boxes) for other in boxes[:index]), 0)
