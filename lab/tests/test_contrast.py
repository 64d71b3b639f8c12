"""Contrast of the page's and the pictures' colours, from the sources, in light and dark: 3 to 1 for shapes and borders,
4.5 to 1 for texts.

The ratio is that of the Web Content Accessibility Guidelines 2.1: (L1 + 0.05) / (L2 + 0.05) with the relative
luminances L1 and L2.
"""

import re
import unittest

import support
from bbmlab_core.pictures import drawing

SHAPES, TEXTS = 3.0, 4.5
# The lines of blocks are no borders: they are faint on purpose, and nothing but them has their colour.
FAINT = {"grid"}
STYLE = (support.LAB / "bbmlab_core" / "view" / "page.css").read_text()
Style = dict[str, str]


def luminance(colour: str) -> float:
    """Returns the relative luminance of a colour, `#rgb` or `#rrggbb`."""
    digits = colour.lstrip("#")
    digits = "".join(2 * digit for digit in digits) if len(digits) == 3 else digits
    parts = [int(digits[at:at + 2], 16) / 255 for at in (0, 2, 4)]
    red, green, blue = (part / 12.92 if part <= 0.03928 else ((part + 0.055) / 1.055) ** 2.4 for part in parts)
    return 0.2126 * red + 0.7152 * green + 0.0722 * blue


def contrast(one: str, other: str) -> float:
    """Returns the contrast of two colours."""
    light, dark = sorted((luminance(one), luminance(other)), reverse=True)
    return (light + 0.05) / (dark + 0.05)


def page_colours() -> dict[str, Style]:
    """Returns the colours of the page by their names, in light and dark."""
    found = [dict(re.findall(r"--([\w-]+): *(#\w+)", block)) for block in re.findall(r":root *\{([^}]*)\}", STYLE)]
    return {"light": found[0], "dark": found[0] | found[1]}


def picture_colours() -> dict[str, dict[str, Style]]:
    """Returns fill and stroke of the classes of a picture, in light and dark."""
    light, dark = drawing.STYLE.split("@media(prefers-color-scheme:dark)")
    schemes: dict[str, dict[str, Style]] = {}
    for scheme, text in (("light", light), ("dark", light + dark)):
        found: dict[str, Style] = {}
        for names, body in re.findall(r"([.\w,]+)\{([^}]*)\}", text):
            for name in names.split(","):
                found.setdefault(name.lstrip("."), {}).update(re.findall(r"(fill|stroke):(#\w+)", body))
        schemes[scheme] = found
    return schemes


class Contrast(unittest.TestCase):
    """The colours."""

    def assert_seen(self, pairs: list[tuple[str, str]], least: float) -> None:
        """Asserts that colours of the page have enough contrast to their grounds."""
        for scheme, colours in page_colours().items():
            for name, ground in pairs:
                with self.subTest(scheme, name=name, ground=ground):
                    self.assertGreaterEqual(contrast(colours[name], colours[ground]), least)

    def test_the_ratio(self) -> None:
        """Black on white has 21 to 1, and a colour on itself 1 to 1."""
        self.assertAlmostEqual(contrast("#000", "#ffffff"), 21)
        self.assertEqual(contrast("#7a3db8", "#7a3db8"), 1)
        self.assertAlmostEqual(contrast("#777", "#fff"), 4.48, places=2)

    def test_shapes_of_the_page(self) -> None:
        """Mirrors, balls, boxes and the waveform can be seen on their grounds."""
        self.assert_seen([("mirror", "plane"), ("ball", "plane"), ("box", "plane"), ("ball", "mirror"),
                          ("wave", "paper"), ("box", "paper")], SHAPES)

    def test_borders_of_the_page(self) -> None:
        """Each border of the style has a colour with enough contrast to the paper outside and to the plane inside."""
        names = set(re.findall(r"border(?:-top|-color)?: *(?:\d+px solid )?var\(--(\w+)\)", STYLE))
        self.assertLessEqual({"border", "box"}, names)
        borders, understood = (len(re.findall(form, STYLE)) for form in (r"border(?:-\w+)?: *[^;}]*var\(",
                                                                         r"border(?:-top|-color)?: *(?:\d+px solid "
                                                                         r")?var\("))
        self.assertEqual(borders, understood)
        self.assert_seen([(name, ground) for name in names for ground in ("paper", "plane")], SHAPES)

    def test_texts_of_the_page(self) -> None:
        """Each colour of texts can be read on paper and plane."""
        named = set(re.findall(r"(?<![\w-])color: var\(--(\w+)\)", STYLE))
        self.assertLessEqual({"ink", "soft", "good", "bad", "edge", "halo", "stop"}, named)
        self.assertFalse(named & FAINT)
        self.assert_seen([(name, ground) for name in named for ground in ("paper", "plane")], TEXTS)

    def test_pictures(self) -> None:
        """Mirrors, balls, ports, waste cells and modules of `draw` can be seen on the plane."""
        for scheme, classes in picture_colours().items():
            plane = classes["plane"]["fill"]
            for name, kind in (("mirror", "fill"), ("ball", "fill"), ("in", "stroke"), ("out", "stroke"),
                               ("waste", "stroke"), ("box", "stroke"),
                               ("fault", "stroke"), ("number", "fill"), ("text", "fill")):
                with self.subTest(scheme, name=name):
                    self.assertGreaterEqual(contrast(classes[name][kind], plane), SHAPES)
