"""The page in headless Chromium: controls, the report, wrong outputs, a routed machine, and a layout of 512 by 512
cells and 65,536 steps.

BBMLAB_SHOTS names a folder that keeps the screenshots.
"""

import lzma
import unittest

import support
from test_view_engine import large_layout

WRONG = """circuit
input p
input q
source 1 -> r
fredkin p q r -> a b c
output a
output b
output c
end
layout 8 8 2
ball 4 4
in p 0 0
in q 2 0
out a 4 0
out b 6 2
out c 6 0
end
certificate 2
module 0 0 8 8
cut p
cut q
use 0
use 1
end
"""


class Browser(unittest.TestCase):
    """The page in a browser."""

    def test_pages(self) -> None:
        """All that browse_view.py asks of the pages holds, and the console has no error."""
        support.require_browser()
        machine = lzma.decompress((support.EXAMPLES / "machines" / "adder_4.txt.xz").read_bytes()).decode("ascii")
        support.browse_pages("browse_view.py", {"fault": support.text_of("wrong_border"), "wrong": WRONG,
                                                "large": large_layout().text, "machine": machine})
