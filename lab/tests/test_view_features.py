"""What the page does in headless Chromium beyond its controls: see browse_features.py, which has a test for each of its
features.

BBMLAB_SHOTS names a folder that keeps the pages, and the files that they save.
"""

import unittest

import support
from test_view_modules import many_outputs


class Browser(unittest.TestCase):
    """The page in a browser."""

    def test_features(self) -> None:
        """All tests of browse_features.py pass."""
        support.require_browser()
        support.browse_pages("browse_features.py", {
            "adder": support.text_of("full_adder"), "faults": support.text_of("wrong_edge"),
            "outputs": many_outputs(48, [5, 17, 40]).text, "crowd": many_outputs(600, [3]).text})
