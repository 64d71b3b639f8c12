"""The studio in headless Chromium: a collision is drawn from nothing, and a mirror of the Fredkin gate is dragged and
put back.

BBMLAB_SHOTS names a folder that keeps the screenshots.
"""

import os
from pathlib import Path

import support


class Browser(support.InRoom):
    """The page in a browser."""

    def test_in_a_browser(self) -> None:
        """Each use of `browse_studio.py` comes to its end, and the console has no error."""
        support.require_browser()
        folder = Path(os.environ.get("BBMLAB_SHOTS") or self.room)
        (folder / "collision.txt").unlink(missing_ok=True)
        support.browse("browse_studio.py", str(folder), support.program(), support.BBMLAB[1])
