"""How far a long command is: a line that is written again and again on a terminal, else a line each ten seconds."""

import sys
import time

from ..host.terminal import escape_controls

BAR_WIDTH = 24
# Seconds between two lines where there is no terminal, and between two looks of the bar.
LINE_INTERVAL_SECONDS = 10.0
BAR_INTERVAL_SECONDS = 0.1


def clock_text(seconds: float) -> str:
    """Returns a number of seconds as minutes and seconds."""
    whole = int(seconds + 0.5)
    return (f"{whole // 3600}:{whole // 60 % 60:02d}:{whole % 60:02d}" if whole >= 3600
            else f"{whole // 60}:{whole % 60:02d}")


class Progress:
    """Tells on standard error how many of `total` things are done, how many a second, and how long the rest may take.
    """

    def __init__(self, total: int) -> None:
        self.total, self.done = total, 0
        self.is_terminal = sys.stderr is not None and sys.stderr.isatty()
        self.began = self.last = time.monotonic()
        self.is_shown = False

    def hide(self) -> None:
        """Takes the bar away, before something else is written."""
        if self.is_shown:
            sys.stderr.write("\r\033[K")
            sys.stderr.flush()
            self.is_shown = False

    def show_if_due(self, what: str = "") -> None:
        """Shows how far it is, if it is time to."""
        now = time.monotonic()
        if sys.stderr is None or now - self.last < (BAR_INTERVAL_SECONDS if self.is_terminal
                                                    else LINE_INTERVAL_SECONDS):
            return
        self.last = now
        rate = self.done / (now - self.began)
        left = f", {clock_text((self.total - self.done) / rate)} left" if rate else ""
        if not self.is_terminal:
            print(f"bbmlab: {self.done} of {self.total}, {rate:.3g} a second{left}", file=sys.stderr, flush=True)
            return
        filled = BAR_WIDTH * self.done // max(1, self.total)
        line = (f"[{'#' * filled}{'.' * (BAR_WIDTH - filled)}] {self.done}/{self.total}  {rate:.3g} a second{left}  "
                f"{escape_controls(what)}")
        sys.stderr.write("\r\033[K" + line[:79])
        sys.stderr.flush()
        self.is_shown = True
