"""Routes and connections for the studio: each is a process of its own, which goes on while the page is used, and can be
ended at any time.
"""

import os
import resource
import signal
import subprocess
import sys
import tempfile
import threading
import time
from dataclasses import dataclass, field
from pathlib import Path
from typing import Any

from ..host.terminal import LabError
from .folder import decode_page_text, encode_page_text

# The package, which the process imports.
PACKAGE_PARENT = Path(__file__).resolve().parent.parent.parent
PYTHON_CODE_TEMPLATE = "import sys; from bbmlab_core.{} import main; sys.exit(main())"
MAX_SECONDS, MAX_SEED = 3600, 2 ** 31
# A page that asks no longer is gone: its search is ended after so many seconds. An ended search gets a moment to stop
# the program that it runs.
SILENCE_SECONDS, GRACE_SECONDS = 60.0, 5.0
# How long an answer waits for the end of a search: the page asks again then.
POLL_WAIT_SECONDS = 0.5


@dataclass
class RouteSearch:
    """A search: its process, its files, and when the page asked for it last."""

    process: subprocess.Popen[bytes]
    work_folder: tempfile.TemporaryDirectory[str]
    seconds: float
    begun: float = field(default_factory=time.monotonic)
    asked: float = field(default_factory=time.monotonic)
    is_cancelled: bool = False

    def progress_lines(self) -> list[str]:
        """Returns what the search wrote to standard error so far, without its name before each line."""
        text = Path(self.work_folder.name, "said").read_text(encoding="utf-8", errors="replace")
        return [line.removeprefix("bbmlab: ") for line in text.splitlines() if line.strip()]

    def end_process(self) -> None:
        """Ends the process with the programs that it runs."""
        for number in (signal.SIGINT, signal.SIGKILL):
            try:
                os.killpg(self.process.pid, number)
            except ProcessLookupError:
                pass
            try:
                self.process.wait(GRACE_SECONDS)
                return
            except subprocess.TimeoutExpired:
                continue


class RouteSearches:
    """The searches of all tabs: one at a time, since each takes a processor and much memory."""

    def __init__(self, program: str, memory: int) -> None:
        self.program, self.memory = program, memory
        self.lock = threading.Lock()
        self.found: dict[str, RouteSearch] = {}
        self.is_closed = False

    def start_search(self, tab: str, text: str, seconds: float, seed: int,
                     ports: tuple[str, str] | None = None) -> dict[str, Any]:
        """Begins a search for the circuit of a text, or for a way from an output to an input of the text. Raises
        LabError if another one runs, or a number is not allowed."""
        if not 1 <= seconds <= MAX_SECONDS or not 0 <= seed < MAX_SEED:
            raise LabError(f"A search takes 1 to {MAX_SECONDS} seconds, and its seed is from 0 to {MAX_SEED - 1}.")
        if ports:
            words = [PYTHON_CODE_TEMPLATE.format("studio.connecting"), "text.txt", "bundle.txt", *ports, f"{seconds:g}",
                     str(seed), self.program]
        else:
            words = [PYTHON_CODE_TEMPLATE.format("cli"), "route", "text.txt", "-o", "bundle.txt", "--seed", str(seed),
                     "--effort",
                     f"{seconds:g}", "--program", self.program]
        with self.lock:
            if any(route.process.poll() is None for route in self.found.values()) or self.is_closed:
                raise LabError("Another search is running. It can be cancelled in its tab.")
            self.forget_search(tab)
            route = self.found[tab] = self.start_process(encode_page_text(text), words, seconds)
        threading.Thread(target=self.end_when_page_is_gone, args=(route,), daemon=True).start()
        return {"state": "runs", "seconds": 0.0, "said": []}

    def start_process(self, text: bytes, words: list[str], seconds: float) -> RouteSearch:
        """Returns a new search: Python with some words, in a folder with the text."""
        room = tempfile.TemporaryDirectory(prefix="bbmlab-route-")
        Path(room.name, "text.txt").write_bytes(text)
        path = os.pathsep.join([str(PACKAGE_PARENT), *filter(None, [os.environ.get("PYTHONPATH")])])
        with open(Path(room.name, "said"), "wb") as said:
            process = subprocess.Popen([sys.executable, "-B", "-c", *words], cwd=room.name, stdin=subprocess.DEVNULL,
                                       stdout=said, stderr=said, start_new_session=True,
                                       env={**os.environ, "PYTHONPATH": path, "NO_COLOR": "1"})
        limit = self.memory * 2 ** 20
        try:
            resource.prlimit(process.pid, resource.RLIMIT_AS, (limit, limit))
        except (OSError, ValueError):
            # It has ended already, or this user has less.
            pass
        return RouteSearch(process, room, seconds)

    def poll_search(self, tab: str) -> dict[str, Any]:
        """Returns what became of a tab's search:

        `runs`, `found` with the bundle, `failed`, `cancelled` or `none`. It waits a moment for the end.
        """
        with self.lock:
            route = self.found.get(tab)
        if route is None:
            return {"state": "none"}
        route.asked = time.monotonic()
        try:
            status = route.process.wait(POLL_WAIT_SECONDS)
        except subprocess.TimeoutExpired:
            return {"state": "runs", "seconds": time.monotonic() - route.begun, "said": route.progress_lines()}
        said, bundle = route.progress_lines(), Path(route.work_folder.name, "bundle.txt")
        answer: dict[str, Any] = {"state": "cancelled" if route.is_cancelled else "failed", "said": said}
        if status == 0 and bundle.is_file():
            answer = {"state": "found", "said": said, "text": decode_page_text(bundle.read_bytes())}
        with self.lock:
            if self.found.get(tab) is route:
                self.forget_search(tab)
        return answer

    def cancel_search(self, tab: str) -> dict[str, Any]:
        """Ends a tab's search."""
        with self.lock:
            route = self.found.get(tab)
        if route is None:
            return {"state": "none"}
        route.is_cancelled = True
        route.end_process()
        return self.poll_search(tab)

    def end_when_page_is_gone(self, route: RouteSearch) -> None:
        """Ends a search whose page no longer asks."""
        while route.process.poll() is None:
            if time.monotonic() - route.asked > SILENCE_SECONDS:
                route.end_process()
            try:
                route.process.wait(1.0)
            except subprocess.TimeoutExpired:
                continue

    def forget_search(self, tab: str) -> None:
        """Forgets a tab's search that has ended, with its files."""
        route = self.found.pop(tab, None)
        if route:
            route.work_folder.cleanup()

    def close(self) -> None:
        """Ends all searches."""
        with self.lock:
            self.is_closed = True
            routes = list(self.found.values())
        for route in routes:
            route.end_process()
            route.work_folder.cleanup()
