"""Runs jobs in a process of their own, one at a time, and ends those that take too long or that a newer job replaces.
"""

import json
import os
import select
import signal
import subprocess
import sys
import threading
import time
from pathlib import Path
from typing import Any

from ..host.program import Executable, open_program

PACKAGE_PARENT = Path(__file__).resolve().parents[2]
# How many seconds more than the program's limit a job may take, and how many a process may take to end.
MORE_SECONDS, GRACE_SECONDS = 10.0, 2.0


class JobWorker:
    """A process that answers jobs."""

    def __init__(self, program: Executable | str, seconds: float, memory: int) -> None:
        self.program = program = open_program(program)
        # Compiled modules are kept where this process keeps its own.
        compiled = ["-X",
                    f"pycache_prefix={sys.pycache_prefix}"] if sys.pycache_prefix and not sys.dont_write_bytecode else [
                        "-B"]
        words = [sys.executable, *compiled, "-m", "bbmlab_core.studio.worker", program.path, str(program.descriptor),
                 program.sha256, str(seconds), str(memory)]
        path = os.pathsep.join([str(PACKAGE_PARENT), *filter(None, [os.environ.get("PYTHONPATH")])])
        self.process = subprocess.Popen(words, stdin=subprocess.PIPE, stdout=subprocess.PIPE, start_new_session=True,
                                        pass_fds=[program.descriptor], env={**os.environ, "PYTHONPATH": path})
        self.is_ended = False
        # Whether the time for an answer was over.
        self.is_late = False

    def answer(self, job: dict[str, Any], seconds: float) -> dict[str, Any] | None:
        """Returns the answer to a job, or None if the process ended or the time is over."""
        assert self.process.stdin and self.process.stdout
        try:
            self.process.stdin.write(json.dumps(job).encode() + b"\n")
            self.process.stdin.flush()
        except OSError:
            return None
        until, found, output = time.monotonic() + seconds, bytearray(), self.process.stdout.fileno()
        while not found.endswith(b"\n"):
            ready, _, _ = select.select([output], [], [], max(0.0, until - time.monotonic()))
            part = os.read(output, 1 << 20) if ready else b""
            if not part:
                self.is_late = not ready
                return None
            found += part
        answer: dict[str, Any] = json.loads(found)
        return answer

    def end_process(self) -> None:
        """Asks the process to end with the program that it runs, and kills it if it does not."""
        self.is_ended = True
        try:
            self.process.send_signal(signal.SIGTERM)
            self.process.wait(GRACE_SECONDS)
        except subprocess.TimeoutExpired:
            self.process.kill()
            self.process.wait()

    def describe_ending(self) -> str:
        """Says how the process ended, or that it is still there."""
        try:
            status = self.process.wait(GRACE_SECONDS)
        except subprocess.TimeoutExpired:
            return "the lab's process closed its output"
        if status < 0:
            return ("the lab's process was ended by "
                    f"{signal.Signals(-status).name if -status in set(signal.Signals) else f'signal {-status}'}")
        return f"the lab's process ended with status {status}, and standard error of `bbmlab studio` may say why"

    def close_pipes(self) -> None:
        """Closes the pipes.

        Only the thread that waits for an answer may do so: another one could be given the number of a closed pipe.
        """
        for stream in (self.process.stdin, self.process.stdout):
            if stream:
                try:
                    stream.close()
                except OSError:
                    pass


class JobQueue:
    """The jobs of all tabs. A tab's newer job ends its older one; jobs of other tabs wait."""

    def __init__(self, program: Executable | str, seconds: float, memory: int) -> None:
        self.program, self.seconds, self.memory = open_program(program), seconds, memory
        self.turn, self.lock = threading.Lock(), threading.Lock()
        self.newest: dict[str, int] = {}
        self.count = 0
        self.worker: JobWorker | None = None
        # The tab whose job runs now.
        self.running: str | None = None
        self.is_closed = False

    def answer_job(self, tab: str, job: dict[str, Any]) -> dict[str, Any]:
        """Returns the answer to a job. It is `{"replaced": true}` if the tab asked for another one meanwhile."""
        with self.lock:
            self.count += 1
            ticket = self.newest[tab] = self.count
            old = self.worker if self.running == tab else None
        if old:
            old.end_process()
        with self.turn:
            with self.lock:
                if self.newest[tab] != ticket or self.is_closed:
                    return {"replaced": True}
                self.running = tab
                worker = self.worker = self.worker if self.worker and not self.worker.is_ended else self.new_worker()
            try:
                found = worker.answer(job, self.seconds + MORE_SECONDS)
                is_good = found is not None and not worker.is_ended and self.newest[tab] == ticket
                return found if found is not None and is_good else self.end_worker_and_explain(worker, tab, ticket)
            finally:
                with self.lock:
                    self.running = None

    def start_worker_ahead(self) -> None:
        """Starts the process, so that the first job need not wait for it."""
        with self.turn, self.lock:
            if self.worker is None and not self.is_closed:
                self.worker = self.new_worker()

    def new_worker(self) -> JobWorker:
        """Returns a new process."""
        return JobWorker(self.program, self.seconds, self.memory)

    def end_worker_and_explain(self, worker: JobWorker, tab: str, ticket: int) -> dict[str, Any]:
        """Ends a process that gave no answer, and says why there is none."""
        was_replaced = worker.is_ended or self.newest[tab] != ticket
        ended = "" if was_replaced or worker.is_late else worker.describe_ending()
        worker.end_process()
        worker.close_pipes()
        if was_replaced:
            return {"replaced": True}
        return {"error": f"There is no answer: the time limit of {self.seconds:g} seconds was reached."
                if worker.is_late else f"There is no answer: {ended}."}

    def close(self) -> None:
        """Ends the process. No job runs later."""
        with self.lock:
            self.is_closed = True
            worker, is_idle = self.worker, self.running is None
        if worker:
            worker.end_process()
            if is_idle:
                worker.close_pipes()
