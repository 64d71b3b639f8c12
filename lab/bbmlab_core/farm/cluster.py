"""`bbmlab check --dask`: the workers of a Dask cluster run the program.

Dask is imported only here; it is no part of the lab.
"""

import importlib
import os
import queue
import time
from typing import Any, Iterable, Iterator

from ..host import sealed
from ..host.own_digest import why_not_report_of
from ..host.program import Executable
from ..host.terminal import LabError
from . import remote
from .answering import CheckResult, result_of_report
from .checking import KEPT_RESULT_NAMES, FileChecker, keep_result, text_or_failure
from .receipts import ReceiptFolder, sha256_digits

# How many groups of texts are on their way for each thread of the workers, and seconds between two looks.
GROUPS_AHEAD, POLL_SECONDS = 4, 0.2
# A group of texts that is sent at once: about as many seconds of work, and at most so many texts and bytes.
GROUP_SECONDS, GROUP_TEXTS, GROUP_BYTES = 0.25, 50, 1 << 20
# How often a group is sent that no worker answers, since a worker may end with a result that was not fetched.
MAX_SENDS_PER_GROUP = 3
# Seconds until the threads of the workers are counted again, since this asks the scheduler.
THREAD_RECOUNT_SECONDS = 1.0

# Seconds to wait for the scheduler, and for a first worker.
CONNECT_SECONDS = 10


class FileGroup:
    """Files with their texts, which one worker checks, and how often they were sent."""

    def __init__(self) -> None:
        self.files: list[tuple[str, bytes]] = []
        self.sent = 0


def connect_to_cluster(address: str, jobs: int, program: Executable) -> Any:
    """Returns a client of the scheduler at an address, or of a cluster of processes here if the address is empty, with
    the program."""
    try:
        cloudpickle, distributed = (importlib.import_module(name) for name in ("cloudpickle", "distributed"))
    except ImportError as error:
        raise LabError(
            "--dask needs Dask: apt-get install python3-distributed, or pip install 'bbmlab[dask]'") from error
    for module in (remote, sealed):
        cloudpickle.register_pickle_by_value(module)
    try:
        if address:
            client = distributed.Client(address, timeout=CONNECT_SECONDS)
        else:
            os.environ["BBMCHECK"] = program.path
            client = distributed.Client(n_workers=jobs, threads_per_worker=1, processes=True, dashboard_address=":0",
                                        host="127.0.0.1", silence_logs=50)
        client.wait_for_workers(1, timeout=CONNECT_SECONDS)
    except (OSError, TimeoutError, ValueError) as error:
        raise LabError(f"no Dask cluster with a worker {f'at {address}' if address else 'here'}: {error}") from error
    return client


def answers_and_failure_reason(future: Any) -> tuple[list[remote.RemoteAnswer], str]:
    """Returns the answers of a worker, and why there are none.

    A worker that was killed may take along a result that was ready.
    """
    if future.status != "finished":
        return [], str(future.exception() if future.status == "error" else future.status) or "unknown error"
    try:
        return list(future.result()), ""
    # pylint: disable=broad-exception-caught  # It was raised in another process, and may be of any class.
    except Exception as error:
        return [], str(error) or type(error).__name__


class ClusterChecker(FileChecker):
    """Checks files by the workers of a cluster. The texts and the receipts are read and written here."""

    def __init__(self, program: Executable, address: str, jobs: int, timeout: float | None,
                 folder: ReceiptFolder | None, sends: bool) -> None:
        super().__init__(program, jobs, timeout, folder)
        self.digest = program.sha256
        self.client = connect_to_cluster(address, jobs, program)
        self.said: dict[str, str] = {}
        # The groups that came back, how many are on their way, and what the texts of those that came back took.
        self.done: "queue.SimpleQueue[tuple[FileGroup, Any]]" = queue.SimpleQueue()
        self.flying, self.answered, self.worked = 0, 0, 0.0
        self.thread_count, self.counted_until = 1, 0.0
        if sends:
            self.client.run(remote.store_program, program.program_bytes(), self.digest)
        for complaint in sorted(set(self.client.run(remote.why_no_program, self.digest).values()) - {""}):
            self.stop()
            raise LabError(complaint)

    def check_files(self, files: Iterable[str]) -> Iterator[CheckResult | None]:
        """Yields the result of each file as soon as it is there, and None about each fifth of a second without one."""
        group = FileGroup()
        for file in files:
            ready = (self.order.keeper.known_result(file) if self.order.keeper else None) or self.add_file(file, group)
            if ready:
                yield ready
            elif self.is_group_full(group):
                self.send_group(group)
                group = FileGroup()
                while self.flying >= GROUPS_AHEAD * self.worker_thread_count():
                    yield from self.finished_results()
        if group.files:
            self.send_group(group)
        while self.flying:
            yield from self.finished_results()

    def worker_thread_count(self) -> int:
        """Returns how many threads the workers have, or had a second ago."""
        now = time.monotonic()
        if now >= self.counted_until:
            self.thread_count = max(1, sum(int(count) for count in self.client.nthreads().values()))
            self.counted_until = now + THREAD_RECOUNT_SECONDS
        return self.thread_count

    def add_file(self, file: str, group: FileGroup) -> CheckResult | None:
        """Adds a file to a group. Returns a result only if it can't be read."""
        text = text_or_failure(file, self.order.timeout)
        if isinstance(text, CheckResult):
            return text
        group.files.append((file, text))
        return None

    def is_group_full(self, group: FileGroup) -> bool:
        """Whether a group is as large as it may be: by what a text took so far, one text at the start."""
        wanted = GROUP_SECONDS * self.answered / self.worked if self.worked else 1
        return len(group.files) >= min(max(wanted, 1), GROUP_TEXTS) or sum(len(text) for _,
                                                                           text in group.files) >= GROUP_BYTES

    def send_group(self, group: FileGroup) -> None:
        """Sends a group to a worker."""
        future = self.client.submit(remote.run_on_texts, self.digest, [text for _, text in group.files],
                                    self.order.timeout, pure=False)
        future.add_done_callback(lambda ended: self.done.put((group, ended)))
        group.sent += 1
        self.flying += 1

    def finished_results(self) -> Iterator[CheckResult | None]:
        """Yields the results of a group that has come, or None after a fifth of a second."""
        try:
            group, future = self.done.get(timeout=POLL_SECONDS)
        except queue.Empty:
            yield None
            return
        self.flying -= 1
        answers, why = answers_and_failure_reason(future)
        if why and group.sent < MAX_SENDS_PER_GROUP:
            self.send_group(group)
            return
        if why:
            yield from (CheckResult(file, "error", f"no worker answered: {why}", 0) for file, _ in group.files)
            return
        for (file, text), said in zip(group.files, answers):
            self.answered += 1
            self.worked += max(said[3], 0.001, self.order.timeout or 0 if said[4] == "timeout" else 0)
            yield self.keep_answer(file, text, said)

    def keep_answer(self, file: str, text: bytes, said: remote.RemoteAnswer) -> CheckResult:
        """Returns the result that an answer stands for, and keeps it.

        Two answers to one text end the run, and so does another program.
        """
        host, status, output, seconds, kind, complaint = said
        if kind:
            return CheckResult(file, "timeout" if kind == "timeout" else "error", complaint, 0,
                               is_fatal=kind == "other program")
        why = why_not_report_of(text, output)
        result = CheckResult(file, "error", f"on {host}: {why}", 0) if why else result_of_report(file, status, output)
        result.seconds = round(seconds, 3)
        other = self.said.setdefault(sha256_digits(text), output)
        if other != output:
            return CheckResult(file, "error",
                               f"two answers to {file} by one program: {other!r} and {output!r} (on {host})", 0,
                               is_fatal=True)
        keeper = self.order.keeper
        return keep_result(keeper, text, result, seconds) if keeper and result.result in KEPT_RESULT_NAMES else result

    def stop(self) -> None:
        """Lets the cluster go: one that was started here ends."""
        try:
            self.client.close(timeout=2)
        finally:
            cluster = self.client.cluster
            if cluster is not None:
                cluster.close(timeout=2)
