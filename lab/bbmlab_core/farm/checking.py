"""`bbmlab check`: many texts through the program at once, by processes.

Each result is passed on as soon as it is there.
"""

import multiprocessing
import os
import signal
import sys
from collections import Counter
from dataclasses import dataclass
from multiprocessing.connection import Connection, wait
from pathlib import Path
from types import FrameType
from typing import Callable, Iterable, Iterator, Protocol

from ..host.program import Executable, ProgramTimeout, RunningPrograms
from ..host.signals import start_interrupt_timer
from ..host.terminal import LabError, read_bytes
from .answering import RESULT_WORDS, CheckResult, timed_result_of_check

__all__ = ["RESULT_WORDS", "CheckResult", "FileChecker", "ResultKeeper", "exit_status", "files_to_check",
           "result_counts", "result_counts_summary"]

# Seconds between two looks whether a worker has a result, and how long a worker may take to end.
POLL_SECONDS, GRACE_SECONDS = 0.2, 2.0
# The results that are kept: what the program said.
KEPT_RESULT_NAMES = ("yes", "no", "refused")


def text_files_below(folder: str, tell: Callable[[str], None] = lambda _: None) -> list[str]:
    """Returns the `.txt` files of a folder, at any depth. Raises LabError if a folder cannot be listed.

    A link to a folder is not followed, since links may make a circle. `tell` gets a sentence on each of them, and on
    what is no plain file.
    """
    def raise_unlistable_folder(error: OSError) -> None:
        """Ends the search."""
        raise LabError(f"{error.filename}: {error.strerror or error}") from error

    found = []
    for place, folders, names in os.walk(folder, onerror=raise_unlistable_folder):
        for name in sorted(name for name in folders if os.path.islink(os.path.join(place, name))):
            tell(f"{Path(place) / name}: this link to a folder is left out; name it to check its files")
        for name in (name for name in names if name.lower().endswith(".txt")):
            path = Path(place) / name
            if path.exists() and not path.is_file():
                tell(f"{path}: this is no plain file, and is left out")
            else:
                found.append(str(path))
    return sorted(found)


def files_to_check(names: list[str], tell: Callable[[str], None] = lambda _: None) -> list[str]:
    """Returns the files of these names; a folder is all its `.txt` files, at any depth.

    `tell` gets a sentence on what is left out.
    """
    found: list[str] = []
    for name in names:
        if name != "-" and os.path.isdir(name):
            inside = text_files_below(name, tell)
            if not inside:
                raise LabError(f"{name}: no .txt file in this folder")
            found += inside
        else:
            found.append(name)
    return list(dict.fromkeys(found))


class ContradictionError(LabError):
    """One program gave two answers to one text. The message has both."""


class ResultKeeper(Protocol):
    """What keeps results from one run to the next."""

    def known_result(self, file: str) -> CheckResult | None:
        """Returns the result that is kept for a file, or None if the file is to be checked."""

    def store_result(self, text: bytes, result: CheckResult, seconds: float) -> None:
        """Keeps a result that is a verdict or a refusal. `seconds` is the processor time of the program."""


@dataclass(frozen=True)
class WorkerSettings:
    """What each worker does: run a program for at most `timeout` seconds a text, and keep the results."""

    program: Executable
    timeout: float | None
    keeper: ResultKeeper | None = None

    def check_file(self, file: str, given: bytes | None, running: RunningPrograms) -> CheckResult:
        """Returns what the program says of a file, or of a text that was read already."""
        text = text_or_failure(file, self.timeout) if given is None else given
        if isinstance(text, CheckResult):
            return text
        before = children_processor_seconds()
        result = timed_result_of_check(self.program, file, text, self.timeout, running)
        if self.keeper and result.result in KEPT_RESULT_NAMES:
            return keep_result(self.keeper, text, result, children_processor_seconds() - before)
        return result


def read_bytes_in_time(file: str, timeout: float | None) -> bytes:
    """Returns the bytes of a file. Raises ProgramTimeout if it does not end in time, as a pipe to which nobody writes.
    """
    if timeout is None or os.path.isfile(file):
        return read_bytes(file)

    def raise_timeout(_number: int, _frame: FrameType | None) -> None:
        """Ends the reading."""
        raise ProgramTimeout(f"the file did not end within {timeout:g} seconds")

    signal.signal(signal.SIGALRM, raise_timeout)
    signal.setitimer(signal.ITIMER_REAL, timeout)
    try:
        return read_bytes(file)
    finally:
        start_interrupt_timer()


def text_or_failure(file: str, timeout: float | None) -> bytes | CheckResult:
    """Returns the bytes of a file, or the result that it has if it cannot be read."""
    try:
        return read_bytes_in_time(file, timeout)
    except LabError as error:
        return CheckResult(file, "missing", str(error).removeprefix(f"{file}: "), 0)
    except ProgramTimeout as error:
        return CheckResult(file, "timeout", str(error), 0)


def keep_result(keeper: ResultKeeper, text: bytes, result: CheckResult, seconds: float) -> CheckResult:
    """Keeps a result, and returns it, or an error if it was not kept."""
    try:
        keeper.store_result(text, result, seconds)
    except LabError as error:
        return CheckResult(result.file, "error", str(error), result.seconds,
                           is_fatal=isinstance(error, ContradictionError))
    return result


def children_processor_seconds() -> float:
    """Returns the seconds of the processor that the ended children of this process took."""
    return sum(os.times()[2:4])


def serve_checks(order: WorkerSettings, own: Connection, others: list[Connection]) -> None:
    """Checks one file after another, in a worker process, until the pipe is closed.

    SIGTERM and SIGHUP end the program that runs, and the worker.
    """
    running = RunningPrograms()

    def kill_programs_on_signal(_number: int, _frame: FrameType | None) -> None:
        """Ends the program, and lets no other start."""
        running.kill_all()

    signal.signal(signal.SIGINT, signal.SIG_IGN)
    for number in (signal.SIGTERM, signal.SIGHUP):
        if signal.getsignal(number) is not signal.SIG_IGN:
            signal.signal(number, kill_programs_on_signal)
    start_interrupt_timer()
    for connection in others:
        connection.close()
    try:
        while not running.is_stopped:
            file, text = own.recv()
            own.send(order.check_file(file, text, running))
    except (EOFError, OSError):
        return


class CheckWorker:
    """A process that checks files, one at a time."""

    def __init__(self, order: WorkerSettings, others: list["CheckWorker"]) -> None:
        context = multiprocessing.get_context("fork")
        self.connection, theirs = context.Pipe()
        sys.stdout.flush()
        held = [self.connection, *(other.connection for other in others)]
        self.process = context.Process(target=serve_checks, args=(order, theirs, held), daemon=True)
        self.process.start()
        theirs.close()
        self.file = ""

    def give_file(self, file: str) -> None:
        """Gives a file to check. Standard input is read here: a worker has none."""
        self.file = file
        try:
            text = read_bytes(file) if file == "-" else None
        except LabError:
            text = None
        self.connection.send((file, text))

    def next_result(self) -> CheckResult | None:
        """Returns the result that is there, or None if the process has ended."""
        try:
            result: CheckResult = self.connection.recv()
            return result
        except (EOFError, OSError):
            return None


class FileChecker:
    """Checks files, some at a time. `stop` ends all that runs."""

    def __init__(self, program: Executable, jobs: int = 1, timeout: float | None = None,
                 keeper: ResultKeeper | None = None) -> None:
        self.order, self.jobs = WorkerSettings(program, timeout, keeper), jobs
        self.workers: list[CheckWorker] = []

    def check_files(self, files: Iterable[str]) -> Iterator[CheckResult | None]:
        """Yields the result of each file as soon as it is there, and None about each fifth of a second without one."""
        idle: list[CheckWorker] = []
        busy: dict[Connection, CheckWorker] = {}
        keeper = self.order.keeper
        for file in files:
            held = keeper.known_result(file) if keeper else None
            if held:
                yield held
                continue
            while not idle and len(self.workers) >= self.jobs:
                yield from self.ready_results(busy, idle)
            if not idle:
                idle.append(CheckWorker(self.order, self.workers))
                self.workers.append(idle[-1])
            worker = idle.pop()
            busy[worker.connection] = worker
            worker.give_file(file)
        while busy:
            yield from self.ready_results(busy, idle)

    def ready_results(self, busy: dict[Connection, CheckWorker],
                      idle: list[CheckWorker]) -> Iterator[CheckResult | None]:
        """Yields the results that are there, or None after a fifth of a second. The workers that gave them become idle.
        """
        connections = [connection for connection in wait(list(busy), POLL_SECONDS)
                       if isinstance(connection, Connection)]
        if not connections:
            yield None
        for connection in connections:
            worker = busy.pop(connection)
            result = worker.next_result()
            if result:
                idle.append(worker)
            else:
                self.workers.remove(worker)
            yield result or CheckResult(worker.file, "error", "the process that checked it ended", 0)

    def stop(self) -> None:
        """Ends the workers and the programs that run."""
        for worker in self.workers:
            worker.connection.close()
            worker.process.terminate()
        for worker in self.workers:
            worker.process.join(GRACE_SECONDS)
            if worker.process.is_alive():
                worker.process.kill()


def result_counts_summary(counts: dict[str, int]) -> str:
    """Returns how many files have each result."""
    total = sum(counts.values())
    told = ", ".join(f"{counts[word]} {RESULT_WORDS[word]}" for word in RESULT_WORDS if counts.get(word))
    return f"{total} file{'s' if total != 1 else ''}: {told or 'none was checked'}"


def result_counts(results: Iterable[CheckResult]) -> dict[str, int]:
    """Returns how many results there are of each kind."""
    return Counter(result.result for result in results)


def exit_status(counts: dict[str, int]) -> int:
    """Returns 0 if all files got a yes, 1 if the worst is a no or a refusal, 4 if a file could not be checked."""
    if set(counts) <= {"yes"}:
        return 0
    return 1 if set(counts) <= {"yes", "no", "refused"} else 4
