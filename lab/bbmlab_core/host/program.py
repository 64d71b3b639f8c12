"""Finding the proved program and running it on a text."""

import hashlib
import os
import shutil
import signal
import subprocess
import sys
import threading
from contextlib import suppress
from dataclasses import dataclass
from pathlib import Path

from .own_digest import why_not_report_of
from .sealed import descriptor_path, sealed_copy_descriptor
from .signals import allow_stop_signal, delay_stop_signal

PACKAGE_FOLDER = Path(__file__).resolve().parent.parent


class BadProgramError(Exception):
    """The program is not there, or it can't be run."""


class ProgramTimeout(Exception):
    """The program did not end in time."""


@dataclass(frozen=True)
class ProgramAnswer:
    """The exit status of the program, what it wrote, and its first line of standard error."""

    status: int
    output: str
    errors: str


class Executable:
    """A program that was opened once.

    All its runs execute a private copy of the bytes whose digest it has, whatever becomes of its file.
    """

    def __init__(self, path: str, descriptor: int, sha256: str) -> None:
        self.path, self.descriptor, self.sha256 = path, descriptor, sha256

    def __str__(self) -> str:
        """Returns the path from which it was opened."""
        return self.path

    def __del__(self) -> None:
        """Closes the copy."""
        with suppress(OSError):
            os.close(self.descriptor)

    def program_bytes(self) -> bytes:
        """Returns the bytes."""
        return os.pread(self.descriptor, os.fstat(self.descriptor).st_size, 0)

    def start(self, *words: str) -> "subprocess.Popen[bytes]":
        """Starts the program in a session of its own. A script gets the descriptor's path as its own name."""
        return subprocess.Popen([self.path, *words], executable=descriptor_path(self.descriptor),
                                pass_fds=[self.descriptor], stdin=subprocess.PIPE,
                                stdout=subprocess.PIPE, stderr=subprocess.PIPE, start_new_session=True)


def open_program(program: Executable | str) -> Executable:
    """Opens the program at a path, unless it is open already. Raises BadProgramError if it cannot be read."""
    if isinstance(program, Executable):
        return program
    try:
        path = program_behind_wrapper(program)
        data = Path(path).read_bytes()
        return Executable(path, sealed_copy_descriptor(data), hashlib.sha256(data).hexdigest())
    except OSError as error:
        raise BadProgramError(f"{program} can't be run: {error.strerror or error}") from error


def program_candidates(given: str | None) -> list[str]:
    """Returns the places where the program may be, in the order in which they count."""
    if given:
        return [given]
    if os.environ.get("BBMCHECK"):
        return [os.environ["BBMCHECK"]]
    # The last is next to the command, or next to a link to it, as pipx makes.
    own = [PACKAGE_FOLDER.parent.parent / "bbmcheck", PACKAGE_FOLDER.parent.parent.parent / "bin" / "bbmcheck",
           Path(sys.prefix) / "bin" / "bbmcheck", Path(sys.argv[0]).absolute().parent / "bbmcheck"]
    return [*(str(place) for place in own if place.is_file()), "bbmcheck"]


def program_behind_wrapper(found: str) -> str:
    """Returns the program that the repository's wrapper runs, so that its choice is made once.

    Any other program is returned as it is.
    """
    wrapper = PACKAGE_FOLDER.parent.parent / "bbmcheck"
    if not wrapper.is_file() or not os.path.samefile(found, wrapper):
        return found
    asked = subprocess.run([os.path.abspath(found), "--wrapper-program"], stdin=subprocess.DEVNULL,
                           stdout=subprocess.PIPE, check=False)
    if asked.returncode:
        raise BadProgramError(f"{found} ended with status {asked.returncode}")
    return os.fsdecode(asked.stdout.removesuffix(b"\n"))


def find_and_open_program(given: str | None = None) -> Executable:
    """Opens the program:

    `given`, else $BBMCHECK, else the repository's wrapper or that of the same installation, else PATH's.
    """
    tried = program_candidates(given)
    for place in tried:
        found = shutil.which(place)
        if found and os.path.isfile(found):
            return open_program(os.path.abspath(found))
    is_named = given or os.environ.get("BBMCHECK")
    where = (f"there is no program at {tried[0]}" if is_named
             else "no program was found in the clone, next to bbmlab or on PATH")
    raise BadProgramError(f"{where}; name it with --program PATH or set BBMCHECK. The checker has a Debian package and "
                          "archives of its own: the Python package "
                          "does not contain it")


class RunningPrograms:
    """The runs of the program that have not ended, each with the processes that it started.

    All can be stopped from any thread.
    """

    def __init__(self) -> None:
        # A signal may come while the lock is held by the thread that it interrupts.
        self.lock = threading.RLock()
        self.processes: set[subprocess.Popen[bytes]] = set()
        self.is_stopped = False

    def start(self, program: Executable, command: str) -> "subprocess.Popen[bytes]":
        """Starts a command of a program in a session of its own."""
        with self.lock:
            if self.is_stopped:
                raise BadProgramError("stopped")
            process = program.start(command)
            self.processes.add(process)
            is_stopped = self.is_stopped
        if is_stopped:
            # It was stopped while it started.
            self.kill(process)
            raise BadProgramError("stopped")
        return process

    def kill(self, process: "subprocess.Popen[bytes]") -> None:
        """Kills a program and what it started, if it still runs, and forgets it."""
        with self.lock:
            self.processes.discard(process)
        if process.poll() is None:
            kill_session(process)
            process.wait()
        for pipe in (process.stdin, process.stdout, process.stderr):
            with suppress(OSError):
                if pipe:
                    pipe.close()

    def kill_all(self) -> None:
        """Kills all programs. None can be started later."""
        with self.lock:
            self.is_stopped = True
            for process in self.processes:
                kill_session(process)


# The runs that `ask_program` starts if it is not told otherwise. A process that can be stopped from outside sets it
# once, at its start.
SHARED_RUNNING_PROGRAMS: RunningPrograms | None = None


def kill_session(process: "subprocess.Popen[bytes]") -> None:
    """Kills a program and what it started."""
    try:
        os.killpg(process.pid, signal.SIGKILL)
    except (ProcessLookupError, PermissionError):
        process.kill()


def run_program_command(program: Executable, command: str, text: bytes, timeout: float | None,
                        running: RunningPrograms) -> ProgramAnswer:
    """Returns what a command of the program writes, whatever its status is.

    A signal is heard only when the program can be ended.
    """
    with delay_stop_signal():
        try:
            process = running.start(program, command)
        except OSError as error:
            raise BadProgramError(f"{program} can't be run: {error.strerror or error}") from error
        try:
            with allow_stop_signal():
                output, written = process.communicate(text, timeout)
        except subprocess.TimeoutExpired as late:
            raise ProgramTimeout(f"no answer within {timeout:g} seconds") from late
        finally:
            running.kill(process)
    return ProgramAnswer(process.returncode, output.decode("latin-1"), written.decode("utf-8", "replace").strip())


def ask_program(program: Executable | str, command: str, text: bytes, timeout: float | None = None,
                running: RunningPrograms | None = None) -> ProgramAnswer:
    """Runs a command of the program on a text. The program is opened already, or a path."""
    program = open_program(program)
    answer = run_program_command(program, command, text, timeout, running or SHARED_RUNNING_PROGRAMS
                                 or RunningPrograms())
    if answer.status not in (0, 1, 3, 4, 5):
        raise BadProgramError(f"{program} ended with status {answer.status}: "
                              f"{answer.errors.splitlines()[0] if answer.errors else 'no message'}")
    why = why_not_report_of(text, answer.output) if command == "check" else None
    if why:
        raise BadProgramError(f"{program} gave the report of another text: {why}")
    return answer
