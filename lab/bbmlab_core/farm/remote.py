"""What runs on the worker of a cluster. It goes there by value: the worker needs Python alone, so only the standard
library is used, and `sealed`, which also goes there."""

import hashlib
import os
import shutil
import signal
import socket
import subprocess
import tempfile

from ..host.sealed import descriptor_path, sealed_copy_descriptor


# What a program on a worker said of a text: the host, the status, the output, the processor seconds, and the kind of an
# error and its sentence, both empty if there is an answer. Kinds: "timeout", "other program", "failed".
RemoteAnswer = tuple[str, int, str, float, str, str]


def file_digest(path: str) -> str:
    """Returns the SHA-256 of a file."""
    with open(path, "rb") as file:
        return hashlib.sha256(file.read()).hexdigest()


def stored_program_path(digest: str) -> str:
    """Returns where a program that is sent is stored: under its digest, in the user's cache."""
    cache = os.environ.get("XDG_CACHE_HOME") or os.path.join(os.path.expanduser("~"), ".cache")
    return os.path.join(cache, "bbmlab", digest, "bbmcheck")


def store_program(data: bytes, digest: str) -> str:
    """Stores a program under its digest, and returns where the worker now has it."""
    place = stored_program_path(digest)
    if not os.path.isfile(place) or file_digest(place) != digest:
        os.makedirs(os.path.dirname(place), exist_ok=True)
        number, beside = tempfile.mkstemp(dir=os.path.dirname(place))
        with os.fdopen(number, "wb") as file:
            file.write(data)
        os.chmod(beside, 0o755)
        os.replace(beside, place)
    return f"{socket.gethostname()}: {place}"


def program_with_digest(digest: str) -> tuple[str, bytes, str]:
    """Returns the path and the bytes of the program with a digest that this worker has, and a sentence about what it
    has if it has none."""
    host = socket.gethostname()
    # The worker's own program: $BBMCHECK, or bbmcheck on PATH.
    own = shutil.which(os.environ.get("BBMCHECK") or "bbmcheck")
    found = ""
    for place in (stored_program_path(digest), own):
        if place and os.path.isfile(place):
            with open(place, "rb") as file:
                data = file.read()
            found = hashlib.sha256(data).hexdigest()
            if found == digest:
                return place, data, ""
    if not own:
        return "", b"", f"the worker on {host} has no program: set BBMCHECK there, or use --send-program"
    return "", b"", f"the worker on {host} has another program: {own} with SHA-256 {found}, and not {digest}"


def why_no_program(digest: str) -> str:
    """Returns why this worker has no program with a digest, or nothing if it has one."""
    return program_with_digest(digest)[2]


def run_on_texts(digest: str, texts: list[bytes], timeout: float | None) -> list[RemoteAnswer]:
    """Runs the program with a digest on some texts, one after another.

    The bytes that have the digest are those that run.
    """
    path, data, complaint = program_with_digest(digest)
    if complaint:
        return [(socket.gethostname(), 70, "", 0, "other program", complaint)]
    copy = sealed_copy_descriptor(data)
    try:
        return [run_copy(path, copy, text, timeout) for text in texts]
    finally:
        os.close(copy)


def run_copy(program: str, copy: int, text: bytes, timeout: float | None) -> RemoteAnswer:
    """Runs the copy of a program on a text."""
    host = socket.gethostname()
    before = sum(os.times()[2:4])
    try:
        process = subprocess.Popen([program, "check"], executable=descriptor_path(copy), pass_fds=[copy],
                                   stdin=subprocess.PIPE, stdout=subprocess.PIPE,
                                   stderr=subprocess.PIPE, start_new_session=True)
    except OSError as error:
        return host, 70, "", 0, "failed", f"{program} can't be run on {host}: {error.strerror or error}"
    try:
        output, errors = process.communicate(text, timeout)
    except subprocess.TimeoutExpired:
        os.killpg(process.pid, signal.SIGKILL)
        process.communicate()
        return host, 70, "", 0, "timeout", f"no answer within {timeout:g} seconds"
    seconds = sum(os.times()[2:4]) - before
    if process.returncode not in (0, 1, 3):
        complaint = errors.decode("utf-8", "replace").strip() or f"status {process.returncode}"
        return host, process.returncode, "", seconds, "failed", complaint
    return host, process.returncode, output.decode("latin-1"), seconds, "", ""
