"""A private copy of a program, which every run executes by its descriptor. It also goes to the workers of a cluster, by
value: only the standard library is used.

A path may name another file at each run, and a file may get other bytes. A copy that nobody else can write answers for
one digest.
"""

import fcntl
import os
import tempfile

# The flag of Linux 6.3 that lets a memory file be executed where others may not be (man memfd_create). Older kernels do
# not know it.
MFD_EXEC = 0x10
SEALS = fcntl.F_SEAL_SEAL | fcntl.F_SEAL_SHRINK | fcntl.F_SEAL_GROW | fcntl.F_SEAL_WRITE


def make_memory_file_descriptor() -> int:
    """Returns the descriptor of a new file in memory that can be sealed and executed."""
    flags = os.MFD_CLOEXEC | os.MFD_ALLOW_SEALING
    try:
        return os.memfd_create("bbmcheck", flags | MFD_EXEC)
    except OSError:
        return os.memfd_create("bbmcheck", flags)


def descriptor_above_streams(descriptor: int) -> int:
    """Returns another descriptor of a file that is none of the standard streams', which a child process gets pipes for.
    """
    if descriptor > 2:
        return descriptor
    try:
        return fcntl.fcntl(descriptor, fcntl.F_DUPFD_CLOEXEC, 3)
    finally:
        os.close(descriptor)


def sealed_copy_descriptor(data: bytes) -> int:
    """Returns the descriptor of a file with some bytes that cannot be changed: in memory, else a file without a name.
    """
    try:
        descriptor = descriptor_above_streams(make_memory_file_descriptor())
    except OSError:
        return nameless_copy_descriptor(data)
    with open(descriptor, "wb", closefd=False) as file:
        file.write(data)
    fcntl.fcntl(descriptor, fcntl.F_ADD_SEALS, SEALS)
    return descriptor


def nameless_copy_descriptor(data: bytes) -> int:
    """Returns the descriptor of a file that only this user could open, and that has no name any more."""
    with tempfile.TemporaryDirectory() as folder:
        path = os.path.join(folder, "bbmcheck")
        with open(os.open(path, os.O_WRONLY | os.O_CREAT | os.O_EXCL, 0o700), "wb") as file:
            file.write(data)
        return descriptor_above_streams(os.open(path, os.O_RDONLY | os.O_CLOEXEC))


def descriptor_path(descriptor: int) -> str:
    """Returns the path by which a child process that inherits a descriptor executes its file."""
    return f"/proc/self/fd/{descriptor}"
