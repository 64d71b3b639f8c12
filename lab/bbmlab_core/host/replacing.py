"""Files that are written as a whole: another program sees the old bytes or the new ones, and nothing of the file but
its bytes changes.
"""

import errno
import os
import stat

# The most names that are tried for a file beside another one.
MAX_TRIED_NAMES = 1000


class ChangedFileError(OSError):
    """A file that another program wrote after it was read. `kept` is where the new bytes are."""

    def __init__(self, name: str, kept: str) -> None:
        super().__init__(errno.ESTALE,
                         f"another program changed it meanwhile, so it stays as it is; the result is in {kept}", name)
        self.kept = kept


def replace_file(name: str, data: bytes, before: bytes | None = None, follows: bool = True) -> None:
    """Writes a file beside the named one and renames it. A device or a pipe is written as it is.

    Owner, mode and write protection stay. If `before` is given, a file with other bytes is left as it is, and the new
    ones stay beside it. A link is followed only if `follows`. Raises OSError.
    """
    target = os.path.realpath(name) if follows else os.path.abspath(name)
    old = file_status(target)
    if old and not stat.S_ISREG(old.st_mode):
        write_device(target, data, old)
        return
    # For a rename the folder alone would count, and for root nothing.
    if old and (not old.st_mode & 0o222 or not os.access(target, os.W_OK)):
        raise OSError(errno.EACCES, "the file is protected against writing")
    beside = write_beside(target, data, old)
    try:
        if before is not None and read_plain_file_bytes(target) != before:
            raise ChangedFileError(name, link_under_free_name(beside, target))
        if old and has_different_owner(beside, old):
            write_in_place(target, data)
        else:
            os.replace(beside, target)
    finally:
        if os.path.exists(beside):
            os.unlink(beside)


def file_status(path: str) -> os.stat_result | None:
    """Returns the status of what is at a path, a link itself, or None if nothing is there."""
    try:
        return os.lstat(path)
    except FileNotFoundError:
        return None


def read_plain_file_bytes(path: str) -> bytes | None:
    """Returns the bytes of a file that is no link, or None if it is not there."""
    try:
        with open(os.open(path, os.O_RDONLY | os.O_NOFOLLOW | os.O_NONBLOCK), "rb") as file:
            return file.read()
    except FileNotFoundError:
        return None


def write_device(path: str, data: bytes, old: os.stat_result) -> None:
    """Writes to a device or a pipe. A link is none: it came where there was none before."""
    if stat.S_ISLNK(old.st_mode):
        raise OSError(errno.ELOOP, "this is a link")
    with open(os.open(path, os.O_WRONLY | os.O_NOFOLLOW), "wb", buffering=0) as device:
        device.write(data)


def write_beside(target: str, data: bytes, old: os.stat_result | None) -> str:
    """Writes bytes to a new file in the folder of another one, through to the disk, and returns its name.

    It gets the other's owner and mode.
    """
    folder, base = os.path.split(target)
    # A name of a file has at most 255 bytes.
    beside = os.path.join(folder, f"{os.fsdecode(os.fsencode(base)[:200])}.{os.getpid()}.part")
    # Until it has the other's mode nobody else may read it.
    descriptor = os.open(beside, os.O_WRONLY | os.O_CREAT | os.O_EXCL, 0o600 if old else 0o666)
    try:
        with open(descriptor, "wb") as file:
            file.write(data)
            file.flush()
            if old:
                copy_owner(descriptor, old)
                os.fchmod(descriptor, stat.S_IMODE(old.st_mode))
            # Otherwise a crash of the machine may leave the new name without its bytes.
            os.fsync(descriptor)
    except BaseException:
        os.unlink(beside)
        raise
    return beside


def copy_owner(descriptor: int, old: os.stat_result) -> None:
    """Gives a file the owner and the group of another one, as far as this user may."""
    for owner, group in ((old.st_uid, -1), (-1, old.st_gid)):
        try:
            os.fchown(descriptor, owner, group)
        except PermissionError:
            pass


def has_different_owner(beside: str, old: os.stat_result) -> bool:
    """Whether a new file could not get the owner or the group of the one that it is to replace."""
    made = os.lstat(beside)
    return (made.st_uid, made.st_gid) != (old.st_uid, old.st_gid)


def write_in_place(target: str, data: bytes) -> None:
    """Writes bytes into a file that keeps its owner so."""
    with open(os.open(target, os.O_WRONLY | os.O_NOFOLLOW), "wb") as file:
        file.truncate()
        file.write(data)
        file.flush()
        os.fsync(file.fileno())


def link_under_free_name(beside: str, target: str) -> str:
    """Gives a file a name of its own beside another one, and returns the name. No file is replaced."""
    for number in range(1, MAX_TRIED_NAMES):
        name = f"{target}.new{number if number > 1 else ''}"
        try:
            os.link(beside, name)
            return name
        except FileExistsError:
            continue
    raise OSError(errno.EEXIST, f"there are {MAX_TRIED_NAMES} results beside it already")
