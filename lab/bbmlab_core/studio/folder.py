"""The opened file and the `.txt` files of its folder: the only files that the studio reads and writes."""

import hashlib
import os
import re
import stat
import threading
from pathlib import Path

from ..host.replacing import ChangedFileError, replace_file

# A name of a file of the folder: no path, no hidden file, no control character.
FILE_NAME_PATTERN = re.compile(r"[^./\\\x00-\x1f\x7f][^/\\\x00-\x1f\x7f]{0,200}\.txt\Z")
# A page takes some 30 bytes of memory for each byte of a text, whose lines it keeps for undo, and sends the whole text
# after each edit. Texts may be eight times as long by their limits (docs/FORMATS.md).
MAX_FILE_BYTES = 32 << 20


class FolderError(Exception):
    """A file that may not be read or written, or cannot be. The message is for the user."""


class StaleFileError(FolderError):
    """A file that is no longer as the page read it. `digest` is that of the file now, or None if it is missing."""

    def __init__(self, message: str, digest: str | None) -> None:
        super().__init__(message)
        self.digest = digest


def digest_of_bytes(data: bytes) -> str:
    """Returns the SHA-256 of a file's bytes."""
    return hashlib.sha256(data).hexdigest()


def decode_page_text(data: bytes) -> str:
    """Returns bytes as the page has them: UTF-8, with lone surrogates for bytes of no character."""
    return data.decode("utf-8", "surrogateescape")


def encode_page_text(text: str) -> bytes:
    """Returns the bytes of a text of the page."""
    try:
        return text.encode("utf-8", "surrogateescape")
    except UnicodeEncodeError as error:
        raise FolderError("the text contains half a character") from error


class Folder:
    """The folder of the opened file. Each name from a request is checked here before it reaches the file system."""

    def __init__(self, file: str | None) -> None:
        path = Path(os.path.realpath(file)) if file else unused_path(Path.cwd())
        self.place, self.name = path.parent, path.name
        self.lock = threading.Lock()

    def list_file_names(self) -> list[str]:
        """Returns the `.txt` files of the folder that can be opened, and the opened file if it exists."""
        try:
            found = {entry.name for entry in os.scandir(self.place) if FILE_NAME_PATTERN.match(entry.name)
                     and entry.is_file(follow_symlinks=False)}
        except OSError as error:
            raise FolderError(f"{self.place}: {error.strerror or error}") from error
        return sorted(found | ({self.name} if (self.place / self.name).is_file() else set()))

    def path_of(self, name: str) -> Path:
        """Returns the path of a file of the folder. Raises FolderError if the name is not one of them, or is a link."""
        if name != self.name and not FILE_NAME_PATTERN.match(name):
            raise FolderError("a name of a file ends with .txt and contains no folder")
        path = self.place / name
        try:
            is_other = path.is_symlink() or path.exists() and not path.is_file()
        except OSError as error:
            raise FolderError(f"{name}: {error.strerror or error}") from error
        if is_other:
            raise FolderError(f"{name} is no plain file")
        return path

    def read(self, name: str) -> bytes | None:
        """Returns the bytes of a file, or None if it is missing."""
        path = self.path_of(name)
        try:
            with open(os.open(path, os.O_RDONLY | os.O_NOFOLLOW | os.O_NONBLOCK), "rb") as file:
                if not stat.S_ISREG(os.fstat(file.fileno()).st_mode):
                    raise FolderError(f"{name} is no plain file")
                data = file.read(MAX_FILE_BYTES + 1)
        except FileNotFoundError:
            return None
        except OSError as error:
            raise FolderError(f"{name}: {error.strerror or error}") from error
        if len(data) > MAX_FILE_BYTES:
            raise FolderError(f"{name} is larger than {MAX_FILE_BYTES >> 20} MiB, which is the most that the studio "
                              "takes: the page keeps all of a text, and sends it "
                              "after each edit. `bbmlab view`, `draw` and `explain` take larger ones")
        return data

    def write(self, name: str, data: bytes, known: str | None, is_forced: bool) -> str:
        """Writes a file through one beside it, and returns its digest. `known` is the digest of the file as the page
        has read it.

        Raises StaleFileError if the file is another one now, unless the user has said that it may be replaced.
        """
        path = self.path_of(name)
        with self.lock:
            old = self.read(name)
            now = None if old is None else digest_of_bytes(old)
            if now != known and now != digest_of_bytes(data) and not is_forced:
                raise StaleFileError(
                    f"{name} {'is missing now' if now is None else 'changed meanwhile' if known else 'exists already'}",
                    now)
            try:
                replace_file(str(path), data, None if is_forced else old, follows=False)
            except ChangedFileError as error:
                os.unlink(error.kept)
                raise StaleFileError(f"{name} changed meanwhile", None) from error
            except OSError as error:
                raise FolderError(f"{name}: {error.strerror or error}") from error
        return digest_of_bytes(data)


def unused_path(folder: Path) -> Path:
    """Returns a name for a new layout that no file of a folder has."""
    number = 1
    while (folder / f"layout_{number}.txt").exists():
        number += 1
    return folder / f"layout_{number}.txt"
