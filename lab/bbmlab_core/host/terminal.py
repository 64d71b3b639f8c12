"""Colours, files and messages: what a command shows, and where its text comes from."""

import os
import sys
from typing import IO, BinaryIO, Iterable

from .replacing import replace_file

COLOUR_CODES = {"red": "31", "green": "32", "yellow": "33", "bold": "1", "dim": "2"}


class LabError(Exception):
    """A command can't do what is asked. The message is for the user."""

    def __init__(self, message: str, status: int = 4) -> None:
        super().__init__(message)
        self.status = status


def can_show_colours(stream: IO[str] | None) -> bool:
    """Whether colours are written to a stream: it is open and a terminal, and NO_COLOR is not set."""
    return stream is not None and stream.isatty() and not os.environ.get("NO_COLOR") and os.environ.get(
        "TERM") != "dumb"


def coloured(text: str, colour: str, stream: IO[str] | None = None) -> str:
    """Returns a text in a colour where the stream has colours."""
    return f"\033[{COLOUR_CODES[colour]}m{text}\033[0m" if can_show_colours(stream or sys.stdout) else text


def escape_controls(text: str) -> str:
    """Returns a text whose control characters are escapes, so that no terminal and no other program obeys them.

    Characters that stand for bytes of no character, as Python reads names of files, are shown as these bytes.
    """
    if text.isprintable():
        return text
    return "".join(char if char.isprintable() else escaped_character(ord(char)) for char in text)


def escaped_character(code: int) -> str:
    """Returns the escape of a character that is not shown."""
    if 0xDC80 <= code <= 0xDCFF:
        return f"\\x{code - 0xDC00:02x}"
    return f"\\x{code:02x}" if code < 0x100 else f"\\u{code:04x}"


def tell_user(words: object) -> None:
    """Writes a sentence for the user on standard error."""
    print(f"bbmlab: {escape_controls(str(words))}", file=sys.stderr)


def wrapped_paragraph(text: str, first: str = "", rest: str | None = None, width: int = 100) -> str:
    """Returns a paragraph in lines of at most `width` columns."""
    import textwrap
    return textwrap.fill(escape_controls(text), width, initial_indent=first,
                         subsequent_indent=first if rest is None else rest,
                         break_long_words=False, break_on_hyphens=False)


def read_bytes(name: str) -> bytes:
    """Returns the bytes of a file, or of standard input for `-`."""
    try:
        if name == "-":
            if sys.stdin is None:
                raise LabError("standard input is closed")
            return sys.stdin.buffer.read()
        with open(name, "rb") as file:
            return file.read()
    except OSError as error:
        where = "standard input" if name == "-" else name
        raise LabError(f"{where}: {error.strerror or error}") from error


def read_latin1_text(name: str) -> str:
    """Returns a text, one character for each byte."""
    return read_bytes(name).decode("latin-1")


def binary_standard_output() -> BinaryIO:
    """Returns standard output for bytes."""
    if sys.stdout is None:
        raise LabError("standard output is closed")
    sys.stdout.flush()
    return sys.stdout.buffer


def write_bytes(name: str | None, data: bytes, sources: Iterable[str] = (), before: bytes | None = None) -> None:
    """Writes bytes to a file, or to standard output for None and `-`.

    A file keeps its old bytes until all new ones are written. It must be none of `sources`, the files that were read.
    If `before` is given, a file with other bytes stays as it is.
    """
    if name is None or name == "-":
        output = binary_standard_output()
        output.write(data)
        output.flush()
        return
    require_output_not_input(name, sources)
    try:
        replace_file(name, data, before)
    except OSError as error:
        raise LabError(f"{name}: {error.strerror or error}") from error


def write_utf8_text(name: str | None, text: str, sources: Iterable[str] = ()) -> None:
    """Writes a text in UTF-8 to a file, or to standard output for None and `-`."""
    write_bytes(name, text.encode("utf-8"), sources)


def require_output_not_input(name: str | None, sources: Iterable[str]) -> None:
    """Raises LabError if an output is one of the files that were read."""
    if name is not None and any(is_same_file(name, source) for source in sources):
        raise LabError(f"{name}: the output is the input; write to another file", 2)


def require_writable_output(name: str | None, sources: Iterable[str]) -> None:
    """Raises LabError if an output is one of the files that were read, or a file that cannot be made."""
    if name is None or name == "-":
        return
    require_output_not_input(name, sources)
    target = os.path.realpath(name)
    folder = os.path.dirname(target)
    if os.path.isdir(target):
        raise LabError(f"{name}: this is a folder")
    if os.path.exists(target) and not os.path.isfile(target):
        return
    if not os.path.isdir(folder):
        raise LabError(f"{name}: there is no folder {folder}")
    if not os.access(folder, os.W_OK):
        raise LabError(f"{name}: no file can be made in {folder}")


def is_same_file(one: str, other: str) -> bool:
    """Whether two names are of one file. `-` is no file."""
    if "-" in (one, other):
        return False
    try:
        return os.path.samefile(one, other)
    except OSError:
        return os.path.realpath(one) == os.path.realpath(other)
