"""The exceptions of the API."""

from __future__ import annotations


class RefusedError(ValueError):
    """A text that is refused: the number of its line, counted from 1, the code, and the reason in words."""

    __module__ = "bbmlab"

    def __init__(self, line: int, code: int, reason: str) -> None:
        super().__init__(line, code, reason)
        self.line, self.code, self.reason = line, code, reason

    def __str__(self) -> str:
        """Says what is wrong."""
        return f"line {self.line} is refused with code {self.code}: {self.reason}"


class ProgramError(OSError):
    """The program is missing, cannot be run, or gave no answer."""

    __module__ = "bbmlab"


class NotFoundError(LookupError):
    """A search that found no certificate or no route. The message says where it failed."""

    __module__ = "bbmlab"
