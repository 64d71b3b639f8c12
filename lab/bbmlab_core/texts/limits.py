"""How large a text may be: the limits of texts that begin with their first section, and of those whose first line is
`limits 2`.
"""

from dataclasses import dataclass


@dataclass(frozen=True)
class Limits:
    """The most of each number and count that has two limits (docs/FORMATS.md, Limits).

    All other limits are constants of their readers.
    """

    number: int
    max_side: int
    max_steps: int
    max_modules: int
    max_gates: int
    max_wires: int
    max_bytes: int

    @property
    def line_text(self) -> str:
        """What stands before the first section of a text: the line that chooses these limits, or nothing."""
        return f"limits {self.number}\n" if self.number > 1 else ""


FIRST_LIMITS = Limits(1, max_side=512, max_steps=65_536, max_modules=1024, max_gates=1024, max_wires=4096,
                      max_bytes=16_777_216)
SECOND_LIMITS = Limits(2, max_side=4096, max_steps=1_048_576, max_modules=65_536, max_gates=16_384, max_wires=65_000,
                       max_bytes=268_435_456)
LIMITS_2_LINE = SECOND_LIMITS.line_text.rstrip("\n")


def limits_of_text(text: str) -> Limits:
    """Returns the limits of a text, by its first line."""
    return SECOND_LIMITS if text.startswith(SECOND_LIMITS.line_text) else FIRST_LIMITS


def text_without_limits_line(text: str) -> str:
    """Returns a text from its first section on."""
    return text[len(limits_of_text(text).line_text):]


def smallest_fitting_limits(side: int = 0, steps: int = 0, modules: int = 0, gates: int = 0, wires: int = 0) -> Limits:
    """Returns the smallest limits that allow some numbers and counts, and SECOND if none do."""
    fits = (side <= FIRST_LIMITS.max_side and steps <= FIRST_LIMITS.max_steps and modules <= FIRST_LIMITS.max_modules
            and gates <= FIRST_LIMITS.max_gates
            and wires <= FIRST_LIMITS.max_wires)
    return FIRST_LIMITS if fits else SECOND_LIMITS


def text_with_limits_line(text: str, limits: Limits) -> str:
    """Returns a text without a line of limits, with that of some limits in front, and with that of larger ones if it is
    too long for them."""
    return (limits if len(text) <= limits.max_bytes else SECOND_LIMITS).line_text + text


def limits_line_hint(what: str, limits: Limits = FIRST_LIMITS) -> str:
    """Returns a sentence on the line that raises a limit, after a space; nothing for a text that begins with it."""
    return "" if limits is SECOND_LIMITS else f" {what} needs `{LIMITS_2_LINE}` as first line."
