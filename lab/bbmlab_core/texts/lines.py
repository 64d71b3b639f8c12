"""Lines, words, numbers and names of a text, and how a reader refuses it."""

import re
from dataclasses import dataclass, field
from functools import cache, partial
from typing import Any, Callable, Iterable, NoReturn

from .limits import FIRST_LIMITS, limits_of_text

NUMBER_PATTERN_TEXT = "(?:0|[1-9][0-9]{0,8})"
NAME_PATTERN_TEXT = "[a-z][a-z0-9_]{0,31}"
NUMBER_PATTERN = re.compile(rf"{NUMBER_PATTERN_TEXT}\Z")
NAME_PATTERN = re.compile(rf"{NAME_PATTERN_TEXT}\Z")

# What each placeholder of a form takes.
NUMBER_PLACEHOLDERS = {"X", "Y", "W", "H", "STEPS", "N", "T", "GATE", "VERSION"}
NAME_PLACEHOLDERS = {"NAME", "A", "B", "C", "D", "E", "F"}

LineForm = tuple[str, ...]
# The kinds of line that come later than each kind.
LaterKinds = dict[str, list[str]]
LineValues = list[Any]


@dataclass(frozen=True)
class Refusal:
    """The line and the code of a refusal, with the cause that the lab's reader found and the facts about it."""

    line: int
    code: int
    cause: str
    facts: dict[str, Any] = field(default_factory=dict)


class RefusedTextError(Exception):
    """A text that a reader does not take."""

    def __init__(self, refusal: Refusal) -> None:
        super().__init__(f"refused {refusal.line} {refusal.code}")
        self.refusal = refusal


def later_kinds(kinds: Iterable[str]) -> LaterKinds:
    """Returns the kinds that come later than each kind."""
    listed = list(kinds)
    return {kind: listed[index:] for index, kind in enumerate(listed, 1)}


def forms_by_keyword(*forms: str) -> dict[str, LineForm]:
    """Returns the forms of a section by their keywords."""
    return {form.split(" ")[0]: tuple(form.split(" ")) for form in forms}


def word_value(word: str, placeholder: str) -> Any:
    """Returns the value of a word in the place of a placeholder; raises ValueError where the word has no such form."""
    if placeholder in NUMBER_PLACEHOLDERS and NUMBER_PATTERN.match(word):
        return int(word)
    if placeholder in NAME_PLACEHOLDERS and NAME_PATTERN.match(word):
        return word
    if placeholder == "BIT" and word in ("0", "1"):
        return int(word)
    if placeholder == "SIGNAL" and (word == "1" or NAME_PATTERN.match(word)):
        return word
    if placeholder == "TIME" and (word == "*" or NUMBER_PATTERN.match(word)):
        return None if word == "*" else int(word)
    if placeholder == word and not word.isupper():
        return word
    raise ValueError(f"{word!r} is not a {placeholder}")


def value_pattern(place: str) -> str:
    """Returns the regular expression of the words that may be in the place of a placeholder, as a group; other words
    stand for themselves."""
    if place in NUMBER_PLACEHOLDERS:
        return f"({NUMBER_PATTERN_TEXT})"
    if place in NAME_PLACEHOLDERS:
        return f"({NAME_PATTERN_TEXT})"
    other = {"BIT": "([01])", "SIGNAL": f"(1|{NAME_PATTERN_TEXT})", "TIME": rf"(\*|{NUMBER_PATTERN_TEXT})"}
    return other.get(place) or re.escape(place)


def value_reader(place: str) -> Callable[[str], Any]:
    """Returns what makes a value of a word in the place of a placeholder."""
    if place == "TIME":
        return lambda word: None if word == "*" else int(word)
    return int if place in NUMBER_PLACEHOLDERS or place == "BIT" else str


@cache
def form_pattern_and_readers(form: LineForm) -> tuple[re.Pattern[str], list[Callable[[str], Any]]]:
    """Returns the regular expression of a whole line of a form, and what makes the values of its groups."""
    return re.compile(" ".join(map(value_pattern, form))), [value_reader(place) for place in form if place.isupper()]


def match_line(line: str, forms: dict[str, LineForm]) -> tuple[str, LineValues] | None:
    """Returns the keyword of a line and the values of its placeholders, or None where no form fits."""
    keyword = line.partition(" ")[0]
    form = forms.get(keyword)
    if form is None:
        return None
    pattern, readers = form_pattern_and_readers(form)
    found = pattern.fullmatch(line)
    return (keyword, [reader(word) for reader, word in zip(readers, found.groups())]) if found else None


def section_text(lines: Iterable[str]) -> str:
    """Returns the text of a section, without its `end`."""
    return "".join(f"{line}\n" for line in [*lines, "end"])


class TextLines:
    """The lines of a text, taken one by one and counted from 1. A first line `limits 2` is taken already."""

    def __init__(self, text: str) -> None:
        self.parts = text.split("\n")
        self.limits = limits_of_text(text)
        self.taken = 0 if self.limits is FIRST_LIMITS else 1

    def refuse(self, code: int, cause: str, **facts: Any) -> NoReturn:
        """Refuses the line that was taken last."""
        raise RefusedTextError(Refusal(self.taken, code, cause, facts))

    def take_line(self, section: str) -> str:
        """Returns the next line."""
        if self.taken == len(self.parts) - 1:
            self.taken += 1
            rest = self.parts[-1]
            self.refuse(12, "line_not_ended" if rest else "text_ended", section=section, rest=rest)
        self.taken += 1
        return self.parts[self.taken - 1]

    def require_end_of_text(self, section: str) -> None:
        """Refuses a text that goes on after its last section."""
        if self.parts[self.taken:] != [""]:
            rest = self.parts[self.taken]
            self.taken += 1
            self.refuse(12, "text_goes_on", section=section, rest=rest)


class SectionReader:
    """Reads one section line by line.

    A subclass lists the forms of its lines, each with the method that takes the values of the line.
    """

    name = ""
    readers: dict[str, Callable[..., None]] = {}
    forms: dict[str, LineForm] = {}

    def __init__(self, lines: TextLines) -> None:
        self.lines = lines
        self.first_line = lines.taken + 1
        self.last_line = 0
        self.kind_lines: dict[str, int] = {}

    def current_forms(self) -> dict[str, LineForm]:
        """Returns the forms that the section has at this line."""
        return self.forms

    def read(self) -> None:
        """Reads up to the line `end`, or raises `Refused`."""
        keyword, readers = "", {form.partition(" ")[0]: partial(reader, self) for form, reader in self.readers.items()}
        while keyword != "end":
            found = match_line(self.lines.take_line(self.name), self.current_forms())
            if found is None:
                self.lines.refuse(1, "shape", section=self.name, begun=bool(keyword), forms=self.current_forms())
            is_header = found[0] == self.name
            if is_header and keyword:
                self.lines.refuse(6, "second_header", section=self.name, first=self.first_line)
            if not is_header and not keyword:
                self.lines.refuse(6, "first_not_header", section=self.name, keyword=found[0])
            keyword, values = found
            readers[keyword](*values)
            self.kind_lines[keyword] = self.lines.taken
        self.last_line = self.lines.taken

    def read_line_without_values(self) -> None:
        """Reads a line without values, behind which nothing is left to do."""

    def require_kind_order(self, keyword: str, order: LaterKinds) -> None:
        """Refuses a kind of line that comes after a later kind."""
        if not self.kind_lines.keys().isdisjoint(order[keyword]):
            later = [kind for kind in order[keyword] if kind in self.kind_lines]
            self.lines.refuse(6, "kind_after_later_kind", kind=keyword, later=later[-1], at=self.kind_lines[later[-1]])
