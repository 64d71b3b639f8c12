"""`bbmlab fmt`: writes a text that was written freely in the one spelling that the program takes."""

import re
from dataclasses import dataclass, field
from typing import Iterator

from .certificates import KIND_ORDER as MODULE_ORDER
from .circuits import KIND_ORDER as CIRCUIT_ORDER
from .gates import GATE_SIZES
from .layouts import KIND_ORDER as LAYOUT_ORDER
from .limits import LIMITS_2_LINE

NUMBER_SORTED_LAST = 10 ** 9
SECTION_ORDERS = {"circuit": CIRCUIT_ORDER, "layout": LAYOUT_ORDER}
MODULE_LINE_RANKS = {kind: rank for rank, kind in enumerate(MODULE_ORDER)}
# A line that is in its one spelling already, apart from its place.
SPELLED_LINE_PATTERN = re.compile(r"[a-z*1-9][a-z0-9_*]*(?: (?:->|0|[a-z*1-9][a-z0-9_*]*))*")


@dataclass
class SpelledText:
    """A text in its one spelling, what was changed besides spaces, and how many comments were left out."""

    text: str = ""
    notes: list[str] = field(default_factory=list)
    comment_count: int = 0


def words_without_comment(line: str) -> list[str]:
    """Returns the words of a line that was written freely, without its comment and leading zeros.

    A line ends with LF. Words are parted by spaces and tabs, and carriage returns behind the last word are dropped. All
    other characters belong to words. The studio's page reads lines by the same rules (`circuit_text.js`): what it draws
    must be the text that the program reads.
    """
    code = line.partition("#")[0].rstrip(" \t\r").replace("->", " -> ").replace("\t", " ")
    return [(word.lstrip("0") or "0") if word.isdecimal() and word.isascii() else word for word in code.split(" ")
            if word]


def byte_order_mark_length(text: str) -> int:
    """Returns how many characters the byte order mark takes with which a text begins."""
    return 3 if text.startswith("\xef\xbb\xbf") else 1 if text.startswith("\ufeff") else 0


def lines_without_comments(text: str, spelling: SpelledText) -> Iterator[str]:
    """Yields the lines that contain a word, with single spaces, and without comments, byte order mark and leading
    zeros."""
    start = byte_order_mark_length(text)
    is_spelled, size = SPELLED_LINE_PATTERN.fullmatch, len(text)
    while start < size:
        end = text.find("\n", start)
        line = text[start:end] if end >= 0 else text[start:]
        start = end + 1 if end >= 0 else size
        if is_spelled(line):
            yield line
            continue
        spelling.comment_count += "#" in line
        words = words_without_comment(line)
        if words:
            yield " ".join(words)


def sorting_number_at(words: list[str], index: int) -> int:
    """Returns the number at a place of a line; lines of another form come last."""
    word = words[index] if index < len(words) else ""
    return int(word) if word.isdecimal() and len(word) <= 9 else NUMBER_SORTED_LAST


def module_line_key(line: str) -> int:
    """Returns the key of a line of a module: its kind, and then time, y and x, or the gate.

    Kinds without an order keep theirs.
    """
    words = line.split(" ")
    kind = words[0]
    key = MODULE_LINE_RANKS.get(kind, len(MODULE_LINE_RANKS)) << 96
    if kind in ("edge", "halo"):
        time = 0 if words[1:2] == ["*"] else sorting_number_at(words, 1) + 1
        return key | time << 64 | sorting_number_at(words, 3) << 32 | sorting_number_at(words, 2)
    if kind == "stop":
        return key | sorting_number_at(words, 1) << 64 | sorting_number_at(words, 4) << 32 | sorting_number_at(words, 3)
    return key | sorting_number_at(words, 1) if kind in ("use", "keep") else key


def first_word(line: str) -> str:
    """Returns the first word of a line."""
    return line.partition(" ")[0]


def line_kind_rank(line: str, order: list[str]) -> int:
    """Returns the place of a line's kind among the kinds of its section or module. Unknown kinds come last."""
    word = first_word(line)
    kind = "gate" if word in GATE_SIZES and "gate" in order else word
    return order.index(kind) if kind in order else len(order)


def sorted_distinct_lines(lines: list[str], spelling: SpelledText) -> list[str]:
    """Returns the lines of a module, the first aside, in their order, each once."""
    ordered = sorted(lines, key=module_line_key)
    kept: list[str] = []
    for line in ordered:
        if kept and line == kept[-1]:
            spelling.notes.append(f"left out a second `{line}`")
        else:
            kept.append(line)
    return kept


def sorted_certificate(lines: list[str], spelling: SpelledText) -> list[str]:
    """Returns the lines of a certificate with the lines of each module in their order."""
    result: list[str] = []
    module: list[str] | None = None
    for line in lines:
        if first_word(line) == "module":
            result += sorted_distinct_lines(module or [], spelling)
            result.append(line)
            module = []
        elif module is None:
            result.append(line)
        else:
            module.append(line)
    return result + sorted_distinct_lines(module or [], spelling)


def sorted_section(lines: list[str], spelling: SpelledText) -> list[str]:
    """Returns the lines of a section in their order, between its header and its `end`."""
    kind, has_end = first_word(lines[0]), lines[-1] == "end" and len(lines) > 1
    body, tail = (lines[1:-1], ["end"]) if has_end else (lines[1:], [])
    if kind in SECTION_ORDERS:
        order = SECTION_ORDERS[kind]
        after = sorted(body, key=lambda line: line_kind_rank(line, order))
    elif kind == "certificate":
        after = sorted_certificate(body, spelling)
    else:
        return lines
    if after != body and len(after) == len(body):
        spelling.notes.append(f"sorted the {kind} section")
    return [lines[0], *after, *tail]


def source_line_number(source: str, text: str, line: int) -> int | None:
    """Returns the line of a freely written text that became a line of its one spelling, or None if the lines were
    sorted."""
    if source == text:
        return line
    lines = source[byte_order_mark_length(source):].split("\n")
    kept = [(number, words) for number, words in enumerate(map(words_without_comment, lines), 1) if words]
    if [" ".join(words) for _, words in kept] != text.split("\n")[:len(kept)]:
        return None
    return kept[line - 1][0] if line <= len(kept) else len(lines)


def spell_text(text: str) -> SpelledText:
    """Returns a text in its one spelling. What it can't change into a good line stays, for the program to refuse."""
    spelling = SpelledText()
    parts: list[str] = []
    section: list[str] = []

    def add_section() -> None:
        """Adds the section that was read."""
        if section:
            parts.append("\n".join(sorted_section(section, spelling)) + "\n")
            section.clear()

    for line in lines_without_comments(text, spelling):
        if line == LIMITS_2_LINE and not parts and not section:
            parts.append(f"{LIMITS_2_LINE}\n")
            continue
        section.append(line)
        if line == "end":
            add_section()
    add_section()
    spelling.text = "".join(parts)
    return spelling
