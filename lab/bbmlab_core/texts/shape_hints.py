"""Why a line has none of the forms of its section: the usual causes of code 1, each with a hint."""

import difflib
import re

from .assigns import AssignReader
from .certificates import CertificateReader
from .circuits import CircuitReader
from .gates import GATE_SIZES
from .layouts import LayoutReader
from .limits import LIMITS_2_LINE
from .lines import LineForm, NAME_PATTERN, NUMBER_PATTERN, SectionReader, word_value

FaultAndHint = tuple[str, str]
SECTION_READERS: tuple[type[SectionReader], ...] = (CircuitReader, LayoutReader, AssignReader, CertificateReader)
SECTION_KEYWORDS = {reader.name: [word for word in reader.forms if word not in (reader.name, "end")]
                    for reader in SECTION_READERS}
FMT_FIXES_THIS = "`bbmlab fmt` fixes this."
# How gates of ordinary logic are made. The standard cells named here have circuits of their own.
LOGIC_GATE_HINTS = {
    "and": "The standard cell `and` makes one: `switch a b -> d y z` gives y = a and b (`bbmlab cells and`).",
    "or": "The standard cell `or` makes one, of a `fredkin` and a `source` (`bbmlab cells or`).",
    "xor": "The standard cell `xor` makes one (`bbmlab cells xor`).",
    "not": "The standard cell `not` makes one, of a `switch` and a `source` (`bbmlab cells not`).",
    "nand": "The standard cells `and` and `not` make one (`bbmlab cells and`).",
    "nor": "The standard cells `or` and `not` make one (`bbmlab cells or`).",
    "xnor": "The standard cells `xor` and `not` make one (`bbmlab cells xor`).",
    "mux": "`fredkin c x y -> d e f` makes one: e is x if c is true, and y otherwise (`bbmlab cells fredkin`).",
    "copy": "The standard cell `fan_out` makes one (`bbmlab cells fan_out`).",
    "buf": "The standard cell `fan_out` copies a wire (`bbmlab cells fan_out`).",
}
LOGIC_GATE_HINTS |= {"inv": LOGIC_GATE_HINTS["not"], "fanout": LOGIC_GATE_HINTS["copy"],
                     "fan_out": LOGIC_GATE_HINTS["copy"]}


def character_hints(line: str) -> list[FaultAndHint]:
    """Returns what is wrong with the bytes of a line."""
    hints: list[FaultAndHint] = []
    if line.startswith("\xef\xbb\xbf"):
        hints.append(("The text begins with a byte order mark (BOM), three bytes that editors hide.",
                      f"Save without a BOM. {FMT_FIXES_THIS}"))
    if line.endswith("\r"):
        hints.append(("The line ends with CR LF, as on Windows; a line ends with LF alone.",
                      f"Save with LF line ends. {FMT_FIXES_THIS}"))
    if "\t" in line:
        hints.append(("The line has a tab; words are parted by one space.",
                      f"Write a space for each tab. {FMT_FIXES_THIS}"))
    if "#" in line or "//" in line:
        cure = f"Remove the comment. {FMT_FIXES_THIS}" if "#" in line else "Remove the comment."
        hints.append(("The line has a comment; these texts have no comments.", cure))
    bare = line.rstrip("\r")
    if not bare.strip(" \t\r"):
        hints.append(("The line is empty; these texts have no empty lines.", f"Remove the line. {FMT_FIXES_THIS}"))
    else:
        if bare.startswith(" ") or bare.endswith(" "):
            hints.append(("The line begins or ends with a space.", f"Remove the space. {FMT_FIXES_THIS}"))
        if "  " in bare.strip(" "):
            hints.append(("Two spaces stand between two words; words are parted by exactly one.",
                          f"Write one space. {FMT_FIXES_THIS}"))
    odd = sorted({char for char in line if not " " <= char <= "~" and char not in "\t\r\xef\xbb\xbf"})
    if odd:
        shown = ", ".join(f"0x{ord(char):02x}" for char in odd[:4])
        hints.append((f"The line has bytes that no word may have: {shown}.",
                      "Write plain ASCII: small letters, digits and underscores."))
    return hints


def word_mismatch_words(word: str, place: str) -> str | None:
    """Returns why a word does not fit its place in a form, or None where it does."""
    try:
        word_value(word, place)
        return None
    except ValueError:
        pass
    if place == "->":
        return f"`{word}` stands where the arrow `->` belongs."
    if place == "BIT":
        return f"`{word}` is no bit: a source has `0` or `1`."
    if place == "SIGNAL" and word == "0":
        return "There is no signal `0`: a cell without a line is dead."
    if place in ("SIGNAL", "NAME") or len(place) == 1 and place in "ABCDEF":
        return name_mismatch_words(word)
    return number_mismatch_words(word, place)


def name_mismatch_words(word: str) -> str:
    """Returns why a word is no name."""
    if NUMBER_PATTERN.match(word):
        return f"`{word}` is a number, and a name stands here. A name begins with a small letter."
    if len(word) > 32 and NAME_PATTERN.match(word[:32]):
        return f"The name `{word[:12]}..` has {len(word)} characters; 32 is the most."
    if word.lower() != word:
        return f"`{word}` has capital letters; a name has small letters, digits and underscores."
    return f"`{word}` is no name: a small letter first, then small letters, digits and underscores."


def number_mismatch_words(word: str, place: str) -> str:
    """Returns why a word is no number."""
    what = {"T": "time", "TIME": "time", "STEPS": "number of steps", "GATE": "gate number"}.get(place, "number")
    if re.fullmatch(r"0\d+", word):
        return f"`{word}` has a leading zero: write `{word.lstrip('0') or '0'}`."
    if re.fullmatch(r"\d{10,}", word):
        return f"`{word[:12]}` has more than nine digits."
    if re.fullmatch(r"[-+]\d+", word):
        return f"`{word}` has a sign; numbers are `0` or digits without a sign."
    if re.fullmatch(r"\d+[.,]\d*|\d*[.,]\d+", word):
        return f"`{word}` is no whole number."
    if word == "*":
        return "`*` stands for all odd times in `edge` and `halo` lines alone; here a time is a number."
    if place == "GATE" and NAME_PATTERN.match(word):
        return f"`{word}` is a name; a gate is given by its number, from 0 in order of gate lines."
    return f"`{word}` is no {what}; a number is `0` or digits without leading zeros."


def form_hint(words: list[str], form: LineForm, section: str) -> FaultAndHint:
    """Returns how a line with a known keyword differs from its form."""
    shown = " ".join(form)
    if len(words) != len(form):
        more = "too many" if len(words) > len(form) else "too few"
        text = f"This `{form[0]}` line has {len(words)} words, and its form has {len(form)}: {more}."
        if "->" in form and "->" not in words:
            text = f"The arrow `->` is missing in this `{form[0]}` line."
        return text, f"Write it as `{shown}`."
    for word, place in zip(words[1:], form[1:]):
        hint = word_mismatch_words(word, place)
        if hint:
            return hint, f"Write it as `{shown}`."
    return f"The line is no `{form[0]}` line of the {section} section.", f"Write it as `{shown}`."


def logic_gate_hint(word: str) -> FaultAndHint | None:
    """Returns how a gate of ordinary logic is made of those of conservative logic, or None if a word names no such
    gate."""
    if word not in LOGIC_GATE_HINTS:
        return None
    gates = ", ".join(f"`{gate}`" for gate in GATE_SIZES)
    return (f"There is no gate `{word}`: the gates of conservative logic are {gates}.",
            f"{LOGIC_GATE_HINTS[word]} `bbmlab circuit` writes a circuit of a text of such gates, or of a netlist, and "
            "`bbmlab route` takes them too.")


def keyword_hint(word: str, section: str, begun: bool, forms: dict[str, LineForm]) -> FaultAndHint:
    """Returns what is wrong with a first word that the section does not have."""
    if word == "limits":
        return (f"The only line that begins with `limits` is `{LIMITS_2_LINE}`, and it is the first line of a text.",
                f"Remove the line, or write `{LIMITS_2_LINE}` before all sections.")
    if word == "halo" and section == "certificate":
        return ("`halo` lines belong to `certificate 1`; in version 2 there are none.",
                "Remove the `halo` lines, or write `certificate 1` in the header.")
    logic = logic_gate_hint(word.lower()) if section == "circuit" else None
    if logic:
        return logic
    other = next((name for name, words in SECTION_KEYWORDS.items() if word in words or word == name), None)
    if other and other != section:
        if word == other:
            return (f"`{word}` begins another section, and the {section} section "
                    + ("has not ended." if begun else "is expected here."),
                    "End the section before it with `end`." if begun
                    else f"Begin with the line `{' '.join(forms[section])}`.")
        return (f"`{word}` is a line of the {other} section, and this is the {section} section.",
                f"Move it into the {other} section, or write the header and `end` that are missing before it.")
    near = difflib.get_close_matches(word.lower(), forms, 1)
    if near:
        return f"`{word}` is no keyword; `{near[0]}` is near.", f"Write it as `{' '.join(forms[near[0]])}`."
    return (f"`{word[:40]}` begins no line of the {section} section.",
            "The lines of this section begin with: " + ", ".join(f"`{name}`" for name in forms) + ".")


def shape_hints(line: str, section: str, begun: bool, forms: dict[str, LineForm]) -> list[FaultAndHint]:
    """Returns all that is wrong with a line of no form, the bytes first."""
    hints = character_hints(line)
    if not begun and section == "circuit" and line.split(" ")[0].startswith("bbmcheck"):
        return [("This is a report and no bundle.", "Give the text that the report was made of.")]
    clean = re.sub(r"#.*|//.*", "", line.removeprefix("\xef\xbb\xbf"))
    words = clean.split()
    if not words:
        return hints or [("The line is empty; these texts have no empty lines.", f"Remove the line. {FMT_FIXES_THIS}")]
    form = forms.get(words[0])
    if form is None:
        return [*hints, keyword_hint(words[0], section, begun, forms)]
    hint = form_hint(words, form, section)
    is_fixed = len(words) == len(form) and all(word_mismatch_words(word, place) is None for word,
                                               place in zip(words[1:], form[1:]))
    return hints if hints and is_fixed else [*hints, hint]
