"""How many words a page may take, and all pages together."""
import re
from pathlib import Path

# A bar of a table or a dash is no word.
WORD = re.compile(r"\w")

# The limits of pages.
LIMITS = {
    "CHANGELOG.md": 1100,
    "CONTRIBUTING.md": 2280,
    "README.md": 1000,
    "SECURITY.md": 200,
    "THIRD-PARTY.md": 650,
    "bench/README.md": 1500,
    "conformance/README.md": 690,
    "docs/API.md": 980,
    "docs/ARCHITECTURE.md": 3000,
    "docs/ASSURANCE.md": 3240,
    "docs/CELLS.md": 4100,
    "docs/FAQ.md": 850,
    "docs/FORMATS.md": 3900,
    "docs/GLOSSARY.md": 1050,
    "docs/GUIDE.md": 5120,
    "docs/JSON.md": 1050,
    "docs/LAB.md": 1770,
    "docs/OPERATING.md": 2550,
    "docs/PHYSICS.md": 1150,
    "docs/STUDIO.md": 1100,
    "docs/TESTING.md": 1500,
    "examples/README.md": 1150,
    "lab/README.md": 440,
}

# What all pages together may take. Outside the sum are pages to look things up in, which nobody reads from end to end:
# the catalogue of cells, the tables of balls and mirrors, and the licences of others.
MAX_SUM = 32_000
OUTSIDE_SUM = {"docs/CELLS.md", "docs/PHYSICS.md", "THIRD-PARTY.md"}


def words(text: str) -> int:
    """Returns how many words a text has: pieces between spaces with a letter or a digit."""
    return sum(bool(WORD.search(piece)) for piece in text.split())


def words_of(page: Path) -> int:
    """Returns how many words a page has."""
    return words(page.read_text(encoding="utf-8"))


def sum_of(top: Path) -> int:
    """Returns the words of all pages that the sum counts."""
    return sum(words_of(top / name) for name in LIMITS if name not in OUTSIDE_SUM)


def faults(top: Path, pages: list[Path]) -> list[tuple[Path, str]]:
    """Returns each page with more words than it may take, or without a limit."""
    found = []
    for page in pages:
        name = str(page.relative_to(top))
        count, limit = words_of(page), LIMITS.get(name)
        if limit is None:
            found.append((page, f"{count} words, and tools/docs/word_limits.py sets no limit for this page"))
        elif count > limit:
            found.append((page, f"{count} words, and at most {limit} are allowed"))
    return found
