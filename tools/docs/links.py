"""The links of pages: which of them lead nowhere."""
import re
from pathlib import Path
from typing import Iterator

LINK = re.compile(r"\[[^\]]*\]\(([^)#\s]*)(?:#([^)\s]*))?[^)]*\)")
# The same in HTML, as of a picture with a width.
TAG = re.compile(r'(?:href|src)="([^"#]*)(?:#([^"]*))?"')
CODE = re.compile(r"`[^`]*`")


def paragraphs(text: str) -> Iterator[tuple[int, str]]:
    """Yields the first line's number and the text of each paragraph, list item or table cell, without fenced blocks."""
    held: list[str] = []
    first, is_code = 0, False
    for number, line in enumerate([*text.splitlines(), ""], 1):
        fence = line.lstrip().startswith("```")
        ends = fence or is_code or not line.strip() or bool(re.match(r"\s*(?:[-*]|\d+\.) |#|\|", line))
        if ends and held:
            yield first, " ".join(held)
            held = []
        is_code ^= fence
        if fence or is_code or not line.strip():
            continue
        if line.startswith("|"):
            yield from ((number, cell) for cell in re.split(r"(?<!\\)\|", line.strip("|")) if cell.strip(" -:"))
            continue
        first = first if held else number
        held.append(re.sub(r"^\s*(?:[-*]|\d+\.) |^#+ ", "", line).strip())


def anchors(text: str) -> set[str]:
    """Returns the anchors of a page's headings, as GitHub and GitLab make them."""
    titles = re.findall(r"^#+ (.*?)\s*$", text, re.MULTILINE)
    return {re.sub(r"[^\w\- ]", "", title.lower()).replace(" ", "-") for title in titles}


def dead_links(page: Path, text: str) -> Iterator[str]:
    """Yields each link of a part of a page that leads to no file, or to no heading of a page."""
    shown = CODE.sub("code", text)
    for name, anchor in [*LINK.findall(shown), *TAG.findall(shown)]:
        if "://" in name or name.startswith("mailto:"):
            continue
        target = page.parent / name if name else page
        if not target.exists():
            yield f"the link {name} leads nowhere"
        elif anchor and target.suffix == ".md" and anchor not in anchors(target.read_text(encoding="utf-8")):
            yield f"{target.name} has no heading #{anchor}"


def dead_in_folder(folder: Path) -> list[str]:
    """Returns the dead links of all pages below a folder, each with its page."""
    pages = sorted(page for page in folder.rglob("*.md") if page.is_file())
    return [f"{page.relative_to(folder)}: {dead}" for page in pages
            for dead in dead_links(page, page.read_text(encoding="utf-8"))]
