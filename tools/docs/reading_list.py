#!/usr/bin/env python3
"""Prints what a reader must read to believe a statement: the files of specs/ that a file brings in, directly or by
others, with their lines, and how many of these are definitions that the statement reaches. A file comes after those
that it brings in.

usage: tools/docs/reading_list.py [--definitions] [--check PAGE] [FILE]

FILE is meaning/specs/Headline.antt if it is left out. --definitions names the definitions that are reached, and the
definitions of the kit's library that these name. --check compares a page. It must contain the table of
meaning/specs/Headline.antt, line for line, and each word of the kit's library that these definitions name. Behind each
name of this command with a FILE it must give the numbers of the table as "N files and M lines". --check also compares
the two numbers of lines in README.md.

A name is followed to its definition: by the `use` lines of its file and their `as`, by `pub use` lines of other files,
behind the name of a module (`Gates.row`), and by its whole path. Whatever of this the script does not understand or
find is printed, and the status is 1: a `use` line, a name that such a line or path names, and lines of specs/ that
belong to no definition.
"""
import re
import sys
from collections.abc import Iterator
from dataclasses import dataclass, field
from functools import cache
from pathlib import Path

CRATES = Path(__file__).resolve().parent.parent.parent / "crates"
README = CRATES.parent / "README.md"
STATEMENT = "meaning/specs/Headline.antt"
IN_FULL = "headline/specs/RightInFull.antt"
HEAD = re.compile(r"^(?:(?:abbrev|unfoldable|pub|infixl|infixr)\s+)*(\S+)\s*(?:\{[^}]*\}|\([^)]*\)|\s)*:(?:\s|$)")
# A record has its name before its parameters, which may take more lines and may have parentheses in parentheses.
RECORD = re.compile(r"^(?:(?:abbrev|unfoldable|pub)\s+)*(?:record|data)\s+(\S+)")
DECLARED = re.compile(r"^(?:abbrev|unfoldable|record|data|pub (?!use\b|mod\b))")
VISIBLE = r"(?:pub(?:\(\w+\))? )?"
WORD = re.compile(r"[^\s(){}\[\],;.λ∀]+")
# A line that begins a use of other names, whole or not, and one that this script reads. A comment may follow.
USE = re.compile(r"^\s*(?:unfoldable\s+)?(?:pub\s+)?use\s")
READ_USE = re.compile(r"(?:unfoldable )?(?:pub )?use ([\w.]+?)(?:\.\{([^{}]*)\})?(?: as (\S+))?$")
BLOCK = re.compile(r"module _ .*where$")
COMMENT = re.compile(r"(?:^|\s)--.*")
# With what a path may begin.
LIBRARIES = ("Rattle", "mathlib", "lib", "base", "Prim")
# Behind the name of a module or a library: the rest of a path.
REST = r"((?:\.[^\s(){}\[\],;.]+)+)"


@dataclass
class Target:
    """What a name here means: a name of a file, or with `None` a module, by its crate, its folder and the parts of its
    path."""

    path: str
    name: str | None = None
    module: tuple[str, ...] = ()


@dataclass
class File:
    """A file of specs/ or proofs/: its definitions, and what its names mean."""

    path: str
    lines: list[str] = field(default_factory=list)
    uses: dict[str, Target] = field(default_factory=dict)
    library: set[str] = field(default_factory=set)  # names here that come from the kit
    blocks: dict[str, list[str]] = field(default_factory=dict)  # a definition: its lines
    owner: dict[str, str] = field(default_factory=dict)  # a name, also of a constructor: the definition
    modules_of_kit: set[str] = field(default_factory=set)
    children: set[str] = field(default_factory=set)  # modules below this one
    passed_on: set[str] = field(default_factory=set)  # names that `pub use` lines give to others
    strange: list[str] = field(default_factory=list)  # lines that this script does not understand

    def __post_init__(self) -> None:
        self.lines = (CRATES / self.path).read_text().splitlines()
        self.read()

    def read(self) -> None:
        """Reads the lines: `use` lines, and definitions with the comment above them."""
        comment: list[str] = []
        current, is_in_block = None, False
        for line in self.lines:
            # The definitions of a block `module _ (..) where` are read as others.
            is_in_block = BLOCK.match(line) is not None or is_in_block and (not line or line.startswith(" "))
            line = line.removeprefix("  ") if is_in_block else line
            if BLOCK.match(line):
                current = None
            elif USE.match(line):
                self.read_use(line)
            elif not line.strip() or line.startswith("--"):
                comment = comment + [line] if line.startswith("--") and not line.startswith("-- ----") else []
                current = None if not line.strip() else current
            elif line.startswith(" "):
                self.read_inner_line(line, current)
            elif child := re.match(r"(?:pub )?mod (\S+)", line):
                self.children.add(child[1])
            elif not re.match(r"infix|unfolding", line):
                current = self.read_first_line(line, comment, current)
                comment = []

    def read_inner_line(self, line: str, current: str | None) -> None:
        """Reads an indented line: of a definition, or a comment."""
        if not current:
            if not line.lstrip().startswith("--"):
                self.strange.append(line)
            return
        self.blocks[current].append(line)
        part = re.match(r"  (?!pub )(\S+) : ", line)  # a constructor
        if part:
            self.owner.setdefault(part.group(1), current)

    def read_first_line(self, line: str, comment: list[str], current: str | None) -> str | None:
        """Reads a line that is not indented, and returns the definition that it belongs to."""
        head = RECORD.match(line) or HEAD.match(line)
        name = head.group(1) if head else None
        if name and name not in self.blocks and not (current and "=" in line.split(" : ")[0]):
            self.blocks[name] = comment + [line]
            self.owner[name] = name
            return name
        if current:
            self.blocks[current].append(line)
        else:
            self.strange.append(line)
        return current

    def read_use(self, line: str) -> None:
        """Reads a line that brings in names or a module."""
        read = READ_USE.fullmatch(COMMENT.sub("", line).rstrip())
        items = [item.strip() for item in (read[2] or "").split(",")] if read else []
        if not read or read[2] is not None and (read[3] or not all(items)):
            self.strange.append(line)
            return
        path = read[1].removeprefix("package.").split(".")
        if path[0] in self.uses:  # a module that a line above brings in
            path = [*self.uses[path[0]].module, *path[1:]]
        if not path or path[0] not in LIBRARIES:
            self.strange.append(line)
            return
        found: dict[str, Target] = {}
        for item in items if read[2] is not None else []:
            there, _, here = item.partition(" as ")
            whole = [*path, *split_item(there)]
            found[here.strip() or whole[-1]] = target_of(whole) or self.of_library(here.strip() or whole[-1], whole)
        if read[2] is None:
            found[read[3] or path[-1]] = module_of(path) or self.of_library("", path)
            self.modules_of_kit.update([read[3] or path[-1]] if not is_ours(path) else [])
        found = {name: target for name, target in found.items() if target.path}
        self.uses.update(found)
        if "pub use" in line:
            self.passed_on.update(found)

    def of_library(self, here: str, whole: list[str]) -> Target:
        """Notes a name of the kit, or a line that names nothing that is there. Returns a target without a place."""
        if is_ours(whole):
            self.strange.append(f"{'.'.join(whole)} is not found")
        elif here:
            self.library.add(here)
        return Target("")


@cache
def file_of(path: str) -> File:
    """The file with that path below crates/."""
    return File(path)


def split_item(item: str) -> list[str]:
    """The parts of a name in the braces of a `use` line, which may be a path. An operator may contain a point."""
    return item.strip().split(".") if re.fullmatch(r"\w[\w'-]*(?:\.\w[\w'-]*)+", item.strip()) else [item.strip()]


def is_ours(whole: list[str]) -> bool:
    """Whether a path begins with a crate of the repository."""
    return len(whole) > 2 and whole[0] == "Rattle" and (CRATES / whole[1]).is_dir()


def target_of(whole: list[str]) -> Target | None:
    """What a whole path means, `Rattle.CRATE.specs.MODULE.NAME`, and `None` if nothing of ours is found."""
    if not is_ours(whole):
        return None
    crate, parts = whole[1], whole[3:]
    if parts[:1] == ["declared"]:
        return declared_target(crate, parts[1:])
    module = module_of(whole[:-1])
    return Target(module.path, whole[-1]) if module and parts else None


def declared_target(crate: str, parts: list[str]) -> Target | None:
    """What a path below `declared` means: a type of the code, also if it ends with one of its variants, or with its
    inside."""
    at = next((n for n, part in enumerate(parts) if part in ("TheVariants", "TheInside", "Ghosts")), len(parts))
    kept = parts[:at]
    # `declared.block.Box2.{Box2}` names the type twice.
    kept = kept[:-1] if len(kept) > 1 and kept[-1] == kept[-2] else kept
    for name in kept[-1:] if at < len(parts) else kept[:-3:-1]:
        path = declared(crate, kept[: kept.index(name) + 1])
        if type_lines(path, name):
            return Target(path, name)
    return None


def module_of(whole: list[str], depth: int = 0) -> Target | None:
    """The file of a module by its whole path. A `pub use` line of the file above may give it another home."""
    if not is_ours(whole) or depth > 9:
        return None
    crate, folder, parts = whole[1], whole[2], whole[3:]
    if parts[:1] == ["declared"]:
        return declared_target(crate, parts[1:])
    base = "/".join([crate, folder, *parts])
    for path in (f"{base}.antt", f"{base}/Lib.antt"):
        if (CRATES / path).is_file():
            return Target(path, None, tuple(whole))
    above = module_of(whole[:-1], depth + 1) if parts else None
    if above is None or not above.path.endswith(".antt"):
        return None
    for line in (CRATES / above.path).read_text().splitlines():
        read = READ_USE.fullmatch(COMMENT.sub("", line).rstrip())
        if read and "pub use" in line and read[2] is None and (read[3] or read[1].split(".")[-1]) == parts[-1]:
            return module_of(read[1].split("."), depth + 1)
    return None


def declared(crate: str, parts: list[str]) -> str:
    """The source file that declares a type: the longest module path that is one."""
    for n in range(len(parts) - 1, 0, -1):
        path = f"{crate}/src/{'/'.join(parts[:n])}.rt"
        if (CRATES / path).is_file():
            return path
    for file in sorted((CRATES / crate / "src").rglob("*.rt")):
        if re.search(rf"^{VISIBLE}(struct|enum|trait) {parts[-1]}\b", file.read_text(), re.M):
            return str(file.relative_to(CRATES))
    return f"{crate}/src/lib.rt"


@cache
def type_lines(path: str, name: str) -> list[str]:
    """The declaration of a type of the code, with its comment."""
    lines = (CRATES / path).read_text().splitlines()
    for i, line in enumerate(lines):
        if re.match(rf"{VISIBLE}(struct|enum|trait) {name}\b", line):
            first = i
            while first > 0 and re.match(r"///|#\[", lines[first - 1]):
                first -= 1
            last = i
            while not re.match(r"\}|.*;$|.*\{\}$", lines[last]):
                last += 1
            return lines[first : last + 1]
    return []


@cache
def closure_of(start: str) -> "Closure":
    """What the file with that path below crates/ brings in and reaches."""
    return Closure(start)


class Closure:
    """All that a file brings in, and the definitions that its own definitions reach."""

    def __init__(self, start: str) -> None:
        self.files: dict[str, File] = {}
        self.reached: dict[str, dict[str, list[str]]] = {}
        self.seen: set[str] = set()
        self.imported: list[str] = []
        self.library: set[str] = set()
        self.lost: list[str] = []  # names and lines that are not found or not understood
        self.bring(start)
        for name in list(self.files[start].blocks):
            self.reach(start, name)

    def bring(self, path: str) -> None:
        if path in self.seen:
            return
        self.seen.add(path)
        if path.endswith(".antt"):
            self.files[path] = file_of(path)
            for target in self.files[path].uses.values():
                self.bring(target.path)
        self.imported.append(path)  # after those that it brings in

    def reach(self, path: str, name: str) -> None:
        """Reaches a definition, and all that it names. Another file may pass it on."""
        self.bring(path)
        if path.endswith(".rt"):
            self.reached.setdefault(path, {})[name] = type_lines(path, name)
            return
        file = self.files[path]
        owner = file.owner.get(name)
        if owner is None:
            passed = file.uses.get(name)
            if passed and passed.name and name in file.passed_on:
                self.reach(passed.path, passed.name)
            elif name not in file.library:
                self.lost.append(f"{path}: {name} is not found")
            return
        if owner in self.reached.setdefault(path, {}):
            return
        self.reached[path][owner] = file.blocks[owner]
        code = "\n".join(COMMENT.sub("", line) for line in file.blocks[owner])
        words = set(WORD.findall(re.sub(r"(?<=[\w'])(\.\w+)+", "", code)))  # without projections
        if "←" in words:
            words.add(">>=")
        for word in sorted(words):
            self.reach_word(file, word, code)
        for rest in re.findall(rf"(?<![\w.'])(?:package\.)?Rattle{REST}", code):
            self.reach_path(file, ["Rattle", *rest[1:].split(".")])

    def reach_word(self, file: File, word: str, code: str) -> None:
        """Reaches what a word of a definition means, by itself or as part of an operator."""
        for here in (word, f"◌{word}◌"):
            if here in file.library:
                self.library.add(here)
            if here in file.owner:
                self.reach(file.path, here)
            elif here in file.uses and file.uses[here].name is not None:
                self.reach(file.uses[here].path, file.uses[here].name or "")
            elif here in file.uses or here in file.modules_of_kit or here in file.children:
                path = file.path.removesuffix(".antt").removesuffix("/Lib").split("/")
                module = file.uses[here].module if here in file.uses else ("Rattle", *path, here)
                for rest in re.findall(rf"(?<![\w.']){re.escape(here)}{REST}", code):
                    self.reach_path(file,
                                    [*(module if here not in file.modules_of_kit else ["Rattle"]),
                                     *rest[1:].split(".")])

    def reach_path(self, file: File, whole: list[str]) -> None:
        """Reaches what a path names: the longest path of a module, and a name of it. Projections may follow."""
        for end in range(len(whole), 3, -1):
            target = target_of(whole[:end])
            if not target or not target.name:
                continue
            there = file_of(target.path)
            if target.path.endswith(".rt") or target.name in there.owner or target.name in there.passed_on:
                self.reach(target.path, target.name)
                return
        if is_ours(whole):
            self.lost.append(f"{file.path}: {'.'.join(whole)} is not found")
        else:
            self.library.add(whole[-1])


def lost_definitions() -> Iterator[str]:
    """Yields what this script does not find in the files of specs/: a line, a declaration that begins no definition, a
    name that is brought in."""
    for found in sorted(CRATES.glob("*/specs/**/*.antt")):
        path = str(found.relative_to(CRATES))
        file = file_of(path)
        yield from (f"{path}: {line}" for line in file.strange)
        first_lines = {next(line for line in block if not line.startswith("--")) for block in file.blocks.values()}
        yield from (f"{path}: {line}" for line in file.lines if DECLARED.match(line) and line not in first_lines)
        for target in file.uses.values():
            if target.name and target.path.endswith(".antt"):
                other = file_of(target.path)
                if (target.name not in other.owner and target.name not in other.passed_on
                    and target.name not in other.library):
                    yield f"{path}: {target.name} of {target.path}"


OTHER_LIST = re.compile(r"`tools/docs/reading_list\.py (\S+\.antt)`[^.;|]*?(\d+)\s+files\s+and\s+(\d+)\s+lines")


def wrong_numbers(text: str) -> Iterator[str]:
    """Yields the places of a page at which the numbers of files and lines are not those of the list."""
    said = OTHER_LIST.findall(text)
    if not said:
        yield "no list of another statement is named with its numbers"
    for start, files, lines in said:
        counts = [count for _, _, count, _ in rows_of(closure_of(start)) if count]
        if (len(counts), sum(counts)) != (int(files), int(lines)):
            yield f"{start}: {len(counts)} files and {sum(counts)} lines, and the page says {files} and {lines}"


def wrong_readme() -> Iterator[str]:
    """Yields a line if README.md gives other numbers of lines than the lists."""
    said = re.search(r"(\d+)\s+lines,\s+and\s+(\d+)\s+with\s+the\s+rim\s+and\s+the\s+stops", README.read_text())
    counts = tuple(str(sum(count for _, _, count, _ in rows_of(closure_of(start)))) for start in (STATEMENT, IN_FULL))
    if not said or said.groups() != counts:
        yield f"README.md: {counts[0]} lines, and {counts[1]} with the rim and the stops, are not its numbers"


def missing_words(text: str, library: set[str]) -> Iterator[str]:
    """Yields the words of the kit's library that no piece of code of a page contains."""
    pieces = re.findall(r"`([^`]+)`", text)
    for word in sorted(library):
        name = re.escape(word.strip("◌").replace("|", r"\|"))
        if not any(re.search(rf"(?<!\w){name}(?!\w)", piece) for piece in pieces):
            yield f"the word {word} of the kit's library is not explained"


Row = tuple[str, int, int, list[str]]


def table_lines(needed: list[Row], names: bool, is_linked: bool) -> list[str]:
    """The lines of the table, with links for a page of docs/ if asked for. With `names`, each row is followed by the
    definitions that are reached."""
    lines = ["| file | lines that are reached | of |", "|---|---|---|"]
    for path, total, count, reached in needed:
        file = f"[`crates/{path}`](../crates/{path})" if is_linked else f"`crates/{path}`"
        lines.append(f"| {file} | {count} | {total} |")
        if names:
            lines.append(f"|   {', '.join(reached)} | | |")
    return [*lines, f"| {len(needed)} files | {sum(r[2] for r in needed)} | {sum(r[1] for r in needed)} |"]


def rows_of(closure: Closure) -> list[Row]:
    """Returns for each file that is brought in: its path, its lines, how many of them are reached, and the definitions
    that are."""
    rows = []
    for path in closure.imported:
        total = len((CRATES / path).read_text().splitlines())
        reached = closure.reached.get(path, {})
        rows.append((path, total, sum(map(len, reached.values())), list(reached)))
    return rows


def main(words: list[str]) -> int:
    names = "--definitions" in words
    table = "".join(words[words.index("--check") + 1:][:1]) if "--check" in words else None
    files = [w for w in words if not w.startswith("--") and w != table]
    wrong = [w for w in words if w.startswith("--") and w not in ("--definitions", "--check")]
    if wrong or files[1:] or table is not None and not Path(table).is_file() or files and not (
        CRATES / files[0]).is_file():
        print("usage: tools/docs/reading_list.py [--definitions] [--check PAGE] [FILE], with FILE as in crates/",
              file=sys.stderr)
        return 2
    closure = closure_of(files[0] if files else STATEMENT)
    rows = rows_of(closure)
    lost = sorted({f"not found: {name}" for name in [*lost_definitions(), *closure.lost]})
    lines = table_lines([row for row in rows if row[2]], names, table is not None)
    if table:
        page = Path(table).read_text()
        # Elsewhere the names of files may be links.
        text = re.sub(r"\[(`[^`]*`)\]\([^)]*\)", r"\1", page)
        found = [] if "\n".join(lines) in page else ["\n".join([f"{table} does not contain this table:", *lines])]
        found += [*wrong_numbers(text), *wrong_readme(), *missing_words(text, closure.library)]
        for start, _, _ in OTHER_LIST.findall(text):
            lost += sorted(f"not found: {name}" for name in closure_of(start).lost)
        found += [line for line in lost if line not in found]
        print(*found, sep="\n", end="\n" if found else "")
        return 1 if found else 0
    print(*lines, sep="\n")
    if names:
        print(f"\nNames of the kit's library: {', '.join(sorted(closure.library))}")
    specs = [r for r in rows if r[0].endswith(".antt")]
    print(f"\n{len(specs)} files of specs/ and proofs/ are brought in, {sum(r[1] for r in specs)} lines.")
    print(*lost, sep="\n", end="\n" if lost else "")
    return 1 if lost else 0


if __name__ == "__main__":
    sys.exit(main(sys.argv[1:]))
