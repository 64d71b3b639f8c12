#!/usr/bin/env python3
"""tools/docs/documented_commands.py [PROGRAM] [--list]

Runs the commands that README.md and the pages of docs/, examples/ and conformance/ show, in a folder of its own where
./bbmcheck is PROGRAM (left out: the proved program), and compares what they write with what the page shows. Prints each
that differs, and last how many there were.

A command is a line of a fenced block, or a piece of code in a sentence, that begins with ./bbmcheck or with a script of
examples/, conformance/, lab/ or a folder of tools/ and has words behind it. What a page shows of its output is

- in a block, the lines below a line that begins with `$ `;
- for a paragraph with a command that ends in a colon, the block below it;
- for a paragraph with one command, pieces of code right behind the word "prints": they are lines of the output;
- for a row of a table whose first piece of code is a text, the pieces of code in its last column: they are lines of
  what the command that the page named last writes of that text. Of `check` they are all lines after the third.

The output and the exit status of ./bbmcheck on a text are compared with the plain programs of tools/oracle too,
whatever the page shows. Other commands must end with status 0, unless the page gives another one beside them. A block
that begins with a section's header must be in a text of examples/. A command with a word in capitals is a form, and is
not run. Another part of the gate runs the commands of ELSEWHERE, those of the kit (`rt`) and .ci/run, which calls this
tool. --list prints the commands and runs none.
"""
import argparse
import os
import re
import shutil
import subprocess
import sys
import tempfile
from collections import namedtuple
from pathlib import Path

TOP = Path(__file__).resolve().parent.parent.parent
sys.dont_write_bytecode = True
sys.path.insert(0, str(TOP / "tools" / "oracle"))
from proved_program import program  # noqa: E402
import reference  # noqa: E402
import reference_reports  # noqa: E402

PAGES = ["README.md", "examples/README.md", "docs/*.md", "conformance/README.md", "CHANGELOG.md", "CONTRIBUTING.md"]
WORDS = "check|run|value|modules|migrate"
SCRIPT = r"(?:examples|conformance|lab|tools/\w+)/\w+(?:\.py)?"
COMMAND = re.compile(rf"(?:\./bbmcheck|{SCRIPT}|sed|cp) .*\S")
BARE, CAPITALS = re.compile(rf"\./bbmcheck (?:{WORDS})"), re.compile(r"\b[A-Z]+\b")
LISTED = re.compile(r"prints ((?:`[^`]+`(?:, | and )?)+)")
OVER_A_TEXT = re.compile(rf"\./bbmcheck ({WORDS})(?: --workers \d+)? < (\S+)")
SECTION = re.compile(r"circuit|layout \d+ \d+ \d+|assign|certificate \d|module( \d+){4}")
# tools/gate/gate_extras runs these, the first with --all, and tools/gate/try_operations tries the wrapper.
ELSEWHERE = re.compile(r"conformance/run\.py \./(?:bbmcheck|plain_check)|\./bbmcheck --wrapper-\w+|"
                       r"tools/(?:gate/fail_allocations_in_tests|gate/try_operations|package/release) .*")
SECONDS = 120

# where it stands; what is run; the output that is shown, a text, or a list of its lines, or None; and the status that
# is told, or None
Shown = namedtuple("Shown", "place command output status")


def is_form(command):
    return bool(BARE.fullmatch(command) or CAPITALS.search(re.sub(r"'[^']*'", "", command)))


def pieces(text):
    """The pieces of code of a sentence."""
    return re.findall(r"`([^`]+)`", text)


def told_status(text):
    found = set(re.findall(r"status (\d)", text))
    return int(found.pop()) if len(found) == 1 else None


def parts_of(page):
    """The parts of a page: the number of the first line, the kind (block, row, text), and its lines."""
    part, number = None, 0
    for number, line in enumerate([*page.splitlines(), ""], 1):
        if part and part[1] == "block":
            if line == "```":
                yield part
                part = None
            else:
                part[2].append(line)
            continue
        kind = "block" if line.startswith("```") else "row" if line.startswith(
            "|") else "text" if line.strip() else None
        if part and (kind != "text" or line.startswith(("- ", "#"))):
            yield part
            part = None
        if kind == "block":
            part = (number, kind, [])
        elif kind == "row":
            yield number, kind, [line]
        elif kind == "text" and part:
            part[2].append(line)
        elif kind == "text":
            part = (number, kind, [line])


def of_block(place, lines):
    """The commands of a block, each with the output below it if its line begins with `$ `."""
    at = 0
    while at < len(lines):
        line = lines[at]
        at += 1
        if line.startswith("$ "):
            first = at
            while at < len(lines) and not lines[at].startswith("$ "):
                at += 1
            yield Shown(place, line[2:], "".join(text + "\n" for text in lines[first:at]), None)
        elif COMMAND.match(line):
            yield Shown(place, re.sub(r"\s+# .*", "", line), None, None)


def of_page(name, page):
    """What the page shows, and the blocks of it that are parts of texts."""
    shown, sections, word, waiting, before = [], [], None, False, ""
    for number, kind, lines in parts_of(page):
        place, text = f"{name}:{number}", " ".join(line.strip() for line in lines)
        if kind == "block":
            commands = list(of_block(place, lines))
            if waiting and not commands:
                shown[-1] = shown[-1]._replace(output="".join(line + "\n" for line in lines))
            elif lines and SECTION.fullmatch(lines[0]) and not CAPITALS.search("\n".join(lines)):
                sections.append((place, "".join(line + "\n" for line in lines)))
            shown += [command._replace(status=told_status(before)) if command.output else command
                      for command in commands]
            waiting = False
        elif kind == "row":
            cells = [cell.strip() for cell in text.strip("|").split(" | ")]
            named = pieces(cells[0])
            if word and len(named) == 1 and named[0].endswith(".txt") and cells[0] == f"`{named[0]}`":
                shown.append(Shown(place, f"./bbmcheck {word} < examples/{named[0]}", pieces(cells[-1]),
                                   told_status(cells[-1])))
        else:
            commands = [piece for piece in pieces(text) if COMMAND.fullmatch(piece)]
            listed = LISTED.search(text) if len(commands) == 1 else None
            status = told_status(text) if len(commands) == 1 else None
            shown += [Shown(place, command, pieces(listed[1]) if listed else None, status) for command in commands]
            asked = [found for command in commands if (found := OVER_A_TEXT.fullmatch(command))]
            word = asked[-1][1] if asked else word
            waiting, before = text.endswith(":") and commands and not is_form(commands[-1]), text
    return shown, sections


def make_room(room, program):
    """The folder in which the commands run."""
    for name in ("examples", "conformance"):
        shutil.copytree(TOP / name, room / name, ignore=shutil.ignore_patterns("__pycache__"))
    for name in ("crates", "docs", "lab", "tools"):
        (room / name).symlink_to(TOP / name)
    (room / "bbmcheck").symlink_to(program)
    # What `make install` puts on PATH.
    (room / ".bin").mkdir()
    (room / ".bin" / "bbmcheck").symlink_to(program)
    (room / ".bin" / "bbmlab").symlink_to(TOP / "lab" / "bbmlab")


def of_the_reference(command, room):
    """Returns the status and the output by the plain programs, if ./bbmcheck reads one text."""
    found = OVER_A_TEXT.fullmatch(command)
    if not found:
        return None
    text = (room / found[2]).read_bytes()
    status, output = reference_reports.answer(text) if found[1] == "check" else reference.answer(found[1], text)
    return status, output.decode()


def is_shown(command, output, wanted):
    """Whether the page shows this output."""
    if isinstance(wanted, str):
        return output == wanted
    lines = output.splitlines()
    if " check " in command and lines[:1] == ["bbmcheck 1"]:
        return lines[3:] == wanted
    rest = iter(lines)
    return all(any(line == piece for line in rest) for piece in wanted)


def faults_of(room, shown):
    """What is wrong with a command."""
    try:
        ended = subprocess.run(["sh", "-c", shown.command], cwd=room, stdin=subprocess.DEVNULL, stdout=subprocess.PIPE,
                               stderr=subprocess.STDOUT, timeout=SECONDS, check=False,
                               env={**os.environ, "PATH": f"{room / '.bin'}:{os.environ['PATH']}",
                                    "BBMCHECK": str(room / "bbmcheck")})
    except subprocess.TimeoutExpired:
        yield f"it had not ended after {SECONDS} seconds"
        return
    output, plain = ended.stdout.decode(), of_the_reference(shown.command, room)
    if plain and plain != (ended.returncode, output):
        yield f"the plain programs have {plain}, and it ended with {(ended.returncode, output)}"
    if shown.output is not None and not is_shown(shown.command, output, shown.output):
        yield f"the page shows {shown.output!r}, and it wrote {output!r}"
    if shown.status is not None and ended.returncode != shown.status:
        yield f"the page says status {shown.status}, and it was {ended.returncode}"
    if shown.status is None and shown.output is None and not plain and ended.returncode != 0:
        yield f"it ended with status {ended.returncode}: {output!r}"


def main():
    parser = argparse.ArgumentParser(usage=__doc__)
    parser.add_argument("program", nargs="?", type=Path)
    parser.add_argument("--list", action="store_true")
    options = parser.parse_args()
    shown, sections, wrong = [], [], 0
    for path in sorted(path for page in PAGES for path in TOP.glob(page)):
        for found, all_found in zip(of_page(path.relative_to(TOP), path.read_text()), (shown, sections)):
            all_found += found
    shown = [one for one in shown if not is_form(one.command) and not ELSEWHERE.fullmatch(one.command)]
    if options.list:
        print("".join(f"{one.place}: {one.command}{'' if one.output is None else '    # with its output'}\n"
                      for one in shown), end="")
        return 0
    texts = [path.read_text() for path in (TOP / "examples").glob("*.txt")]
    for place, section in sections:
        if not any(("\n" + section) in ("\n" + text) for text in texts):
            wrong += 1
            print(f"{place}: no text of examples/ has this block")
    with tempfile.TemporaryDirectory() as room:
        make_room(Path(room), (options.program or Path(program())).resolve())
        for one in shown:
            for fault in faults_of(Path(room), one):
                wrong += 1
                print(f"{one.place}: {one.command}: {fault}")
    with_output = sum(one.output is not None for one in shown)
    print(f"{len(shown)} commands, {with_output} with their output, and {len(sections)} texts; {wrong} wrong")
    return 1 if wrong else 0


sys.exit(main())
