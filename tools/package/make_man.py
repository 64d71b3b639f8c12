#!/usr/bin/env python3
"""make_man.py PROGRAM [--check]: writes the man page and the completions for bash, zsh and fish, from PROGRAM's --help
and --version.

It writes the four files of share/. With --check it writes nothing, and the status is 1 if one of them differs from what
it would write. The date of the man page is that of release/x86_64-linux-gnu/MANIFEST.
"""
import argparse
import re
import subprocess
import sys
from pathlib import Path
from typing import NamedTuple

TOP = Path(__file__).resolve().parent.parent.parent
MAN = TOP / "share" / "man" / "man1" / "bbmcheck.1"
FORMATS = TOP / "docs" / "FORMATS.md"
BASH = TOP / "share" / "bash-completion" / "completions" / "bbmcheck"
ZSH = TOP / "share" / "zsh" / "site-functions" / "_bbmcheck"
FISH = TOP / "share" / "fish" / "vendor_completions.d" / "bbmcheck.fish"
MANIFEST = TOP / "release" / "x86_64-linux-gnu" / "MANIFEST"
NOTE = ("tools/package/make_man.py writes this file from what the program prints with --help and --version, and from "
        "docs/FORMATS.md.")
# What `apropos` finds. The first line of --help names neither circuits nor layouts.
PURPOSE = "checks that a layout of the billiard ball automaton computes a circuit"
# What an installed program has beside it.
PAGES = [("FORMATS.md", "the texts, the refusals and the statuses"),
         ("GUIDE.md", "layouts and certificates, step by step, and how to read a no"),
         ("OPERATING.md", "how to run it as a service: limits, statuses, a sandbox"), ("examples/", "texts to try")]


class Help(NamedTuple):
    """What a help text says."""
    about: str
    usage: str
    commands: list  # of a name and what it does
    options: list  # of its flags and what it does
    reads: str
    writes: str
    statuses: list  # of a number and when it comes
    example: str

# The lines of a report, and what each says.
REPORT_LINES = [
    ("local M edge T X Y A", "in the module's own run this cell of its ring differs from its edge line, or is live and "
     "has none"),
    ("local M stop T X Y A", "the cell of a stop line is not as its wire at this time"),
    ("local M end T X Y A", "at the last time the cell is not what the layout asks of it"),
    ("keep M G A", "an inverse gate that the module keeps has no row under this assignment"),
    ("border M T X Y", "the module and its neighbour say different things of this cell"),
    ("unkept G", "no module keeps this inverse gate"),
    ("delay G N D", "the stops of the delay of N steps are D steps apart; D may be `missing` or `before`; a no unless "
     "D is N; also after a yes"),
    ("meet G T", "the inputs of the gate have their last stops at the time T; a no if T is `differ`; also after a yes"),
]


def said(program, *words):
    return subprocess.run([program, *words], stdin=subprocess.DEVNULL, capture_output=True, text=True,
                          check=True).stdout


def after(text, label):
    """The paragraph behind a label at the start of a line, on one line."""
    found = re.search(rf"^{label}: (.*\n(?:  .*\n)*)", text, re.MULTILINE)
    return " ".join(found.group(1).split())


def rows(text, heading):
    """The rows below a heading: two parts, with two spaces or more between them."""
    found = re.search(rf"^{heading}:\n((?:  .*\n)*)", text, re.MULTILINE)
    return [tuple(re.split(r" {2,}", line.strip(), maxsplit=1))
            for line in found.group(1).splitlines()] if found else []


def help_in(text):
    (example,), = rows(text, "Example")
    return Help(text.splitlines()[0], after(text, "Usage"), rows(text, "Commands"), rows(text, "Options"),
                after(text, "Reads"), after(text, "Writes"), rows(text, "Exit statuses"), example)


def roff(text):
    """The text as roff has it, with what stands in backquotes in bold."""
    text = re.sub(r"`([^`]*)`", r"\\fB\1\\fR", text.replace("\\", "\\e").replace("-", "\\-"))
    return "\\&" + text if text.startswith((".", "'")) else text


def tagged(parts):
    for head, body in parts:
        yield from (".TP", f".B {roff(head)}", roff(body))


def reads_and_writes(page):
    yield from (f"Reads {roff(page.reads)}.", ".br", f"Writes {roff(page.writes)}.")


def command_part(name, page, top):
    """What the page says of a command. A status that means the same for every command is in the list below alone."""
    own = [status for status in page.statuses if status not in top.statuses]
    yield from (f".SS {name}", f".B {roff(page.usage)}", ".PP", f"{roff(page.about)}.", ".br")
    yield from reads_and_writes(page)
    yield from tagged(page.options)
    if own:
        yield from (".PP", "Exit statuses (the others are under EXIT STATUS):")
        yield from tagged(own)
    yield from (".PP", "Example:", ".PP", ".RS", f".B {roff(page.example)}", ".RE")


def man_page(version, top, pages):
    first, *facts = version.splitlines()
    date = re.search(r"^date (\S+)$", MANIFEST.read_text(), re.MULTILINE).group(1)
    yield from (f".\\\" {NOTE}", f'.TH BBMCHECK 1 "{date}" "{roff(first)}" "User Commands"')
    yield from (".SH NAME", f"bbmcheck \\- {roff(PURPOSE)}")
    yield from (".SH SYNOPSIS", f".B {roff(top.usage)}", ".SH DESCRIPTION")
    yield from reads_and_writes(top)
    yield from (".PP", "If standard input is a terminal, the program says on standard error that it awaits the text "
                "there.")
    yield ".SH OPTIONS"
    yield from tagged(top.options)
    yield ".SH COMMANDS"
    for name, about in top.commands:
        yield from command_part(name, pages[name], top) if name in pages else (f".SS {name}", f"{roff(about)}.")
    yield ".SH EXIT STATUS"
    yield from tagged(top.statuses)
    yield from (".SH REFUSALS", roff("`refused LINE CODE` names the first line with a failing test, counted from 1, "
                                     "and its first failing test:"))
    section = FORMATS.read_text().split("\n## Refusals\n")[1].split("\n## ")[0]
    codes = re.findall(r"^\| (\d+) \| (.+) \|$", section, re.MULTILINE)
    yield from tagged(sorted(codes, key=lambda row: int(row[0])))
    yield from (".SH REPORTS", roff("The report of `check` has lines for the reasons of a no, and lines about stops. M "
                                    "is a module, T a time, X Y a cell,"),
                roff("G a gate, and A an assignment: bit i of A is the value of the module's cut i."))
    yield from tagged(REPORT_LINES)
    yield from (".SH EXAMPLE", f".B {roff(top.example)}", ".SH VERSION", roff(first))
    for fact in facts:
        yield from (".br", roff(fact))
    yield from (".SH SEE ALSO", roff("bbmlab(1) explains a report and draws layouts, if the lab is installed."), ".PP",
                "In /usr/share/doc/bbmcheck, or share/doc/bbmcheck below the prefix of the installation:")
    yield from tagged((f"{name}", f"{about}") for name, about in PAGES)
    yield from (".SH LICENSE", "MIT: the file LICENSE there, or copyright in a package for Debian.",
                "THIRD\\-PARTY.md has the licences of the ported crates in the program, and names parts whose licence "
                "is not known.")


def flags(page):
    return [flag for option in page.options for flag in re.findall(r"(?<!\S)--?[\w-]+", option[0])]


def bash_completions(top, pages):
    names = [name for name, _ in top.commands]
    yield from (f"# {NOTE}", "_bbmcheck() {", "    local words=")
    yield from ('    if ((COMP_CWORD == 1)); then', f'        words="{" ".join(names + flags(top))}"', "    else")
    yield '        case ${COMP_WORDS[1]} in'
    for name in names:
        yield f'            {name}) words="{" ".join(flags(pages[name]) if name in pages else pages)}" ;;'
    yield from ("        esac", "    fi", '    case ${COMP_WORDS[COMP_CWORD - 1]} in')
    with_values = {flag for page in pages.values() for head, _ in page.options if "<" in head
                   for flag in re.findall(r"--?[\w-]+", head)}
    yield from ("        # A number follows, and no file.", f'        {" | ".join(sorted(with_values))}) words=; '
                'compopt +o default 2>/dev/null ;;')
    yield from ("        # A file follows: bash completes it if nothing is offered.", "        *'<' | *'>') words= ;;",
                "    esac")
    yield from ('    mapfile -t COMPREPLY < <(compgen -W "$words" -- "${COMP_WORDS[COMP_CWORD]}")', "}",
                "complete -o default -F _bbmcheck bbmcheck")


def quoted(text):
    """The text between single quotes, as a shell reads it."""
    return "'" + text.replace("'", "'\\''") + "'"


def zsh_options(page):
    """An option as _arguments takes it: its names exclude one another."""
    for head, about in page.options:
        names, value = re.findall(r"--?[\w-]+", head), "<" in head
        text = re.sub(r"([\[\]:])", r"\\\1", about)
        group = f"({' '.join(names)})" if len(names) > 1 else ""
        for name in names:
            yield quoted(f"{group}{name}[{text}]" + (": : " if value else ""))


def zsh_completions(top, pages):
    yield from ("#compdef bbmcheck", f"# {NOTE}", "_bbmcheck() {", "    local -a commands", "    commands=(")
    for name, about in top.commands:
        yield f"        {quoted(name + ':' + about.replace(':', chr(92) + ':'))}"
    yield from ("    )", "    local curcontext=$curcontext state line",
                f"    _arguments -C {' '.join(zsh_options(top))} '1: :->command' '*:: :->rest'")
    yield from ("    case $state in", "        command) _describe command commands ;;", "        rest)",
                "            case $words[1] in")
    for name, _ in top.commands:
        yield f"                {name}) " + (f"_arguments {' '.join(zsh_options(pages[name]))} ;;" if name in pages
                                             else "_describe command commands ;;")
    yield from ("            esac ;;", "    esac", "}", '_bbmcheck "$@"')


def fish_options(page, condition):
    for head, about in page.options:
        names = re.findall(r"--?[\w-]+", head)
        words = [f"-l {name[2:]}" if name.startswith("--") else f"-s {name[1:]}" for name in names]
        yield (f"complete -c bbmcheck -n {quoted(condition)} {' '.join(words)}{' -x' if '<' in head else ''} -d "
               f"{quoted(about)}")


def fish_completions(top, pages):
    yield from (f"# {NOTE}", "# A word is never a file; after `<` fish completes files by itself.",
                "complete -c bbmcheck -f")
    for name, about in top.commands:
        yield f"complete -c bbmcheck -n __fish_use_subcommand -a {name} -d {quoted(about)}"
    yield from fish_options(top, "__fish_use_subcommand")
    for name, page in pages.items():
        yield from fish_options(page, f"__fish_seen_subcommand_from {name}")
    yield f"complete -c bbmcheck -n '__fish_seen_subcommand_from help' -a {quoted(' '.join(pages))}"


def main():
    parser = argparse.ArgumentParser(usage=__doc__)
    parser.add_argument("program")
    parser.add_argument("--check", action="store_true")
    given = parser.parse_args()
    try:
        top = help_in(said(given.program, "--help"))
    except (OSError, subprocess.CalledProcessError) as error:
        sys.exit(f"make_man.py: {given.program} gives no help: {error}")
    # `help` is the library's own command, and has no page.
    pages = {name: help_in(said(given.program, name, "--help")) for name, _ in top.commands if name != "help"}
    made = {MAN: man_page(said(given.program, "--version"), top, pages), BASH: bash_completions(top, pages),
            ZSH: zsh_completions(top, pages), FISH: fish_completions(top, pages)}
    differ = 0
    for path, lines in made.items():
        text = "".join(line + "\n" for line in lines)
        if not given.check:
            path.parent.mkdir(parents=True, exist_ok=True)
            path.write_text(text)
        elif not path.exists() or path.read_text() != text:
            print(f"make_man.py: {path.relative_to(TOP)} is not what the program says: tools/package/make_man.py "
                  f"{given.program} writes it")
            differ = 1
    sys.exit(differ)


main()
