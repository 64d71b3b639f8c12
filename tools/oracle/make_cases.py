#!/usr/bin/env python3
"""make_cases.py FOLDER.. [--commands A,B] [--also NAME].. [--largest BYTES] [--bundles FOLDER [--without WORD,WORD]
    [--runs BYTES] [--large FOLDER]]
    > crates/run_cases/data/cases.txt

Writes case folders as one file of cases, in the form that crates/case_text/src/lib.rt describes.

A case folder has args (one line of words), stdin or stdin_repeat (`COUNT UNIT`), stdout (left out: any
output), status (left out: 0) and stderr (left out: any). A folder with a file until is of a program that knew
less of the formats, and is left out. A case is taken if the first of its words is one of the commands or
it is about words alone: status 2, or help. --also takes a case of that name in any case.
--largest leaves out cases whose stdin has more bytes; a stdin_repeat is short whatever its text has.
--bundles adds a case of `check` for each NAME_v1.txt and NAME_v2.txt of a folder, whose report is NAME_v1.report or
NAME_v2.report, but for the bundles that have a line which begins with one of the words of --without. If there are both,
of at most --largest bytes, it adds a case of `migrate` from the first to the second. --runs adds for each NAME_v1.txt
that has at most BYTES bytes, at most four inputs and no waste cell, a case of `run` for each assignment of its inputs;
the expected list is made from the circuit alone (tools/oracle/meaning.py). --large copies each bundle of more than 2000
lines, with its report, to that folder, and makes no case of it.

The repository's file is made with `--commands run,value,modules,check,migrate --largest 200000`, and with all bundles,
`--runs 3000` and `--large conformance/data`. That leaves out the cases with as many edge and halo lines as a module may
have, or one more: each is over a megabyte. tools/oracle/fuzz_texts makes such bundles itself.
"""
import argparse
import shutil
import sys
from collections.abc import Iterator
from pathlib import Path

sys.dont_write_bytecode = True
sys.path.insert(0, str(Path(__file__).resolve().parent))
from meaning import ends  # noqa: E402

# A bundle with more lines is large: conformance/run.py reads it from a file of its own.
MOST_LINES = 2000

HEAD = """\
# Command lines, each with what it is given and what it must do. tools/oracle/make_cases.py writes this file.
#
# `case` names a case, and `words` has its words, parted by single spaces. Below `input`, `output` and
# `errors` stands a text: of standard input, output and error. A line of it comes after a bar and a space, and
# a bar alone is an empty line. Text without a line feed after it comes after a backslash and a space.
# `3 times` before either repeats it. A part without lines is the empty text. Where `input` is left out it is
# empty, and where `output` or `errors` is left out anything may be written there. `status` is the exit status.
# An empty line, and a line of this kind, say nothing.
"""


def number(path, default):
    return int(path.read_text()) if path.exists() else default


def text_lines(text: bytes) -> Iterator[bytes]:
    """The lines that stand for a text, of which runs of equal lines are put in one."""
    lines = text.split(b"\n")
    last = lines.pop()
    at = 0
    while at < len(lines):
        end = at
        while end < len(lines) and lines[end] == lines[at]:
            end += 1
        mark = b"| " + lines[at] if lines[at] else b"|"
        if end - at > 3:
            yield b"%d times %s" % (end - at, mark)
        else:
            yield from [mark] * (end - at)
        at = end
    if last:
        yield b"\\ " + last


def case_text(name: str, words: list[str], given: list[bytes], status: int, **texts: bytes) -> bytes:
    """A case, by the lines that stand for what it is given, and by the texts of `output` and `errors`."""
    lines = [f"case {name}".encode(), " ".join(["words", *words]).encode(), *([b"input", *given] if given else [])]
    for part, text in texts.items():
        lines += [part.encode(), *text_lines(text)]
    return b"\n" + b"".join(line + b"\n" for line in [*lines, b"status %d" % status])


def folder_case(folder):
    """The case of a folder."""
    repeat = folder / "stdin_repeat"
    given = ([b"%s times \\ %s" % tuple(repeat.read_bytes().rstrip(b"\n").split(b" ", 1))] if repeat.exists()
             else text_lines((folder / "stdin").read_bytes()))
    texts = {name: (folder / file).read_bytes() for name, file in (("output", "stdout"), ("errors", "stderr"))
             if (folder / file).exists()}
    return case_text(folder.name, (folder / "args").read_text().split(), list(given), number(folder / "status", 0),
                     **texts)


def answered_case(name: str, command: str, text: bytes, status: int, output: bytes) -> bytes:
    """A case of a command on a text."""
    return case_text(name, [command], list(text_lines(text)), status, output=output)


def bundle_cases(text, most):
    """The case of `check` for a bundle, whose report lies beside it, and that of `migrate` to the one of version 2 if
    there is one."""
    bundle, report = text.read_bytes(), text.with_suffix(".report").read_bytes()
    yield answered_case(f"bundle_{text.stem}", "check", bundle, 1 if b"\nverdict no\n" in report else 0, report)
    after = text.with_name(text.name.replace("_v1", "_v2"))
    if after != text and after.exists() and (most is None or len(bundle) <= most):
        yield answered_case(f"migrate_{text.stem}", "migrate", bundle, 0, after.read_bytes())


def run_cases(text, most):
    """The cases of `run` for the bundle's layout."""
    bundle = text.read_bytes()
    inputs = bundle.split(b"\nend\n", 1)[0].count(b"\ninput ")
    if len(bundle) > most or inputs > 4 or b"\nwaste " in bundle:
        return
    for number, (asked, live, _) in enumerate(ends(bundle)):
        rows = sorted(live, key=lambda cell: (cell[1], cell[0]))
        yield answered_case(f"run_of_{text.stem}_{number}", "run", asked, 0,
                            b"cells %d\n" % len(rows) + b"".join(b"%d %d\n" % cell for cell in rows))


def is_taken(folder, options):
    if folder.name in options.also:
        return True
    if (folder / "until").exists():
        return False
    given = folder / "stdin"
    if options.largest is not None and given.exists() and given.stat().st_size > options.largest:
        return False
    words = (folder / "args").read_text().split()
    if words and words[0] in options.commands:
        return True
    return not words or words[0].startswith("-") or number(folder / "status", 0) == 2


def main():
    parser = argparse.ArgumentParser(usage=__doc__)
    parser.add_argument("folders", nargs="+", type=Path)
    parser.add_argument("--commands", type=lambda names: names.split(","), default=["run"])
    parser.add_argument("--also", action="append", default=[])
    parser.add_argument("--largest", type=int)
    parser.add_argument("--bundles", type=Path)
    parser.add_argument("--runs", type=int, default=0)
    parser.add_argument("--large", type=Path)
    parser.add_argument("--without", type=lambda words: words.split(","), default=[])
    options = parser.parse_args()
    found = sorted((args.parent for folder in options.folders for args in folder.glob("**/args")), key=lambda f: f.name)
    missing = set(options.also) - {folder.name for folder in found}
    if missing:
        sys.exit("no case " + ", ".join(sorted(missing)))
    out = sys.stdout.buffer
    out.write(HEAD.encode())
    for folder in found:
        if is_taken(folder, options):
            out.write(folder_case(folder))
    if options.bundles:
        for text in sorted(options.bundles.glob("*_v[12].txt")):
            if any(line.split(b" ", 1)[0].decode() in options.without for line in text.read_bytes().split(b"\n")):
                continue
            if options.large and text.read_bytes().count(b"\n") > MOST_LINES:
                # conformance/cases.py makes the text of version 2.
                for path in (text, text.with_suffix(".report"))[text.stem.endswith("_v2"):]:
                    shutil.copyfile(path, options.large / path.name)
            else:
                out.writelines(bundle_cases(text, options.largest))
                if text.stem.endswith("_v1"):
                    out.writelines(run_cases(text, options.runs))


if __name__ == "__main__":
    main()
