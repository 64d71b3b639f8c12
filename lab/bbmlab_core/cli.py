"""The command line of the lab. It imports little, so that `--help` comes at once."""

from __future__ import annotations

import argparse
import importlib
import io
import os
import sys

from . import VERSION

# Only for the types: `typing` takes as long to import as all of this module.
TYPE_CHECKING = False
if TYPE_CHECKING:
    from collections.abc import Callable
    from typing import Any

EPILOG = ("Nothing here is proved, and nothing here is trusted: the verdict is always the program's.\n"
          "Exit statuses: 0 done or all yes, 1 a no or a refusal, 2 wrong arguments, "
          "4 a file or the program is missing or failed.")
RESULT_FORMATS = ["json", "jsonl", "junit", "tap", "text"]
NETLIST_FORMS = ["blif", "json", "real", "qasm", "pla", "aiger", "gates"]
NETLIST_FORM_WORDS = "BLIF, yosys JSON, RevLib .real, OpenQASM, PLA, AIGER, plain gates"
RESULT_NAMES = ["yes", "no", "refused", "timeout", "missing", "error"]


def lazily_imported_command(module: str, function: str = "run") -> Callable[[argparse.Namespace], int]:
    """Returns a command whose module is imported only when it runs, so that the lab starts quickly."""
    def run(options: argparse.Namespace) -> int:
        """Imports the module and runs the command."""
        command: Callable[[argparse.Namespace], int] = getattr(importlib.import_module(f".commands.{module}",
                                                                                       __package__), function)
        return command(options)

    return run


def parse_box_sides(word: str) -> tuple[int, int]:
    """Returns the sides of boxes, written W,H or WxH."""
    sides = word.lower().replace("x", ",").split(",")
    if len(sides) != 2 or not all(side.isdigit() for side in sides):
        raise argparse.ArgumentTypeError("it is W,H, such as 16,16")
    return int(sides[0]), int(sides[1])


def parse_positive_number(word: str) -> int:
    """Returns a whole number from 1."""
    return parse_whole_number(word, 1)


def parse_number_from_zero(word: str) -> int:
    """Returns a whole number from 0."""
    return parse_whole_number(word, 0)


def parse_ball_size(word: str) -> float:
    """Returns a size of a ball in cells."""
    try:
        size = float(word)
    except ValueError:
        size = 0.0
    if not 0.1 <= size <= 1000:
        raise argparse.ArgumentTypeError(f"{word} is no size from 0.1 to 1000 cells")
    return size


def parse_port_number(word: str) -> int:
    """Returns the number of a port, or 0 for a free one."""
    number = parse_whole_number(word, 0)
    if number > 65535:
        raise argparse.ArgumentTypeError(f"{word!r} is no port: ports are 0 to 65535")
    return number


def parse_whole_number(word: str, least: int) -> int:
    """Returns a whole number that is not less than another."""
    if not word.isdecimal() or len(word) > 18 or int(word) < least:
        raise argparse.ArgumentTypeError(f"{word!r} is no whole number from {least}")
    return int(word)


def parse_seconds(word: str) -> float:
    """Returns a number of seconds above 0."""
    number = float(word)
    if not 0 < number < 1e9:
        raise argparse.ArgumentTypeError("it is a number of seconds above 0")
    return number


def parse_result_names(words: str) -> list[str]:
    """Returns names of results, with commas between."""
    found = words.split(",")
    unknown = [word for word in found if word not in RESULT_NAMES]
    if unknown:
        raise argparse.ArgumentTypeError(f"{unknown[0]!r} is no result: they are {', '.join(RESULT_NAMES)}")
    return found


def parse_shard(word: str) -> Any:
    """Returns a part of a set, written K/N."""
    from .farm.sharding import shard_from_text
    return shard_from_text(word)


def argument_spec(names: str, about: str, **options: Any) -> tuple[list[str], dict[str, Any]]:
    """Returns an argument as argparse takes it, from its names with spaces between, and what `--help` says of it."""
    return names.split(), {"help": about, **options}


def flag_spec(names: str, about: str) -> tuple[list[str], dict[str, Any]]:
    """Returns an option without a value."""
    return argument_spec(names, about, action="store_true")


class ExclusiveArguments(list["Any"]):
    """Arguments of which at most one can be given."""


def terminal_columns() -> int:
    """Returns the width of the terminal, as `shutil` finds it, which takes long to import."""
    words = os.environ.get("COLUMNS", "")
    if words.isdecimal() and int(words):
        return int(words)
    try:
        return os.get_terminal_size(1).columns or 80
    except OSError:
        return 80


class HelpFormatter(argparse.RawDescriptionHelpFormatter):
    """The form of `--help`. argparse makes one for each option: the terminal is asked for its width only once."""

    width = 0

    def __init__(self, prog: str) -> None:
        HelpFormatter.width = HelpFormatter.width or terminal_columns()
        super().__init__(prog, width=max(HelpFormatter.width - 2, 10))


class Parser(argparse.ArgumentParser):
    """A parser whose help is written, or its process ends with status 4. argparse takes no notice of an output that is
    full or closed."""

    def _print_message(self, message: str, file: Any = None) -> None:
        """Writes a message."""
        if file is not sys.stdout:
            super()._print_message(message, file)
            return
        try:
            if sys.stdout is None:
                raise OSError("it is closed")
            sys.stdout.write(message)
            sys.stdout.flush()
        except BrokenPipeError:
            from .host.signals import end_by_pipe
            end_by_pipe()
        except OSError as error:
            print(f"bbmlab: standard output: {error.strerror or error}", file=sys.stderr)
            drop_unwritten_output()
            sys.exit(4)


class PlaceholderParser(argparse.ArgumentParser):
    """A command that does not run: it needs no parser, which would take most of the time of a start."""

    def __init__(self, **_options: Any) -> None:
        """Makes nothing."""


def parsers_for(words: list[str]) -> tuple[Parser, dict[str, argparse.ArgumentParser]]:
    """Returns the parser of the command that the words name, or of the list of all commands, and that of each command.
    """
    named = next((word for word in words if not word.startswith("-")), None)
    wanted = named if named in COMMANDS else None
    whole = Parser(prog="bbmlab", description="See, explain, trace and check billiard-ball layouts.",
                   epilog=EPILOG, formatter_class=HelpFormatter)
    whole.add_argument("--version", action="version", version=f"bbmlab {VERSION}")
    commands: argparse._SubParsersAction[argparse.ArgumentParser] = whole.add_subparsers(
        dest="name", metavar="COMMAND", required=True, parser_class=Parser if wanted else PlaceholderParser)
    for name in [wanted] if wanted else COMMANDS:
        run, about, example, arguments = COMMANDS[name]
        parser = commands.add_parser(name, help=about, description=about, formatter_class=HelpFormatter,
                                     epilog=f"Example: bbmlab {example}")
        if wanted:
            parser.set_defaults(run=lazily_imported_command(*run.split(".")))
            add_arguments(parser, arguments)
    return whole, commands.choices


def add_arguments(parser: argparse._ActionsContainer, arguments: list[Any]) -> None:
    """Adds arguments to a command."""
    for argument in arguments:
        if isinstance(argument, ExclusiveArguments):
            add_arguments(parser.add_mutually_exclusive_group(), argument)
        else:
            names, options = argument
            parser.add_argument(*names, **options)


OUTPUT_OPTION = argument_spec("-o --output", "write to this file (default: standard output)", metavar="FILE")
PROGRAM_OPTIONS = [argument_spec("--program", "the program (else $BBMCHECK, the repository's, or bbmcheck on PATH)",
                                 metavar="PATH"),
                   argument_spec("--timeout", "how long the program may take on a file", type=parse_seconds,
                                 metavar="SECONDS")]
ON_OPTION = argument_spec("--on", "the inputs that are on, with commas between", metavar="NAMES")
NETLIST_OPTIONS = [
    argument_spec("--from", "the form of the netlist (default: told by its content)", dest="given",
                  choices=NETLIST_FORMS),
    argument_spec("--cycles", "unroll flip-flops and latches for K cycles", type=parse_positive_number, metavar="K"),
    argument_spec("--state",
                  "ports: the state comes in by inputs. initial: it begins with its first values (default: ports)",
                  choices=["ports", "initial"], default="ports")]
ABOUT_CIRCUIT_FILE = f"a text that begins with a circuit, or a netlist ({NETLIST_FORM_WORDS})"


def file_argument_spec(about: str) -> tuple[list[str], dict[str, Any]]:
    """Returns the file that a command reads."""
    return argument_spec("file", f"{about}, or - for standard input", metavar="FILE")


def search_argument_specs(result: str, plane: str) -> list[tuple[list[str], dict[str, Any]]]:
    """Returns the options of a search: its seed, which decides the result, the side of its plane, and its seconds."""
    return [
        argument_spec("--seed", f"another seed gives {result} (default: 1)", type=parse_positive_number, default=1,
                      metavar="N"),
        argument_spec("--size", f"the side of the {plane}, a multiple of 16 up to 4096 (default: as needed)",
                      type=parse_positive_number, metavar="N"),
        argument_spec("--effort", "how long to search (default: 60)", type=parse_seconds, default=60.0,
                      metavar="SECONDS")]


# For each command the module of `commands` with its function if that is not `run`, what it does, the words of an
# example, and the arguments.
COMMANDS: dict[str, tuple[str, str, str, list[Any]]] = {
    "check": ("check", "Put each file through the program; exit 0 only if all said yes.",
              "check --jobs 4 designs/ more.txt", [
        argument_spec("files", "a bundle, - for standard input, or a folder: all its .txt files", nargs="+",
                      metavar="FILE"),
        argument_spec("--jobs", "files at a time (default: %(default)s)", type=parse_positive_number,
                      default=min(4, os.cpu_count() or 1), metavar="N"),
        argument_spec("--format", "how results are written (default: text)", choices=RESULT_FORMATS, default="text"),
        argument_spec("--only", "list only files with these results, such as no,refused; all are checked",
                      type=parse_result_names, metavar="RESULTS"),
        argument_spec("--receipts", "write a receipt of each answer here, and skip texts whose receipt holds",
                      metavar="DIR"),
        flag_spec("--again", "with --receipts: check all texts"),
        argument_spec("--shard", "check only part K of N, by the digests of the names", type=parse_shard,
                      metavar="K/N"),
        argument_spec("--dask", "check by the workers of this Dask scheduler, or of a cluster here", nargs="?",
                      const="", metavar="ADDRESS"),
        flag_spec("--send-program", "with --dask: send the program to workers that have another"),
        *PROGRAM_OPTIONS]),
    "verify": ("verify", "Say whether a receipt is of a text, and of a released program; exit 0 only if it is.",
               "verify receipts/design.txt.json design.txt --again", [
        argument_spec("receipt", "a receipt that `bbmlab check --receipts` wrote", metavar="RECEIPT"),
        file_argument_spec("the text"),
        flag_spec("--again", "run the program again, and compare the report byte for byte"),
        argument_spec("--release", "the MANIFEST of another release that counts", action="append", default=[],
                      metavar="MANIFEST"),
        *PROGRAM_OPTIONS]),
    "summary": ("verify.summarise_receipts", "Count the receipts of a folder; exit 0 only if all are of a yes.",
                "summary receipts/", [argument_spec("folder", "a folder of receipts", metavar="DIR")]),
    "explain": ("explain", "Explain each line of the report, or the refusal, in plain English.",
                "explain examples/wrong_edge.txt", [
        file_argument_spec("the text that the program answers"),
        argument_spec("--report", "explain this answer of the program, which must be of this text", metavar="FILE"),
        flag_spec("--fix", "write the text with the edits that were found, after trying them"),
        argument_spec("-o --output", "with --fix: write to this file (default: standard output)", metavar="FILE"),
        flag_spec("-i --in-place", "with --fix: write the file again"),
        argument_spec("--effort", "how much processor time the search for fixes takes (default: 30)",
                      type=parse_seconds, default=30.0, metavar="SECONDS"),
        argument_spec("--command", "the command of the program (default: by the sections of the text)",
                      dest="command_of_program", choices=["check", "run", "value", "modules", "migrate"]),
        ExclusiveArguments([flag_spec("--json", "write one JSON document"),
                            flag_spec("--gcc", "write file:line: error: text, for editors")]),
        *PROGRAM_OPTIONS]),
    "trace": ("trace", "Write the live cells at each time; the last state is compared with the program's run.",
              "trace examples/head_on.txt --on p,q", [
        file_argument_spec("a bundle, a circuit and a layout, or a layout with or without an assign section"),
        OUTPUT_OPTION,
        argument_spec("--on", "the inputs that are on, with commas between (default: those of the assign section)",
                      metavar="NAMES"),
        argument_spec("--from", "the first time (default: 0)", dest="start", type=parse_number_from_zero, default=0,
                      metavar="T"),
        argument_spec("--to", "the last time (default: the layout's steps)", type=parse_number_from_zero, metavar="T"),
        argument_spec("--module", "run this module of the certificate by itself", type=parse_number_from_zero,
                      metavar="M"),
        argument_spec("--assignment", "bit i of A is the value of the module's cut i (default: 0)",
                      type=parse_number_from_zero, default=0, metavar="A"),
        flag_spec("--pictures", "add a small picture at each time"),
        flag_spec("--json", "write one JSON document"),
        *PROGRAM_OPTIONS]),
    "draw": ("draw", "Draw a layout as SVG: mirrors, ports, modules, balls at a time or their ways.",
             "draw examples/fredkin_gate.txt --ways -o ways.svg", [
        file_argument_spec("a text with a layout"), OUTPUT_OPTION, ON_OPTION,
        ExclusiveArguments([argument_spec("--time", "the time that is shown (default: 0)", type=parse_number_from_zero,
                                          default=0, metavar="T"),
                            flag_spec("--ways", "the ways of the balls over all times, coloured by wire")]),
        argument_spec("--report", "mark the cells of the faults of this report", metavar="FILE"),
        argument_spec("--crop", "draw this part of the layout only", type=parse_number_from_zero, nargs=4,
                      metavar=("X", "Y", "W", "H")),
        argument_spec("--wires", "bring out the ways of these wires, with commas between", metavar="NAMES"),
        argument_spec("--cone", "bring out the ways of this wire and of all wires on which it depends", metavar="NAME"),
        flag_spec("--arrows", "show where the balls go, on ways that are long enough"),
        argument_spec("--ball", "the least size of a ball (default: by the layout)", type=parse_ball_size, default=0.0,
                      metavar="CELLS")]),
    "view": ("view", "Write one HTML file that shows a layout in a browser, without a network.",
             "view examples/wrong_edge.txt -o wrong_edge.html", [
        file_argument_spec("a text with a layout"), OUTPUT_OPTION,
        argument_spec("--report", "show this report in place of running the program", metavar="FILE"),
        *PROGRAM_OPTIONS]),
    "studio": ("studio", "Draw a layout in the browser, and see the program's verdict while you draw.",
               "studio my_gate.txt", [
        argument_spec("file", "the text to open (default: a new layout in this folder)", nargs="?", metavar="FILE"),
        argument_spec("--no-open", "print the address, and open no browser", dest="open", action="store_false"),
        argument_spec("--port", "listen at this port of 127.0.0.1 (default: a free one)", type=parse_port_number,
                      metavar="N"),
        argument_spec("--memory", "the memory limit of the program and of the lab (default: 4096)",
                      type=parse_positive_number, default=4096, metavar="MIB"),
        *PROGRAM_OPTIONS]),
    "certify": ("certify", "Make a certificate for a circuit and a layout; exit 0 only if the program says yes to it.",
                "certify design.txt -o bundle.txt", [
        file_argument_spec("a text that begins with a circuit and a layout"), OUTPUT_OPTION,
        ExclusiveArguments([argument_spec("--grid",
                                          "take boxes of W by H cells, even and at most 64 (default: the lab chooses)",
                                          type=parse_box_sides, metavar="W,H"),
                            argument_spec("--boxes", "take the boxes of the lines `module X Y W H` of this text",
                                          metavar="FILE"),
                            flag_spec("--plain", "one module for the whole layout, without edge lines")]),
        argument_spec("--version", "certificate version (default: 2)", dest="version_of_text", type=int, choices=[1, 2],
                      default=2),
        argument_spec("--cuts",
                      "auto: cut wires where they come in, if that holds. safe: use all gates back to the inputs "
                      "(default: auto)", choices=["auto", "safe"], default="auto"),
        *PROGRAM_OPTIONS]),
    "circuit": ("circuits.run_circuit",
                "Write the circuit of a netlist, its inverse, or a circuit in the form of another tool.",
                "circuit toffoli.real -o toffoli.txt", [
        file_argument_spec(ABOUT_CIRCUIT_FILE), OUTPUT_OPTION, *NETLIST_OPTIONS,
        argument_spec("--to", "write this form (default: a circuit section)",
                      choices=["blif", "verilog", "aiger", "real", "qasm", "dot"]),
        ExclusiveArguments([flag_spec("--inverse",
                                      "turn the gates round: outputs become inputs, and constants garbage"),
                            flag_spec("--clean",
                                      "compute, copy the outputs and undo, so that inputs are the only garbage")]),
        flag_spec("--simplify", "fold constants, and remove what is dead, undone or made twice")]),
    "table": ("circuits.run_table", "Write the values of a circuit's outputs for all inputs.",
              "table examples/half_adder.txt", [
        file_argument_spec(ABOUT_CIRCUIT_FILE), OUTPUT_OPTION, *NETLIST_OPTIONS,
        argument_spec("--on", "one row alone: the inputs that are on, with commas between", metavar="NAMES"),
        flag_spec("--csv", "comma-separated values")]),
    "stats": ("circuits.run_stats", "Count gates, constants, garbage and depth, and the cells of a layout.",
              "stats examples/machine_fredkin.txt",
              [file_argument_spec(f"{ABOUT_CIRCUIT_FILE}, or a bundle"), OUTPUT_OPTION, *NETLIST_OPTIONS]),
    "equal": ("circuits.run_equal", "Say whether two circuits have the same outputs, by the names of their ports.",
              "equal adder.blif adder.txt", [
        argument_spec("file", ABOUT_CIRCUIT_FILE, metavar="FILE"),
        argument_spec("other", "another one", metavar="OTHER"),
        flag_spec("--common", "compare the outputs that both have")]),
    "route": ("route", "Place and route a circuit: a layout of balls and mirrors, with a certificate.",
              "route circuit.txt -o bundle.txt", [
        file_argument_spec(ABOUT_CIRCUIT_FILE), OUTPUT_OPTION, *NETLIST_OPTIONS,
        *search_argument_specs("another layout", "layout"),
        argument_spec("--jobs", "attempts at a time, each in a process (default: 1)", type=parse_positive_number,
                      default=1, metavar="N"),
        flag_spec("--compact", "go on with ever smaller planes, until no attempt on one finds a route"),
        flag_spec("--no-certificate", "write the circuit and the layout alone"),
        flag_spec("--open-ends", "keep room at each start and end for `bbmlab join`"),
        argument_spec("--late", "have these inputs meet the other balls as late as they can, for `bbmlab join`",
                      nargs="+", default=[], metavar="INPUT"),
        flag_spec("--circuit-only", "write the circuit section to which a netlist is mapped, and route nothing"),
        flag_spec("--keep-partial", "if there is no route, write a bundle of the gates that were placed"),
        argument_spec("--map", "also write a picture of how full the plane was when the best attempt ended",
                      metavar="SVG"),
        *PROGRAM_OPTIONS]),
    "join": ("join", "Put bundles on one plane, lead balls between their ports, certify the whole.",
             "join first.txt second.txt --connect A.sum=B.p -o bundle.txt", [
        argument_spec("files", "a bundle with a yes, as FILE or NAME=FILE; without a name the parts are a, b, c ..",
                      nargs="+", metavar="PART"),
        argument_spec("--connect", "lead an output of a part to an input of another", action="extend", nargs="+",
                      default=[], metavar="A.OUT=B.IN"),
        OUTPUT_OPTION,
        *search_argument_specs("other paths", "plane"), *PROGRAM_OPTIONS]),
    "cells": ("cells", "List the standard cells with their ports, or show one of them.",
              "cells fredkin --svg -o fredkin.svg", [
        argument_spec("cell", "the name of a cell (default: list all)", nargs="?", metavar="NAME"),
        ExclusiveArguments([flag_spec("--svg", "draw the ways of its balls"),
                            flag_spec("--bundle", "write its bundle, which the program checks")]),
        OUTPUT_OPTION]),
    "fmt": ("fmt", "Write a text in its one spelling: no comments, no empty lines, sorted lists.", "fmt -i mine.txt", [
        argument_spec("files", "a text, or - for standard input", nargs="+", metavar="FILE"),
        OUTPUT_OPTION,
        flag_spec("-i --in-place", "write each file again if it changes; refused if it has comments"),
        flag_spec("--strip-comments", "with -i: leave out the comments of a file"),
        flag_spec("--check", "write nothing; exit 1 if a file would change")]),
    "json": ("json_document", "Write a text and its report as one JSON document, or the text of such a document.",
             "json bundle.txt | bbmlab json --back -", [
        file_argument_spec("a text, or a JSON document with --back"), OUTPUT_OPTION,
        flag_spec("--back", "read a JSON document and write its text"),
        argument_spec("--report", "add this report to the document", metavar="FILE")]),
    "golly": ("golly", "Write the start of a layout as an RLE file for Golly.",
              "golly examples/head_on.txt --on p,q -o head_on.rle",
              [file_argument_spec("a text with a layout"), OUTPUT_OPTION, ON_OPTION]),
    "from-golly": ("golly.run_from_golly",
                   "Write the layout of an RLE file: that of its comments, or its live cells as balls.",
                   "from-golly pattern.rle",
                   [file_argument_spec("an RLE file for Golly's rule BBM-Margolus-emulated"), OUTPUT_OPTION]),
}


def run_command(run: Callable[[argparse.Namespace], int], options: argparse.Namespace) -> int:
    """Runs a command and returns its exit status; what goes wrong is a line on standard error."""
    from .host.program import BadProgramError, ProgramTimeout
    from .host.signals import StoppedBySignal, end_by_pipe, install_signal_handlers
    from .host.terminal import LabError, escape_controls, require_writable_output
    from .texts.reports import ReportError
    install_signal_handlers()
    try:
        read = [getattr(options, word, None) for word in ("file", "report", "boxes")]
        require_writable_output(getattr(options, "output", None), [name for name in read if name])
        status = run(options)
        if sys.stdout is not None:
            sys.stdout.flush()
        return status
    except LabError as error:
        print(f"bbmlab: {escape_controls(str(error))}", file=sys.stderr)
        return error.status
    except (BadProgramError, ProgramTimeout, ReportError) as error:
        print(f"bbmlab: {escape_controls(str(error))}", file=sys.stderr)
        return 4
    except BrokenPipeError:
        end_by_pipe()
    except OSError as error:
        print(f"bbmlab: standard output: {error.strerror or error}", file=sys.stderr)
        return 4
    except MemoryError:
        print("bbmlab: out of memory", file=sys.stderr)
        return 4
    except StoppedBySignal as signal:
        return signal.status


def open_standard_error() -> None:
    """Opens standard error if it is closed: otherwise `print` writes messages to standard output, and the next file
    that is opened gets them."""
    if sys.stderr is None:
        descriptor = os.open(os.devnull, os.O_WRONLY)
        if descriptor != 2:
            os.dup2(descriptor, 2)
            os.close(descriptor)
        sys.stderr = open(2, "w", encoding="utf-8")


def buffer_output() -> None:
    """Puts a buffer before standard output if it has none, as with PYTHONUNBUFFERED. Without one, a write that a signal
    interrupts writes a part, and the rest is lost."""
    output = sys.stdout
    if isinstance(output, io.TextIOWrapper) and isinstance(output.buffer, io.RawIOBase):
        encoding = output.encoding
        sys.stdout = io.TextIOWrapper(io.BufferedWriter(output.detach()), encoding, line_buffering=True)


def drop_unwritten_output() -> None:
    """Drops what could not be written and is still in the buffer, so that the interpreter does not try once more."""
    if sys.stdout is not None:
        os.dup2(os.open(os.devnull, os.O_WRONLY), 1)


def main(words: list[str] | None = None) -> int:
    """Runs a command and returns the exit status."""
    open_standard_error()
    buffer_output()
    words = sys.argv[1:] if words is None else words
    parser, commands = parsers_for(words)
    options, unknown = parser.parse_known_args(words)
    if unknown:
        commands[options.name].error(f"unrecognized arguments: {' '.join(unknown)}")
    if sys.stdout is None:
        print("bbmlab: standard output is closed", file=sys.stderr)
        return 4
    for stream in (sys.stdout, sys.stderr):
        if hasattr(stream, "reconfigure"):
            stream.reconfigure(errors="backslashreplace")
    status = run_command(options.run, options)
    if status == 4:
        drop_unwritten_output()
    return status
