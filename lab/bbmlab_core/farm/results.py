"""The forms in which `bbmlab check` writes its results."""

import json
import sys
from typing import Any

from ..host.terminal import coloured, escape_controls
from ..texts.code_names import CODE_NAMES
from .answering import RESULT_WORDS, CheckResult
from .checking import result_counts, result_counts_summary

RESULT_COLOURS = {"yes": "green", "no": "red", "refused": "red"}


class ResultWriter:
    """Writes results:

    `begin_results` before the first, `list_or_count_result` for each as it comes, and `end_results` with the signal
    that stopped the run, if one did. Only some kinds of results are listed if words are given. The summary and the
    status are those of all files.
    """

    def __init__(self, words: list[str] | None = None) -> None:
        self.words = words

    def list_or_count_result(self, result: CheckResult) -> None:
        """Takes one result."""
        if self.words is None or result.result in self.words:
            self.list_result(result)
        else:
            self.count_unlisted_result(result)

    def begin_results(self, files: list[str]) -> None:
        """Begins with the names of all files."""

    def list_result(self, result: CheckResult) -> None:
        """Lists one result."""

    def count_unlisted_result(self, result: CheckResult) -> None:
        """Counts one result without listing it."""

    def end_results(self, stopped: str | None) -> None:
        """Ends the list."""


class TextWriter(ResultWriter):
    """A line for each file as soon as its result is there, and a summary."""

    def begin_results(self, files: list[str]) -> None:
        """Takes the width of the first column from the longest name."""
        self.results: dict[str, int] = {}
        self.total, self.held = len(files), 0
        self.width = min(max((len(escape_controls(file)) for file in files), default=0), 60)

    def list_result(self, result: CheckResult) -> None:
        """Writes a line, unless the result is a yes that a receipt holds."""
        self.count_unlisted_result(result)
        if result.is_from_receipt and result.result == "yes":
            return
        word = coloured(RESULT_WORDS[result.result].ljust(8), RESULT_COLOURS.get(result.result, "yellow"))
        name, detail = escape_controls(result.file).ljust(self.width), escape_controls(result.detail)
        print(f"{name}  {word}  {result.seconds:7.2f} s  {detail}".rstrip(), flush=True)

    def count_unlisted_result(self, result: CheckResult) -> None:
        """Counts one result without listing it."""
        self.results[result.result] = self.results.get(result.result, 0) + 1
        self.held += result.is_from_receipt

    def end_results(self, stopped: str | None) -> None:
        """Writes the summary."""
        done = sum(self.results.values())
        held = f"; held {self.held:,}, checked {done - self.held:,}" if self.held else ""
        left = f"; stopped by {stopped}, {self.total - done} not checked" if stopped else ""
        print(result_counts_summary(self.results) + held + left, flush=True)


class TapWriter(ResultWriter):
    """The Test Anything Protocol: a line for each file as soon as its result is there."""

    def begin_results(self, files: list[str]) -> None:
        """Writes the plan."""
        self.number = 0
        print(f"TAP version 13\n1..{len(files)}", flush=True)

    def list_result(self, result: CheckResult) -> None:
        """Writes a line."""
        self.number += 1
        file = escape_controls(result.file).replace("\\", "\\\\").replace("#", "\\#")
        if result.result == "yes":
            print(f"ok {self.number} - {file}", flush=True)
        else:
            print(f"not ok {self.number} - {file}: {RESULT_WORDS[result.result]}, {escape_controls(result.detail)}",
                  flush=True)

    def end_results(self, stopped: str | None) -> None:
        """Says whether the run was stopped."""
        if stopped:
            print(f"Bail out! stopped by {stopped}", flush=True)


def result_members(result: CheckResult) -> dict[str, Any]:
    """Returns a result as JSON values."""
    return {"file": result.file, "result": result.result, "detail": result.detail, "seconds": result.seconds,
            "modules": result.modules,
            "output": result.output, **({"held": True} if result.is_from_receipt else {}), **refusal_members(result)}


def refusal_members(result: CheckResult) -> dict[str, Any]:
    """Returns the line, the code and the code's name of a refusal, so that nobody need parse them."""
    if result.result != "refused":
        return {}
    line, code = map(int, result.output.split()[1:3])
    return {"refusal": {"line": line, "code": code, "name": CODE_NAMES.get(code, "")}}


class JsonLinesWriter(ResultWriter):
    """A JSON object for each file as soon as its result is there, each in a line of its own. A run that was stopped has
    fewer lines."""

    def list_result(self, result: CheckResult) -> None:
        """Writes a line."""
        print(json.dumps(result_members(result)), flush=True)


class DocumentWriter(ResultWriter):
    """Keeps all results and writes one document at the end, in the order of the files."""

    def begin_results(self, files: list[str]) -> None:
        """Keeps the order of the files."""
        self.files = files
        self.results: dict[str, CheckResult] = {}
        self.left: dict[str, int] = {}

    def list_result(self, result: CheckResult) -> None:
        """Keeps a result."""
        self.results[result.file] = result

    def count_unlisted_result(self, result: CheckResult) -> None:
        """Counts one result without listing it."""
        self.left[result.result] = self.left.get(result.result, 0) + 1

    def end_results(self, stopped: str | None) -> None:
        """Writes the document."""
        listed = [self.results[file] for file in self.files if file in self.results]
        sys.stdout.write(self.document_text(listed, stopped))
        sys.stdout.flush()

    def document_text(self, results: list[CheckResult], stopped: str | None) -> str:
        """Returns the document."""
        raise NotImplementedError


class JsonWriter(DocumentWriter):
    """One JSON document."""

    def document_text(self, results: list[CheckResult], stopped: str | None) -> str:
        """Returns the document. `stopped` is there only if a signal ended the run."""
        is_all_yes = not stopped and {*result_counts(results), *self.left} == {"yes"}
        left = sum(self.left.values())
        more: dict[str, Any] = {"stopped": stopped,
                                "not_checked": len(self.files) - len(results) - left} if stopped else {}
        more |= {"left_out": self.left} if left else {}
        return json.dumps({"format": "bbmlab check 1", "all_yes": is_all_yes, **more,
                           "results": [result_members(result) for result in results]}, indent=2) + "\n"


class JunitWriter(DocumentWriter):
    """JUnit's XML. A no and a refusal are failures, all else but a yes is an error."""

    def document_text(self, results: list[CheckResult], stopped: str | None) -> str:
        """Returns the document. Files that were not checked are errors."""
        from xml.sax.saxutils import escape, quoteattr
        missing = [] if not stopped else [CheckResult(file, "error", f"not checked: stopped by {stopped}", 0)
                                          for file in self.files if file not in self.results]
        rows = [*results, *missing]
        counts = result_counts(rows)
        failures, errors = (sum(counts.get(word, 0) for word in words)
                            for words in (("no", "refused"), ("timeout", "missing", "error")))
        lines = ['<?xml version="1.0" encoding="UTF-8"?>',
                 f'<testsuite name="bbmlab check" tests="{len(rows)}" failures="{failures}" errors="{errors}" '
                 f'time="{sum(result.seconds for result in rows):.3f}">']
        for result in rows:
            head = (f'  <testcase classname="bbmcheck" name={quoteattr(escape_controls(result.file))} '
                    f'time="{result.seconds:.3f}"')
            if result.result == "yes":
                lines.append(head + "/>")
                continue
            tag = "failure" if result.result in ("no", "refused") else "error"
            output = "\n".join(escape_controls(line) for line in result.output.split("\n"))
            lines.append(f"{head}><{tag} type={quoteattr(result.result)} "
                         f"message={quoteattr(escape_controls(result.detail))}>"
                         f"{escape(output)}</{tag}></testcase>")
        return "\n".join([*lines, "</testsuite>"]) + "\n"


RESULT_WRITERS: dict[str, type[ResultWriter]] = {
    "text": TextWriter, "json": JsonWriter, "jsonl": JsonLinesWriter, "tap": TapWriter, "junit": JunitWriter}
