"""Runs `bbmlab check`."""

import argparse

from ..farm.checking import FileChecker, exit_status, files_to_check
from ..farm.progress import Progress
from ..farm.receipts import ReceiptFolder
from ..farm.results import RESULT_WRITERS, ResultWriter
from ..farm.sharding import is_in_shard
from ..host.program import find_and_open_program
from ..host.releases import program_identity
from ..host.signals import StoppedBySignal
from ..host.terminal import LabError, tell_user


def checker_for(options: argparse.Namespace) -> FileChecker:
    """Returns what checks the files: processes here, or the workers of a Dask cluster."""
    program = find_and_open_program(options.program)
    if options.again and not options.receipts:
        raise LabError("--again is for --receipts", 2)
    if options.send_program and options.dask is None:
        raise LabError("--send-program is for --dask", 2)
    folder = ReceiptFolder(options.receipts, program_identity(program), options.again) if options.receipts else None
    if options.dask is None:
        return FileChecker(program, options.jobs, options.timeout, folder)
    from ..farm.cluster import ClusterChecker
    return ClusterChecker(program, options.dask, options.jobs, options.timeout, folder, options.send_program)


def run(options: argparse.Namespace) -> int:
    """Checks all files. A signal ends all programs that run, and the results so far are written."""
    files = [file for file in files_to_check(options.files, tell_user) if is_in_shard(file, options.shard)]
    checker = checker_for(options)
    if options.only and options.format in ("tap", "junit"):
        raise LabError("--only is for the formats text, json and jsonl: TAP and JUnit count all files", 2)
    writer = RESULT_WRITERS[options.format](options.only)
    writer.begin_results(files)
    counts: dict[str, int] = {}
    try:
        is_contradicted = write_check_results(checker, files, writer, counts)
    except StoppedBySignal as signal:
        writer.end_results(signal.name)
        return signal.status
    writer.end_results("a contradiction" if is_contradicted else None)
    return exit_status(counts)


def write_check_results(checker: FileChecker, files: list[str], writer: ResultWriter, counts: dict[str, int]) -> bool:
    """Writes each result as it comes, and counts it.

    Returns whether the program contradicts itself, which ends the run.
    """
    progress = Progress(len(files))
    try:
        for result in checker.check_files(files):
            if result:
                progress.done += 1
                counts[result.result] = counts.get(result.result, 0) + 1
                progress.hide()
                writer.list_or_count_result(result)
                if result.is_fatal:
                    return True
            progress.show_if_due(result.file if result else "")
        return False
    finally:
        checker.stop()
        progress.hide()
