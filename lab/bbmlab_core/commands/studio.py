"""Runs `bbmlab studio`."""

import argparse
import os
import sys
import tempfile
import threading
import webbrowser
from contextlib import ExitStack
from html import escape
from pathlib import Path

from ..host.program import BadProgramError, find_and_open_program
from ..host.terminal import LabError, tell_user
from ..studio.answers import Answers
from ..studio.folder import Folder
from ..studio.jobs import JobQueue
from ..studio.routes import RouteSearches
from ..studio.server import studio_server


def run(options: argparse.Namespace) -> int:
    """Serves the studio until it is stopped."""
    folder = Folder(options.file)
    if not folder.place.is_dir():
        raise LabError(f"{options.file}: there is no folder {folder.place}")
    if (folder.place / folder.name).is_dir():
        raise LabError(f"{options.file}: this is a folder")
    jobs = routes = None
    try:
        program = find_and_open_program(options.program)
        jobs = JobQueue(program, options.timeout or 20.0, options.memory)
        routes = RouteSearches(str(program), options.memory)
    except BadProgramError as error:
        tell_user(f"the studio gives no verdicts: {error}")
    try:
        server = studio_server(options.port, Answers(folder, jobs, routes))
    except OSError as error:
        raise LabError(f"port {options.port}: {error.strerror or error}") from error
    print(server.address, flush=True)
    tell_user("the studio runs until you press Ctrl-C. The address lets one browser in, which can change the files of "
              "this folder.")
    server.on_entry = lambda: print("bbmlab: a browser has opened the studio. Another one gets in by "
                                    f"{server.address}", file=sys.stderr, flush=True)
    if jobs:
        threading.Thread(target=jobs.start_worker_ahead, daemon=True).start()
    with ExitStack() as ending:
        if jobs:
            ending.callback(jobs.close)
        if routes:
            ending.callback(routes.close)
        ending.callback(server.server_close)
        if options.open:
            open_browser(server.address, ending)
        server.serve_forever(poll_interval=0.2)
    return 0


def open_browser(address: str, ending: ExitStack) -> None:
    """Opens the browser by a page that leads to an address, and that is removed at the end.

    Only this user can read the page. All users can list the arguments of a browser, so the address is none.
    """
    try:
        page = write_private_page(Path(ending.enter_context(tempfile.TemporaryDirectory(prefix="bbmlab-"))), address)
    except OSError as error:
        tell_user(f"no browser is opened, since no page can be written for it: {error.strerror or error}")
        return
    threading.Thread(target=webbrowser.open, args=(page.as_uri(),), daemon=True).start()


def write_private_page(folder: Path, address: str) -> Path:
    """Writes a page that leads to an address, and returns its path. Its folder and the page are this user's alone."""
    path = folder / "studio.html"
    with open(os.open(path, os.O_WRONLY | os.O_CREAT | os.O_EXCL, 0o600), "w", encoding="utf-8") as file:
        file.write('<!DOCTYPE html>\n<meta charset="utf-8"><title>bbmlab studio</title>\n<meta http-equiv="refresh" '
                   f'content="0; url={escape(address)}">\n')
    return path
