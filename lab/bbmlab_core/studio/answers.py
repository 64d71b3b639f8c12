"""What the studio answers to the requests of its page."""

from dataclasses import dataclass
from functools import lru_cache
from pathlib import Path
from typing import Any, Callable

from ..host.program import PACKAGE_FOLDER, BadProgramError
from ..host.releases import program_identity
from ..host.terminal import LabError
from ..physics import standard_cells
from ..texts import json_form
from ..texts.documents import read_document
from ..texts.refusals import explain_refusal
from ..texts.skimming import design_text
from ..texts.spelling import source_line_number, spell_text
from .folder import Folder, FolderError, StaleFileError, decode_page_text, digest_of_bytes, encode_page_text
from .guard import Denied
from .jobs import JobQueue
from .routes import RouteSearches

# The folders of the examples, in a clone and in an installation.
EXAMPLE_FOLDERS = [PACKAGE_FOLDER.parent.parent / "examples",
                   PACKAGE_FOLDER.parent.parent.parent / "share" / "doc" / "bbmcheck" / "examples"]
BLANK_DESIGN_TEXT = "circuit\nend\nlayout 48 48 40\nend\n"
JsonObject = dict[str, Any]
NO_PROGRAM_ANSWER: JsonObject = {"error": "The program was not found: name it with --program PATH or set BBMCHECK."}


def text_member(body: JsonObject, name: str) -> str:
    """Returns a member of a request that is a text."""
    value = body.get(name)
    if not isinstance(value, str):
        raise Denied(400, f"the request has no text `{name}`")
    return value


@lru_cache(maxsize=None)
def cell_catalogue() -> list[JsonObject]:
    """Returns the standard cells with their layouts, circuits and ports."""
    found = []
    for name in standard_cells.cell_names():
        cell = standard_cells.read_cell(name)
        layout, _ = standard_cells.layout_and_circuit(cell.document)
        ports = [{"role": port.role, "name": port.name, "cell": list(port.lead), "direction": [port.dx, port.dy],
                  "time": port.time} for port in cell.ports]
        found.append({"name": name, "about": standard_cells.CELL_DESCRIPTIONS[name],
                      "layout": json_form.layout_members(layout),
                      "circuit": cell.document.text.split("\nlayout ")[0].split("\n"), "ports": ports})
    return found


@lru_cache(maxsize=None)
def example_paths() -> dict[str, Path]:
    """Returns the examples that have a layout, by their names."""
    folder = next((place for place in EXAMPLE_FOLDERS if place.is_dir()), None)
    found = sorted(folder.glob("*.txt")) if folder else []
    return {path.stem: path for path in found if "layout " in path.read_text(encoding="latin-1")}


@dataclass
class Answers:
    """The answers to the requests, by their names."""

    folder: Folder
    jobs: JobQueue | None
    routes: RouteSearches | None = None

    def answer(self, name: str, body: JsonObject) -> JsonObject:
        """Returns the answer to a request."""
        known: dict[str, Callable[[JsonObject], JsonObject]] = {
            "start": self.first_page_answer, "open": self.opened_file_answer, "save": self.save,
            "files": self.files_answer, "refusal": self.refusal_answer,
            "spelling": self.spelled_text,
            "cells": self.cells_answer, "template": self.template_answer, "verdict": self.run_job,
            "explain": self.run_job, "export": self.run_job, "route": self.begin_routing,
            "connect": self.begin_search_between_ports,
            "routed": self.search_state, "unroute": self.cancel_search}
        if name not in known:
            raise Denied(404, "there is no such request")
        try:
            return known[name]({**body, "kind": name})
        except (FolderError, LabError) as error:
            return {"error": str(error)}

    def first_page_answer(self, _body: JsonObject) -> JsonObject:
        """Returns the opened file, the program and the templates."""
        try:
            if self.jobs is None:
                raise BadProgramError("it was not found")
            asked = program_identity(self.jobs.program)
            program = {"path": self.jobs.program.path, "version": asked.version, "sha256": asked.sha256,
                       "is_release": asked.kit is not None}
        except BadProgramError as error:
            program = {"path": None, "why": str(error)}
        opened = self.opened_file_answer({"name": self.folder.name})
        return {"program": program, "folder": str(self.folder.place),
                "templates": ["empty", *standard_cells.cell_names()], "examples": list(example_paths()),
                **opened}

    def opened_file_answer(self, body: JsonObject) -> JsonObject:
        """Returns a file of the folder. A file that is missing is an empty layout with the digest null."""
        name = text_member(body, "name")
        data = self.folder.read(name)
        if data is None:
            return {"name": name, "text": BLANK_DESIGN_TEXT, "digest": None}
        return {"name": name, "text": decode_page_text(data), "digest": digest_of_bytes(data)}

    def save(self, body: JsonObject) -> JsonObject:
        """Writes a file of the folder, unless it changed since the page read it."""
        data, known = encode_page_text(text_member(body, "text")), body.get("digest")
        try:
            digest = self.folder.write(text_member(body, "name"), data, known if isinstance(known, str) else None,
                                       body.get("force") is True)
        except StaleFileError as error:
            return {"changed": True, "digest": error.digest, "error": str(error)}
        return {"digest": digest}

    def files_answer(self, _body: JsonObject) -> JsonObject:
        """Returns the files of the folder that can be opened."""
        return {"files": self.folder.list_file_names()}

    def refusal_answer(self, body: JsonObject) -> JsonObject:
        """Returns where the lab's reader refuses the circuit and the layout, or null."""
        source = encode_page_text(text_member(body, "text")).decode("latin-1")
        text = spell_text(source).text
        document = read_document(design_text(text) or text, "design")
        if document.refusal is None:
            return {"refusal": None}
        told = explain_refusal(document, document.refusal)
        return {"refusal": {"line": source_line_number(source, text, document.refusal.line),
                            "code": document.refusal.code, "words": told.what, "rule": told.rule, "hints": told.hints}}

    def spelled_text(self, body: JsonObject) -> JsonObject:
        """Returns a text in the one spelling that the program reads, and how many comments that leaves out."""
        made = spell_text(encode_page_text(text_member(body, "text")).decode("latin-1"))
        return {"text": decode_page_text(made.text.encode("latin-1")), "comments": made.comment_count}

    def cells_answer(self, _body: JsonObject) -> JsonObject:
        """Returns the standard cells."""
        return {"cells": cell_catalogue()}

    def template_answer(self, body: JsonObject) -> JsonObject:
        """Returns the text of an example, of a standard cell or of an empty layout."""
        name = text_member(body, "name")
        if name == "empty":
            return {"text": BLANK_DESIGN_TEXT}
        if name.startswith("example "):
            path = example_paths().get(name.removeprefix("example "))
            if path is None:
                raise LabError("there is no such example")
            return {"text": decode_page_text(path.read_bytes())}
        return {"text": standard_cells.read_cell(name).document.text}

    def begin_routing(self, body: JsonObject) -> JsonObject:
        """Begins a search for a layout of the circuit of a text."""
        return self.begin_search(body, None)

    def begin_search_between_ports(self, body: JsonObject) -> JsonObject:
        """Begins to lead the ball of an output of a text to an input."""
        return self.begin_search(body, (text_member(body, "output"), text_member(body, "input")))

    def begin_search(self, body: JsonObject, ports: tuple[str, str] | None) -> JsonObject:
        """Begins a search."""
        seconds, seed = body.get("seconds"), body.get("seed")
        if not isinstance(seconds, (int, float)) or not isinstance(seed, int) or bool in (type(seconds), type(seed)):
            raise Denied(400, "the request has no numbers `seconds` and `seed`")
        text, tab = text_member(body, "text"), text_member(body, "tab")
        return self.routes.start_search(tab, text, seconds, seed, ports) if self.routes else NO_PROGRAM_ANSWER

    def search_state(self, body: JsonObject) -> JsonObject:
        """Returns what became of the search of a tab."""
        return self.routes.poll_search(text_member(body, "tab")) if self.routes else NO_PROGRAM_ANSWER

    def cancel_search(self, body: JsonObject) -> JsonObject:
        """Ends the search of a tab."""
        return self.routes.cancel_search(text_member(body, "tab")) if self.routes else NO_PROGRAM_ANSWER

    def run_job(self, body: JsonObject) -> JsonObject:
        """Runs a job that may take a while."""
        if self.jobs is None:
            return NO_PROGRAM_ANSWER
        body = {"stage": "", "earlier": "", **body}
        for name in ("text", "tab",
                     *{"verdict": ("stage", "earlier"), "explain": ("bundle", "report"),
                       "export": ("bundle", "form", "name")}[body["kind"]]):
            text_member(body, name)
        if body["kind"] == "export" and not (isinstance(body.get("on"), list)
                                             and all(isinstance(name, str) for name in body["on"])):
            raise Denied(400, "the request has no list `on`")
        # An export is no answer to the newest text: it waits for its turn, and no verdict of its tab ends it.
        return self.jobs.answer_job(f"{body['tab']} export" if body["kind"] == "export" else body["tab"], body)
