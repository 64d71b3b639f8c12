"""`bbmlab view`: one HTML file that shows a layout and its report in a browser, without a network."""

import base64
import hashlib
import json
import re
from dataclasses import asdict
from html import escape
from pathlib import Path

from ..explain.explaining import ExplainedAnswer
from ..host.terminal import escape_controls
from ..texts import json_form
from ..texts.documents import Document
from .page_ways import page_ways

TEMPLATE_FOLDER = Path(__file__).resolve().parent
# The module of the page that imports the others.
ENTRY_MODULE = "controls"
IMPORT_PATTERN = re.compile(r'^import (?:\* as (\w+)|(\{[^}]*\})) from "\./(\w+)\.js";\n', re.MULTILINE)
EXPORT_PATTERN = re.compile(r"^export (\{[^}]*\});$", re.MULTILINE)
RENAMED_ITEM_PATTERN = re.compile(r"(\w+) as (\w+)")


def page_data_json(document: Document, explanation: ExplainedAnswer | None) -> str:
    """Returns what the page shows, as JSON that may stand in a script element."""
    parts = json.loads(json_form.document_json_text(document, None))
    parts["explanation"] = asdict(explanation) if explanation else None
    parts["ways"] = page_ways(document)
    return json.dumps(parts, separators=(",", ":")).replace("<", "\\u003c")


def template_text(name: str) -> str:
    """Returns the text of a file of the template."""
    return (TEMPLATE_FOLDER / name).read_text(encoding="utf-8")


def add_module_with_imports(name: str, found: dict[str, str]) -> dict[str, str]:
    """Adds a module's text to those found, after the modules that it imports, and returns them by their names."""
    text = template_text(f"{name}.js")
    for line in IMPORT_PATTERN.finditer(text):
        if line[3] not in found:
            add_module_with_imports(line[3], found)
    found[name] = text
    return found


def import_declaration(line: re.Match[str]) -> str:
    """Returns an import as a declaration that reads `bbmlab`."""
    names = line[1] or RENAMED_ITEM_PATTERN.sub(r"\1: \2", line[2])
    return f"const {names} = bbmlab.{line[3]};\n"


def module_expression(text: str) -> str:
    """Returns a module's text as an expression whose value is what the module exports."""
    body = EXPORT_PATTERN.sub(lambda names: "return " + RENAMED_ITEM_PATTERN.sub(r"\2: \1", names[1]) + ";",
                              IMPORT_PATTERN.sub(import_declaration, text))
    return f"(() => {{\n{body}}})()"


def joined_script(name: str) -> str:
    """Returns a module and those that it needs as one script: a page of one file has no other files to import."""
    needed = add_module_with_imports(name, {}).items()
    return '"use strict";\nconst bbmlab = {};\n' + "".join(
        f"bbmlab.{own} = {module_expression(text)};\n" for own, text in needed)


def policy_hash(text: str) -> str:
    """Returns the word of a Content-Security-Policy that allows just this text of a script or style."""
    return f"'sha256-{base64.b64encode(hashlib.sha256(text.encode()).digest()).decode()}'"


def page_html(document: Document, explanation: ExplainedAnswer | None, title: str) -> str:
    """Writes the page: the template with its style, its script and its data in place."""
    assert document.layout
    before, after = template_text("page.html").split("DATA")
    style, script = template_text("page.css"), f"\n{joined_script(ENTRY_MODULE)}"
    # The page takes its own style and script, and nothing else from anywhere.
    policy = (f"default-src 'none'; style-src {policy_hash(style)}; script-src {policy_hash(script)}; "
              "base-uri 'none'; form-action 'none'")
    for mark, text in (("POLICY", policy), ("STYLE", style), ("TITLE", escape(escape_controls(title)))):
        before = before.replace(mark, text)
    return before + page_data_json(document, explanation) + after.replace("SCRIPT", script)
