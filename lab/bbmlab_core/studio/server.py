"""The server of the studio: it answers its own page on the loopback address, and nobody else.

The files of the page are those of the lab, the same for everybody. All else needs the key.
"""

import hashlib
import json
import os
import socket
from http.server import BaseHTTPRequestHandler, ThreadingHTTPServer
from pathlib import Path
from typing import Any, Callable

from ..view import viewing
from .answers import Answers, text_member
from .guard import MAX_REQUEST_BYTES, Denied, Guard

HOST = "127.0.0.1"
STUDIO_FOLDER = Path(__file__).resolve().parent
CONTENT_TYPES = {".js": "text/javascript", ".css": "text/css", ".html": "text/html"}
CONTENT_SECURITY_POLICY = ("default-src 'none'; script-src 'self'; worker-src 'self'; style-src 'self'; connect-src "
                           "'self'; img-src data:; base-uri 'none'; form-action 'none'; frame-ancestors 'none'")
HEADERS = {"Content-Security-Policy": CONTENT_SECURITY_POLICY, "X-Content-Type-Options": "nosniff",
           "Referrer-Policy": "no-referrer", "Cache-Control": "no-store",
           "Cross-Origin-Opener-Policy": "same-origin", "Cross-Origin-Resource-Policy": "same-origin"}
# The first of the ports that no service has (RFC 6335), and how many of them are taken in turn.
FIRST_PORT, PORT_COUNT = 49152, 16000
# The request that gives the key for a token, and how long it is at most.
ENTER_PATH, MAX_TOKEN_BYTES = "enter", 1000
# How long a connection may be silent, in seconds.
MAX_SILENT_SECONDS = 60


def page_files() -> dict[str, tuple[str, bytes]]:
    """Returns the files of the page with their types, by their paths: the viewer's scripts and style, and the studio's
    own."""
    found = {}
    for folder, place in (("view", viewing.TEMPLATE_FOLDER), ("studio", STUDIO_FOLDER)):
        for path in sorted(place.iterdir()):
            if path.suffix in (".js", ".css"):
                found[f"{folder}/{path.name}"] = (CONTENT_TYPES[path.suffix], path.read_bytes())
    found[""] = (CONTENT_TYPES[".html"], (STUDIO_FOLDER / "studio.html").read_bytes())
    return found


class StudioServer(ThreadingHTTPServer):
    """The server. Each request is answered in a thread."""

    daemon_threads = True
    allow_reuse_address = True

    def __init__(self, port: int, answers: Answers) -> None:
        super().__init__((HOST, port), Handler)
        self.answers = answers
        self.guard = Guard(f"{HOST}:{self.server_address[1]}")
        self.files = page_files()
        # Called when a browser was let in.
        self.on_entry: Callable[[], None] = lambda: None

    @property
    def address(self) -> str:
        """The address that lets the next browser in."""
        return self.guard.address

    def handle_error(self, request: Any, client_address: Any) -> None:
        """Says nothing if a page closed its connection."""


class Handler(BaseHTTPRequestHandler):
    """Answers the requests of a connection."""

    server: StudioServer
    protocol_version = "HTTP/1.1"
    server_version, sys_version = "bbmlab", ""
    timeout = MAX_SILENT_SECONDS

    def do_GET(self) -> None:
        """Sends a file of the page."""
        try:
            path = self.path.split("?")[0].removeprefix("/")
            self.server.guard.require_own_page(self.headers, False, path == "")
            if path not in self.server.files:
                raise Denied(404, "there is no such page")
            kind, data = self.server.files[path]
            self.send_answer(200, kind, data)
        except Denied as denied:
            self.deny(denied)

    def do_POST(self) -> None:
        """Answers a request of the page."""
        try:
            guard, name = self.server.guard, self.path.removeprefix("/api/")
            guard.require_own_page(self.headers, True)
            if name != ENTER_PATH:
                guard.require_key(self.headers)
            body = self.read_body(MAX_TOKEN_BYTES if name == ENTER_PATH else MAX_REQUEST_BYTES)
            if name == ENTER_PATH:
                answer = self.let_browser_in(text_member(body, "token"))
            else:
                answer = self.server.answers.answer("" if name == self.path else name, body)
            self.send_answer(200, "application/json", json.dumps(answer).encode())
        except (ValueError, RecursionError):
            self.deny(Denied(400, "the request is no JSON"))
        except Denied as denied:
            self.deny(denied)

    def read_body(self, most: int) -> dict[str, Any]:
        """Returns the JSON object of a request. Raises Denied, or ValueError or RecursionError if it is no JSON."""
        length = self.server.guard.body_length(self.headers, most)
        data = self.rfile.read(length)
        if len(data) < length:
            raise Denied(400, "the request ended early")
        body = json.loads(data)
        if not isinstance(body, dict):
            raise Denied(400, "a request is a JSON object")
        return body

    def let_browser_in(self, token: str) -> dict[str, str]:
        """Lets a browser in."""
        key = self.server.guard.exchange_token(token)
        self.server.on_entry()
        return {"key": key}

    def deny(self, denied: Denied) -> None:
        """Refuses a request, and ends the connection, since its body may be unread."""
        self.close_connection = True
        self.send_answer(denied.status, "application/json", json.dumps({"error": denied.why}).encode())

    def send_answer(self, status: int, kind: str, data: bytes) -> None:
        """Sends an answer."""
        self.send_response(status)
        for name, value in HEADERS.items():
            self.send_header(name, value)
        self.send_header("Content-Type", f"{kind}; charset=utf-8")
        self.send_header("Content-Length", str(len(data)))
        if self.close_connection:
            self.send_header("Connection", "close")
        self.end_headers()
        self.wfile.write(data)

    def log_message(self, format: str, *args: Any) -> None:  # pylint: disable=redefined-builtin
        """Logs nothing."""


def studio_server(port: int | None, answers: Answers) -> StudioServer:
    """Returns a server at a port.

    Without one a file gets the same port each time if it is free, so that the browser finds its drafts again.
    """
    if port is not None:
        return StudioServer(port, answers)
    path = os.fsencode(answers.folder.place / answers.folder.name)
    usual = FIRST_PORT + int.from_bytes(hashlib.sha256(path).digest()[:4], "big") % PORT_COUNT
    return StudioServer(usual if is_free_port(usual) else 0, answers)


def is_free_port(port: int) -> bool:
    """Whether no server listens at a port."""
    with socket.socket() as probe:
        probe.setsockopt(socket.SOL_SOCKET, socket.SO_REUSEADDR, 1)
        try:
            probe.bind((HOST, port))
        except OSError:
            return False
    return True
