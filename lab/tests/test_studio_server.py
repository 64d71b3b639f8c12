"""The studio's server: who is answered, which files are read and written, what is too large, and what ends a program.
"""

import http.client
import json
import os
import resource
import socket
import stat
import subprocess
import sys
import threading
import time
from pathlib import Path
from typing import Any

import support
from bbmlab_core.studio import routes
from test_connecting import two_nots
from bbmlab_core.studio.answers import BLANK_DESIGN_TEXT, Answers
from bbmlab_core.studio.folder import Folder
from bbmlab_core.studio.guard import MAX_REQUEST_BYTES
from bbmlab_core.studio.jobs import JobQueue, JobWorker
from bbmlab_core.studio.server import CONTENT_SECURITY_POLICY, StudioServer, studio_server
from bbmlab_core.texts.skimming import cuts_by_module
from bbmlab_core.texts.spelling import source_line_number
from support import processes, text_of, wait_for

MEMORY = 4096
# A program that does not end, with a name that no other test has.
SLEEP = f"sleep 987653.{os.getpid()}"


class Served(support.InRoom):
    """A server of a folder of its own, in a thread."""

    jobs: JobQueue | None = None

    def setUp(self) -> None:
        """Starts the server."""
        super().setUp()
        self.outside = self.room
        self.room = self.outside / "designs"
        self.room.mkdir()
        (self.room / "gate.txt").write_bytes(Path(support.example("not_gate")).read_bytes())
        self.server: StudioServer = studio_server(0, Answers(Folder(str(self.room / "gate.txt")), self.jobs))
        thread = threading.Thread(target=self.server.serve_forever, kwargs={"poll_interval": 0.05})
        thread.start()
        self.addCleanup(thread.join)
        self.addCleanup(self.server.server_close)
        self.addCleanup(self.server.shutdown)

    def send(self, method: str, path: str, body: bytes | dict[str, Any] = b"",
             **headers: str) -> tuple[int, dict[str, str], bytes]:
        """Returns the status, the headers and the body of an answer. Headers that are empty are left out."""
        guard, body = self.server.guard, body if isinstance(body, bytes) else json.dumps(body).encode()
        lines = {"Host": guard.host, "Origin": f"http://{guard.host}", "Content-Type": "application/json",
                 "Content-Length": str(len(body)),
                 "X-Bbmlab-Key": guard.key, **{name.replace("_", "-"): value for name, value in headers.items()}}
        link = http.client.HTTPConnection("127.0.0.1", self.server.server_address[1], timeout=60)
        try:
            link.putrequest(method, f"/{path}", skip_host=True, skip_accept_encoding=True)
            for name, value in lines.items():
                if value:
                    link.putheader(name, value)
            link.endheaders()
            link.send(body)
            answer = link.getresponse()
            return answer.status, dict(answer.getheaders()), answer.read()
        finally:
            link.close()

    def ask(self, request: str, /, **body: Any) -> dict[str, Any]:
        """Returns the answer to a request of the page."""
        status, _, data = self.send("POST", f"api/{request}", body)
        self.assertEqual(status, 200, data)
        answer: dict[str, Any] = json.loads(data)
        return answer


class Security(Served):
    """Who is answered."""

    def test_loopback_only(self) -> None:
        """The server listens at 127.0.0.1, at a free port."""
        self.assertEqual(self.server.socket.getsockname()[0], "127.0.0.1")
        self.assertGreater(self.server.server_address[1], 1023)
        self.assertGreaterEqual(min(len(self.server.guard.key), len(self.server.guard.token)), 32)

    def test_each_request_carries_the_key(self) -> None:
        """Without the key, or with another one, a request is refused, also one with the token or with the key in its
        path or in a cookie."""
        guard = self.server.guard
        for key in ("", "x", guard.key[:-1], guard.key + "x", guard.token, "\xff"):
            for request in ("start", "open", "save", "files", "verdict", "quit"):
                self.assertEqual(self.send("POST", f"api/{request}", b"{}", X_Bbmlab_Key=key)[0], 403, (key, request))
        for path in (f"{guard.key}/api/start", f"api/start?key={guard.key}", f"api/start#{guard.key}"):
            self.assertEqual(self.send("POST", path, b"{}", X_Bbmlab_Key="", Cookie=f"key={guard.key}")[0], 403, path)
        self.assertEqual(self.send("POST", "api/start", b"{}")[0], 200)

    def test_a_token_counts_once(self) -> None:
        """A token gives the key to the page once. The next one is another, and no other word gives it."""
        entries: list[str] = []
        self.server.on_entry = lambda: entries.append(self.server.address)
        guard, token = self.server.guard, self.server.guard.token
        self.assertEqual(self.server.address, f"http://{guard.host}/#{token}")
        for wrong in ("", "x", token[:-1], guard.key, "\ud800"):
            self.assertEqual(self.enter(wrong)[0], 403, wrong)
        self.assertEqual(self.send("POST", "api/enter", {"token": token}, X_Bbmlab_Key="", Origin="null")[0], 403)
        self.assertEqual(self.enter("x" * 2000)[0], 413)
        self.assertEqual(entries, [])
        status, data = self.enter(token)
        self.assertEqual((status, json.loads(data)), (200, {"key": guard.key}))
        self.assertEqual(entries, [self.server.address])
        self.assertEqual(self.enter(token)[0], 403)
        self.assertNotEqual(guard.token, token)
        self.assertEqual(self.enter(guard.token)[0], 200)

    def enter(self, token: str) -> tuple[int, bytes]:
        """Returns the status and the body of the answer to a token."""
        status, _, data = self.send("POST", "api/enter", {"token": token}, X_Bbmlab_Key="")
        return status, data

    def test_nothing_secret_is_served(self) -> None:
        """The files of the page are for everybody: they contain neither the key nor the token."""
        for path in ("", "studio/server_link.js", "studio/studio.js"):
            status, headers, data = self.send("GET", path, X_Bbmlab_Key="")
            self.assertEqual(status, 200)
            for secret in (self.server.guard.key, self.server.guard.token):
                self.assertNotIn(secret, data.decode() + str(headers))

    def test_other_hosts_and_pages(self) -> None:
        """A request for another host, as after DNS rebinding, and one from another page get 403."""
        port = self.server.server_address[1]
        for host in ("evil.example", f"evil.example:{port}", f"localhost:{port}", "127.0.0.1", f"127.0.0.1:{port + 1}",
                     f"127.0.0.1:{port}.evil.example", ""):
            self.assertEqual(self.send("GET", "", Host=host)[0], 403, host)
            self.assertEqual(self.send("POST", "api/start", b"{}", Host=host)[0], 403, host)
        for origin in ("https://evil.example", "null", f"https://127.0.0.1:{port}", f"http://127.0.0.1:{port + 1}",
                       f"http://localhost:{port}", ""):
            self.assertEqual(self.send("POST", "api/start", b"{}", Origin=origin)[0], 403, origin)
        self.assertEqual(self.send("GET", "", Origin="https://evil.example")[0], 403)
        for path, mode, kind in (("studio/model.js", "", ""), ("studio/model.js", "navigate", "document"),
                                 ("", "navigate", "iframe"), ("", "cors", "empty")):
            self.assertEqual(self.send("GET", path, Sec_Fetch_Site="cross-site", Sec_Fetch_Mode=mode,
                                       Sec_Fetch_Dest=kind)[0], 403, (path, kind))
        self.assertEqual(self.send("GET", "", Sec_Fetch_Site="cross-site", Sec_Fetch_Mode="navigate",
                                   Sec_Fetch_Dest="document", Origin="")[0], 200)
        self.assertEqual(self.send("GET", "", Origin="")[0], 200)

    def test_requests_are_json(self) -> None:
        """A form of another page, other methods, and what is no JSON object are refused."""
        for kind in ("text/plain", "application/x-www-form-urlencoded", "multipart/form-data", ""):
            self.assertEqual(self.send("POST", "api/start", b"{}", Content_Type=kind)[0], 415, kind)
        for body in (b"", b"[]", b"{", b'"x"', b"\xff", b"[" * 100_000):
            self.assertEqual(self.send("POST", "api/start", body)[0], 400, body[:9])
        for method in ("PUT", "DELETE", "OPTIONS", "HEAD"):
            self.assertEqual(self.send(method, "api/start", b"{}")[0], 501, method)
        for body in (b'{"name": 1}', b'{"name": null}', b"{}"):
            self.assertEqual(self.send("POST", "api/open", body)[0], 400)
        self.assertEqual(self.send("POST", "api/quit", b"{}")[0], 404)

    def test_large_requests(self) -> None:
        """A request over the most of all, and one that does not say how long it is, are refused before their bodies are
        read."""
        self.assertEqual(self.send("POST", "api/start", b"", Content_Length=str(MAX_REQUEST_BYTES + 1))[0], 413)
        for length in ("", "-1", "x", "1e3", "9" * 40):
            self.assertEqual(self.send("POST", "api/start", b"", Content_Length=length)[0], 411, length)
        self.assertEqual(self.send("POST", "api/start", b"", Content_Length="", Transfer_Encoding="chunked")[0], 411)

    def test_short_requests(self) -> None:
        """A request that ends before its length does nothing, also if what came is a whole JSON object."""
        body = json.dumps({"name": "short.txt", "text": "layout 2 2 0\nend\n", "digest": None}).encode()
        lines = [f"Host: {self.server.guard.host}", f"Origin: http://{self.server.guard.host}",
                 "Content-Type: application/json",
                 f"X-Bbmlab-Key: {self.server.guard.key}", f"Content-Length: {len(body) + 1}", "Connection: close"]
        with socket.create_connection(self.server.server_address[:2], timeout=60) as link:
            link.sendall("\r\n".join(["POST /api/save HTTP/1.1", *lines, "", ""]).encode() + body)
            link.shutdown(socket.SHUT_WR)
            answer = link.makefile("rb").read()
        self.assertEqual(answer.split(b" ")[1], b"400", answer)
        self.assertFalse((self.room / "short.txt").exists())

    def test_headers(self) -> None:
        """Each answer forbids scripts of others, frames and guesses of types."""
        for method, path, key in (("GET", "", ""), ("GET", "studio/model.js", ""),
                                  ("POST", "api/files", self.server.guard.key), ("POST", "api/files", "wrong")):
            _, headers, _ = self.send(method, path, b"{}", X_Bbmlab_Key=key)
            self.assertEqual(headers["Content-Security-Policy"], CONTENT_SECURITY_POLICY)
            self.assertEqual((headers["X-Content-Type-Options"], headers["Referrer-Policy"]),
                             ("nosniff", "no-referrer"))
            self.assertNotIn("Access-Control-Allow-Origin", headers)
        self.assertNotIn("unsafe", CONTENT_SECURITY_POLICY)
        self.assertIn("default-src 'none'; script-src 'self';", CONTENT_SECURITY_POLICY)

    def test_no_file_of_the_page_is_elsewhere(self) -> None:
        """Paths that lead out of the page's files are not found."""
        for path in ("studio/../../../../etc/passwd", "../etc/passwd", "studio/server.py", "studio/%2e%2e/cli.py",
                     "/etc/passwd", "studio/studio.html", "view"):
            self.assertEqual(self.send("GET", path)[0], 404, path)


class Files(Served):
    """Which files are read and written."""

    def test_names(self) -> None:
        """No name leads out of the folder, to a hidden file, a link, or a file that is no `.txt` file."""
        (self.outside / "secret.txt").write_text("secret")
        (self.room / "notes.md").write_text("secret")
        (self.room / ".hidden.txt").write_text("secret")
        (self.room / "link.txt").symlink_to(self.outside / "secret.txt")
        (self.room / "down.txt").mkdir()
        os.mkfifo(self.room / "pipe.txt")
        names = ["../secret.txt", str(self.outside / "secret.txt"), "notes.md", ".hidden.txt", "link.txt", "down.txt",
                 "pipe.txt", "", ".", "..", "a/../gate.txt",
                 "gate.txt/", "x\0.txt", "..\\secret.txt", "a" * 300 + ".txt", "gate.txt\n"]
        for name in names:
            self.assertIn("error", self.ask("open", name=name), name)
            self.assertIn("error", self.ask("save", name=name, text="x", digest=None, force=True), name)
        self.assertEqual((self.outside / "secret.txt").read_text(), "secret")
        self.assertEqual(self.ask("files")["files"], ["gate.txt"])
        self.assertEqual(sorted(path.name for path in self.outside.iterdir()), ["designs", "secret.txt"])

    def test_long_names(self) -> None:
        """A name that the file system does not take is refused with a sentence."""
        self.assertIn("File name too long", self.ask("save", name="ü" * 150 + ".txt", text="x", digest=None)["error"])

    def test_other_texts_of_the_folder(self) -> None:
        """A `.txt` file of the folder can be opened, also one whose bytes are no UTF-8, and is written back as it is.
        """
        data = b"circuit # caf\xe9 \xc3\xa9\r\nend\n"
        (self.room / "other.txt").write_bytes(data)
        opened = self.ask("open", name="other.txt")
        self.assertEqual(self.ask("files")["files"], ["gate.txt", "other.txt"])
        saved = self.ask("save", name="other.txt", text=opened["text"] + "# more\n", digest=opened["digest"])
        self.assertIn("digest", saved)
        self.assertEqual((self.room / "other.txt").read_bytes(), data + b"# more\n")

    def test_a_file_that_changed(self) -> None:
        """A file that another program wrote meanwhile is not overwritten unless the user says so."""
        opened = self.ask("open", name="gate.txt")
        (self.room / "gate.txt").write_text("mine\n")
        told = self.ask("save", name="gate.txt", text="yours\n", digest=opened["digest"])
        self.assertEqual((told["changed"], (self.room / "gate.txt").read_text()), (True, "mine\n"))
        self.assertIn("digest", self.ask("save", name="gate.txt", text="yours\n", digest=opened["digest"], force=True))
        self.assertEqual((self.room / "gate.txt").read_text(), "yours\n")
        (self.room / "gate.txt").unlink()
        self.assertTrue(self.ask("save", name="gate.txt", text="again\n", digest=opened["digest"])["changed"])

    def test_a_new_file(self) -> None:
        """A file that is missing is an empty layout, and is written only if it is still missing."""
        opened = self.ask("open", name="new.txt")
        self.assertEqual((opened["text"], opened["digest"]), (BLANK_DESIGN_TEXT, None))
        (self.room / "new.txt").write_text("there\n")
        self.assertTrue(self.ask("save", name="new.txt", text=BLANK_DESIGN_TEXT, digest=None)["changed"])
        (self.room / "new.txt").unlink()
        self.assertIn("digest", self.ask("save", name="new.txt", text=BLANK_DESIGN_TEXT, digest=None))
        self.assertEqual(sorted(path.name for path in self.room.iterdir()), ["gate.txt", "new.txt"])

    def test_refusals(self) -> None:
        """The refusal names the line as it was typed, also behind comments."""
        good = text_of("not_gate")
        self.assertIsNone(self.ask("refusal", text=good)["refusal"])
        wrong = "# by hand\n\n" + good.replace("spill a\n", "spill a # left over\nspill a\n")
        told = self.ask("refusal", text=wrong)["refusal"]
        self.assertEqual((told["line"], told["code"]), (wrong.split("\n").index("spill a") + 1, 5))
        self.assertTrue(told["words"] and told["rule"])
        self.assertIsNone(source_line_number("b\na\n", "a\nb\n", 1))

    def test_spelling(self) -> None:
        """A text with comments has a one spelling without them; a text of one spelling is its own."""
        good = text_of("not_gate")
        self.assertEqual(self.ask("spelling", text=good), {"text": good, "comments": 0})
        self.assertEqual(self.ask("spelling", text="# a\n" + good.replace("end\n", "end # b\r\n", 1)),
                         {"text": good, "comments": 2})

    def test_templates(self) -> None:
        """New texts are an empty layout, standard cells and examples; other names are none."""
        start = self.ask("start")
        self.assertEqual(start["text"], text_of("not_gate"))
        self.assertEqual(self.ask("template", name="empty")["text"], BLANK_DESIGN_TEXT)
        self.assertIn("layout 44 44 37", self.ask("template", name="not")["text"])
        self.assertIn("fredkin_gate", start["examples"])
        self.assertEqual(self.ask("template", name="example not_gate")["text"], start["text"])
        for name in ("../not", "example ../README", "no_such_cell"):
            self.assertIn("error", self.ask("template", name=name))
        self.assertEqual(self.ask("verdict", text="", tab="a")["error"][:25], "The program was not found")


class Verdicts(Served):
    """What the program is asked."""

    @classmethod
    def setUpClass(cls) -> None:
        """Finds the program."""
        cls.jobs = JobQueue(support.program(), 20.0, MEMORY)

    @classmethod
    def tearDownClass(cls) -> None:
        """Ends the process of the jobs."""
        if cls.jobs:
            cls.jobs.close()

    def test_verdicts(self) -> None:
        """Texts with and without certificates get the program's verdict, and a refusal names the line."""
        for name, verdict, by in (("machine_fredkin", "yes", "own"), ("not_gate", "yes", "plain"),
                                  ("plain_no", "no", "plain"), ("delay_line", "yes", "own"),
                                  ("wrong_edge", "yes", "plain"), ("wrong_delay", "no", "own")):
            told = self.ask("verdict", text=text_of(name), tab="a")
            self.assertEqual((told["verdict"], told["by"]), (verdict, by), name)
            self.assertIn(f"verdict {verdict}", told["report"])
        text = text_of("not_gate").replace("spill a\n", "spill q\n")
        told = self.ask("verdict", text=text, tab="a")
        self.assertEqual((told["verdict"], told["line"], told["code"]), ("refused", 6, 3))

    def test_stages(self) -> None:
        """A text whose certificate no longer fits gets its no first.

        The earlier certificate is tried before the lab makes one.
        """
        text = text_of("delay_line")
        head, certificate = text.split("certificate ")
        told = self.ask("verdict", text=head, tab="a", stage="first", earlier=f"certificate {certificate}")
        self.assertEqual((told["verdict"], told["by"], told["is_last"]), ("yes", "earlier", True))
        told = self.ask("verdict", text=head, tab="a", stage="first", earlier="")
        self.assertEqual((told["verdict"], told["report"], told["is_last"]), ("none", "", False))
        told = self.ask("verdict", text=head, tab="a", stage="made", earlier="")
        self.assertEqual((told["verdict"], told["by"], told["is_last"]), ("yes", "certify", True))
        told = self.ask("verdict", text=text_of("wrong_delay"), tab="a", stage="first", earlier="")
        self.assertEqual((told["verdict"], told["by"], told["is_last"]), ("no", "own", False))
        told = self.ask("verdict", text=text_of("wrong_delay"), tab="a", stage="other", earlier="")
        self.assertNotIn("With all inputs on", told["words"][0])
        told = self.ask("verdict", text=text.replace("out b 26 28", "out b 26 27"), tab="a", stage="other", earlier="")
        self.assertEqual((told["verdict"], told["words"][0][:83]),
                         ("none",
                          "With all inputs on the cell (26, 27) is dead at the end and should be live. So no ce"[:83]))
        told = self.ask("verdict", text="circuit\ninput p\noutput p\nend\nlayout 66 66 80\nin p 2 2\nout p 6 6\nend\n",
                        tab="a")
        self.assertEqual((told["verdict"], told["report"]), ("none", ""))
        self.assertTrue(told["words"])

    def test_cuts(self) -> None:
        """The wires that modules cut are those of the reader."""
        for name in ("four_modules", "timed_modules", "not_gate", "machine_full_adder"):
            text = text_of(name)
            document = support.read_document(text, "check")
            wanted = [list(module.cuts) for module in document.certificate.modules] if document.certificate else []
            self.assertEqual(cuts_by_module(text), wanted, name)

    def test_fixes(self) -> None:
        """A no comes with words and a fix, and the program says yes to the text after it."""
        text = text_of("not_gate").replace("out b 4 4\nwaste 7 4\n", "out b 7 4\nwaste 4 4\n")
        told = self.ask("verdict", text=text, tab="a")
        self.assertEqual(told["verdict"], "no")
        self.assertEqual(told["faults"][0]["cell"], [7, 4])
        self.assertEqual(told["faults"][0]["on"], [] if told["faults"][0]["text"].endswith(" 0") else ["p"])
        words = self.ask("explain", text=text, tab="a", bundle=told["bundle"], report=told["report"])
        self.assertTrue(words["entries"][0]["what"] and words["fix"]["words"])
        self.assertEqual(words["fix"]["verdict"], "yes")
        self.assertNotIn("certificate", words["fix"]["text"])
        self.assertEqual(self.ask("verdict", text=words["fix"]["text"], tab="a")["verdict"], "yes")

    def test_exports(self) -> None:
        """A text can be had as SVG, for Golly and as one page."""
        text = text_of("not_gate")
        for form, word in (("svg", "<svg "), ("golly", "rule = BBM-Margolus-emulated"),
                           ("page", "Content-Security-Policy")):
            self.assertIn(word,
                          self.ask("export", text=text, tab="a", bundle="", form=form, name="a<b>", on=["p"])["text"],
                          form)
        self.assertIn("error", self.ask("export", text="circuit\n", tab="a", bundle="", form="svg", name="a", on=[]))
        wrong = {"text": "", "tab": "", "bundle": "", "form": "svg", "name": ""}
        self.assertEqual(self.send("POST", "api/export", wrong)[0], 400)
        for form in ("", "SVG", "../page"):
            self.assertIn("svg, golly or page",
                          self.ask("export", text=text, tab="a", bundle="", form=form, name="a", on=[])["error"])

    def test_what_is_no_text(self) -> None:
        """Half a character, and a report that is none, are told as what they are."""
        for request, more, sentence in (("verdict", {"text": "# \ud800"}, "half a character"),
                                        ("explain",
                                         {"text": text_of("not_gate"), "bundle": "",
                                          "report": "junk"}, "report")):
            self.assertIn(sentence, self.ask(request, tab="a", **more)["error"])

    def test_an_export_is_not_ended(self) -> None:
        """A verdict of the same tab waits for an export, and the export for a verdict."""
        text, answers = text_of("machine_full_adder"), {}
        asks = [threading.Thread(target=lambda name=name,
                                 more=more: answers.update({name: self.ask(name, text=text, tab="a",
                                                                           **more)}))  # type: ignore[misc]
                for name, more in (("export", {"bundle": "", "form": "svg", "name": "a", "on": []}), ("verdict", {}))]
        for thread in asks:
            thread.start()
        for thread in asks:
            thread.join()
        self.assertEqual(("text" in answers["export"], answers["verdict"].get("verdict")), (True, "yes"))


class Searches(Served):
    """Routes in the background."""

    CIRCUIT = "circuit\ninput p\ninput q\nswitch p q -> a b c\noutput a\noutput b\nspill c\nend\n"

    def setUp(self) -> None:
        """Starts the server with searches."""
        super().setUp()
        self.routes = routes.RouteSearches(support.program(), MEMORY)
        self.server.answers.routes = self.routes
        self.addCleanup(self.routes.close)

    def long_circuit(self) -> str:
        """Returns a circuit whose search takes minutes: so many gates, each with inputs of its own."""
        count = 600
        names = [f"p{number}" for number in range(count)]
        lines = [f"fredkin p{number} p{number + 1} p{number + 2} -> a{number} b{number} c{number}"
                 for number in range(0, count, 3)]
        outs = [f"output {letter}{number}" for number in range(0, count, 3) for letter in "abc"]
        return "\n".join(["circuit", *(f"input {name}" for name in names), *lines, *outs, "end"]) + "\n"

    def ended(self, tab: str) -> dict[str, Any]:
        """Asks until a search has ended, and returns what became of it."""
        until = time.monotonic() + 240
        while (told := self.ask("routed", tab=tab))["state"] == "runs":
            self.assertLess(time.monotonic(), until)
        return told

    def test_a_route_is_found(self) -> None:
        """A search ends with a bundle of the circuit, which gets a yes; it is told once."""
        self.assertEqual(self.ask("route", tab="a", text=self.CIRCUIT, seconds=60, seed=1)["state"], "runs")
        told = self.ended("a")
        self.assertEqual(told["state"], "found", told)
        self.assertIn("switch p q -> a b c", told["text"])
        self.assertIn("verdict yes", told["said"])
        self.assertIn("verdict yes", support.checked(told["text"]))
        self.assertEqual(self.ask("routed", tab="a")["state"], "none")

    def test_ports_are_connected(self) -> None:
        """An output is led to an input, which the program says yes to; what cannot be is said in words."""
        text = two_nots(200, 160, (20, 60), (120, 70))
        words = {"tab": "a", "text": text, "seconds": 60, "seed": 1, "output": "z"}
        self.assertEqual(self.ask("connect", **words, input="b")["state"], "runs")
        told = self.ended("a")
        self.assertEqual(told["state"], "found", told)
        self.assertIn("the program says yes", told["said"][-1])
        self.assertIn("switch z l -> e x q", told["text"])
        self.ask("connect", **words, input="a")
        told = self.ended("a")
        self.assertEqual((told["state"], "text" in told), ("failed", False))
        self.assertIn("loop", told["said"][-1])
        self.assertEqual(self.send("POST", "api/connect", words)[0], 400)

    def test_a_search_is_cancelled(self) -> None:
        """A cancelled search ends with its processes, and another one can begin then; while it runs, no other one can.
        """
        self.ask("route", tab="a", text=self.long_circuit(), seconds=600, seed=1)
        self.assertIn("Another search is running",
                      self.ask("route", tab="b", text=self.CIRCUIT, seconds=60, seed=1)["error"])
        self.assertEqual(self.ask("routed", tab="b")["state"], "none")
        process, room = self.routes.found["a"].process, Path(self.routes.found["a"].work_folder.name)
        self.assertEqual(self.ask("unroute", tab="a")["state"], "cancelled")
        self.assertIsNotNone(process.poll())
        self.assertFalse(room.exists())
        self.assertEqual(self.ask("unroute", tab="a")["state"], "none")
        self.ask("route", tab="b", text=self.CIRCUIT, seconds=60, seed=1)
        self.assertEqual(self.ended("b")["state"], "found")

    def test_why_there_is_no_route(self) -> None:
        """A circuit that is refused is told with its line."""
        self.ask("route", tab="a", text="circuit\ninput p\noutput q\nend\n", seconds=60, seed=1)
        told = self.ended("a")
        self.assertEqual(told["state"], "failed")
        self.assertIn("q", " ".join(told["said"]))

    def test_a_page_that_is_gone(self) -> None:
        """The search of a page that no longer asks is ended."""
        old, routes.SILENCE_SECONDS = routes.SILENCE_SECONDS, 0.0
        self.addCleanup(setattr, routes, "SILENCE_SECONDS", old)
        self.ask("route", tab="a", text=self.long_circuit(), seconds=600, seed=1)
        self.routes.found["a"].process.wait(60)

    def test_numbers(self) -> None:
        """Numbers that are none, or out of their range, begin no search."""
        for seconds, seed in ((0, 1), (3601, 1), (60, -1), (60, 2**31)):
            self.assertIn("error", self.ask("route", tab="a", text=self.CIRCUIT, seconds=seconds, seed=seed))
        for words in ({"seconds": "60", "seed": 1}, {"seconds": 60, "seed": 1.5}, {"seconds": True, "seed": 1},
                      {"seconds": 60}):
            self.assertEqual(self.send("POST", "api/route", {"tab": "a", "text": self.CIRCUIT, **words})[0], 400)
        self.assertEqual(self.routes.found, {})


class Limits(support.InRoom):
    """What ends a program, and the command."""

    def test_time_limit(self) -> None:
        """A program that does not end is killed."""
        jobs = JobQueue(self.fake(f"exec sleep 987654.{os.getpid()}"), 0.5, MEMORY)
        told = jobs.answer_job("a", {"kind": "verdict", "text": BLANK_DESIGN_TEXT})
        jobs.close()
        self.assertEqual((told["verdict"], told["words"]),
                         ("unknown", ["The program gave no answer within 0.5 seconds."]))
        self.assertNotIn(f"sleep 987654.{os.getpid()}", processes())

    def test_newer_jobs_end_older_ones(self) -> None:
        """A newer job of a tab ends its older one with its program; a job of another tab waits, so at most one program
        runs."""
        mark = self.fake(f"exec {SLEEP}")
        jobs, answers = JobQueue(mark, 600, MEMORY), []
        first = threading.Thread(target=lambda: answers.append(jobs.answer_job("a", {"kind": "verdict",
                                                                                     "text": BLANK_DESIGN_TEXT})))
        other = threading.Thread(target=lambda: answers.append(jobs.answer_job("b", {"kind": "verdict",
                                                                                     "text": BLANK_DESIGN_TEXT})))
        first.start()
        wait_for(lambda: processes().count(SLEEP) == 1)
        other.start()
        time.sleep(0.3)
        self.assertEqual(processes().count(SLEEP), 1)
        export = {"kind": "export", "text": "circuit\n", "bundle": "", "form": "svg", "name": "", "on": []}
        closer = threading.Thread(target=lambda: answers.append(jobs.answer_job("a", export)))
        closer.start()
        wait_for(lambda: {"replaced": True} in answers)
        wait_for(lambda: processes().count(SLEEP) == 1 or len(answers) > 1)
        jobs.close()
        for thread in (first, other, closer):
            thread.join(30)
            self.assertFalse(thread.is_alive())
        self.assertNotIn(SLEEP, processes())

    def test_memory_limit(self) -> None:
        """The process of the jobs and the program run under a memory limit, and one that needs more gets no verdict."""
        worker = JobWorker(self.fake("exit 0"), 5, 1024)
        self.addCleanup(worker.close_pipes)
        self.addCleanup(worker.end_process)
        worker.answer({"kind": "verdict", "text": BLANK_DESIGN_TEXT}, 60)
        self.assertEqual(resource.prlimit(worker.process.pid, resource.RLIMIT_AS), (1024 * 2 ** 20, 1024 * 2 ** 20))
        jobs = JobQueue(self.fake(f"exec {sys.executable} -c 'x = bytes(3 << 30)'"), 20, 2048)
        told = jobs.answer_job("a", {"kind": "verdict", "text": BLANK_DESIGN_TEXT})
        jobs.close()
        self.assertEqual(told["verdict"], "unknown")
        self.assertIn("There is no verdict", told["words"][0])

    def started(self, *words: str, **environment: str) -> tuple["subprocess.Popen[str]", str]:
        """Starts the studio, and returns its process and the address that it prints."""
        process = subprocess.Popen([*support.BBMLAB, "studio", f"{self.room}/a.txt", *words], stdout=subprocess.PIPE,
                                   stderr=subprocess.DEVNULL, text=True, env={**os.environ, **environment})
        self.addCleanup(process.wait)
        self.addCleanup(process.terminate)
        self.addCleanup(process.stdout.close)
        return process, process.stdout.readline().strip()

    def test_open(self) -> None:
        """Without `--no-open` the browser gets a page that only this user can read, and that leads to the address that
        is printed.

        All users can list the arguments of a process, so they contain nothing of the address but the page's path.
        """
        seen = self.room / "seen"
        browser = support.executable(self.room / "browser", f'printf %s "$1" >"{seen}.new" && mv "{seen}.new" "{seen}"')
        process, address = self.started(BROWSER=browser)
        wait_for(seen.exists)
        page = Path(seen.read_text().removeprefix("file://"))
        self.assertEqual([stat.S_IMODE(os.stat(path).st_mode) for path in (page, page.parent)], [0o600, 0o700])
        self.assertIn(f'content="0; url={address}"', page.read_text())
        self.assertNotIn(address.split("#")[1], str(page))
        process.terminate()
        process.wait(30)
        self.assertFalse(page.exists())

    def test_no_open(self) -> None:
        """`--no-open` prints the address alone, and SIGTERM ends the server with its processes."""
        process, address = self.started("--no-open")
        self.assertRegex(address, r"^http://127\.0\.0\.1:\d+/#[\w-]{32}$")
        process.terminate()
        self.assertEqual(process.wait(30), 143)
