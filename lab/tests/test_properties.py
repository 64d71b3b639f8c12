"""Properties that hold for all texts, tried on those that hypothesis chooses: round trips, and no traceback whatever is
read.

PROPERTY_TIMES=10 in the environment tries ten times as many texts.
It is skipped where hypothesis is missing (Debian: python3-hypothesis, for /usr/bin/python3).
"""

import json
import os
import tempfile
import unittest
from pathlib import Path

import support

try:
    from hypothesis import HealthCheck, Phase, given, settings
    from hypothesis import strategies as st
except ImportError as missing:
    raise unittest.SkipTest("hypothesis is not installed (Debian: python3-hypothesis)") from missing

import properties as pr  # noqa: E402
from bbmlab_core import cli  # noqa: E402
from bbmlab_core.pictures.golly import (read_golly_states, golly_text, layout_text_from_golly,  # noqa: E402
                                        live_cells)
from bbmlab_core.texts.documents import read_document  # noqa: E402
from bbmlab_core.texts.json_form import document_json_text, text_from_json  # noqa: E402
from bbmlab_core.texts.spelling import spell_text  # noqa: E402

bbmlab = pr.bbmlab
# How many times as many texts are tried: a long run sets it to 10.
TIMES = int(os.environ.get("PROPERTY_TIMES", "1"))
TRIED = settings(max_examples=40 * TIMES, deadline=None, database=None, print_blob=True,
                 suppress_health_check=list(HealthCheck))

# For each command the words with which it is run: FILE is the text, OUT another file. A search has little time.
FILE, OUT = "FILE", "OUT"
COMMANDS: dict[str, list[list[str]]] = {
    "check": [["check", FILE], ["check", "--format", "junit", FILE]],
    "verify": [["verify", OUT, FILE], ["verify", FILE, OUT, "--release", FILE]],
    "summary": [["summary", FILE]],
    "explain": [["explain", "--effort", "0.05", FILE], ["explain", "--json", "--effort", "0.05", FILE],
                ["explain", "--fix", "--effort", "0.2", FILE, "-o", OUT],
                ["explain", "--gcc", "--effort", "0.05", "--report", OUT, FILE]],
    "trace": [["trace", FILE, "--to", "6"], ["trace", "--json", "--module", "0", FILE],
              ["trace", "--pictures", "--on", "p", FILE]],
    "draw": [["draw", FILE], ["draw", "--ways", FILE], ["draw", "--report", OUT, FILE]],
    "view": [["view", FILE, "-o", OUT]],
    "certify": [["certify", FILE], ["certify", "--grid", "8,8", "--version", "1", FILE],
                ["certify", "--boxes", OUT, FILE]],
    "route": [["route", "--effort", "0.2", FILE], ["route", "--circuit-only", FILE],
              ["route", "--keep-partial", "--effort", "0.2", FILE]],
    "join": [["join", "--effort", "0.2", FILE, OUT], ["join", FILE, OUT, "--connect", "A.p=B.q"]],
    "circuit": [["circuit", FILE], ["circuit", "--from", "qasm", FILE], ["circuit", "--to", "verilog", FILE],
                ["circuit", "--inverse", FILE],
                ["circuit", "--clean", "--to", "qasm", FILE], ["circuit", "--simplify", "--to", "aiger", FILE],
                ["circuit", "--from", "gates", FILE],
                ["circuit", "--cycles", "2", "--state", "initial", "--to", "real", FILE]],
    "table": [["table", FILE], ["table", "--csv", "--on", "p", FILE]],
    "stats": [["stats", FILE], ["stats", "--from", "real", FILE]],
    "equal": [["equal", FILE, OUT], ["equal", "--common", FILE, OUT]],
    "cells": [["cells", "turn_left", "-o", OUT]],
    "fmt": [["fmt", FILE], ["fmt", "-i", "--strip-comments", FILE], ["fmt", "--check", FILE]],
    "json": [["json", FILE], ["json", "--back", FILE], ["json", "--report", OUT, FILE]],
    "golly": [["golly", FILE]],
    "from-golly": [["from-golly", FILE]],
}
# Done, a no or a refusal, wrong arguments, a device.
STATUSES = {0, 1, 2, 4}


class RoundTrips(unittest.TestCase):
    """Texts, models and other forms of them."""

    @TRIED
    @given(pr.bundles())
    def test_bundles(self, bundle: "bbmlab.Bundle") -> None:
        """A bundle is written, read as the same value, and written again as the same text; so is each section that can
        be alone."""
        text = str(bundle)
        self.assertEqual(bbmlab.read(text), bundle)
        self.assertEqual(str(bbmlab.read(text)), text)
        for part in (bbmlab.Bundle(bundle.circuit), bbmlab.Bundle(None, bundle.layout),
                     bbmlab.Bundle(bundle.circuit, bundle.layout)):
            self.assertEqual(bbmlab.read(str(part)), part)

    @TRIED
    @given(pr.bundles(), st.data())
    def test_json(self, bundle: "bbmlab.Bundle", data: st.DataObject) -> None:
        """The JSON form of a text gives it back, byte for byte; of one with an assign section too."""
        on = tuple(name for name in dict.fromkeys(port.name for port in bundle.layout.ins) if data.draw(st.booleans()))
        for part in (bundle, bbmlab.Bundle(bundle.circuit), bbmlab.Bundle(None, bundle.layout, None, on)):
            form = document_json_text(read_document(str(part)), None)
            self.assertEqual(text_from_json(form), str(part))
            self.assertEqual(json.loads(form)["format"], "bbmlab bundle 1")

    @TRIED
    @given(pr.bundles())
    def test_golly(self, bundle: "bbmlab.Bundle") -> None:
        """Golly's form keeps the layout in its comments, and its cells are the start; without comments the start comes
        back, moved by even steps."""
        text, on = str(bundle.layout), {port.name for port in bundle.layout.ins[::2]}
        start = next(iter(bbmlab.simulate(bundle.layout, on))).cells
        model = read_document(text, "layout").layout
        assert model
        form = golly_text(model, set(start), sorted(on), text.splitlines())
        self.assertEqual(layout_text_from_golly(form), text)
        self.assertEqual(live_cells(read_golly_states(form)[0]), set(start))
        bare = "\n".join(line for line in form.splitlines() if not line.startswith("#C ")) + "\n"
        again = bbmlab.read(layout_text_from_golly(bare)).layout
        assert again
        if start:
            moves = {(x - u, y - v) for (x, y), (u, v) in zip(sorted(again.balls), sorted(start))}
            self.assertEqual((len(moves), len(again.balls), {number % 2 for move in moves for number in move}),
                             (1, len(start), {0}))

    @TRIED
    @given(pr.bundles(), st.data())
    def test_spelling(self, bundle: "bbmlab.Bundle", data: st.DataObject) -> None:
        """`fmt` leaves a right text as it is, and gives it back from one with spaces, comments, empty lines and other
        line ends."""
        text = str(bundle)
        self.assertEqual(spell_text(text).text, text)
        noise = st.sampled_from(["", " ", "\t", "  # a comment", "\n", "\n# x\n\n"])
        end = data.draw(st.sampled_from(["\n", "\r\n"]))
        free = "".join(line.replace(" ", data.draw(st.sampled_from([" ", "  ", "\t"]))) + data.draw(noise) + end
                       for line in text.splitlines())
        self.assertEqual(spell_text(free).text, text)

    @TRIED
    @given(pr.damaged_texts() | st.binary(max_size=300))
    def test_spelling_ends(self, data: bytes) -> None:
        """What `fmt` wrote of any bytes, it leaves as it is."""
        once = spell_text(data.decode("latin-1")).text
        self.assertEqual(spell_text(once).text, once)

    @TRIED
    @given(pr.damaged_texts() | st.binary(max_size=300))
    def test_reading_never_fails(self, data: bytes) -> None:
        """Any text is read or refused. One that is read is written again as it was."""
        text = data.decode("utf-8", "surrogateescape").encode("utf-8", "surrogateescape").decode("latin-1")
        try:
            self.assertEqual(str(bbmlab.read(text)), text)
        except bbmlab.RefusedError as refused:
            self.assertGreaterEqual(refused.line, 1)
            self.assertIn(refused.code, range(1, 13))
            self.assertTrue(refused.reason)


class NeverATraceback(unittest.TestCase):
    """Each command of the lab, on random bytes and on damaged texts."""

    def test_all_commands(self) -> None:
        """No command is left out here but the server, which has tests of its own."""
        self.assertEqual(set(cli.COMMANDS), {*COMMANDS, "studio"})

    def try_commands(self, data: bytes, other: bytes, name: str) -> None:
        """Runs a command in each of its ways on a text, with other bytes in the second file."""
        os.environ["BBMCHECK"] = support.program()
        with tempfile.TemporaryDirectory() as room:
            places = {FILE: str(Path(room) / "a text.txt"), OUT: str(Path(room) / "other")}
            for words in COMMANDS[name]:
                Path(places[FILE]).write_bytes(data)
                Path(places[OUT]).write_bytes(other)
                status, out, errors = pr.run_lab([places.get(word, word) for word in words])
                told = f"{words}: status {status}\n{errors}"
                self.assertIn(status, STATUSES, told)
                self.assertNotIn("Traceback", out + errors, told)
                self.assertEqual(set(errors) & set("\x1b\x00"), set(), told)

    def try_all(self, texts: "st.SearchStrategy[bytes]", count: int) -> None:
        """Runs each command on `count` texts and as many others that hypothesis chooses."""
        for name in COMMANDS:
            def try_one(data: bytes, other: bytes, name: str) -> None:
                """Runs one command on one text."""
                self.try_commands(data, other, name)

            with self.subTest(name):
                # A failure is shown as it was found: to make it smaller takes longer than the gate has.
                settings(TRIED, max_examples=count,
                         phases=[Phase.generate])(given(data=texts, other=texts, name=st.just(name))(try_one))()

    def test_random_bytes(self) -> None:
        """Each command takes any bytes."""
        self.try_all(st.binary(max_size=120), 4 * TIMES)

    def test_damaged_texts(self) -> None:
        """Each command takes damaged texts of examples/."""
        self.try_all(pr.damaged_texts(), 8 * TIMES)
