"""How commands end: devices, pipes, signals, hostile names and numbers, and files that must not be lost."""

import json
import os
import re
import signal
import subprocess
import tempfile
import time
import unittest
import xml.etree.ElementTree as ET
from pathlib import Path

import support
from support import BBMLAB as LAB

# Says yes to a text of one line, $word, as if it were a certificate.
YES = (r"digest=$(printf '%s\n' $word | sha256sum); printf 'bbmcheck 1\ncertificate %s\nmodules 1\nverdict yes\n' "
       r"${digest%% *}" + "\n")


def run(*words: str, **more: object) -> "subprocess.CompletedProcess[bytes]":
    """Runs the lab's executable."""
    return subprocess.run([*LAB, *words], stderr=subprocess.PIPE, check=False,
                          **more)  # type: ignore[call-overload,no-any-return]


class Devices(unittest.TestCase):
    """Outputs and inputs that fail."""

    def test_full_device(self) -> None:
        """What can't be written ends with 4 and a line, for each command that writes, and never with a traceback."""
        file = support.example("head_on_bundle")
        for words in (("check", file), ("trace", file), ("draw", file), ("json", file), ("fmt", file), ("golly", file),
                      ("explain", file)):
            with open("/dev/full", "wb") as full, self.subTest(words[0]):
                ended = run(*words, stdout=full, env={**os.environ, "BBMCHECK": support.program()})
                self.assertEqual(ended.returncode, 4)
                self.assertIn(b"No space left on device", ended.stderr)
                self.assertNotIn(b"Traceback", ended.stderr)

    def test_closed_streams(self) -> None:
        """A closed standard output or input ends with 4."""
        for redirection in (">&-", "<&-"):
            script = f'exec "$@" {redirection}'
            words = ["json", support.example("head_on")] if redirection == ">&-" else ["json", "-"]
            ended = subprocess.run(["sh", "-c", script, "sh", *LAB, *words], capture_output=True, check=False)
            with self.subTest(redirection):
                self.assertEqual((ended.returncode, ended.stdout), (4, b""))
                self.assertNotIn(b"Traceback", ended.stderr)

    def test_closed_pipe(self) -> None:
        """If the reader of a pipe is gone, the lab ends by SIGPIPE, as `cat` does."""
        reader, writer = os.pipe()
        os.close(reader)
        ended = run("json", support.example("full_adder"), stdout=writer)
        os.close(writer)
        self.assertEqual(ended.returncode, -signal.SIGPIPE)
        self.assertEqual(ended.stderr, b"")


class Signals(unittest.TestCase):
    """Ends that are asked for while programs run."""

    def setUp(self) -> None:
        """Lets SIGINT reach the children, also where a shell runs the tests in the background and so ignores it."""
        before = signal.signal(signal.SIGINT, signal.default_int_handler)
        self.addCleanup(signal.signal, signal.SIGINT, before)

    def test_check_ends_at_once(self) -> None:
        """SIGINT and SIGTERM kill the programs and write the results so far; the files that are left are not started.
        """
        for number, status in ((signal.SIGINT, 130), (signal.SIGTERM, 143)):
            for form in ("text", "json"):
                with tempfile.TemporaryDirectory() as room, self.subTest(f"{number.name} {form}"):
                    self.check_stopped(Path(room), number, status, form)

    def check_stopped(self, room: Path, number: signal.Signals, status: int, form: str) -> None:
        """Stops a check of five files, of which the first is quick and the others take a minute."""
        for name in "abcde":
            (room / f"{name}.txt").write_text("slow\n" if name > "a" else "quick\n")
        body = f"read word; [ $word = slow ] && {{ echo x >>{room}/begun; sleep 60; }}\n" + YES
        program = support.executable(room / "fake", body)
        ran = subprocess.Popen([*LAB, "check", "--jobs", "2", "--format", form, "--program", program, str(room)],
                               stdout=subprocess.PIPE, stderr=subprocess.PIPE)
        support.wait_for(lambda: (room / "begun").exists() and (room / "begun").read_text().count("x") == 2)
        asked = time.monotonic()
        ran.send_signal(number)
        output, _ = ran.communicate(timeout=30)
        self.assertLess(time.monotonic() - asked, 30)
        self.assertEqual(ran.returncode, status)
        self.assertEqual((room / "begun").read_text().count("x"), 2)
        if form == "json":
            document = json.loads(output)
            self.assertEqual((document["stopped"], len(document["results"]), document["not_checked"]),
                             (number.name, 1, 4))
        else:
            self.assertIn(f"1 file: 1 yes; stopped by {number.name}, 4 not checked".encode(), output)

    def test_results_come_as_they_are_ready(self) -> None:
        """A quick file's line is there while a slow one still runs, in each form that is written line by line."""
        for form in ("text", "tap", "jsonl"):
            with tempfile.TemporaryDirectory() as room, self.subTest(form):
                for name in ("quick", "slow"):
                    (Path(room) / f"{name}.txt").write_text(f"{name}\n")
                body = f"read word; [ $word = quick ] || while [ ! -e {room}/go ]; do sleep 0.05; done\n" + YES
                ran = subprocess.Popen([*LAB, "check", "--jobs", "2", "--format", form, "--program",
                                        support.executable(Path(room) / "fake", body), room],
                                       stdout=subprocess.PIPE, stderr=subprocess.DEVNULL, text=True)
                while "quick" not in ran.stdout.readline():
                    pass
                (Path(room) / "go").write_text("")
                rest, _ = ran.communicate(timeout=30)
                self.assertIn("slow", rest)
                self.assertEqual(ran.returncode, 0)


class Names(support.InRoom):
    """Names with control characters, files that are written, and numbers that are out of reach."""

    def test_no_control_character_comes_out(self) -> None:
        """A file whose name has control characters and bytes of no character is shown by escapes in each form, and the
        XML can be read."""
        name = os.fsencode(self.room) + b"/a\x1b[31m\nok 1\xff.txt"
        Path(os.fsdecode(name)).write_text("circuit\x1b[2J\n")
        for form in ("text", "tap", "junit", "json", "jsonl"):
            ended = run("check", "--format", form, "--program", support.program(), os.fsdecode(name),
                        stdout=subprocess.PIPE)
            with self.subTest(form):
                self.assertEqual(ended.returncode, 1)
                self.assertNotIn(b"\x1b", ended.stdout + ended.stderr)
                self.assertNotIn(b"\nok 1", ended.stdout)
                if form == "junit":
                    self.assertEqual(ET.fromstring(ended.stdout).get("failures"), "1")
        ended = run("explain", "--program", support.program(), os.fsdecode(name), stdout=subprocess.PIPE)
        self.assertNotIn(b"\x1b", ended.stdout + ended.stderr)

    def test_output_is_not_the_input(self) -> None:
        """An output that is the input, also by a link, is refused, and the file stays."""
        file, link = self.room / "a.txt", self.room / "b.txt"
        text = support.text_of("not_gate")
        file.write_text(text)
        link.symlink_to(file)
        for words in (("certify", str(file), "-o", str(link)), ("fmt", str(file), "-o", str(file))):
            with self.subTest(words[0]):
                self.assertEqual(run(*words, stdout=subprocess.PIPE,
                                     env={**os.environ, "BBMCHECK": support.program()}).returncode, 2)
                self.assertEqual(file.read_text(), text)
        self.assertEqual(run("fmt", "-o", str(link), str(file), str(file), stdout=subprocess.PIPE).returncode, 2)

    def test_old_file_stays_if_the_disk_is_full(self) -> None:
        """If the new bytes cannot all be written, the old ones stay, and no part of a file is left behind."""
        file = self.room / "out.svg"
        file.write_text("old")
        script = 'ulimit -f 1; trap "" XFSZ; exec "$@"'
        ended = subprocess.run(["bash", "-c", script, "bash", *LAB, "draw", support.example("full_adder"), "-o",
                                str(file)],
                               capture_output=True, check=False)
        self.assertEqual(ended.returncode, 4, ended.stderr)
        self.assertEqual((file.read_text(), [path.name for path in self.room.iterdir()]), ("old", ["out.svg"]))

    def test_fmt_keeps_comments_and_bytes(self) -> None:
        """`fmt -i` loses comments only if that is asked for, and keeps bytes that are no ASCII as they are."""
        file = self.room / "a.txt"
        file.write_bytes(b"circuit   # caf\xe9\ninput  p\xff\nend\n")
        self.assertEqual(run("fmt", "-i", str(file), stdout=subprocess.PIPE).returncode, 1)
        self.assertEqual(file.read_bytes(), b"circuit   # caf\xe9\ninput  p\xff\nend\n")
        run("fmt", "-i", "--strip-comments", str(file), stdout=subprocess.PIPE)
        self.assertEqual(file.read_bytes(), b"circuit\ninput p\xff\nend\n")
        self.assertEqual(run("fmt", str(file), stdout=subprocess.PIPE).stdout, b"circuit\ninput p\xff\nend\n")

    def test_golly_header_of_a_billion(self) -> None:
        """A run of 10^9 cells is refused at once, with a line."""
        with tempfile.NamedTemporaryFile("w", suffix=".rle") as file:
            file.write("x = 1000000000, y = 1, rule = B3/S23\n1000000000o!\n")
            file.flush()
            self.assert_ends(4, "from-golly", file.name, stdout="",
                             err="4100 rows or columns; a layout takes 4096 at most")

    def test_times_that_make_no_sense(self) -> None:
        """Negative times, and a first time behind the last, are wrong words."""
        for words in (("--from", "-3"), ("--from", "5", "--to", "2"), ("--from", "1e3"), ("--to", "-1")):
            with self.subTest(words):
                self.assertEqual(support.lab("trace", support.example("head_on"), *words).returncode, 2)

    def test_json_names_the_wrong_member(self) -> None:
        """A wrong member is named, and no name can smuggle a line into the text."""
        document = json.loads(support.lab("json", support.example("timed_modules")).stdout)
        changes = [(("circuit", "inputs", 0), "p\nend", "circuit.inputs[0]"), (("layout", "width"), -2, "layout.width"),
                   (("layout", "balls", 0), [1], "layout.balls[0]"),
                   (("certificate", "modules", 1, "cuts", 0), 7, "certificate.modules[1].cuts[0]"),
                   (("circuit", "gates", 0, "gate"), "and", "circuit.gates[0].gate"),
                   (("certificate", "version"), True, "certificate.version")]
        document["layout"]["balls"] = [[0, 0]]
        for path, value, name in changes:
            changed = json.loads(json.dumps(document))
            place = changed
            for key in path[:-1]:
                place = place[key]
            place[path[-1]] = value
            with self.subTest(name):
                self.assert_ends(4, "json", "--back", "-", text=json.dumps(changed), stdout="",
                                 err=f"bbmlab: {name} is ")

    def test_ways_of_many_inputs_are_sampled(self) -> None:
        """With 360 inputs the ways are drawn from samples, the picture says so, and the ways of two levels of gates
        share a colour."""
        file = str(support.TOP / "conformance" / "data" / "trains_36_cut_v1.txt")
        picture = support.lab("draw", "--ways", file).stdout
        self.assertIn("in 256 sampled choices of the 360 inputs", picture)
        levels = re.findall(r"<title>levels (\d+) to (\d+)</title>", picture)
        self.assertEqual(levels, [(str(level), str(level + 1)) for level in range(0, self.deepest(Path(file)) + 1, 2)])

    def deepest(self, file: Path) -> int:
        """Returns the most gates one behind another in the circuit of a file."""
        depth: dict[str, int] = {}
        for words in map(str.split, file.read_text().partition("\nend\n")[0].splitlines()):
            if "->" in words:
                arrow = words.index("->")
                below = max(depth.get(word, 0) for word in words[1:arrow])
                depth.update(dict.fromkeys(words[arrow + 1:], below + 1))
        return max(depth.values())
