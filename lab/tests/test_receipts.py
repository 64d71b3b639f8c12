"""Receipts: what they say, when they hold, and what `verify` refuses."""

import hashlib
import json
import os
import signal
import subprocess
from pathlib import Path

import support


def counting_program(room: Path, more: str = "") -> str:
    """Writes a program that notes each check in the file `calls`, and lets the proved program answer."""
    return support.executable(room / "counting", f"[ \"$1\" != check ] || echo check >>'{room}/calls'\n{more}\nexec "
                              f"'{support.program()}' \"$@\"")


def calls(room: Path) -> int:
    """Returns how many checks the program noted."""
    notes = room / "calls"
    return len(notes.read_text().splitlines()) if notes.exists() else 0


def digest(data: bytes) -> str:
    """Returns the SHA-256 as hexadecimal digits."""
    return hashlib.sha256(data).hexdigest()


def stable(folder: Path) -> dict[str, list[str]]:
    """Returns the lines of the receipts in a folder, without those of the date and the time."""
    return {path.name: [line for line in path.read_text().splitlines() if '"date"' not in line
                        and '"processor_seconds"' not in line]
            for path in folder.iterdir()}


class InRoom(support.InRoom):
    """Tests with a folder of designs and one for receipts."""

    NAMES = ("gate_and_mirror", "wrong_edge", "full_adder", "not_known")

    def setUp(self) -> None:
        super().setUp()
        self.designs, self.receipts = self.room / "designs", self.room / "receipts"
        self.designs.mkdir()
        for name in self.NAMES:
            (self.designs / f"{name}.txt").write_bytes(Path(support.example(name)).read_bytes())
        self.program = counting_program(self.room)

    def check(self, *words: str, program: str | None = None) -> "subprocess.CompletedProcess[str]":
        """Checks the designs with receipts."""
        return support.lab("check", "--program", program or self.program, "--receipts", str(self.receipts), *words,
                           str(self.designs))

    def receipt(self, name: str) -> Path:
        """Returns the file of a design's receipt."""
        found = [path for path in self.receipts.iterdir() if name in path.name]
        self.assertEqual(len(found), 1, name)
        return found[0]


class Documents(InRoom):
    """What is in a receipt, what is skipped, and what is checked again."""

    def test_digests_are_of_the_bytes(self) -> None:
        """Text, sections, program and report have the digests of their bytes; the sections are cut here at each `end`.
        """
        self.check()
        for name, verdict, status in (("gate_and_mirror", "yes", 0), ("wrong_edge", "no", 1),
                                      ("not_known", "refused", 3)):
            text = (self.designs / f"{name}.txt").read_bytes()
            document = json.loads(self.receipt(name).read_text())
            said = subprocess.run([support.program(), "check"], input=text, capture_output=True, check=False)
            self.assertEqual((document["verdict"], document["status"], document["report"]),
                             (verdict, status, said.stdout.decode()))
            self.assertEqual(document["text"],
                             {"name": str(self.designs / f"{name}.txt"), "bytes": len(text), "sha256": digest(text)})
            parts = [part + b"\nend\n" for part in text.split(b"\nend\n")[:3]]
            self.assertEqual(list(document["sections"].values()), [digest(part) for part in parts])
            self.assertEqual(document["program"]["sha256"], digest(Path(self.program).read_bytes()))
            self.assertEqual(document["report_sha256"], digest(said.stdout))
            self.assertEqual(set(document) - {"format"}, support.page_members("bbmlab receipt 1"))

    def test_a_receipt_is_the_same_at_each_run(self) -> None:
        """All lines but two are the same after a second run, also by more processes."""
        self.check("--jobs", "1")
        first = stable(self.receipts)
        self.check("--again", "--jobs", "3")
        self.assertEqual(stable(self.receipts), first)
        self.assertEqual(calls(self.room), 2 * len(self.NAMES))

    def test_a_released_program_is_named(self) -> None:
        """The receipt of a released program has its version, its kit and the digest of its sources."""
        manifest = dict(line.split(" ", 1)
                        for line in (support.TOP / "release/x86_64-linux-gnu/MANIFEST").read_text().splitlines())
        program = str(support.TOP / "release/x86_64-linux-gnu/bbmcheck")
        if digest(Path(program).read_bytes()) != manifest["program_sha256"]:
            self.skipTest("the released program is not that of its MANIFEST")
        self.check(program=program)
        said = json.loads(self.receipt("full_adder").read_text())["program"]
        self.assertEqual((said["sha256"], said["kit"], said["sources_sha256"]),
                         (manifest["program_sha256"], manifest["kit"], manifest["sources_sha256"]))
        self.assertEqual(said["version"], f"bbmcheck {manifest['version']}")

    def test_odd_names(self) -> None:
        """Each file has a receipt of its own: equal names in two folders, long names, and names that are no text."""
        text = (self.designs / "full_adder.txt").read_bytes()
        names = [b"deep/full_adder.txt", b"a\nb.txt", b"\xff.txt", b"%2F.txt", b"l" * 200 + b".txt",
                 b"l" * 201 + b".txt", b" .txt"]
        for name in names:
            path = os.path.join(os.fsencode(self.designs), name)
            os.makedirs(os.path.dirname(path), exist_ok=True)
            with open(path, "wb") as file:
                file.write(text)
        self.check()
        self.assertEqual(len(list(self.receipts.iterdir())), len(self.NAMES) + len(names))
        ended = self.check()
        self.assertIn(f"held {len(self.NAMES) + len(names)}, checked 0", ended.stdout)

    def test_only_what_changed(self) -> None:
        """A second run checks nothing; a changed byte, another program, a broken receipt and a lost one are checked
        again."""
        first = self.check()
        self.assertEqual((first.returncode, calls(self.room)), (1, 4))
        second = self.check()
        self.assertEqual((second.returncode, calls(self.room)), (1, 4))
        self.assertIn("held 4, checked 0", second.stdout)
        self.assertIn("local 0 end 6 7 7 1 and 1 more", second.stdout, "a no that is held is not told")
        text = self.designs / "full_adder.txt"
        text.write_bytes(text.read_bytes().replace(b"\ncircuit", b"\n circuit") + b"\n")
        self.assertIn("held 3, checked 1", self.check().stdout)
        receipt = self.receipt("gate_and_mirror")
        receipt.write_text(receipt.read_text()[:-20])
        self.receipt("wrong_edge").unlink()
        self.assertIn("held 2, checked 2", self.check().stdout)
        self.program = counting_program(self.room, "# another")
        self.assertNotIn("held", self.check().stdout)
        self.assertEqual(calls(self.room), 4 + 1 + 2 + 4)

    def test_a_changed_receipt_is_not_used(self) -> None:
        """A receipt whose verdict was changed to a yes holds nothing."""
        self.check()
        receipt = self.receipt("wrong_edge")
        receipt.write_text(receipt.read_text().replace('"verdict": "no"',
                                                       '"verdict": "yes"').replace('"status": 1', '"status": 0'))
        ended = self.check()
        self.assertEqual((ended.returncode, calls(self.room)), (1, 5))

    def test_an_interrupted_run_goes_on(self) -> None:
        """After SIGTERM the next run checks only what has no receipt."""
        self.program = counting_program(self.room, f"[ \"$1\" != check ] || [ ! -e '{self.room}/slow' ] || sleep 60")
        names = sorted(self.designs.iterdir())
        support.lab("check", "--program", self.program, "--receipts", str(self.receipts), str(names[0]))
        (self.room / "slow").write_text("")
        running = subprocess.Popen([*support.BBMLAB, "check", "--jobs", "2", "--program", self.program, "--receipts",
                                    str(self.receipts), str(self.designs)], stdout=subprocess.PIPE,
                                   stderr=subprocess.PIPE)
        support.wait_for(lambda: calls(self.room) >= 3)
        running.send_signal(signal.SIGTERM)
        output, _ = running.communicate(timeout=20)
        self.assertEqual(running.returncode, 143)
        self.assertIn(b"held 1, checked 0; stopped by SIGTERM, 3 not checked", output)
        (self.room / "slow").unlink()
        self.assertIn("held 1, checked 3", self.check().stdout)

    def test_two_answers_end_the_run(self) -> None:
        """A program that says something else of the same text ends the run with 4, and both answers are told."""
        self.check()
        path = Path(self.program)
        body = path.read_bytes()
        # It says yes to each text, with the digest of its certificate.
        path.write_text("#!/bin/sh\ndigest=$(sed -n '/^certificate /,$p' | sha256sum)\n"
                        "printf 'bbmcheck 1\\ncertificate %s\\nmodules 9\\nverdict yes\\n' ${digest%% *}\n")
        for receipt in self.receipts.iterdir():
            receipt.write_text(receipt.read_text().replace(digest(body), digest(path.read_bytes())))
        ended = self.check("--again", "--jobs", "1")
        self.assertEqual(ended.returncode, 4)
        self.assertIn("two answers to", ended.stdout)
        self.assertIn("stopped by a contradiction, 3 not checked", ended.stdout)

    def test_no_place_for_receipts(self) -> None:
        """Where a receipt can't be written the file is an error, and the status is 4."""
        self.receipts.write_text("a file\n")
        ended = self.check()
        self.assertEqual(ended.returncode, 4)
        self.assertIn("4 error", ended.stdout)
        self.assert_ends(2, "check", "--again", "--program", self.program, str(self.designs), err="--receipts")


class Verify(InRoom):
    """`verify`, and what the receipts of all parts of a set say together."""

    def assert_verified(self, status: int, out: str, name: str, *words: str, text: str = "") -> None:
        """Verifies the receipt of a design. The counting program is no release, so a MANIFEST names it."""
        manifest = self.room / "MANIFEST"
        manifest.write_text(f"version 1\nprogram_sha256 {digest(Path(self.program).read_bytes())}\n")
        self.assert_ends(status, "verify", str(self.receipt(name)), text or str(self.designs / f"{name}.txt"),
                         "--program", self.program, "--release", str(manifest), *words, out=out)

    def test_right_receipts(self) -> None:
        """A receipt of each verdict is of its text, also after the program was run again."""
        self.check()
        for name, verdict in (("gate_and_mirror", "yes"), ("wrong_edge", "no"), ("not_known", "refused")):
            for words in ((), ("--again",)):
                self.assert_verified(0, f": {verdict}, by", name, *words)

    def test_another_text(self) -> None:
        """Another text is refused, and the sections that differ are named."""
        self.check()
        text = (self.designs / "full_adder.txt").read_bytes()
        parts = text.split(b"\nend\n")
        other = self.room / "other.txt"
        for place, name in enumerate(("circuit", "layout", "certificate")):
            changed = [*parts]
            changed[place] += b"\n# more"
            other.write_bytes(b"\nend\n".join(changed))
            self.assert_verified(1, f"of another text: the {name} section differs", "full_adder", text=str(other))
        other.write_bytes(text + b"\n")
        self.assert_verified(1, "what stands behind the sections differs", "full_adder", text=str(other))

    def test_changed_receipts(self) -> None:
        """A changed report, verdict, status or digest, a truncated receipt and another document are refused in words.
        """
        self.check()
        whole = self.receipt("wrong_edge").read_text()
        for old, new, reason in ((" 1 0", " 1 1", "its report was changed"),
                                 ('"verdict": "no"', '"verdict": "yes"', "its verdict was changed"),
                                 ('"status": 1', '"status": 0', "the status is 0"),
                                 ('"format"', '"form"', "no member `format`"),
                                 ('"workers": 1', '"workers": "1"', "`workers` is of another kind")):
            if old == " 1 0":
                old = json.loads(whole)["report"].split("\n")[4]
                new = old[:-1] + ("1" if old[-1] != "1" else "2")
            self.assertIn(old, whole)
            self.receipt("wrong_edge").write_text(whole.replace(old, new))
            self.assert_verified(1, reason, "wrong_edge")
        for cut in (0, 1, 100, len(whole) - 3):
            self.receipt("wrong_edge").write_text(whole[:cut])
            self.assert_verified(1, "truncated", "wrong_edge")

    def test_a_report_of_another_certificate(self) -> None:
        """A report that is put into the receipt of another text, with its digest, is refused."""
        self.check()
        receipt = json.loads(self.receipt("full_adder").read_text())
        other = json.loads(self.receipt("gate_and_mirror").read_text())
        receipt.update(report=other["report"], report_sha256=other["report_sha256"])
        self.receipt("full_adder").write_text(json.dumps(receipt))
        self.assert_verified(1, "of another certificate", "full_adder")

    def test_a_program_that_is_no_release(self) -> None:
        """Without a MANIFEST that names it the program is told, and the receipt does not count."""
        self.check()
        self.assert_ends(1, "verify", str(self.receipt("full_adder")), str(self.designs / "full_adder.txt"),
                         out="is no release that is known here")

    def test_again_with_another_answer(self) -> None:
        """--again tells a report that the program does not give, and refuses to run another program."""
        self.check()
        path = self.receipt("wrong_edge")
        receipt = json.loads(path.read_text())
        receipt["report"] = receipt["report"].replace("verdict no\n", "verdict yes\n").split("local")[0]
        receipt.update(report_sha256=digest(receipt["report"].encode()), verdict="yes", status=0)
        path.write_text(json.dumps(receipt))
        # A receipt is no signature.
        self.assert_verified(0, "", "wrong_edge")
        self.assert_verified(1, "says something else", "wrong_edge", "--again")
        self.assert_ends(4, "verify", "--again", str(path), str(self.designs / "wrong_edge.txt"), "--program",
                         support.program(), "--release", str(self.room / "MANIFEST"),
                         err="is not the program of the receipt")

    def test_parts_are_the_whole(self) -> None:
        """Each file is in one of 16 parts, the receipts are those of one run, and `summary` tells their result."""
        self.check()
        whole = stable(self.receipts)
        self.receipts.rename(self.room / "plain")
        for number in range(1, 17):
            ended = self.check("--shard", f"{number}/16")
            self.assertIn(ended.returncode, (0, 1), ended.stderr)
        self.assertEqual(stable(self.receipts), whole)
        self.assertEqual(calls(self.room), 2 * len(self.NAMES))
        told = support.lab("summary", str(self.receipts))
        self.assertEqual((told.returncode, told.stdout.splitlines()[-1]), (1, "4 receipts: 2 yes, 1 no, 1 refused"))

    def test_summaries(self) -> None:
        """0 for a yes of all, 4 where a receipt does not count or two programs answered, or where there is none."""
        for name in ("wrong_edge", "not_known"):
            (self.designs / f"{name}.txt").unlink()
        self.check()
        self.assertEqual(support.lab("summary", str(self.receipts)).returncode, 0)
        self.program = counting_program(self.room, "# another")
        support.lab("check", "--program", self.program, "--receipts", str(self.receipts), support.example("half_adder"))
        self.assert_ends(4, "summary", str(self.receipts), out="2 programs")
        self.receipt("half_adder").write_text("{}")
        self.assert_ends(4, "summary", str(self.receipts), out="does not count")
        self.assertEqual(support.lab("summary", str(self.designs)).returncode, 4)

    def test_wrong_parts(self) -> None:
        """A part that is none is a wrong argument."""
        for word in ("0/3", "4/3", "3", "1/", "/2", "a/b", "1/0", "-1/2"):
            self.assert_ends(2, "check", f"--shard={word}", str(self.designs))
