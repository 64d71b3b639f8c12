"""The program whose digest is named is the one that answers, also if its file is replaced meanwhile."""

import hashlib
import json
import os
from pathlib import Path
from unittest import mock

import support
from bbmlab_core.farm import remote
from bbmlab_core.farm.checking import FileChecker
from bbmlab_core.farm.receipts import ReceiptFolder
from bbmlab_core.host import sealed
from bbmlab_core.host.program import ask_program, open_program
from bbmlab_core.host.releases import program_identity
from bbmlab_core.studio.jobs import JobQueue

# It says yes to each text, with the digest of its certificate.
LIE = ("digest=$(sed -n '/^certificate /,$p' | sha256sum)\n"
       "printf 'bbmcheck 1\\ncertificate %s\\nmodules 77\\nverdict yes\\n' ${digest%% *}")


def digest(path: Path) -> str:
    """Returns the SHA-256 of a file."""
    return hashlib.sha256(path.read_bytes()).hexdigest()


class Replaced(support.InRoom):
    """A program that a liar replaces while it answers for the first time, and the copy of a program."""

    def setUp(self) -> None:
        super().setUp()
        self.program, liar = self.room / "program", support.executable(self.room / "liar", LIE)
        support.executable(self.program, f"[ \"$1\" != check ] || mv -f '{liar}' '{self.program}' 2>/dev/null\nexec "
                           f"'{support.program()}' \"$@\"")
        self.digest = digest(self.program)
        self.text = Path(support.example("wrong_edge")).read_bytes()

    def was_replaced(self) -> bool:
        """Whether the liar is where the program was."""
        return LIE in self.program.read_text()

    def test_check_with_receipts(self) -> None:
        """Each receipt with the digest of the first program is of its own answer, by one process and by three."""
        designs = self.room / "designs"
        designs.mkdir()
        for place in range(9):
            (designs / f"{place}.txt").write_bytes(self.text)
        for jobs in ("1", "3"):
            with self.subTest(jobs):
                self.setUp()
                receipts = self.room / "receipts"
                ended = support.lab("check", "--program", str(self.program), "--receipts", str(receipts), "--jobs",
                                    jobs, str(designs))
                self.assertTrue(self.was_replaced())
                said = [json.loads(path.read_text()) for path in receipts.iterdir()]
                self.assertEqual((len(said), {one["verdict"] for one in said}, ended.returncode), (9, {"no"}, 1))
                self.assertEqual({one["program"]["sha256"] for one in said}, {self.digest})

    def test_overwritten_in_place(self) -> None:
        """Other bytes in the same file change no answer either, nor what `--version` says."""
        program = open_program(str(self.program))
        ask_program(program, "check", self.text)
        with open(self.program, "r+b") as file:
            file.truncate()
            file.write(f"#!/bin/sh\n{LIE}\n".encode())
        self.assertIn("verdict no", ask_program(program, "check", self.text).output)
        self.assertRegex(program_identity(program).version or "", r"^bbmcheck \d")

    def test_checker(self) -> None:
        """The API's processes get the copy from the process that opened it."""
        files = [str(self.room / f"{place}.txt") for place in range(3)]
        for file in files:
            Path(file).write_bytes(self.text)
        program = open_program(str(self.program))
        checker = FileChecker(program, 2, None, ReceiptFolder(str(self.room / "receipts"), program_identity(program)))
        found = [result for result in checker.check_files(files) if result]
        checker.stop()
        self.assertEqual({result.result for result in found}, {"no"})

    def test_studio(self) -> None:
        """The studio's verdicts are those of the program that it named at its start, also in a process that starts
        later."""
        jobs = JobQueue(str(self.program), 20.0, 4096)
        self.addCleanup(jobs.close)
        job = {"kind": "verdict", "text": self.text.decode(), "stage": "first", "earlier": ""}
        first = jobs.answer_job("a", job)
        self.assertTrue(self.was_replaced())
        self.assertNotIn("modules 77", first["report"] + jobs.answer_job("a", job)["report"])
        jobs.worker.end_process()
        self.assertNotIn("modules 77", jobs.answer_job("a", job)["report"])

    def test_worker_of_a_cluster(self) -> None:
        """A worker of a cluster answers a group of texts by the bytes whose digest it compared."""
        with mock.patch.dict(os.environ, BBMCHECK=str(self.program), XDG_CACHE_HOME=str(self.room)):
            said = remote.run_on_texts(self.digest, [self.text, self.text], 60)
            self.assertEqual([status for _, status, *_ in said], [1, 1])
            self.assertTrue(self.was_replaced())
            self.assertEqual([kind for *_, kind, _ in remote.run_on_texts(self.digest, [self.text], 60)],
                             ["other program"])

    def test_nobody_writes(self) -> None:
        """The copy cannot be written, by its descriptor nor by its path, and both kinds of copies can be executed."""
        data = Path(support.program()).read_bytes()
        for make in (sealed.sealed_copy_descriptor, sealed.nameless_copy_descriptor):
            with self.subTest(make.__name__):
                copy = make(data)
                self.addCleanup(os.close, copy)
                self.assertEqual(os.pread(copy, len(data) + 1, 0), data)
                with self.assertRaises(OSError):
                    os.write(copy, b"x")
        copy = sealed.sealed_copy_descriptor(data)
        self.addCleanup(os.close, copy)
        with self.assertRaises(OSError), open(sealed.descriptor_path(copy), "r+b", buffering=0) as file:
            file.write(b"x")
        with mock.patch("bbmlab_core.host.sealed.make_memory_file_descriptor", side_effect=OSError):
            program = open_program(support.program())
        self.assertEqual(ask_program(program, "check", Path(support.example("wrong_edge")).read_bytes()).status, 1)
