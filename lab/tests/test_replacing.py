"""Files that are written again: what another program wrote meanwhile stays, and so do owner, mode, protection and
links.
"""

import os
import stat
import unittest
from pathlib import Path
from unittest import mock

import support
from bbmlab_core.commands import fmt
from bbmlab_core.farm.answering import CheckResult
from bbmlab_core.farm.receipts import ReceiptFolder
from bbmlab_core.host.releases import ProgramIdentity
from bbmlab_core.host.terminal import LabError, write_bytes
from bbmlab_core.studio.folder import Folder, StaleFileError, digest_of_bytes
from bbmlab_core.texts.spelling import spell_text

OTHER = b"# of another editor\n"
FOR_ROOT = unittest.skipIf(os.getuid(), "only root can give files to another user")


class Meanwhile(support.InRoom):
    """What other programs wrote meanwhile, and what stays of a file whose bytes are replaced."""

    def names(self) -> list[str]:
        """Returns the names in the folder."""
        return sorted(path.name for path in self.room.iterdir())

    def test_explain_in_place(self) -> None:
        """`explain --fix -i` leaves the other editor's bytes and puts the fix beside them.

        A second result replaces no first one.
        """
        file = self.room / "design.txt"
        program = support.executable(self.room / "program",
                                     f"cp '{self.room}/other' '{file}'\nexec '{support.program()}' \"$@\"")
        wrong = Path(support.example("not_gate")).read_bytes().replace(b"out b 4 4\nwaste 7 4\n",
                                                                       b"out b 7 4\nwaste 4 4\n")
        (self.room / "other").write_bytes(wrong + OTHER)
        for kept in ("design.txt.new", "design.txt.new2"):
            file.write_bytes(wrong)
            ended = support.lab("explain", "--fix", "-i", "--program", program, str(file))
            self.assertEqual(file.read_bytes(), wrong + OTHER)
            self.assertEqual(ended.returncode, 4, ended.stderr)
            self.assertIn("another program changed it meanwhile, so it stays as it is; the result is in "
                          f"{self.room}/{kept}", ended.stderr)
            self.assertEqual(support.lab("check", str(self.room / kept), BBMCHECK=support.program()).returncode, 0)
        self.assertEqual(self.names(), ["design.txt", "design.txt.new", "design.txt.new2", "other", "program"])

    def test_fmt_in_place(self) -> None:
        """`fmt -i` compares the file with what it read."""
        file = self.room / "free.txt"
        before = b"circuit\n\nend\n"
        file.write_bytes(before + OTHER)
        spelling = spell_text(before.decode())
        with self.assertRaisesRegex(LabError, "another program changed it meanwhile"):
            fmt.write_in_place(str(file), spelling, before, spelling.text.encode(), False)
        self.assertEqual((file.read_bytes(), (self.room / "free.txt.new").read_bytes()),
                         (before + OTHER, b"circuit\nend\n"))
        file.write_bytes(before)
        fmt.write_in_place(str(file), spelling, before, spelling.text.encode(), False)
        self.assertEqual((file.read_bytes(), self.names()), (b"circuit\nend\n", ["free.txt", "free.txt.new"]))

    def test_studio(self) -> None:
        """A file that changes after the studio compared it is not written over, and nothing is left beside it."""
        file = self.room / "design.txt"
        file.write_bytes(b"old\n")
        folder = Folder(str(file))
        read = folder.read

        def read_and_change(name: str) -> bytes | None:
            """Reads a file, and lets another editor save it."""
            data = read(name)
            file.write_bytes(OTHER)
            return data

        with mock.patch.object(folder, "read", read_and_change), self.assertRaises(StaleFileError):
            folder.write("design.txt", b"new\n", digest_of_bytes(b"old\n"), False)
        self.assertEqual((file.read_bytes(), self.names()), (OTHER, ["design.txt"]))

    def test_protected_files(self) -> None:
        """A file without the right to write stays as it is, also for root and although its folder could be written."""
        file = self.room / "free.txt"
        file.write_bytes(b"circuit\n\nend\n")
        file.chmod(0o444)
        ended = support.lab("fmt", "-i", str(file))
        self.assertEqual((ended.returncode, file.read_bytes()), (4, b"circuit\n\nend\n"))
        self.assertIn("the file is protected against writing", ended.stderr)
        self.assertEqual(self.names(), ["free.txt"])

    @FOR_ROOT
    def test_owner_and_mode(self) -> None:
        """Owner, group and mode stay."""
        file = self.room / "free.txt"
        file.write_bytes(b"circuit\n\nend\n")
        os.chown(file, 12345, 12346)
        file.chmod(0o640)
        self.assertEqual(support.lab("fmt", "-i", str(file)).returncode, 0)
        found = file.stat()
        self.assertEqual((file.read_bytes(), found.st_uid, found.st_gid, stat.S_IMODE(found.st_mode)),
                         (b"circuit\nend\n", 12345, 12346, 0o640))

    @FOR_ROOT
    def test_an_owner_that_cannot_be_given(self) -> None:
        """A user who may write a file of another one, and cannot give it away, writes into it."""
        file = self.room / "free.txt"
        file.write_bytes(b"a longer text than the new one\n")
        os.chown(file, 12345, 12346)
        with mock.patch("os.fchown", side_effect=PermissionError):
            write_bytes(str(file), b"new\n")
        self.assertEqual((file.read_bytes(), file.stat().st_uid, self.names()), (b"new\n", 12345, ["free.txt"]))

    def test_private_until_the_end(self) -> None:
        """While a private file is written again, nobody else may read the new bytes."""
        file, seen = self.room / "free.txt", []
        file.write_bytes(b"old")
        file.chmod(0o600)

        opened = os.open

        def open_and_look(path: str, flags: int, mode: int = 0o777) -> int:
            """Opens a file, and notes the modes of all files."""
            found = opened(path, flags, mode)
            seen.extend(stat.S_IMODE(path.stat().st_mode) & 0o077 for path in self.room.iterdir())
            return found

        with mock.patch("os.open", open_and_look):
            write_bytes(str(file), b"new")
        self.assertGreater(len(seen), 1)
        self.assertEqual(set(seen), {0})

    def test_a_link_in_a_race(self) -> None:
        """The studio does not follow a link that is put in the place of its file after it looked: the file behind the
        link stays."""
        file, outside = self.room / "design.txt", self.room / "outside"
        outside.write_bytes(b"old\n")
        file.write_bytes(b"old\n")
        folder = Folder(str(file))
        read = folder.read

        def read_and_link(name: str) -> bytes | None:
            """Reads a file, and puts a link in its place."""
            data = read(name)
            file.unlink()
            file.symlink_to(outside)
            return data

        for is_forced in (False, True):
            with mock.patch.object(folder, "read", read_and_link):
                try:
                    folder.write("design.txt", b"new\n", digest_of_bytes(b"old\n"), is_forced)
                except Exception as error:  # pylint: disable=broad-exception-caught  # Any of them is a refusal.
                    self.assertIn("FolderError", [kind.__name__ for kind in type(error).__mro__])
            self.assertEqual(outside.read_bytes(), b"old\n")
            file.unlink()
            file.write_bytes(b"old\n")

    def test_through_to_the_disk(self) -> None:
        """The bytes of a receipt are on the disk before it has its name."""
        done: list[str] = []
        replace, fsync = os.replace, os.fsync
        with mock.patch("os.fsync", lambda number: (done.append("fsync"), fsync(number))), \
                mock.patch("os.replace", lambda *names: (done.append("rename"), replace(*names))):
            write_bytes(str(self.room / "receipt.json"), b"{}")
            self.assertEqual(done, ["fsync", "rename"])
            result = CheckResult("x.txt", "refused", "line 1, code 1", 0.0, output="refused 1 1\n")
            receipts = ReceiptFolder(str(self.room / "receipts"), ProgramIdentity("0" * 64, None))
            receipts.store_result(b"x\n", result, 0.0)
        self.assertEqual(done, ["fsync", "rename"] * 2)
        self.assertEqual([path.name for path in (self.room / "receipts").iterdir()][0][-10:], "x.txt.json")
