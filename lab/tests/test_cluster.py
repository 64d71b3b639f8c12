"""`check --dask`: a scheduler and workers as processes on the loopback address."""

import json
import os
import shutil
import signal
import subprocess
import sys
import unittest
from pathlib import Path

import support
from test_receipts import counting_program, stable

SLOW = "[ \"$1\" != check ] || sleep 0.3"


def python_with_dask() -> str:
    """Returns a Python that has Dask; skips the test where there is none."""
    for python in (sys.executable, "/usr/bin/python3"):
        if shutil.which(python) and not subprocess.run([python, "-c", "import distributed"], capture_output=True,
                                                       check=False).returncode:
            return python
    raise unittest.SkipTest("Dask is not installed (apt-get install python3-distributed)")


class Cluster(support.InRoom):
    """A scheduler with three workers, and a set of twelve designs."""

    def setUp(self) -> None:
        self.python, self.started = python_with_dask(), list[subprocess.Popen[bytes]]()
        super().setUp()
        self.addCleanup(self.end_all)
        self.designs = self.room / "designs"
        self.designs.mkdir()
        for place, name in enumerate(["gate_and_mirror", "wrong_edge", "full_adder", "not_known"] * 3):
            (self.designs / f"{place}.txt").write_bytes(Path(support.example(name)).read_bytes())
        self.program = counting_program(self.room, SLOW)
        self.scheduler = str(self.room / "scheduler.json")
        self.start("distributed.cli.dask_scheduler", "--host", "127.0.0.1", "--port", "0", "--no-dashboard")

    def start(self, module: str, *words: str, **environment: str) -> "subprocess.Popen[bytes]":
        """Starts a scheduler or a worker."""
        process = subprocess.Popen([self.python, "-m", module, "--scheduler-file", self.scheduler, *words],
                                   start_new_session=True, cwd=self.room,
                                   env={**os.environ, **environment}, stdin=subprocess.DEVNULL,
                                   stdout=subprocess.DEVNULL, stderr=subprocess.DEVNULL)
        self.started.append(process)
        return process

    def worker(self, program: str, **environment: str) -> "subprocess.Popen[bytes]":
        """Starts a worker with a program."""
        return self.start("distributed.cli.dask_worker", "--no-nanny", "--nthreads", "1", "--no-dashboard", "--host",
                          "127.0.0.1", "--local-directory", str(self.room), BBMCHECK=program, **environment)

    def end_all(self) -> None:
        """Kills all that was started."""
        for process in self.started:
            try:
                os.killpg(process.pid, signal.SIGKILL)
            except ProcessLookupError:
                pass
            process.wait()

    def address(self) -> str:
        """Returns the address of the scheduler, once it runs."""
        # The scheduler makes the file before it writes it.
        support.wait_for(lambda: os.path.exists(self.scheduler)
                         and Path(self.scheduler).read_text().rstrip().endswith("}"))
        return str(json.loads(Path(self.scheduler).read_text())["address"])

    def command(self, *words: str) -> list[str]:
        """Returns the command that checks the designs by the cluster."""
        return [self.python, str(support.LAB / "bbmlab"), "check", "--program", self.program, "--dask", self.address(),
                *words, str(self.designs)]

    def check(self, *words: str) -> "subprocess.CompletedProcess[str]":
        """Checks the designs by the cluster."""
        return subprocess.run(self.command(*words), capture_output=True, text=True, timeout=120, check=False)

    def plain(self) -> dict[str, list[str]]:
        """Returns the receipts of a run without a cluster."""
        folder = self.room / "plain"
        support.lab("check", "--program", self.program, "--receipts", str(folder), str(self.designs))
        return stable(folder)

    def test_the_receipts_are_those_of_a_plain_run(self) -> None:
        """Three workers give the receipts of one machine, and so do two, after one was killed in the middle of the run.
        """
        workers = [self.worker(self.program) for _ in range(3)]
        ended = self.check("--receipts", str(self.room / "first"))
        self.assertEqual(ended.returncode, 1, ended.stderr)
        self.assertIn("12 files: 6 yes, 3 no, 3 refused", ended.stdout)
        plain = self.plain()
        self.assertEqual(stable(self.room / "first"), plain)
        running = subprocess.Popen(self.command("--receipts", str(self.room / "second")), stdout=subprocess.PIPE,
                                   stderr=subprocess.PIPE)
        support.wait_for((self.room / "second").exists)
        os.killpg(workers[0].pid, signal.SIGKILL)
        output, errors = running.communicate(timeout=120)
        self.assertEqual(running.returncode, 1, (output + errors).decode())
        self.assertIn(b"12 files: 6 yes, 3 no, 3 refused", output)
        self.assertEqual(stable(self.room / "second"), plain)

    def test_a_worker_with_another_program(self) -> None:
        """The machine is named, and no text is checked. The program can be sent, and then all is as in a plain run."""
        other = self.room / "other"
        other.mkdir()
        cache = str(self.room / "cache")
        self.worker(counting_program(other, "# another"), XDG_CACHE_HOME=cache)
        ended = self.check()
        self.assertEqual((ended.returncode, ended.stdout), (4, ""))
        self.assertIn("has another program", ended.stderr)
        self.assertIn(os.uname().nodename, ended.stderr)
        ended = self.check("--send-program", "--receipts", str(self.room / "sent"))
        self.assertEqual(ended.returncode, 1, ended.stderr)
        self.assertEqual(stable(self.room / "sent"), self.plain())
        self.assertFalse((other / "calls").exists(), "the other program was run")

    def test_two_answers_end_the_run(self) -> None:
        """A program that gives two answers to one text ends the run with 4, and both are told."""
        self.program = support.executable(
            self.room / "coin", f"[ \"$1\" = check ] || exec '{support.program()}' \"$@\"\ncat >/dev/null\n"
            f"echo >>'{self.room}/count'\nprintf 'bbmcheck 1\\ncertificate %064d\\nmodules 1\\nverdict yes\\n' "
            f"\"$(wc -l <'{self.room}/count')\"")
        self.worker(self.program)
        ended = self.check()
        self.assertEqual(ended.returncode, 4, ended.stderr)
        self.assertIn("two answers to", ended.stdout)
        self.assertIn("stopped by a contradiction", ended.stdout)


class Alone(support.InRoom):
    """What needs no cluster to be there."""

    def check(self, *words: str) -> "subprocess.CompletedProcess[str]":
        """Runs `check` with Dask."""
        return subprocess.run([python_with_dask(), support.BBMLAB[1], "check", "--program", support.program(), *words],
                              capture_output=True, text=True, timeout=120, check=False)

    def test_no_scheduler(self) -> None:
        """An address without a scheduler is told in a line, with 4."""
        ended = self.check("--dask", "tcp://127.0.0.1:9", support.example("full_adder"))
        self.assertEqual((ended.returncode, ended.stdout), (4, ""))
        self.assertIn("no Dask cluster with a worker at tcp://127.0.0.1:9", ended.stderr)

    def test_a_cluster_here(self) -> None:
        """Without an address a cluster is started, which ends with the run."""
        ended = self.check("--jobs", "2", support.example("full_adder"), support.example("wrong_edge"), "--dask")
        self.assertEqual(ended.returncode, 1, ended.stderr)
        self.assertIn("2 files: 1 yes, 1 no", ended.stdout)

    def test_without_dask(self) -> None:
        """Where Dask is missing, a line says what to install."""
        self.file("distributed.py", "raise ImportError\n")
        self.assert_ends(4, "check", "--dask", "x", "--program", support.program(), support.example("full_adder"),
                         PYTHONPATH=str(self.room), err="python3-distributed")
