"""Surroundings that are not as a command wishes: closed and full outputs, pipes, signals, odd names, and programs that
answer something else.
"""

import json
import os
import resource
import signal
import subprocess
import sys
import time
from pathlib import Path
from unittest import mock

import support
from bbmlab_core.explain.diagnosis import DiagnosticRuns, Tristate
from bbmlab_core.host.program import BadProgramError, Executable, RunningPrograms, open_program
from bbmlab_core.studio.jobs import JobQueue
from support import processes, wait_for

LAB = support.BBMLAB[1]


class Room(support.InRoom):
    """Tests with a folder and programs of their own."""

    def program(self, script: str, name: str = "program") -> str:
        """Writes a program that runs a script. `real` in it is the proved one."""
        return support.executable(self.room / name, f"real='{support.program()}'\n{script}")

    def shell(self, line: str, *words: str, **environment: str) -> "subprocess.CompletedProcess[bytes]":
        """Runs a line of a shell, in which `lab` is the lab and $1 the first of the words."""
        return subprocess.run(["sh", "-c", f"lab() {{ '{sys.executable}' '{LAB}' \"$@\"; }}\n{line}", "sh", *words],
                              capture_output=True, check=False, timeout=120,
                              env={**os.environ, **environment}, cwd=self.room)


class Outputs(Room):
    """Outputs that are closed or full."""

    def test_closed_errors(self) -> None:
        """With standard error closed no message gets into a bundle, and no command dies of it."""
        design = support.example("not_gate")
        ended = self.shell('lab certify "$1" --program "$2" 2>&-', design, support.program())
        wanted = self.shell('lab certify "$1" --program "$2"', design, support.program())
        self.assertEqual((ended.returncode, ended.stdout), (0, wanted.stdout))
        self.assertIn(b"says yes", wanted.stderr)
        ended = self.shell('lab certify "$1" --program "$2" -o out.txt 2>&- <&-', design, support.program())
        self.assertEqual((ended.returncode, (self.room / "out.txt").read_bytes()), (0, wanted.stdout))
        ended = self.shell('lab route "$1" --program "$2" 2>&-', support.example("half_adder"), support.program())
        self.assertEqual((ended.returncode, ended.stdout[:8]), (0, b"circuit\n"))
        for words in ("explain nothing.txt", "check nothing.txt", "fmt nothing.txt", "no_command", "check"):
            self.assertNotIn(b"Traceback", self.shell(f"lab {words} 2>&-").stdout, words)

    def test_full_help(self) -> None:
        """Help that could not be written is status 4, with a sentence."""
        for words in ("--help", "check --help", "--version"):
            ended = self.shell(f"lab {words} >/dev/full")
            self.assertEqual((ended.returncode, ended.stderr),
                             (4, b"bbmlab: standard output: No space left on device\n"), words)
            self.assertEqual(self.shell(f"lab {words} >&-").returncode, 4, words)
        self.assertEqual(self.shell("lab --help >out; lab --help | grep -c check").returncode, 0)

    def test_slow_reader(self) -> None:
        """A reader that is slower than the beat of signals gets all bytes, also if Python does not buffer output."""
        for command in ("view", "trace --json"):
            words = f'lab {command} "$1" --program "$2"'
            files = (support.example("machine_fredkin"), support.program())
            wanted = self.shell(words, *files).stdout
            self.assertGreater(len(wanted), 131072)
            ended = self.shell(f"{words} | (sleep 1.2; cat)", *files, PYTHONUNBUFFERED="1")
            self.assertEqual((len(ended.stdout), ended.stdout == wanted), (len(wanted), True), command)

    def test_names_forge_no_lines(self) -> None:
        """Control characters of names and of a program's messages reach no terminal, and make no line of a diagnosis.
        """
        name = self.room / "a\nforged.txt:1: error: \x1b[31mb.txt"
        for text in ("circuit\nsource 2 -> a\nend\n", support.text_of("wrong_edge")):
            name.write_text(text)
            ended = self.assert_ends(1, "explain", "--gcc", "--program", support.program(), str(name))
            for line in ended.stdout.splitlines():
                self.assertIn("a\\x0aforged.txt:1: error: \\x1b[31mb.txt:", line)
        for command in ("view", "trace"):
            bad = self.program("printf 'x\\033[31my' >&2; exit 9", "bad\x1b[32m")
            ended = support.lab(command, "--program", bad, support.example("gate_and_mirror"))
            self.assertIn("\\x1b[32m", ended.stderr)
            self.assertNotIn("\x1b", ended.stderr)


class Inputs(Room):
    """Files that are none, folders, and receipts of equal names."""

    def test_pipes(self) -> None:
        """A pipe to which nobody writes ends with the time limit; in a folder it is left out, with a sentence."""
        folder = self.room / "designs"
        folder.mkdir()
        os.mkfifo(folder / "x.txt")
        (folder / "y.txt").write_bytes(Path(support.example("gate_and_mirror")).read_bytes())
        started = time.monotonic()
        ended = support.lab("check", "--timeout", "1", "--program", support.program(), str(folder / "x.txt"),
                            seconds=30)
        self.assertEqual((ended.returncode, time.monotonic() - started < 20), (4, True))
        self.assertIn("the file did not end within 1 seconds", ended.stdout)
        self.assert_ends(0, "check", "--timeout", "1", "--receipts", str(self.room / "r"), "--program",
                         support.program(), str(folder), seconds=30,
                         err=f"bbmlab: {folder}/x.txt: this is no plain file, and is left out")
        ended = self.shell('cat "$1" | lab check --timeout 20 --program "$2" /dev/fd/0',
                           support.example("gate_and_mirror"), support.program())
        self.assertEqual(ended.returncode, 0, ended.stdout)

    def test_folders(self) -> None:
        """A folder's `.TXT` files are checked, and a link to a folder is named."""
        (self.room / "designs" / "deep").mkdir(parents=True)
        for name in ("a.TXT", "deep/b.txt", "deep/c.tXt", "d.text"):
            (self.room / "designs" / name).write_bytes(Path(support.example("gate_and_mirror")).read_bytes())
        (self.room / "designs" / "link").symlink_to(self.room / "designs" / "deep")
        ended = support.lab("check", "--program", support.program(), str(self.room / "designs"))
        self.assertEqual((ended.returncode, ended.stdout.splitlines()[-1]), (0, "3 files: 3 yes"))
        self.assertEqual(ended.stderr, f"bbmlab: {self.room}/designs/link: this link to a folder is left out; name it "
                         "to check its files\n")

    def test_an_empty_shard(self) -> None:
        """A part without files says yes to nothing."""
        parts = [json.loads(support.lab("check", "--format", "json", "--shard", f"{number}/9", "--program",
                                        support.program(), support.example("not_known")).stdout)
                 for number in range(1, 10)]
        self.assertEqual(sorted(len(part["results"]) for part in parts), [0] * 8 + [1])
        self.assertEqual([part["all_yes"] for part in parts], [False] * 9)

    def test_two_folders(self) -> None:
        """Files of one relative name in two folders have two receipts in one folder, and a file has one from wherever
        it is checked."""
        for place, name in (("a", "gate_and_mirror"), ("b", "wrong_edge")):
            (self.room / place).mkdir()
            (self.room / place / "x.txt").write_bytes(Path(support.example(name)).read_bytes())
        words = f"--program '{support.program()}' --receipts"
        self.assertEqual(self.shell(f"cd b; lab check {words} ../receipts x.txt").returncode, 1)
        self.assertEqual(self.shell(f"cd a; lab check {words} ../receipts x.txt").returncode, 0)
        self.assertEqual(sorted(path.name for path in (self.room / "receipts").iterdir()),
                         ["a%2Fx.txt.json", "b%2Fx.txt.json"])
        self.assertEqual(self.shell("lab summary receipts").returncode, 1)
        self.assertIn(b"held 2, checked 0", self.shell(f"lab check {words} receipts a b").stdout)


class Programs(Room):
    """Programs that do not answer what they are asked."""

    def test_report_of_another_text(self) -> None:
        """The report of another text is no answer: no command takes its yes, and there is no receipt of it."""
        good, wrong = support.example("gate_and_mirror"), support.example("wrong_edge")
        program = self.program("[ \"$1\" = check ] || exec \"$real\" \"$@\"\ncat >/dev/null; exec \"$real\" check "
                               f"<'{good}'")
        receipts = self.room / "receipts"
        self.assert_ends(4, "check", "--program", program, "--receipts", str(receipts), wrong, good,
                         out="gave the report of another text")
        self.assertEqual([path.name.endswith("gate_and_mirror.txt.json") for path in receipts.iterdir()], [True])
        for words in (["certify", support.example("not_gate")], ["route", support.example("half_adder")],
                      ["explain", wrong], ["explain", "--fix", wrong]):
            ended = self.assert_ends(4, *words, "--program", program)
            self.assertNotIn("says yes", ended.stderr)
        jobs = JobQueue(program, 20.0, 4096)
        self.addCleanup(jobs.close)
        told = jobs.answer_job("a", {"kind": "verdict", "text": support.text_of("not_gate"), "stage": "first",
                                     "earlier": ""})
        self.assertEqual(told["verdict"], "unknown", told)
        self.assertIn("another text", told["words"][0])

    def test_trace_with_other_programs(self) -> None:
        """What is no answer of `run` is told in a line, with status 4."""
        for output in ("cells x\\nfoo\\n", "cells 1\\nfoo\\n", "cells 2\\n1 2\\n", "", "cells 1\\n1 2",
                       "cells 99999999999999999999\\n"):
            program = self.program(f"cat >/dev/null; printf '{output}'")
            ended = self.assert_ends(4, "trace", "--program", program, support.example("gate_and_mirror"))
            self.assertEqual(len(ended.stderr.splitlines()), 1, ended.stderr)
            self.assertNotIn("Traceback", ended.stderr)

    def test_crashed_worker(self) -> None:
        """A process of the studio that a signal ended is told as such, and as no limit. The next one answers."""
        jobs = JobQueue(self.program(f"[ -e '{self.room}/once' ] || {{ touch '{self.room}/once'; kill -9 $PPID; }}\n"
                                     "exec \"$real\" \"$@\""), 20.0, 4096)
        self.addCleanup(jobs.close)
        job = {"kind": "verdict", "text": support.text_of("not_gate"), "stage": "first", "earlier": ""}
        self.assertEqual(jobs.answer_job("a", job),
                         {"error": "There is no answer: the lab's process was ended by SIGKILL."})
        self.assertEqual(jobs.answer_job("a", job)["verdict"], "yes")

    def test_hard_memory_limit(self) -> None:
        """Under a hard limit of the address space, below what the studio takes by itself, there are verdicts."""
        script = ("import sys; sys.path.insert(0, sys.argv[1]); from bbmlab_core.studio.jobs import JobQueue; jobs "
                  "= JobQueue(sys.argv[2], 20.0, 4096);"
                  "print(jobs.answer_job('a', {'kind': 'verdict', 'text': open(sys.argv[3]).read(), 'stage': 'first', "
                  "'earlier': ''}).get('verdict')); jobs.close()")
        limit = 2 << 30
        ended = subprocess.run([sys.executable, "-c", script, str(support.LAB), support.program(),
                                support.example("not_gate")], capture_output=True, text=True, check=False,
                               preexec_fn=lambda: resource.setrlimit(resource.RLIMIT_AS, (limit, limit)))
        self.assertEqual(ended.stdout, "yes\n", ended.stderr)


class Signals(Room):
    """A terminal that is closed, and other signals."""

    def setUp(self) -> None:
        """Makes a program that says that it was started, and does not answer."""
        super().setUp()
        self.mark = f"sleep 987652.{os.getpid()}"
        self.sleeper = self.program(f"[ \"$1\" = check ] || exec \"$real\" \"$@\"\n: >'{self.room}/started'\nexec "
                                    f"{self.mark}")

    def run_with(self, patch: str, *words: str) -> int:
        """Returns the status of the lab after a patch. In it, `hang_up` sends a signal to the thread that calls it when
        the program runs.

        The program must be gone then.
        """
        script = ("import os, signal, subprocess, sys, threading, time; sys.path.insert(0, sys.argv[1])\n"
                  "from bbmlab_core import cli\nfrom bbmlab_core.farm import checking\nfrom bbmlab_core.host import "
                  "program\n"
                  "def hang_up(number=signal.SIGHUP):\n"
                  f"    while not os.path.exists('{self.room}/started'): time.sleep(0.01)\n"
                  "    time.sleep(0.5)\n"
                  "    signal.pthread_kill(threading.get_ident(), number)\n"
                  f"{patch}\n"
                  "sys.exit(cli.main(sys.argv[2:]))\n")
        running = subprocess.Popen([sys.executable, "-c", script, str(support.LAB), *words, "--program", self.sleeper],
                                   stdout=subprocess.DEVNULL, stderr=subprocess.DEVNULL)
        try:
            status = running.wait(60)
            wait_for(lambda: self.mark not in processes())
        finally:
            running.kill()
            running.wait()
            for line in processes("pid,args").splitlines():
                if line.endswith(f" {self.mark}"):
                    os.kill(int(line.split()[0]), signal.SIGKILL)
        return status

    def test_hang_up(self) -> None:
        """After SIGHUP the program is gone too, for one text and for many."""
        for words in (["explain", support.example("wrong_edge")],
                      ["check", "--jobs", "2", support.example("wrong_edge"), support.example("full_adder")]):
            running = subprocess.Popen([sys.executable, LAB, *words, "--program", self.sleeper],
                                       stdout=subprocess.DEVNULL, stderr=subprocess.DEVNULL, start_new_session=True)
            wait_for(lambda: self.mark in processes())
            os.killpg(running.pid, signal.SIGHUP)
            self.assertEqual(running.wait(60), 129, words)
            wait_for(lambda: self.mark not in processes())

    def test_signal_just_before_a_call(self) -> None:
        """A signal that does not interrupt the system call in which the main thread waits is obeyed, as if it had come
        just before the call."""
        thread = "threading.Thread(target=hang_up, daemon=True).start()"
        self.assertEqual(self.run_with(thread, "explain", support.example("wrong_edge")), 129)
        worker = ("serve_checks = checking.serve_checks\n"
                  "def patched(*rest):\n"
                  "    threading.Thread(target=hang_up, args=(signal.SIGTERM,), daemon=True).start()\n"
                  "    serve_checks(*rest)\n"
                  "checking.serve_checks = patched")
        (self.room / "started").unlink()
        self.assertEqual(self.run_with(worker, "check", support.example("wrong_edge")), 4)

    def test_signal_at_the_start_of_a_program(self) -> None:
        """A signal that comes before the lab knows the number of the process that it started ends this one too."""
        start = ("start = subprocess.Popen._execute_child\n"
                 "def patched(*rest):\n"
                 "    start(*rest)\n"
                 "    hang_up()\n"
                 "subprocess.Popen._execute_child = patched")
        self.assertEqual(self.run_with(start, "explain", support.example("wrong_edge")), 129)

    def test_stop_while_a_program_starts(self) -> None:
        """A program that was starting when all were stopped is killed, and its caller hears that it was stopped."""
        running, start = RunningPrograms(), Executable.start
        started: list[subprocess.Popen[bytes]] = []

        def start_and_stop(program: Executable, *words: str) -> "subprocess.Popen[bytes]":
            started.append(start(program, *words))
            self.addCleanup(running.kill, started[0])
            running.kill_all()
            return started[0]

        with mock.patch.object(Executable, "start", start_and_stop), self.assertRaisesRegex(BadProgramError, "stopped"):
            running.start(open_program(self.sleeper), "check")
        self.assertEqual(started[0].returncode, -signal.SIGKILL)
        self.assertEqual(running.processes, set())

    def test_two_signals(self) -> None:
        """A second SIGHUP, as the shell sends it behind the kernel's, comes before the program is ended, and does not
        prevent that."""
        again = ("end = program.kill_session\n"
                 "def patched(process):\n"
                 "    hang_up()\n"
                 "    end(process)\n"
                 "program.kill_session = patched\n"
                 "threading.Thread(target=lambda: (hang_up(), os.kill(os.getpid(), signal.SIGHUP)), "
                 "daemon=True).start()")
        self.assertEqual(self.run_with(again, "explain", support.example("wrong_edge")), 129)


class Words(Room):
    """Sentences that say no more than was found out."""

    def test_live_rim(self) -> None:
        """A live rim is no fault of the certificate: no certificate gets a yes."""
        text = support.text_of("plain_rim").replace("use 1\nend", "use 1\nstop 0 p 4 4\nend")
        ended = support.lab("explain", "--program", support.program(), "-", text=text)
        self.assertNotIn("fault is in the certificate", ended.stdout)
        self.assertRegex(" ".join(ended.stdout.split()), r"the cell \(\d+, 0\) of the rim is live at time 1\. .* no "
                         r"certificate gets a yes before the layout is changed")
        outcome = DiagnosticRuns(support.read_document(text, "check")).whole_run_outcome
        self.assertEqual((outcome.correctness, outcome.is_rim_fault), (Tristate.NO, True))
        for name, wanted in (("gate_and_mirror", Tristate.YES), ("not_gate", None)):
            document = support.read_document(support.text_of(name), "check")
            if document.certificate and not document.refusal:
                self.assertEqual(DiagnosticRuns(document).whole_run_outcome.correctness, wanted, name)

    def test_table_of_a_netlist(self) -> None:
        """A `$lut` whose table has another number of bits than its inputs make is refused by its name."""
        for width, table, is_good in ((2, "0110", True), (2, "011", False), (2, "01100", False), (2, 6, True),
                                      (2, 16, False), (2, -1, False), (0, "1", True), (1, "0110", False)):
            netlist = {"modules": {"top": {"attributes": {"top": "1"}, "ports": {
                **{f"a{place}": {"direction": "input", "bits": [place + 2]} for place in range(width)},
                "y": {"direction": "output", "bits": [9]}},
                "cells": {"cell_7": {"type": "$lut", "parameters": {"WIDTH": width, "LUT": table},
                                     "port_directions": {"A": "input", "Y": "output"},
                                     "connections": {"A": [place + 2 for place in range(width)], "Y": [9]}}}}}}
            ended = self.assert_ends(0 if is_good else 1, "route", "--circuit-only", "-", text=json.dumps(netlist))
            if not is_good:
                self.assertIn("cell_7", ended.stderr)
