"""Tests of limits: the stack, the size of a file, the memory, and a seccomp filter with the system calls of
docs/OPERATING.md.
"""
import re
import resource
import signal
import subprocess
import sys
import tempfile
from pathlib import Path

from operations.common import TOP, Given, Skipped, holds, need, same, text_of


def limits_statuses(_):
    """Statuses outside 0 to 5, as docs/OPERATING.md has them; help ends with 0, and has no verdict."""
    text = tempfile.TemporaryFile()
    text.write(text_of("fredkin_gate"))

    def ended(limit, *words):
        text.seek(0)
        return subprocess.run([Given.program, *words], stdin=text, capture_output=True, preexec_fn=limit)

    def set_limit(kind, number):
        return lambda: resource.setrlimit(kind, (number, number))

    resource.setrlimit(resource.RLIMIT_CORE, (0, resource.getrlimit(resource.RLIMIT_CORE)[1]))
    same(ended(set_limit(resource.RLIMIT_STACK, 1 << 20), "check").returncode, 0, "a stack of 1 MiB")
    same(ended(set_limit(resource.RLIMIT_STACK, 64 << 10), "check").returncode, 0, "a stack of 64 KiB")
    same(ended(set_limit(resource.RLIMIT_STACK, 12 << 10), "check").returncode, -signal.SIGSEGV, "a stack of 12 KiB")
    with tempfile.TemporaryFile() as to:
        text.seek(0)
        ran = subprocess.run([Given.program, "check"], stdin=text, stdout=to, stderr=subprocess.PIPE,
                             preexec_fn=set_limit(resource.RLIMIT_FSIZE, 1))
        same(ran.returncode, -signal.SIGXFSZ, "a file of 1 byte")
    ran = subprocess.run([Given.program, "check"], input=b"x" * (12 << 20), capture_output=True,
                         preexec_fn=set_limit(resource.RLIMIT_AS, 8 << 20))
    same((ran.returncode, ran.stdout), (5, b""), "an address space of 8 MiB")
    for words in (["--help"], ["check", "--help"], ["help", "check"], ["--version"]):
        ran = ended(None, *words)
        holds(ran.returncode == 0 and b"\nverdict yes" not in ran.stdout, f"{words}")
    for words in (["check", "--workers", "0"], ["chek"], []):
        same(ended(None, *words).returncode, 2, f"{words}")
    with tempfile.TemporaryDirectory() as room:
        # A program whose loader is missing is not found, and one that wants a later C library ends with 1: its answer
        # decides, not its status.
        other = Path(room) / "other"
        bytes_of = Path(Given.program).read_bytes()
        other.write_bytes(bytes_of.replace(b"/lib64/ld-linux-x86-64.so.2", b"/lib64/ld-linux-x86-64.so.9"))
        other.chmod(0o755)
        same(subprocess.run(["sh", "-c", '"$0" check', other], stdin=subprocess.DEVNULL,
                            capture_output=True).returncode, 127, "no loader")


# For each text of bench/make_hostile.py how many MiB `check` may take of it at most. bench/README.md lists what was
# measured. Each text has 16 MiB, and takes more than this if it is held while the modules are run.
MOST_MEMORY = {"most_edges": 78, "most_stops": 40}


# Linux counts to the largest resident size of a process also that of its parent when it was started, so a small parent
# starts it.
SMALL_PARENT = """
import os, sys
quiet = [(os.POSIX_SPAWN_OPEN, 1, os.devnull, os.O_WRONLY, 0)]
number = os.posix_spawn(sys.argv[1], sys.argv[1:], os.environ, file_actions=quiet)
_, status, used = os.wait4(number, 0)
print(used.ru_maxrss, os.waitstatus_to_exitcode(status))
"""


def memory_of(words, text):
    """The largest resident size in MiB, and the status."""
    ran = subprocess.run([sys.executable, "-c", SMALL_PARENT, Given.program, *words], stdin=text,
                         stdout=subprocess.PIPE, check=True)
    taken, status = map(int, ran.stdout.split())
    return taken / 1024, status


def limits_memory(_):
    """`check` lets the text go before it runs the modules."""
    for kind, most in MOST_MEMORY.items():
        with tempfile.TemporaryFile() as text:
            subprocess.run([sys.executable, TOP / "bench" / "make_hostile.py", kind], stdout=text, check=True)
            holds(text.tell() > 16 * 1000 * 1000, f"{kind} is short")
            text.seek(0)
            taken, status = memory_of(["check"], text)
            holds(status in (0, 1), f"{kind} ended with {status}")
            holds(taken < most, f"{kind}: {taken:.1f} MiB, and not less than {most}")


def calls_in_operating():
    """The system calls that the unit of systemd in docs/OPERATING.md allows."""
    page = (TOP / "docs" / "OPERATING.md").read_text()
    found = re.findall(r"^SystemCallFilter=(.*)$", page, re.MULTILINE)
    holds(found, "docs/OPERATING.md has no list of system calls")
    return " ".join(found).split()


SANDBOX = r"""
#include <errno.h>
#include <linux/audit.h>
#include <linux/filter.h>
#include <linux/seccomp.h>
#include <stddef.h>
#include <stdio.h>
#include <sys/prctl.h>
#include <sys/syscall.h>
#include <unistd.h>
static const int allowed[] = { CALLS };
#define COUNT (sizeof allowed / sizeof allowed[0])
int main(int count, char **words)
{
    static struct sock_filter code[2 * COUNT + 8];
    int at = 0;
    code[at++] = (struct sock_filter)BPF_STMT(BPF_LD | BPF_W | BPF_ABS, offsetof(struct seccomp_data, arch));
    code[at++] = (struct sock_filter)BPF_JUMP(BPF_JMP | BPF_JEQ | BPF_K, AUDIT_ARCH_X86_64, 1, 0);
    code[at++] = (struct sock_filter)BPF_STMT(BPF_RET | BPF_K, SECCOMP_RET_KILL_PROCESS);
    code[at++] = (struct sock_filter)BPF_STMT(BPF_LD | BPF_W | BPF_ABS, offsetof(struct seccomp_data, nr));
    for (size_t each = 0; each < COUNT; each++) {
        code[at++] = (struct sock_filter)BPF_JUMP(BPF_JMP | BPF_JEQ | BPF_K, allowed[each], 0, 1);
        code[at++] = (struct sock_filter)BPF_STMT(BPF_RET | BPF_K, SECCOMP_RET_ALLOW);
    }
    code[at++] = (struct sock_filter)BPF_STMT(BPF_RET | BPF_K, SECCOMP_RET_KILL_PROCESS);
    struct sock_fprog program = { .len = at, .filter = code };
    if (count < 2 || prctl(PR_SET_NO_NEW_PRIVS, 1, 0, 0, 0) || prctl(PR_SET_SECCOMP, SECCOMP_MODE_FILTER, &program)) {
        perror("sandbox");
        return 70;
    }
    execv(words[1], words + 1);
    perror(words[1]);
    return 70;
}
"""


def limits_sandbox(_):
    """Under a seccomp filter with the calls of docs/OPERATING.md every command works; without one of them some do not.
    """
    need("cc")
    calls = calls_in_operating()

    def make(room, names):
        source = Path(room) / "sandbox.c"
        source.write_text(SANDBOX.replace("CALLS", ", ".join(f"SYS_{it}" for it in names)))
        made = subprocess.run(["cc", "-O1", "-o", f"{room}/sandbox", source], capture_output=True, text=True)
        if made.returncode:
            if re.search(r"linux/(seccomp|filter|audit)\.h", made.stderr):
                raise Skipped("the headers of the kernel are missing")
            raise AssertionError(made.stderr)
        return f"{room}/sandbox"

    def run_all(sandbox):
        """Each command, workers, help, refusals and faults: the statuses in the sandbox and out of it."""
        big = text_of("full_adder")
        tries = [(["check"], text_of("fredkin_gate")), (["check", "--workers", "8"], big),
                 (["check", "--workers", "64"], text_of("four_modules")),
                 (["run"], text_of("head_on")), (["value"], text_of("collision_values")), (["modules"], big),
                 (["migrate"], big),
                 (["--help"], b""), (["--version"], b""), (["chek"], b""), (["check"], b"x" * (1 << 20)),
                 (["check"], b"x" * ((16 << 20) + 2))]
        found = []
        for words, text in tries:
            ran = [subprocess.run([*start, Given.program, *words], input=text, capture_output=True)
                   for start in ([sandbox], [])]
            found.append(ran[0].returncode == ran[1].returncode and ran[0].stdout == ran[1].stdout
                         and ran[0].stderr == ran[1].stderr)
        return all(found)

    with tempfile.TemporaryDirectory(prefix="operations-") as room:
        sandbox = make(room, calls)
        probe = subprocess.run([sandbox, "/bin/true"], capture_output=True)
        if probe.returncode == 70:
            raise Skipped(f"a seccomp filter cannot be set here: {probe.stderr.decode().strip()}")
        holds(run_all(sandbox), "a command behaves in another way in the sandbox")
        # The filter does its work: without a call that each run makes, it ends the program.
        for without in ("write", "clone3"):
            if without in calls:
                holds(not run_all(make(room, [it for it in calls if it != without])),
                      f"without {without} all is the same")
