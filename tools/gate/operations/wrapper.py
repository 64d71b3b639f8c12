"""Tests of the wrapper ./bbmcheck: it never runs an outdated program, and each of its own failures ends with 70."""
import hashlib
import os
import pty
import random
import re
import shutil
import signal
import subprocess
import tempfile
import time
from pathlib import Path

from operations.common import (FAST, FAST_MANIFEST, MANIFEST, RELEASED, TOP, Given, holds, in_namespace, need,
                               path_without, same)

ROOM = "crates/bbmcheck/out/wrapper"
CRATES_TXT = "# Three crates and one of tests.\nlow: sha2\nmid: low\nbbmcheck may_wait=1: mid\ntests_only: low\n"
KIT_LINE = "rattle-kit-fake logic 0123456789abcdef"
# It reads the sources at its start, and builds a program that prints their digest. `pause`, `looks` and `fail` are
# files next to it. If there is a file `looks`, to which the sleep below adds a byte after each look of the wrapper, a
# crate takes until its byte number `until`.
FAKE_RT = r"""#!/bin/sh
kit=${0%/bin/rt}
top=../..
echo "$@" >>"$kit/calls"
all_sources() {
    (cd "$top" && LC_ALL=C find -L crates.txt crates/low/* crates/mid/* crates/bbmcheck/* \
        -name out -prune -o -type f -print | LC_ALL=C sort | xargs cat | sha256sum)
}
case $1 in
    version) cat "$kit/KIT-ID" ;;
    all)
        for crate in low mid bbmcheck; do
            rm -rf "$top/crates/$crate/out/rlib"; mkdir -p "$top/crates/$crate/out/rlib"
            [ ! -e "$kit/pause" ] || { echo $$ >"$kit/pid"; /bin/sleep "$(cat "$kit/pause")"; }
            [ ! -e "$kit/looks" ] || {
                echo $(($(wc -c <"$kit/looks") + 2)) >"$kit/until.new"; mv "$kit/until.new" "$kit/until"
                until [ "$(wc -c <"$kit/looks")" -ge "$(cat "$kit/until")" ]; do /bin/sleep 0.02; done
            }
            [ ! -e "$kit/fail" ] || { echo 'error: this is not proved'; exit 1; }
            echo done >"$top/crates/$crate/out/rlib/stamp"; echo "== $crate"
        done
        rm -f "$kit/until" ;;
    run)
        sum=$(all_sources); sum=${sum%% *}
        [ ! -e "$kit/during" ] || { sh "$kit/during"; rm -f "$kit/during"; }
        mkdir -p out; rm -f out/bbmcheck.stamp
        printf '#!/bin/sh\n' >out/bbmcheck; chmod +x out/bbmcheck
        [ ! -e "$kit/half" ] || { echo $$ >"$kit/pid"; /bin/sleep 30; }
        printf 'case $1 in --version) echo bbmcheck 1.0.0; exit ;; esac\n' >>out/bbmcheck
        printf 'echo built %s\necho "words $*"\nexit 3\n' "$sum" >>out/bbmcheck
        [ "$(all_sources)" = "$sum  -" ] || exit 0
        sum=$(sha256sum <out/bbmcheck); printf '%064d%s' 0 "${sum%% *}" >out/bbmcheck.stamp ;;
esac
"""
# The wrapper looks at rt each second: the tests do not wait so long. It does not look while rt goes from one crate to
# the next.
FAKE_SLEEP = r"""#!/bin/sh
kit=${0%/bin/sleep}
[ ! -e "$kit/looks" ] || printf . >>"$kit/looks"
while [ -e "$kit/until" ] && [ "$(wc -c <"$kit/looks")" -ge "$(cat "$kit/until" 2>/dev/null || echo 1000000)" ]; do
    /bin/sleep 0.02
done
exec /bin/sleep 0.05
"""


class Tree:
    """A small checkout with the wrapper, beside a kit that only copies."""

    def __init__(self, room, name="tree"):
        self.room, self.top = Path(room), Path(room) / name
        self.kit = self.room / "kit"
        for path in ("tools/package", "release/x86_64-linux-gnu", "release/x86_64-v3-linux-gnu"):
            (self.top / path).mkdir(parents=True)
        for path in ("bbmcheck", "tools/package/source_digest", "tools/package/find_kit", "tools/package/prove",
                     "tools/package/release"):
            shutil.copy(TOP / path, self.top / path)
        (self.top / "crates.txt").write_text(CRATES_TXT)
        for crate in ("low", "mid", "bbmcheck", "tests_only"):
            for part in ("src", "specs", "proofs/of_a_function"):
                (self.top / "crates" / crate / part).mkdir(parents=True)
                (self.top / "crates" / crate / part / f"File.{crate}").write_text(f"{crate} {part} 0\n")
        if not self.kit.exists():
            (self.kit / "bin").mkdir(parents=True)
            for name, text in (("rt", FAKE_RT), ("sleep", FAKE_SLEEP)):
                (self.kit / "bin" / name).write_text(text)
                (self.kit / "bin" / name).chmod(0o755)
            (self.kit / "KIT-ID").write_text(KIT_LINE + "\n")
        self.make_release()
        self.environment = {**os.environ, "RATTLE_KIT": str(self.room / "nothing"), "HOME": str(self.room / "home"),
                            "PATH": f"{self.kit}/bin:{os.environ['PATH']}"}
        self.environment.pop("XDG_CACHE_HOME", None)

    def file(self, name="crates/low/src/File.low"):
        return self.top / name

    def sum(self):
        """The digest of the sources, in the way of the fake rt."""
        files = [self.top / "crates.txt"]
        for crate in ("low", "mid", "bbmcheck"):
            for part in ("src", "specs", "proofs"):
                files += [Path(at) / name for at, _,
                          names in os.walk(self.top / "crates" / crate / part, followlinks=True) for name in names]
        files.sort(key=lambda it: os.fsencode(it.relative_to(self.top)))
        return hashlib.sha256(b"".join(it.read_bytes() for it in files)).hexdigest()

    def digest(self):
        return subprocess.run([self.top / "tools" / "package" / "source_digest"], stdout=subprocess.PIPE, text=True,
                              check=True).stdout.strip()

    def make_release(self, released=RELEASED, manifest=MANIFEST, first=""):
        """Writes a released program with its MANIFEST. Its name is told in its answer. `first` are its first commands.
        """
        name = "released" if released == RELEASED else "fast"
        text = (f"#!/bin/sh\n{first}case $1 in --version) echo bbmcheck 1.0.0; exit ;; esac\n"
                + f"echo {name} {self.sum()}\n" + 'echo "words $*"\nexit 3\n')
        self.file(released).write_text(text)
        self.file(released).chmod(0o755)
        program = hashlib.sha256(text.encode()).hexdigest()
        self.file(manifest).write_text(f"version 1.0.0\ndate 2026-01-01\nprogram_sha256 {program}\nsources_sha256 "
                                       f"{self.digest()}\nkit {KIT_LINE}\n")

    def run(self, *words, shell=None, path=None, cwd=None, **more):
        start = [*shell, str(self.file("bbmcheck"))] if shell else [path or str(self.file("bbmcheck"))]
        more = {"env": self.environment, "stdin": subprocess.DEVNULL, "capture_output": True, "text": True,
                "errors": "replace", "timeout": 60, **more}
        return subprocess.run([*start, *words], cwd=cwd or self.room, **more)

    def begin(self, *shell, **more):
        """Begins a check by the wrapper, whose output is piped, and returns its process."""
        more = {"stdout": subprocess.PIPE, "stderr": subprocess.PIPE, "text": True, **more}
        return subprocess.Popen([*shell, self.file("bbmcheck"), "check"], env=self.environment, cwd=self.room,
                                stdin=subprocess.DEVNULL, **more)

    def fails(self, what="", **more):
        """Asserts that a check ends with 70 and writes no answer, and returns what it says."""
        ended = self.run("check", **more)
        same((ended.returncode, ended.stdout), (70, ""), f"{what}{ended.stderr}")
        return ended.stderr

    def program(self, **more):
        """Which kind of program the wrapper runs, if it is made of the sources that are there now."""
        ended = self.run("check", **more)
        found = re.match(r"(released|fast|built) (\w+)\n", ended.stdout)
        if not found:
            return f"status {ended.returncode}: {ended.stdout}{ended.stderr}"
        same(ended.returncode, 3, "the status of the program")
        return found[1] if found[2] == self.sum() else f"an outdated program ({found[1]})"

    def program_after(self, text):
        """Writes a text in a source, and returns which kind of program the wrapper runs then."""
        self.file().write_text(text)
        return self.program()

    def calls(self, verb):
        calls = self.kit / "calls"
        return sum(line.startswith(verb) for line in calls.read_text().splitlines()) if calls.exists() else 0

    def left(self):
        """What the wrapper left beside its record and its program."""
        return sorted(set(os.listdir(self.file(ROOM))) - {"bbmcheck", "record", "lock", "log"})


def in_tree(test):
    def call(_):
        with tempfile.TemporaryDirectory(prefix="operations-") as room:
            os.chmod(room, 0o755)
            test(Tree(room))
    call.__name__ = test.__name__
    return call


# The wrapper: never an outdated program

@in_tree
def wrapper_edits(tree):
    """One byte, with the times as they were; a file more, a file less, another name; and back to the release."""
    same(tree.program(), "released")
    for change in range(3):
        file = tree.file(["crates/low/src/File.low", "crates/mid/proofs/of_a_function/File.mid",
                          "crates/bbmcheck/specs/File.bbmcheck"][change])
        was, times = file.read_bytes(), file.stat()
        file.write_bytes(was.replace(b"0", b"1"))
        os.utime(file, ns=(times.st_atime_ns, times.st_mtime_ns))
        same(tree.program(), "built", file.name)
        file.write_bytes(was)
        os.utime(file, ns=(times.st_atime_ns, times.st_mtime_ns))
        same(tree.program(), "released", f"{file.name}, as it was")
    more = tree.file("crates/low/src/more")
    more.write_text("more\n")
    same(tree.program(), "built", "a file more")
    more.rename(more.with_name("mere"))
    same(tree.program(), "built", "another name")
    calls = tree.calls("run")
    more.with_name("mere").unlink()
    same(tree.program(), "released", "a file less")
    same(tree.calls("run"), calls, "builds of the released sources")


@in_tree
def wrapper_older_checkout(tree):
    """A checkout of another commit with older times: by tar, cp -a, cp -p, rsync -a, touch -d, and a folder that is
    moved here."""
    other = Tree(tree.room, "other")
    other.file().write_text("low src 1\n")
    subprocess.run(["find", other.top, "-exec", "touch", "-h", "-d", "2020-01-01", "{}", "+"], check=True)
    crate = tree.file("crates/low")
    ways = {
        "tar x": f"tar -C '{other.top}' -c crates/low/src | tar -C '{tree.top}' -x",
        "cp -a": f"rm -rf '{crate}' && cp -a '{other.top}/crates/low' '{crate}'",
        "cp -p": f"cp -p '{other.file()}' '{tree.file()}'",
        "rsync -a": f"rsync -a '{other.top}/crates/low/' '{crate}/'",
        "mv": f"rm -rf '{crate}' && cp -a '{other.top}/crates/low' '{tree.room}/moved' && mv '{tree.room}/moved' "
        f"'{crate}'",
        "touch -r": f"cp '{other.file()}' '{tree.file()}' && touch -r '{other.file()}' '{tree.file()}'",
    }
    for name, way in ways.items():
        if name == "rsync -a" and not shutil.which("rsync"):
            print("try_operations: rsync SKIPPED: there is no rsync")
            continue
        subprocess.run(["sh", "-c", way], check=True)
        same(tree.program(), "built", name)
        same(tree.program_after("low src 0\n"), "released", f"after {name}")
        shutil.rmtree(tree.file(ROOM))


@in_tree
def wrapper_kept_program_of_older_sources(tree):
    """What was built here is never run for other sources, whatever its times are."""
    same(tree.program_after("low src 1\n"), "built")
    tree.file().write_text("low src 2\n")
    os.utime(tree.file(), (0, 0))
    os.utime(tree.file(f"{ROOM}/bbmcheck"), (4e9, 4e9))
    same(tree.program(), "built", "an edit with old times")
    for name in ("bbmcheck", "record"):
        tree.file(f"{ROOM}/{name}").write_text("#!/bin/sh\necho built nothing\n")
        same(tree.program(), "built", f"with another {name}")


@in_tree
def wrapper_release_of_others(tree):
    """A released program that is not of the MANIFEST, or a MANIFEST of other sources, does not count."""
    tree.file(RELEASED).write_text(tree.file(RELEASED).read_text().replace("released", "released 0"))
    same(tree.program(), "built", "another released program")
    shutil.rmtree(tree.file(ROOM))
    tree.make_release()
    same(tree.program(), "released")
    tree.file(MANIFEST).write_text(tree.file(MANIFEST).read_text().replace("sources_sha256 ", "sources_sha256 0"))
    same(tree.program(), "built", "another MANIFEST")


@in_tree
def wrapper_fast_release(tree):
    """The released program for x86-64-v3 is run if it is of these sources and runs here, and else the other one."""
    tree.make_release(FAST, FAST_MANIFEST)
    same(tree.program(), "fast")
    same(tree.run("--wrapper-program").stdout, f"{tree.file(FAST)}\n", "the path")
    tree.make_release(FAST, FAST_MANIFEST, first="exit 127\n")
    same(tree.program(), "released", "a fast program that does not run here")
    same(tree.run("check").stderr, "", "and nothing is said")
    tree.file(FAST).chmod(0o644)
    same(tree.program(), "released", "a fast program without permission")
    tree.make_release(FAST, FAST_MANIFEST)
    tree.file(FAST_MANIFEST).write_text(tree.file(FAST_MANIFEST).read_text().replace("sources_sha256 ",
                                                                                     "sources_sha256 0"))
    same(tree.program(), "released", "a fast program of other sources")
    tree.make_release(FAST, FAST_MANIFEST)
    tree.file(RELEASED).write_text("")
    same(tree.program(), "fast", "without the other one")


@in_tree
def wrapper_random_changes(tree):
    """Changes in any order, with old and new times, and calls between: each call runs what the sources then say."""
    draw = random.Random(Given.seed)
    files = [tree.file(f"crates/{crate}/{part}/File.{crate}") for crate in ("low", "mid", "bbmcheck")
             for part in ("src", "specs", "proofs/of_a_function")]
    for step in range(60):
        for _ in range(draw.randrange(1, 3)):
            file, kind = draw.choice(files), draw.randrange(6)
            if kind < 3:
                file.write_text(f"{draw.randrange(3)}\n")
                os.utime(file, (draw.choice([0, 1e9, 4e9]),) * 2)
            elif kind == 3:
                shutil.copytree(tree.file("crates"), tree.room / "copy", symlinks=True)
                shutil.rmtree(tree.file("crates"))
                (tree.room / "copy").rename(tree.file("crates"))
            elif kind == 4:
                subprocess.run([tree.kit / "bin" / "rt", "run"], cwd=tree.file("crates/bbmcheck"), check=True)
            elif draw.randrange(2):
                tree.make_release()
        for _ in range(draw.randrange(1, 3)):
            found = tree.program()
            holds(found in ("released", "built"), f"step {step}: {found}")


@in_tree
def wrapper_edit_during_proof(tree):
    """A source that changes while rt works: by hand, or for the wrapper, which proves once more."""
    tree.file().write_text("low src 1\n")
    edit = f"printf 'low src 2\\n' >'{tree.file()}'; touch -d 2001-01-01 '{tree.file()}'"
    (tree.kit / "during").write_text(edit)
    subprocess.run([tree.kit / "bin" / "rt", "run"], cwd=tree.file("crates/bbmcheck"), check=True)
    same(tree.program(), "built", "after an edit during rt by hand")
    tree.file().write_text("low src 3\n")
    (tree.kit / "during").write_text(edit)
    ended = tree.run("check")
    holds("a source changed during the proof: once more" in ended.stderr, ended.stderr)
    same(tree.program(), "built", "after an edit during the wrapper's proof")


@in_tree
def wrapper_other_rt(tree):
    """An rt on PATH that is another program (as Request Tracker's client) is told, and never builds."""
    other = tree.room / "other_bin"
    other.mkdir()
    (other / "rt").write_text("#!/bin/sh\nexit 0\n")
    (other / "rt").chmod(0o755)
    tree.environment["PATH"] = f"{other}:{os.environ['PATH']}"
    same(tree.program(), "released", "with no need of rt")
    tree.file().write_text("low src 1\n")
    for _ in range(2):
        said = tree.fails()
        holds(f"{other}/rt is not the rt of a Rattle kit" in said, said)
    tree.environment["RATTLE_KIT"] = str(tree.kit)
    same(tree.program(), "built", "with a kit behind it")


@in_tree
def wrapper_other_kit(tree):
    """With another kit what was built is proved again."""
    same(tree.program_after("low src 1\n"), "built")
    calls = tree.calls("run")
    same((tree.program(), tree.calls("run")), ("built", calls))
    (tree.kit / "KIT-ID").write_text(KIT_LINE.replace("fake", "fake2") + "\n")
    same((tree.program(), tree.calls("run")), ("built", calls + 1), "a kit that changed in its place")
    shutil.copytree(tree.kit, tree.room / "kit3")
    (tree.room / "kit3" / "KIT-ID").write_text(KIT_LINE.replace("fake", "fake3") + "\n")
    tree.environment["PATH"] = f"{tree.room}/kit3/bin:{os.environ['PATH']}"
    same(tree.program(), "built", "another rt on PATH")
    holds("fake3" in tree.file(f"{ROOM}/record").read_text(), "the record names the old kit")
    tree.environment["PATH"] = path_without(tree.room, "rt")
    tree.environment["RATTLE_KIT"] = str(tree.kit)
    same(tree.program(), "built", "the kit of RATTLE_KIT")
    holds("fake2" in tree.file(f"{ROOM}/record").read_text(), "the record names the kit of PATH")


@in_tree
def wrapper_moved_and_copied(tree):
    """A checkout that is moved or copied, with what the wrapper kept; and edits of the copy."""
    same(tree.program_after("low src 1\n"), "built")
    tree.top.rename(tree.room / "moved")
    tree.top = tree.room / "moved"
    calls = tree.calls("run")
    same(tree.program(), "built", "moved")
    shutil.copytree(tree.top, tree.room / "copy", symlinks=True)
    tree.top = tree.room / "copy"
    same((tree.program(), tree.calls("run")), ("built", calls), "copied")
    tree.file().write_text("low src 2\n")
    os.utime(tree.file(), (1e9, 1e9))
    same(tree.program(), "built", "copied and program_after")


@in_tree
def wrapper_times_in_the_future(tree):
    tree.file().write_text("low src 1\n")
    os.utime(tree.file(), (4e9, 4e9))
    same(tree.program(), "built")
    calls = tree.calls("run")
    for _ in range(2):
        same((tree.program(), tree.calls("run")), ("built", calls), "a source from the future")
    same(tree.program_after("low src 2\n"), "built", "after an edit")


@in_tree
def wrapper_what_counts(tree):
    """Test crates and comments of crates.txt do not count; a new dependency does."""
    calls = tree.calls("run")
    tree.file("crates/tests_only/src/File.tests_only").write_text("1\n")
    tree.file("crates.txt").write_text("# another comment\n" + CRATES_TXT.replace(": mid",
                                                                                  ":  mid # why").replace(
                                                                                      "tests_only: low",
                                                                                      "tests_only: mid"))
    ended = tree.run("check")
    same((ended.stdout[:9], tree.calls("run")), ("released ", calls), ended.stderr)
    tree.file("crates.txt").write_text(CRATES_TXT.replace("mid: low", "mid: low hex"))
    same(tree.program(), "built", "a new dependency")


# The wrapper: failures, signals, places

@in_tree
def wrapper_passes_on(tree):
    """Words, streams and the status are the program's."""
    words = ["a b", "", "*", "-n", "c\nd", "\\"]
    for _ in range(2):
        ended = tree.run(*words)
        same((ended.returncode, ended.stdout.partition("\n")[2], ended.stderr), (3, f"words {' '.join(words)}\n", ""))
    ended = tree.run("--wrapper-help")
    holds(ended.returncode == 0 and "the status is 70" in ended.stdout, "--wrapper-help does not mention status 70")


@in_tree
def wrapper_read_only(tree):
    """In a checkout of another user, which cannot be written, the release runs, and proving ends with 70."""
    if os.geteuid():
        subprocess.run(["chmod", "-R", "a-w", tree.top], check=True)
        drop = []
    else:
        need("setpriv")
        drop = ["setpriv", "--reuid=65534", "--regid=65534", "--clear-groups"]
    home = tree.room / "home"
    home.mkdir()
    home.chmod(0o777)
    try:
        same(tree.program(shell=[*drop, "sh"]), "released")
        same(list(home.iterdir()), [], "files in the home of the other user")
        if os.geteuid():
            return
        tree.file().write_text("low src 1\n")
        said = tree.fails(shell=[*drop, "sh"])
        holds("cannot be written" in said, said)
        holds(tree.program() == "built", "the owner cannot build")
        same(tree.program(shell=[*drop, "sh"]), "built", "what the owner built, for another user")
    finally:
        subprocess.run(["chmod", "-R", "u+w", tree.top], check=True)


def wait_for(fact, what, seconds=20):
    until = time.time() + seconds
    while not fact():
        holds(time.time() < until, what)
        time.sleep(0.05)


def is_alive(number):
    try:
        return Path(f"/proc/{number}/stat").read_text().rpartition(")")[2].split()[0] != "Z"
    except OSError:
        return False


def stopped_by(tree, number, shell=()):
    """Stops a wrapper while rt works, by the signal with this number."""
    (tree.kit / "pid").unlink(missing_ok=True)
    (tree.kit / "pause").write_text("30")
    # In a process group of its own, with no signal ignored, as a job in the background has SIGINT.
    heard = lambda: [signal.signal(it, signal.SIG_DFL) for it in (signal.SIGTERM, signal.SIGINT, signal.SIGHUP)]
    running = tree.begin(*shell, start_new_session=True, preexec_fn=heard)
    wait_for(lambda: (tree.kit / "pid").exists() and (tree.kit / "pid").read_text().strip(), "rt did not start")
    time.sleep(0.1)
    rt = int((tree.kit / "pid").read_text())
    running.send_signal(number)
    output, errors = running.communicate(timeout=20)
    (tree.kit / "pause").unlink()
    same((running.returncode, output), (-number, ""), f"{errors} how the wrapper ended")
    holds(not is_alive(rt), "rt goes on")
    same(tree.left(), [], "files that were left")
    subprocess.run(["pkill", "-KILL", "-s", str(running.pid)], check=False)


@in_tree
def wrapper_signals(tree):
    """SIGTERM, SIGINT and SIGHUP reach rt; the wrapper ends by the same signal and leaves no temporary file; the next
    call builds."""
    shells = [[], ["bash", "--posix"]] + ([["busybox", "sh"]] if shutil.which("busybox") else [])
    for shell in shells:
        for number in (signal.SIGTERM, signal.SIGINT, signal.SIGHUP):
            tree.file().write_text(f"low src {number} {shell}\n")
            stopped_by(tree, number, shell)
    same(tree.program(), "built", "after it was stopped")


@in_tree
def wrapper_killed(tree):
    """After SIGKILL in the middle of a build, what is half built is not run, and the next call builds."""
    tree.file().write_text("low src 1\n")
    (tree.kit / "half").write_text("")
    running = tree.begin(start_new_session=True)
    wait_for((tree.kit / "pid").exists, "rt did not start")
    os.killpg(running.pid, signal.SIGKILL)
    running.communicate()
    (tree.kit / "half").unlink()
    holds(tree.file("crates/bbmcheck/out/bbmcheck").exists(), "nothing is half built")
    environment, tree.environment = tree.environment, {**tree.environment, "PATH": path_without(tree.room, "rt")}
    same(tree.run("check").returncode, 70, "without a kit, after the kill")
    tree.environment = environment
    same(tree.program(), "built", "after the kill")
    same(tree.left(), [], "files that were left")


@in_tree
def wrapper_two_calls(tree):
    """Of calls at one time one proves, and the others wait for it."""
    need("flock")
    tree.file().write_text("low src 1\n")
    (tree.kit / "pause").write_text("0.3")
    running = [tree.begin() for _ in range(4)]
    same({it.communicate()[0] for it in running}, {f"built {tree.sum()}\nwords check\n"}, "what they wrote")
    same(tree.calls("run"), 1, "builds")
    # A call that waited holds no lock while its program runs: this one prints the files that it has open.
    rt = tree.kit / "bin" / "rt"
    rt.write_text(rt.read_text().replace('echo "words $*"', 'readlink /proc/self/fd/*'))
    tree.file().write_text("low src 2\n")
    for it in [tree.begin() for _ in range(2)]:
        output = it.communicate()[0]
        holds(output.startswith("built ") and "lock" not in output, f"open files: {output}")


@in_tree
def wrapper_progress(tree):
    """Plain lines elsewhere, one renewed line on a terminal, and the sum at the end."""
    tree.file().write_text("low src 1\n")
    (tree.kit / "looks").write_text("")
    told = tree.run("check").stderr.splitlines()
    wanted = ["proving low (1 of 3), 0 min so far", "proving mid (2 of 3), 0 min so far",
              "proving bbmcheck (3 of 3), 0 min so far"]
    same([it for it in told if "proving " in it and " of 3)" in it], [f"bbmcheck: {it}" for it in wanted])
    holds(re.fullmatch(r"bbmcheck: proved and built in \d+ min \d+ s", told[-1]), told[-1])
    tree.file().write_text("low src 2\n")
    own, terminal = pty.openpty()
    running = tree.begin(stdout=subprocess.DEVNULL, stderr=terminal)
    os.close(terminal)
    seen = b""
    while True:
        try:
            more = os.read(own, 4096)
        except OSError:
            break
        if not more:
            break
        seen += more
    os.close(own)
    running.wait()
    for it in wanted:
        holds(f"\rbbmcheck: {it}\x1b[K".encode() in seen, f"the terminal shows no `{it}`: {seen!r}")
    holds(seen.count(b"\n") == 2 and re.search(rb"\rbbmcheck: proved and built in \d+ min \d+ "
                                               rb"s\r\n$|\r\x1b\[Kbbmcheck: proved and built in \d+ min \d+ s\r\n$",
                                               seen),
          f"lines on the terminal: {seen!r}")


@in_tree
def wrapper_failed_proof(tree):
    """Where rt fails, the status is 70, with what it said; a later call tries again."""
    tree.file().write_text("low src 1\n")
    (tree.kit / "fail").write_text("")
    said = tree.fails()
    holds("error: this is not proved" in said and "the proof failed" in said, said)
    same(tree.left(), [], "files that were left")
    (tree.kit / "fail").unlink()
    same(tree.program(), "built")


@in_tree
def wrapper_without_kit(tree):
    """No kit: the release runs, other sources end with 70, and what was built here runs on."""
    same(tree.program_after("low src 1\n"), "built")
    tree.environment["PATH"] = path_without(tree.room, "rt")
    same(tree.program(), "built", "what was built, without the kit")
    tree.file().write_text("low src 2\n")
    said = tree.fails()
    holds("needs the Rattle kit" in said, said)
    same(tree.program_after("low src 0\n"), "released")


@in_tree
def wrapper_paths(tree):
    """Folders with odd names, a relative PATH, links, other working folders, and `sh bbmcheck`."""
    plain = tree.top
    for name in ("a b", "*", "?", "[x]", "a\\b", "a'b", 'a"b', "-n", "$HOME", "new\nline", "end\n", "%s", "ü", "a;b",
                 "(", "!", "#"):
        tree.top = tree.room / name
        plain.rename(tree.top)
        for words in ({}, {"cwd": tree.top, "path": "./bbmcheck"}, {"cwd": tree.top, "shell": ["sh"]},
                      {"cwd": tree.top / "crates", "path": "../bbmcheck"}):
            same(tree.program(**words), "released", f"in {name!r}")
        same(tree.program_after("low src 1\n"), "built", f"proved in {name!r}")
        same(tree.program_after("low src 0\n"), "released", f"again in {name!r}")
        shutil.rmtree(tree.file(ROOM))
        tree.top.rename(plain)
    tree.top = plain
    same(subprocess.run(["sh", "bbmcheck", "x"], cwd=tree.top, env=tree.environment, capture_output=True).returncode, 3,
         "sh bbmcheck")
    links = tree.room / "links"
    links.mkdir()
    (links / "bbmcheck").symlink_to(os.path.relpath(tree.file("bbmcheck"), links))
    (links / "again").symlink_to("bbmcheck")
    for name in ("bbmcheck", "again"):
        same(tree.program(path=str(links / name)), "released", "through a link")
    ended = subprocess.run(["again", "x"], env={**tree.environment, "PATH": f"{links}:{os.environ['PATH']}"},
                           capture_output=True)
    same(ended.returncode, 3, "through a link on PATH")
    tree.file().write_text("low src 1\n")
    tree.environment["PATH"] = f"kit/bin:{os.environ['PATH']}"
    same(tree.program(cwd=tree.room), "built", "by an rt of a relative PATH")
    same(tree.program(cwd=tree.room), "built", "again by an rt of a relative PATH")


@in_tree
def wrapper_links(tree):
    """`crates`, a crate or the whole checkout behind a link: right, also after an edit behind the link."""
    tree.file("crates").rename(tree.room / "elsewhere")
    tree.file("crates").symlink_to("../elsewhere")
    same(tree.program(), "released")
    (tree.room / "elsewhere/low/src/File.low").write_text("low src 1\n")
    os.utime(tree.room / "elsewhere/low/src/File.low", (1e9, 1e9))
    found = tree.program()
    holds(found == "built" or found.startswith("status 70"), found)
    (tree.room / "elsewhere/low/src/File.low").write_text("low src 0\n")
    (tree.room / "elsewhere/low").rename(tree.room / "low")
    (tree.room / "elsewhere/low").symlink_to("../low")
    same(tree.program(), "released", "a crate behind a link")
    (tree.room / "way").symlink_to(tree.top)
    same(tree.program(path=str(tree.room / "way" / "bbmcheck")), "released", "the checkout behind a link")
    target = tree.room / "target"
    target.write_text("1\n")
    tree.file("crates/mid/src/linked").symlink_to(target)
    same(tree.program(), "built", "a source behind a link")
    target.write_text("2\n")
    os.utime(target, (1e9, 1e9))
    same(tree.program(), "built", "an edit of a source behind a link")
    tree.file("crates/mid/src/File.mid").unlink()
    tree.file("crates/mid/src/File.mid").symlink_to("nothing")
    holds(tree.run("check").returncode in (3, 70), "a link to nothing")


@in_tree
def wrapper_missing_tools(tree):
    """Without a tool the wrapper does without it, or says which it is and ends with 70."""
    paths = tree.environment["PATH"]
    for tool in ("cmp", "flock", "nproc", "readlink", "cksum", "date", "mktemp", "tail", "find", "sha256sum", "awk",
                 "sort"):
        names = {"awk": ["awk", "gawk", "mawk"]}.get(tool, [tool])
        tree.environment["PATH"] = path_without(tree.room, *names)
        ended = tree.run("check")
        is_right = ended.returncode == 3 and ended.stdout.startswith(f"released {tree.sum()}")
        is_told = (ended.returncode, ended.stdout) == (70, "") and f"there is no {tool}" in ended.stderr
        holds(is_right or is_told and tool in ("find", "sha256sum", "awk", "sort"),
              f"without {tool}: {ended.returncode} {ended.stderr}")
    tree.environment["PATH"] = paths
    same(tree.program(), "released")


@in_tree
def wrapper_broken_checkout(tree):
    """Parts of the checkout that are missing end with 70 and a message."""
    for name in ("crates.txt", "tools/package/source_digest", "crates/mid/src"):
        path, aside = tree.file(name), tree.room / "aside"
        path.rename(aside)
        holds(tree.fails(f"without {name}: ").strip(), "no message")
        aside.rename(path)
    tree.file("crates.txt").write_text("low:\n")
    same(tree.run("check").returncode, 70, "crates.txt without bbmcheck")
    tree.file("crates.txt").write_text(CRATES_TXT)
    same(tree.program(), "released")
    tree.file(RELEASED).chmod(0o644)
    same(tree.program(), "built", "a released program without permission to run")


@in_tree
def wrapper_shells(tree):
    """dash, bash and busybox's sh, and a proof by each."""
    for shell in (["dash"], ["bash"], ["bash", "--posix"], ["busybox", "sh"]):
        if not shutil.which(shell[0]):
            print(f"try_operations: {shell[0]} SKIPPED: there is none")
            continue
        tree.file().write_text("low src 0\n")
        same(tree.program(shell=shell), "released", shell)
        tree.file().write_text(f"low src {shell}\n")
        same(tree.program(shell=shell), "built", shell)
        same(tree.program(shell=shell), "built", shell)


@in_tree
def wrapper_no_execution(tree):
    """On a file system without execution the status is 70."""
    script = (f"mount -t tmpfs -o noexec none '{tree.room}/mnt' && cp -a '{tree.top}/.' '{tree.room}/mnt' && sh "
              f"'{tree.room}/mnt/bbmcheck' check")
    (tree.room / "mnt").mkdir()
    tree.environment["PATH"] = os.environ["PATH"]
    ended = in_namespace(["sh", "-c", script], tree.environment)
    same((ended.returncode, ended.stdout), (70, ""), ended.stderr)
