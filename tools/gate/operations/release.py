"""Tests of the release: the MANIFEST, the archives and packages, and this checkout in an environment without the kit.
"""
import hashlib
import os
import re
import shutil
import subprocess
import sys
import tempfile
import time
from pathlib import Path

from operations.common import (FAST, MANIFEST, RELEASED, TOP, Skipped, copy_of_checkout, holds, in_namespace, need,
                               path_without, ran, same)

sys.path.insert(0, str(TOP / "tools" / "docs"))
import links  # noqa: E402


def release_manifest(_):
    """The MANIFEST is of these sources; a changed byte of a source or of the program makes it stale; the digest is as
    documented."""
    with tempfile.TemporaryDirectory(prefix="operations-") as room:
        top = copy_of_checkout(room)
        release = top / "tools" / "package" / "release"
        check = lambda: ran(release, "--check-sources")
        ended = check()
        same(ended.returncode, 0, ended.stderr)
        # The digest, made another way.
        names = subprocess.run([top / "tools" / "package" / "source_digest", "--crates"], stdout=subprocess.PIPE,
                               text=True, check=True).stdout.split()
        lines = []
        for line in (top / "crates.txt").read_text().splitlines():
            line = " ".join(line.partition("#")[0].split())
            if line and line.split()[0].rstrip(":") in names:
                lines.append(f"crate {line}".encode())
        for name in names:
            for part in ("src", "specs", "proofs"):
                for path in (top / "crates" / name / part).rglob("*"):
                    if path.is_file():
                        lines.append(
                            f"{hashlib.sha256(path.read_bytes()).hexdigest()}  {path.relative_to(top)}".encode())
        digest = hashlib.sha256(b"".join(it + b"\n" for it in sorted(lines))).hexdigest()
        holds(f"sources_sha256 {digest}\n" in (top / MANIFEST).read_text(), "the digest is another one")
        source = top / "crates" / "bbm_rule" / "src" / "lib.rt"
        was = source.read_bytes()
        source.write_bytes(was[:-1] + b" ")
        holds(check().returncode == 1, "a changed source is not seen")
        source.write_bytes(was)
        program = top / RELEASED
        bytes_of = program.read_bytes()
        program.write_bytes(bytes_of[:5000] + bytes([bytes_of[5000] ^ 1]) + bytes_of[5001:])
        holds(check().returncode == 1, "a changed program is not seen")
        program.write_bytes(bytes_of)
        same(check().returncode, 0, "as it was")
        same(ran(release, "--check").returncode, 70, "--check with nothing built")
        out = top / "crates" / "bbmcheck" / "out"
        out.mkdir()
        shutil.copy(program, out / "bbmcheck")
        shutil.copy(top / FAST, out / "bbmcheck-v3")
        same(ran(release, "--check").returncode, 0, "--check with the same program")
        shutil.copyfile(program, out / "bbmcheck")
        undated = lambda: re.sub("date .*", "", (top / MANIFEST).read_text())
        before = undated()
        ended = ran(release)
        same((ended.returncode, undated()), (0, before), f"a renewed MANIFEST {ended.stderr}")
        time.sleep(0.05)
        source.write_bytes(was[:-1] + b" ")
        os.utime(source, (1e9, 1e9))
        same((ran(release).returncode, undated()), (1, before),
             "a release of sources that changed after the build, with old times")
        source.write_bytes(was)
        (out / "bbmcheck").write_bytes(bytes_of + b"\n")
        same(ran(release, "--check").returncode, 1, "--check with another program")
        (out / "bbmcheck").write_bytes(bytes_of)
        (out / "bbmcheck-v3").write_bytes(bytes_of)
        same(ran(release, "--check").returncode, 1, "--check with another fast program")


def release_other_kit(_):
    """A kit of the release's logic may check its sources, whatever its name; a kit of another logic may not."""
    with tempfile.TemporaryDirectory(prefix="operations-") as room:
        top = copy_of_checkout(room)
        logic = re.search(r"^kit \S+ logic ([0-9a-f]+)$", (top / MANIFEST).read_text(), re.M)[1]
        rt = Path(room) / "kit" / "rt"
        rt.parent.mkdir()
        for named, status in ((f"rattle-kit-other logic {logic}", 0), (f"rattle-kit-other logic {logic[::-1]}", 1)):
            rt.write_text(f"#!/bin/sh\necho '{named}'\n")
            rt.chmod(0o755)
            environment = {**os.environ, "PATH": f"{rt.parent}:{os.environ['PATH']}"}
            ended = ran(top / "tools" / "package" / "release", "--check-sources", env=environment)
            same(ended.returncode, status, f"{named}: {ended.stderr}")


def release_older_sources(_):
    """In this checkout: a changed byte of a source, or an older commit with older times, does not run the released
    program."""
    with tempfile.TemporaryDirectory(prefix="operations-") as room:
        top = copy_of_checkout(room)
        environment = {**os.environ, "RATTLE_KIT": f"{room}/nothing", "PATH": path_without(room)}
        run = lambda: ran(top / "bbmcheck", "--version", env=environment, stdin=subprocess.DEVNULL)
        same(run().returncode, 0, "the release")
        time.sleep(2.1)
        same(run().returncode, 0, "the release, with a stamp")
        for name in ("crates/bbm_rule/src/lib.rt", "crates/check_main/specs", "crates/certificate/proofs"):
            path = top / name
            path = path if path.is_file() else next(it for it in sorted(path.rglob("*")) if it.is_file())
            was, times = path.read_bytes(), path.stat()
            path.write_bytes(was[:-1] + (b" " if was[-1:] != b" " else b"\n"))
            os.utime(path, ns=(times.st_atime_ns, times.st_mtime_ns))
            same((run().returncode, run().stdout), (70, ""), f"one byte of {name}")
            path.write_bytes(was)
            same(run().returncode, 0, f"{name} as it was")
        has_git = shutil.which("git") and (TOP / ".git").exists()
        commit = ran("git", "-C", TOP, "log", "-1", "--format=%H", "--skip=1", "--",
                     "crates").stdout.strip() if has_git else ""
        if not commit:
            raise Skipped("there is no older commit to check out")
        archive = subprocess.run(["git", "-C", TOP, "archive", commit, "crates", "crates.txt"], stdout=subprocess.PIPE,
                                 check=True).stdout
        shutil.rmtree(top / "crates")
        subprocess.run(["tar", "-C", top, "-x"], input=archive, check=True)
        subprocess.run(["find", top / "crates", top / "crates.txt", "-exec", "touch", "-d", "2001-01-01", "{}", "+"],
                       check=True)
        digest = ran(top / "tools" / "package" / "source_digest", check=True).stdout.strip()
        if digest in (top / MANIFEST).read_text():
            raise Skipped("the older commit has the same sources")
        same((run().returncode, run().stdout), (70, ""), "an older commit with older times")


def release_archives(_):
    """`make dist` gives the same bytes twice, in another folder and under another umask; what is in it runs and matches
    SHA256SUMS."""
    need("make", "tar", "gzip")
    with tempfile.TemporaryDirectory(prefix="operations-") as room:
        sums = []
        for name, umask in (("one", 0o022), ("another folder", 0o077), ("one", 0o002)):
            top = Path(room) / name
            if not top.exists():
                copy_of_checkout(room, name)
            ended = ran("make", "-s", "-C", top, "dist", umask=umask)
            same(ended.returncode, 0, ended.stderr)
            archive, = (top / "dist").glob("bbmcheck-*-x86_64-linux-gnu.tar.gz")
            sums.append(hashlib.sha256(archive.read_bytes()).hexdigest())
        same(len(set(sums)), 1, "archives")
        subprocess.run(["tar", "-C", room, "-xzf", archive], check=True)
        inside = Path(room) / archive.name.removesuffix(".tar.gz")
        subprocess.run(["sha256sum", "--quiet", "-c", "SHA256SUMS"], cwd=inside, check=True)
        same((inside / "bin" / "bbmcheck").read_bytes(), (TOP / RELEASED).read_bytes(), "the program")
        listed = {line.split("  ", 1)[1] for line in (inside / "SHA256SUMS").read_text().splitlines()}
        same(listed, {str(it.relative_to(inside)) for it in inside.rglob("*") if it.is_file()} - {"SHA256SUMS"},
             "SHA256SUMS")
        for name in ("LICENSE", "THIRD-PARTY.md", "FORMATS.md", "examples/fredkin_gate.txt"):
            holds((inside / "share" / "doc" / "bbmcheck" / name).exists(), f"{name} is missing")


def made_packages(room):
    """Makes both Debian packages twice, compares their bytes, and returns their paths by name."""
    sums = []
    for name in ("one", "two"):
        top = copy_of_checkout(room, name)
        ended = ran("make", "-s", "-C", top, "deb")
        same(ended.returncode, 0, ended.stderr)
        packages = {path.name.split("_")[0]: path for path in (top / "dist").glob("*.deb")}
        same(sorted(packages), ["bbmcheck", "bbmlab"], "packages")
        sums.append([hashlib.sha256(packages[package].read_bytes()).hexdigest() for package in sorted(packages)])
    same(sums[0], sums[1], "bytes of the packages")
    return packages


def empty_root(room):
    """Makes a folder in which dpkg installs, and returns it with the words of dpkg for it."""
    root = Path(room) / "root"
    for name in ("updates", "info", "triggers"):
        (root / "var/lib/dpkg" / name).mkdir(parents=True)
    for name in ("status", "available"):
        (root / "var/lib/dpkg" / name).write_text("")
    return root, ["dpkg", f"--root={root}", "--force-not-root,depends", "--no-triggers", f"--log={room}/log"]


def installed_lab_works(root):
    """Runs the lab of a root in an environment that names no program, and imports its package."""
    environment = {"PATH": "/usr/bin:/bin", "LANG": "C.UTF-8"}
    ended = ran(root / "usr/bin/bbmlab", "check", TOP / "examples" / "fredkin_gate.txt",
                TOP / "examples" / "wrong_edge.txt", env=environment)
    said = ended.stdout + ended.stderr
    same((ended.returncode, "2 files: 1 yes, 1 no" in said), (1, True), said)
    code = "import bbmlab, sys; print(bbmlab.check(open(sys.argv[1]).read()).verdict)"
    ended = ran("/usr/bin/python3", "-B", "-c", code, TOP / "examples" / "fredkin_gate.txt",
                env={**environment, "PYTHONPATH": str(root / "usr/lib/python3/dist-packages")})
    same((ended.returncode, ended.stdout), (0, "yes\n"), ended.stderr)
    for name in ("man/man1/bbmlab.1.gz", "doc/bbmcheck/LAB.md", "doc/bbmcheck/API.md", "doc/bbmlab/copyright"):
        holds((root / "usr/share" / name).exists(), f"{name} is missing")


def release_debian_packages(_):
    """The packages install, run and are removed, in a folder of its own; lintian finds no error; the same bytes twice.
    """
    need("make", "dpkg-deb", "dpkg")
    with tempfile.TemporaryDirectory(prefix="operations-") as room:
        packages, (root, dpkg) = made_packages(room), empty_root(room)
        environment = {**os.environ, "PATH": f"{os.environ['PATH']}:/usr/sbin:/sbin"}
        ended = ran(*dpkg, "-i", *packages.values(), env=environment)
        same(ended.returncode, 0, ended.stderr)
        same((root / "usr/bin/bbmcheck").read_bytes(), (TOP / RELEASED).read_bytes(), "the installed program")
        with open(TOP / "examples" / "fredkin_gate.txt", "rb") as text:
            ended = ran(root / "usr/bin/bbmcheck", "check", stdin=text)
        same((ended.returncode, ended.stdout.splitlines()[-1]), (0, "verdict yes"))
        needs = ran("dpkg-deb", "-f", packages["bbmlab"], "Depends").stdout
        holds(re.match(r"bbmcheck \(>= [\d.]+\), python3 ", needs), needs)
        installed_lab_works(root)
        same(links.dead_in_folder(root / "usr/share/doc"), [], "dead links")
        ended = ran(*dpkg, "-r", "bbmlab", "bbmcheck", env=environment)
        same(ended.returncode, 0, ended.stderr)
        same([it for it in root.rglob("usr/**/*") if it.is_file() or it.is_symlink()], [], "files after the removal")
        if shutil.which("lintian"):
            said = ran("lintian", *packages.values()).stdout
            same([it for it in said.splitlines() if it.startswith("E:")], [], "errors of lintian")
        else:
            print("try_operations: lintian SKIPPED: there is none")


def release_without_kit(_):
    """In a mount namespace without the kit:

    README's first command in less than a second, each command, `make install`, worked cases.
    """
    need("make")
    with tempfile.TemporaryDirectory(prefix="operations-") as room:
        top = copy_of_checkout(room)
        script = """
set -e
[ ! -d /opt/rattle ] || mount -t tmpfs none /opt/rattle
cd "$1"
! command -v rt >/dev/null || ! rt version >/dev/null 2>&1
began=$(date +%s%N)
./bbmcheck check <examples/fredkin_gate.txt | tail -n 1
echo $((($(date +%s%N) - began) / 1000000))
./bbmcheck run <examples/head_on.txt | tail -n 1
./bbmcheck value <examples/collision_values.txt | tail -n 1
./bbmcheck modules <examples/four_modules.txt | tail -n 1
./bbmcheck migrate <examples/four_modules.txt | cmp - examples/without_halos.txt
make -s install DESTDIR="$2" PREFIX=/usr
"$2/usr/bin/bbmcheck" --version | head -n 1
conformance/run.py ./bbmcheck --commands value | tail -n 1
lab/bbmlab certify --grid 6,6 examples/not_gate.txt | ./bbmcheck check | tail -n 1
"""
        environment = {**os.environ, "RATTLE_KIT": "/opt/rattle", "HOME": room, "PATH": path_without(room, "rt")}
        ended = in_namespace(["sh", "-c", script, "sh", str(top), f"{room}/root"], environment)
        same(ended.returncode, 0, ended.stdout + ended.stderr)
        lines = ended.stdout.splitlines()
        print(f"try_operations: the first command in a fresh checkout takes {lines[1]} ms")
        holds(int(lines[1]) < 1000, f"the first command took {lines[1]} ms")
        same((lines[0], lines[-1]), ("verdict yes", "verdict yes"), "verdicts")
        holds(re.fullmatch(r"\d+ held, 0 failed", lines[-2]), lines[-2])
