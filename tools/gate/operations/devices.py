"""Tests of the program at devices: folders, full and closed ones, and reads and writes that fail or are interrupted."""
import array
import fcntl
import os
import re
import signal
import subprocess
import tempfile
import termios
import time

from operations.common import TOP, Given, Skipped, holds, need, same, text_of


def ends_with(status, first, *words, stdin=subprocess.DEVNULL, stdout=subprocess.PIPE, start=(), **more):
    """Runs the program, and compares its status and the start of what it says on standard error."""
    ended = subprocess.run([*start, Given.program, *words], stdin=stdin, stdout=stdout, stderr=subprocess.PIPE,
                           timeout=60, **more)
    errors = ended.stderr.decode(errors="replace")
    same((ended.returncode, errors.startswith(first)), (status, True), f"{words} {errors!r}")
    return ended


def devices_faults(_):
    """Reads and writes that fail: status 4, the line of the fault on standard error, and nothing like an answer."""
    for folder in ("/", "/proc/self/fd"):
        reader = os.open(folder, os.O_RDONLY)
        same(ends_with(4, "bbmcheck: read fault", "check", stdin=reader).stdout, b"", "what was written")
        os.close(reader)
    with open("/dev/null", "wb") as only_written:
        ends_with(4, "bbmcheck: read fault", "check", stdin=only_written)
    with tempfile.TemporaryFile() as text:
        text.write(text_of("fredkin_gate"))
        for device, mode in (("/dev/full", "wb"), ("/dev/null", "rb")):
            text.seek(0)
            with open(device, mode) as to:
                ends_with(4, "bbmcheck: write fault", "check", stdin=text, stdout=to)
    for closed in ("<&-", ">&-"):
        script = (f'exec "$0" check {"<" + str(TOP / "examples" / "fredkin_gate.txt") if closed[0] == ">" else ""} '
                  f'{closed}')
        ended = subprocess.run(["sh", "-c", script, Given.program], stdout=subprocess.PIPE, stderr=subprocess.PIPE)
        same((ended.returncode, ended.stdout), (4, b""), f"{closed}: {ended.stderr}")
    # A pipe whose reader is gone: a fault, and no signal that a shell would take for another status.
    reader, writer = os.pipe()
    os.close(reader)
    ended = subprocess.run([Given.program, "check"], input=text_of("fredkin_gate"), stdout=writer,
                           stderr=subprocess.PIPE, restore_signals=True)
    holds(ended.returncode in (4, -signal.SIGPIPE), f"a closed pipe ends with {ended.returncode}")
    os.close(writer)


def devices_words(_):
    """Words that are no text are wrong words, and not a refused text."""
    for words in ([b"\xff"], [b"check", b"\xff"]):
        ended = subprocess.run([Given.program, *words], stdin=subprocess.DEVNULL, capture_output=True)
        same((ended.returncode, ended.stdout), (2, b""), f"{words} {ended.stderr}")
    # A refusal shows each control character of a word as an escape, so that a terminal does not obey it. Other letters
    # stay.
    shown = [("\x1b[31mred\a", r"\u{1b}[31mred\u{7}"), ("a\nverdict yes", r"a\nverdict yes"),
             ("\u009b1m\x7f\t", r"\u{9b}1m\u{7f}\t"), ("élan", "élan")]
    for words, at in ((["{}"], 0), (["check", "{}"], 1), (["help", "{}"], 1), (["check", "--{}"], 1)):
        for word, escaped in shown:
            ended = subprocess.run([Given.program, *(it.format(word) for it in words)], stdin=subprocess.DEVNULL,
                                   capture_output=True)
            errors = ended.stderr.decode()
            same((ended.returncode, ended.stdout, words[at].format(escaped) in errors), (2, b"", True),
                 f"{words} {word!r} {errors!r}")
            holds(all(it.isprintable() for it in errors.replace("\n", "")) and "\nverdict" not in errors,
                  f"{errors!r} has a control character")
    for number in ("four", "0", "65", "-1", "4\n", "99999999999999999999"):
        ended = ends_with(2, "error: '--workers <N>' takes a whole number from 1 to 64, for example '--workers 4'\n",
                          "check", f"--workers={number}")
        holds(b"Usage: bbmcheck check [--workers N] < BUNDLE\n" in ended.stderr, f"{ended.stderr}")


def devices_pieces(_):
    """A text that comes byte by byte, with stops between: SIGSTOP and SIGCONT while the program waits for it."""
    text = text_of("fredkin_gate")
    whole = subprocess.run([Given.program, "check"], input=text, capture_output=True)
    running = subprocess.Popen([Given.program, "check"], stdin=subprocess.PIPE, stdout=subprocess.PIPE,
                               stderr=subprocess.PIPE)
    for at in range(0, len(text), 7):
        running.stdin.write(text[at:at + 7])
        running.stdin.flush()
        if at % 140 == 0:
            running.send_signal(signal.SIGSTOP)
            running.send_signal(signal.SIGCONT)
    output, errors = running.communicate(timeout=60)
    same((running.returncode, output, errors), (whole.returncode, whole.stdout, b""))


def is_empty(pipe):
    """Whether all that was written to a pipe was read."""
    count = array.array("i", [0])
    fcntl.ioctl(pipe, termios.FIONREAD, count)
    return count[0] == 0


def result_in_pieces(command, pieces):
    """What the program does over a text in pieces, each of which it reads by itself."""
    running = subprocess.Popen([Given.program, command], stdin=subprocess.PIPE, stdout=subprocess.PIPE,
                               stderr=subprocess.PIPE)
    for piece in pieces:
        running.stdin.write(piece)
        running.stdin.flush()
        ends = time.monotonic() + 10
        while not is_empty(running.stdin):
            holds(time.monotonic() < ends, f"{command}: a piece was not read")
    output, errors = running.communicate(timeout=60)
    return running.returncode, output, errors


def devices_line_in_pieces(_):
    """The line `limits 2` and what comes behind it in pieces of 1 to 9 bytes, by which the program still knows the
    text's limits."""
    line, long = b"limits 2\n", b"x" * (16 << 20) + b"\n"
    wide = b"layout 514 2 0\nball 513 1\nend\nassign\nend\n"
    for size in range(1, 10):
        for begin, text, wanted in ((line, wide, (0, b"cells 1\n513 1\n", b"")),
                                    (b"limits 3\n", wide, (3, b"refused 1 1\n", b"")),
                                    (b"", wide, (3, b"refused 1 2\n", b"")), (line, line, (3, b"refused 2 1\n", b""))):
            whole = begin + text
            pieces = [whole[at:at + size] for at in range(0, len(whole), size)]
            same(result_in_pieces("run", pieces), wanted, f"{whole[:12]!r} in pieces of {size} bytes")
        # The line decides how long the text may be.
        pieces = [line[at:at + size] for at in range(0, len(line), size)]
        same(result_in_pieces("run", pieces + [long]), (3, b"refused 2 1\n", b""),
             f"a long text behind the line in pieces of {size} bytes")


def devices_interrupts(_):
    """A read or a write that a signal interrupts is tried again (by strace)."""
    need_strace()
    text = TOP / "examples" / "fredkin_gate.txt"
    for call, before, _count in calls_of("check", text):
        ended = injected(call, "EINTR", before + 1, "check", text)
        same((ended.returncode, ended.stdout.splitlines()[-1:]), (0, [b"verdict yes"]),
             f"an interrupted {call}: {ended.stderr}")


def devices_other_errors(_):
    """Any other error of the first, a middle or the last read or write ends with 4, and with no answer that looks whole
    (by strace)."""
    need_strace()
    small, large = TOP / "examples" / "fredkin_gate.txt", TOP / "conformance" / "data" / "trains_36_cut_v1.txt"
    for command, text in (("check", small), ("check", large), ("migrate", large)):
        whole = subprocess.run([Given.program, command], input=text.read_bytes(), capture_output=True).stdout
        for call, before, count in calls_of(command, text):
            for error in ("EIO", "ENOSPC", "EAGAIN"):
                for place in sorted({1, (count + 1) // 2, count}):
                    ended = injected(call, error, before + place, command, text)
                    what = f"{command}: {error} at {call} {place} of {count}: {ended.stdout[-80:]!r}, {ended.stderr!r}"
                    holds(ended.returncode == 4 and ended.stderr.startswith(f"bbmcheck: {call} fault".encode()), what)
                    holds(whole.startswith(ended.stdout) and len(ended.stdout) < len(whole)
                          and (call == "write" or not ended.stdout), what)


def devices_random_bytes(_):
    """The seed of the tables is drawn once. Without random bytes the answer is the same (by strace)."""
    need_strace()
    text = TOP / "examples" / "full_adder.txt"
    whole = subprocess.run([Given.program, "check"], input=text.read_bytes(), capture_output=True)
    with tempfile.NamedTemporaryFile("r") as log, open(text, "rb") as stdin:
        subprocess.run(["strace", "-f", "-e", "trace=getrandom", "-o", log.name, Given.program, "check"], stdin=stdin,
                       capture_output=True)
        drawn = [line for line in log if "GRND_NONBLOCK" not in line and "getrandom(" in line]
    same(len(drawn), 1, f"calls of getrandom: {drawn}")
    for error in ("ENOSYS", "EAGAIN", "EINTR:when=1", "EINTR:when=2"):
        with open(text, "rb") as stdin:
            start = ["strace", "-f", "-o", "/dev/null", "-e", f"inject=getrandom:error={error}"]
            ended = subprocess.run([*start, Given.program, "check"], stdin=stdin, capture_output=True, timeout=60)
        same((ended.returncode, ended.stdout), (whole.returncode, whole.stdout),
             f"getrandom with {error}: {ended.stderr}")


def need_strace():
    """Skips the test if strace is missing or cannot trace here."""
    need("strace")
    if subprocess.run(["strace", "-o", "/dev/null", "true"], capture_output=True).returncode:
        raise Skipped("strace does not work here")


def injected(call, error, place, command, text):
    """Runs the program on a file. The call of this name with this number, from 1, fails with the error."""
    start = ["strace", "-f", "-o", "/dev/null", "-e", f"inject={call}:error={error}:when={place}"]
    with open(text, "rb") as stdin:
        return subprocess.run([*start, Given.program, command], stdin=stdin, capture_output=True, timeout=60)


def calls_of(command, text):
    """Returns for reads and for writes: the name of the call, how many of the loader come before, and how many are of
    the program."""
    with tempfile.NamedTemporaryFile("r") as log, open(text, "rb") as stdin:
        subprocess.run(["strace", "-f", "-e", "trace=read,write", "-o", log.name, Given.program, command], stdin=stdin,
                       capture_output=True)
        made = [re.sub(r"^[0-9]+ +", "", line) for line in log]
    before = sum(line.startswith("read(") and not line.startswith("read(0,") for line in made)
    counts = [sum(line.startswith(start) for line in made) for start in ("read(0,", "write(1,")]
    holds(min(counts) >= 1, f"{command} {text} makes {counts} calls")
    return [("read", before, counts[0]), ("write", 0, counts[1])]
