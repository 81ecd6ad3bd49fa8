#!/usr/bin/env python3
"""Runs `recode` as a process, on streams that fail, wait, end too soon or do not end.

    python3 tools/gate/hostile_streams.py

The program is the one that `rt ci` or `rt run` has left in its `out/`. A case is a command line with its standard input,
output and error. What must come of it, status, output and standard error, is what the man page says. The
gate leaves out the input of 4 GiB, and waits no second before each byte of the slow one. It prints a line for each case;
the status is 1 if one failed.
"""

import os
import select
import shlex
import signal
import subprocess
import sys
import tempfile
import time

from steps import TOP, main

PROGRAM = os.path.join(TOP, "crates/recode_cli/out/recode_cli")
INDEXES = os.path.join(TOP, "indexes")

UTF_8 = ["--from", "utf-8", "--to", "utf-8"]
FROM_JAPANESE = ["--from", "shift_jis", "--to", "utf-8", "--indexes", INDEXES]

WRITE_FAULT = b"recode: write fault\n"
MALFORMED = b"\xef\xbf\xbd"

# The reasons of the system.
CLOSED = "Bad file descriptor (os error 9)"
FULL = "No space left on device (os error 28)"
IS_FOLDER = "Is a directory (os error 21)"
WOULD_WAIT = "Resource temporarily unavailable (os error 11)"


def read_fault(reason):
    return ("recode: read fault\nrecode: standard input: %s\n" % reason).encode()


def write_fault(reason):
    return WRITE_FAULT + ("recode: standard output: %s\n" % reason).encode()


# No case takes longer, in seconds, but for that of 4 GiB.
PATIENCE = 30

wrong = []


def check(name, got, want):
    print("ok  " if got == want else "FAIL", name)
    if got != want:
        wrong.append(f"{name}: got {got!r}, want {want!r}")


def shell(script, words, given=b""):
    """Status, output and standard error of a shell's command, in which "$@" is the program with its words."""
    command = ["bash", "-c", script, "bash", PROGRAM, *words]
    ran = subprocess.run(command, input=given, capture_output=True, timeout=PATIENCE, check=False)
    return ran.returncode, ran.stdout, ran.stderr


def start(words, **streams):
    """The program, with pipes for the streams that are not named."""
    pipes = {"stdin": subprocess.PIPE, "stdout": subprocess.PIPE, "stderr": subprocess.PIPE}
    return subprocess.Popen([PROGRAM, *words], bufsize=0, **(pipes | streams))


def broken_streams():
    """Streams that are closed, full, or no streams at all."""
    good, bad = b"abc", b"a\xffb"
    check("closed output", shell('"$@" >&-', UTF_8, good), (4, b"", write_fault(CLOSED)))
    check("full output", shell('"$@" >/dev/full', UTF_8, good), (4, b"", write_fault(FULL)))
    check("closed output, with an index file", shell('"$@" >&-', FROM_JAPANESE, good), (4, b"", write_fault(CLOSED)))
    unknown = b"recode: unknown label x\nrecode: --from: no encoding has this label; recode --list prints all labels\n"
    check("closed output, status 2", shell('"$@" >&-', ["--from", "x", "--to", "x"]), (2, b"", unknown))
    for words in ["--help", "--version", "--list"]:
        check(f"full output of {words}", shell('"$@" >/dev/full', [words]), (0, b"", b""))
    for name, target in [("closed", "&-"), ("full", "/dev/full")]:
        check(f"{name} log that has no lines", shell(f'"$@" 2>{target}', UTF_8, good), (0, good, b""))
        check(f"{name} log", shell(f'"$@" 2>{target}', UTF_8, bad), (4, b"a", b""))
        check(f"{name} log, status 2", shell(f'"$@" 2>{target}', ["--from", "x", "--to", "x"]), (2, b"", b""))
        check(f"{name} log and output", shell(f'"$@" >{target} 2>{target}', UTF_8, good), (4, b"", b""))
    check("closed log, status 3", shell('"$@" 2>&-', FROM_JAPANESE[:4]), (3, b"", b""))
    check("closed input", shell('"$@" <&-', UTF_8), (4, b"", read_fault(CLOSED)))
    check("closed input, with an index file", shell('"$@" <&-', FROM_JAPANESE), (4, b"", read_fault(CLOSED)))
    check("a folder as input", shell('"$@" </', UTF_8), (4, b"", read_fault(IS_FOLDER)))
    check("a log before a fault", shell('"$@" >/dev/full', UTF_8, b"\xffa"), (4, b"", b"bad 0 1\n" + write_fault(FULL)))
    read, write = os.pipe()
    os.set_blocking(read, False)
    waiting = start(UTF_8, stdin=read)
    out, error = waiting.communicate(timeout=PATIENCE)
    check("an input that would wait", (waiting.returncode, out, error), (4, b"", read_fault(WOULD_WAIT)))
    os.close(read)
    os.close(write)


def one_file():
    """An output that is the input file: it is refused, and the file stays as the shell left it."""
    refused = (2, b"", b"recode: standard output is the input file\n")
    with tempfile.TemporaryDirectory() as folder:
        path, link, other = (os.path.join(folder, name) for name in ("file", "link", "other"))
        os.symlink("file", link)
        # The file is not filled without end by a program that does not look.
        bounded = "ulimit -f 1000; cd " + shlex.quote(folder) + "; "
        for script, left in [('<file >>file', b"abc"), ('<file 1<>file', b"abc"), ('<link >>file', b"abc"), ('<file >file', b"")]:
            with open(path, "wb") as file:
                file.write(b"abc")
            got = shell(bounded + '"$@" ' + script, UTF_8)
            with open(path, "rb") as file:
                check(f"one file, {script}", (got, file.read()), (refused, left))
        with open(path, "wb") as file:
            file.write(b"abc")
        check("two files", shell(bounded + '"$@" <file >other; cat other', UTF_8), (0, b"abc", b""))
        check("one file, no conversion", shell(bounded + '"$@" <file >>file; cat file', ["--version"]), (0, b"abcrecode 0.1.0\n", b""))
        check("one device", shell('"$@" </dev/null >/dev/null', UTF_8), (0, b"", b""))


def slow_reader(delay):
    """A byte at a time: what ends three bytes before the end of what was read comes before more is read."""
    out, log = b"a" + MALFORMED + b"bcde", b"bad 1 1\n"
    # What must be written and logged after each byte of the input.
    least = [(0, 0), (0, 0), (0, 0), (1, 0), (4, 8), (5, 8)]
    slow = start(UTF_8)
    written, logged, late = b"", b"", []
    for stream in slow.stdout, slow.stderr:
        os.set_blocking(stream.fileno(), False)
    for byte, (bytes_out, bytes_logged) in zip(b"a\xffbcde", least):
        slow.stdin.write(bytes([byte]))
        time.sleep(delay)
        end = time.monotonic() + PATIENCE
        while len(written) < bytes_out or len(logged) < bytes_logged:
            select.select([slow.stdout, slow.stderr], [], [], 1)
            written += slow.stdout.read() or b""
            logged += slow.stderr.read() or b""
            if time.monotonic() > end:
                late.append((written, logged))
                break
    for stream in slow.stdout, slow.stderr:
        os.set_blocking(stream.fileno(), True)
    last, line = slow.communicate(timeout=PATIENCE)
    check("a byte at a time", (slow.returncode, written + last, logged + line, late), (1, out, log, []))


def gone_consumers():
    """A consumer that ends before the output or the log does."""
    for name, action in [("as it is by default", signal.SIG_DFL), ("ignored", signal.SIG_IGN)]:
        script = '"$@" </dev/zero | head -c 10; exit ${PIPESTATUS[0]}'
        old = signal.signal(signal.SIGPIPE, action)
        command = ["bash", "-c", script, "bash", PROGRAM, *UTF_8]
        ran = subprocess.run(command, capture_output=True, timeout=PATIENCE, check=False, restore_signals=False)
        signal.signal(signal.SIGPIPE, old)
        got = (ran.returncode, ran.stdout, ran.stderr)
        check(f"head -c 10, SIGPIPE {name}", got, (4, bytes(10), WRITE_FAULT))
    log_ends = start(UTF_8, stdout=subprocess.DEVNULL, stdin=subprocess.PIPE)
    log_ends.stderr.close()
    log_ends.stdin.write(b"a\xff")
    log_ends.stdin.close()
    check("a log that nobody reads", log_ends.wait(timeout=PATIENCE), 4)


# The most memory in bytes that a run may take, and by how much it may grow after its first 64 MiB of input.
MOST_RESIDENT = 16 << 20
MOST_GROWTH = 64 << 10


def resident(process):
    with open(f"/proc/{process.pid}/statm", encoding="ascii") as file:
        return int(file.read().split()[1]) * os.sysconf("SC_PAGE_SIZE")


def long_input(size):
    """So many zeros through pipes: all come out, and memory stays what it is."""
    began = time.time()
    zeros = subprocess.Popen(["head", "-c", str(size), "/dev/zero"], stdout=subprocess.PIPE)
    ran = start(UTF_8, stdin=zeros.stdout)
    zeros.stdout.close()
    count, first, most, is_zero, nothing = 0, None, 0, True, bytes(1 << 16)
    while part := os.read(ran.stdout.fileno(), 1 << 16):
        is_zero &= part == nothing[: len(part)]
        if count >> 24 != (count + len(part)) >> 24:
            most = max(most, resident(ran))
            if first is None and count >= 64 << 20:
                first = most
        count += len(part)
    error = ran.stderr.read()
    status = ran.wait()
    zeros.wait()
    growth = most - (first or most)
    print(f"     {size >> 20} MiB in {time.time() - began:.1f} s, {most >> 10} KiB resident, {growth} bytes of growth")
    is_small = most <= MOST_RESIDENT and growth <= MOST_GROWTH
    check(f"{size >> 20} MiB of zeros", (status, count, is_zero, error, is_small), (0, size, True, b"", True))


def faults(is_whole=False):
    """What was wrong, with a line for each case."""
    if not os.path.isfile(PROGRAM):
        return ["%s was not built" % os.path.relpath(PROGRAM, TOP)]
    broken_streams()
    one_file()
    gone_consumers()
    slow_reader(1 if is_whole else 0)
    long_input(256 << 20)
    if is_whole:
        long_input(4 << 30)
    return wrong


if __name__ == "__main__":
    sys.exit(main(faults(is_whole=True)))
