#!/usr/bin/env python3
"""Runs `recode` with index texts that no one publishes, the longest of 2^24 bytes and one.

    python3 tools/gate/hostile_indexes.py

The program is the one that `rt ci` or `rt run` has left in its `out/`. For each text the status, the output and the log
must be those given here, which name the file and the line that is at fault. The time is printed and not judged: a run
is ended after PATIENCE seconds, in which a time that grows with the square of such a length would not fit.
"""

import os
import resource
import subprocess
import sys
import tempfile

from steps import TOP, main

PROGRAM = os.path.join(TOP, "crates/recode_cli/out/recode_cli")
GREATEST = 2**24
# No run takes longer, in seconds.
PATIENCE = 60

SINGLE = "windows-1252"
RANGES = "gb18030-ranges"

# An accepted text, in which the byte 80 is a euro sign and no other byte from 80 is a character.
EURO = (1, "€\ufffd".encode(), b"bad 1 1\n")
# One that maps nothing.
NOTHING = (1, "\ufffd\ufffd".encode(), b"bad 0 1\nbad 1 1\n")


def fault(kind, line, name=SINGLE):
    return (3, b"", b"recode: index-%s.txt: line %d: %s\n" % (name.encode(), line, kind.encode()))


def too_long(name=SINGLE):
    said = "recode: index-%s.txt: missing\nrecode: FOLDER/index-%s.txt: longer than %d bytes; " % (name, name, GREATEST)
    return (3, b"", (said + "set --indexes to the folder of the index files\n").encode())


def filled(start, filling, end=b""):
    """A text of the greatest length, with whole fillings alone between start and end, and spaces before the end."""
    count = (GREATEST - len(start) - len(end)) // len(filling)
    text = start + filling * count
    return text + b" " * (GREATEST - len(text) - len(end)) + end


def long_texts():
    """Texts of the greatest length, or one byte more, and what they give."""
    row = b"0\t0x20AC"
    yield "comments of 2^24 bytes", SINGLE, filled(row + b"\n", b"#\n"), EURO
    yield "comments of 2^24 bytes and one", SINGLE, filled(row + b"\n", b"#\n") + b"\n", too_long()
    yield "one line of letters", SINGLE, filled(b"", b"x"), fault("Row", 1)
    yield "one line of digits", SINGLE, filled(b"", b"1"), fault("Row", 1)
    yield "one line of hexadecimal digits", SINGLE, filled(b"0\t0x", b"0"), fault("Row", 1)
    yield "one line of comment", SINGLE, filled(b"#", b"x"), NOTHING
    yield "one row with a long end", SINGLE, filled(row + b"\t", b"x"), EURO
    yield "one row behind spaces", SINGLE, filled(b"", b" ", row), EURO
    yield "one line of spaces", SINGLE, filled(b"", b" "), NOTHING
    yield "empty lines", SINGLE, filled(b"", b"\n"), NOTHING
    yield "empty lines that end in CR LF", SINGLE, filled(b"", b"\r\n"), NOTHING
    yield "lines of a blank", SINGLE, filled(b"", b"\t\n"), NOTHING
    yield "a fault behind 2^23 - 1 lines", SINGLE, filled(b"", b"#\n", b"x\n"), fault("Row", 2**23)
    yield "NUL bytes", SINGLE, filled(b"", b"\0"), fault("Row", 1)
    yield "lines of a NUL byte", SINGLE, filled(row + b"\n", b"\0\n"), fault("Row", 2)
    yield "CR alone", SINGLE, filled(b"", b"\r"), fault("Row", 1)
    yield "marks alone", SINGLE, filled(b"", b"\xef\xbb\xbf"), fault("Row", 1)
    rows = b"".join(b"%d\t0x%04X\n" % (189000 + row, 0x10000 + row) for row in range(1048576))
    yield "a row for each pointer", RANGES, rows, EURO
    yield "and one more", RANGES, rows + b"1237576\t0x110000\n", fault("Pointer", 1048577, RANGES)
    yield "and the first again", RANGES, rows + b"189000\t0x10000\n", fault("Order", 1048577, RANGES)


def short_texts():
    row = b"0\t0x20AC\n"
    yield "a mark before", SINGLE, b"\xef\xbb\xbf" + row, EURO
    yield "two marks before", SINGLE, b"\xef\xbb\xbf" * 2 + row, fault("Row", 1)
    yield "a mark behind the first line", SINGLE, b"#\n\xef\xbb\xbf" + row, fault("Row", 2)
    yield "a mark in a row", SINGLE, b"0\xef\xbb\xbf\t0x20AC\n", fault("Row", 1)
    yield "a mark behind a row's tab", SINGLE, b"0\t0x20AC\t\xef\xbb\xbf\n", EURO
    yield "a NUL byte behind a row", SINGLE, b"0\t0x20AC\0\n", fault("Row", 1)
    yield "a NUL byte behind a row's tab", SINGLE, b"0\t0x20AC\t\0\n", EURO
    yield "a NUL byte as a line", SINGLE, row + b"\n\0\n", fault("Row", 3)
    yield "CR between rows", SINGLE, b"0\t0x20AC\r1\t0x0081\r", fault("Row", 1)
    yield "CR at the end", SINGLE, b"0\t0x20AC\r", fault("Row", 1)
    yield "the rows in reverse order", SINGLE, b"".join(b"%d\t0x0100\n" % n for n in range(127, -1, -1)), fault("Order", 2)
    yield "the last row is the first again", SINGLE, b"".join(b"%d\t0x0100\n" % (n % 128) for n in range(129)), fault(
        "Order", 129
    )


def numbers():
    """Numbers of 1 to 40 digits."""
    for count in range(1, 41):
        zeros, nines = b"0" * count, b"9" * count
        is_pointer = count <= 7
        yield "a pointer of %d zeros" % count, SINGLE, b"#\n" + zeros + b"\t0x20AC\n", EURO if is_pointer else fault("Row", 2)
        wanted = fault("Row", 2) if not is_pointer else NOTHING if count < 3 else fault("Pointer", 2)
        yield "a pointer of %d nines" % count, SINGLE, b"#\n" + nines + b"\t0x20AD\n", wanted
        code = b"20AC".rjust(count, b"0")[-count:]
        wanted = EURO if 4 <= count <= 6 else fault("Row", 2)
        yield "a code point of %d digits" % count, SINGLE, b"#\n0\t0x" + code + b"\n", wanted
    for count in range(4, 7):
        yield "a code point of %d zeros" % count, SINGLE, b"0\t0x" + b"0" * count + b"\n", fault("Row", 1)


def run(folder, name):
    """Status, standard output and standard error of a conversion that needs this index, and the processor time."""
    encoding = "gb18030" if name == RANGES else name
    before = resource.getrusage(resource.RUSAGE_CHILDREN)
    words = [PROGRAM, "--from", encoding, "--to", "utf-8", "--indexes", folder]
    ran = subprocess.run(words, input=b"\x80\xff", capture_output=True, env={}, timeout=PATIENCE)
    after = resource.getrusage(resource.RUSAGE_CHILDREN)
    seconds = after.ru_utime + after.ru_stime - before.ru_utime - before.ru_stime
    return (ran.returncode, ran.stdout, ran.stderr), seconds


def faults():
    """What the program did wrong."""
    if not os.path.isfile(PROGRAM):
        return ["%s was not built" % os.path.relpath(PROGRAM, TOP)]
    wrong, longest, count = [], 0, 0
    with tempfile.TemporaryDirectory() as folder:
        with open(os.path.join(folder, "index-gb18030.txt"), "wb"):
            pass
        for texts in (short_texts(), numbers(), long_texts()):
            for what, name, text, wanted in texts:
                with open(os.path.join(folder, "index-%s.txt" % name), "wb") as file:
                    file.write(text)
                ended, seconds = run(folder, name)
                longest, count = max(longest, seconds), count + 1
                status, out, log = ended
                if (status, out, log.replace(folder.encode(), b"FOLDER")) != wanted:
                    wrong.append("%s: status %d, %r, %r" % (what, status, out[:80], log[:200]))
    print("%d index texts that no one publishes: the longest run took %.2f seconds" % (count, longest))
    return wrong


if __name__ == "__main__":
    sys.exit(main(faults()))
