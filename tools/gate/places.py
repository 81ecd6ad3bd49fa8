#!/usr/bin/env python3
"""Runs `recode` and then `recode-places` on its log, and compares what that prints with a plain program.

    python3 tools/gate/places.py

The programs are those that `rt ci` or `rt run` has left in their `out/`. What must be reported of an input is worked out from
its pieces (`plain_recode.py`), one by one: no log, no chunk and no ring of cells. Files are made by Python's own codecs,
and random ones as `fuzz.py` makes them; of a few the whole output is written out here, by hand.
"""

import os
import random
import subprocess
import sys
import tempfile
import unicodedata

sys.dont_write_bytecode = True

from steps import TOP, main

import fuzz
import plain_recode
import refused_memory
import standard
from plain_recode import Job

RECODE = os.path.join(TOP, "crates/recode_cli/out/recode_cli")
PLACES = os.path.join(TOP, "crates/recode_places_cli/out/recode_places_cli")
NAMES = {RECODE: "recode", PLACES: "recode-places"}
INDEXES = os.path.join(TOP, "indexes")

# No run takes longer, in seconds.
PATIENCE = 30

# How much of a line is shown before a place and from it on.
BEFORE, BEHIND = 48, 24

# Shown by number: what Unicode says a display may ignore (Default_Ignorable_Code_Point), separators of lines and
# paragraphs, and marks of annotations. Controls are, too.
UNSEEN = {0xAD, 0x34F, 0x61C, 0x115F, 0x1160, 0x17B4, 0x17B5, 0x3164, 0xFEFF, 0xFFA0}
for first, last in [
    (0x180B, 0x180F),
    (0x200B, 0x200F),
    (0x2028, 0x202E),
    (0x2060, 0x206F),
    (0xFE00, 0xFE0F),
    (0xFFF0, 0xFFFB),
    (0x1BCA0, 0x1BCA3),
    (0x1D173, 0x1D17A),
    (0xE0000, 0xE0FFF),
]:
    UNSEEN |= set(range(first, last + 1))


def is_unseen(point):
    return point < 0x20 or 0x7F <= point < 0xA0 or point in UNSEEN


def shown(point):
    """A character as it stands in a line."""
    if point == 9:
        return " "
    return "<U+%04X>" % point if is_unseen(point) else chr(point)


def named(point):
    return "U+%04X" % point + ("" if is_unseen(point) else " " + chr(point))


def width(text):
    """How many columns a text takes, or None if a character is not as plain as those here."""
    columns = 0
    for character in text:
        wide = unicodedata.east_asian_width(character) in "WF"
        if not (wide and "\u3000" < character < "\ua000" or "\x20" <= character < "\x7f" or character == "…"):
            return None
        columns += 2 if wide else 1
    return columns


class Place:
    """A place: where it is, what is lost there, the cells of its line, and which of them are its own."""

    def __init__(self, line, column, words, row, cell, cells):
        self.line, self.column, self.words, self.row, self.cell, self.cells = line, column, words, row, cell, cells

    def head(self, name):
        return "%s:%d:%d: %s" % (name, self.line, self.column, self.words)

    def context(self):
        """The line of text, and the line of the caret, or None if that takes more than a plain width."""
        row, cell = self.row, self.cell
        before = ("…" if cell > BEFORE else "") + "".join(row[max(cell - BEFORE, 0) : cell])
        own, behind = "".join(row[cell : cell + self.cells]), "".join(row[cell + self.cells : cell + BEHIND])
        text = "  %d | " % self.line + before + own + behind + ("…" if len(row) > cell + BEHIND else "")
        blank, caret = width(before), width(own)
        if blank is None or caret is None:
            return text, None
        return text, "  %s | " % (" " * len(str(self.line))) + " " * blank + "^" * caret


class Target:
    """What becomes of a character in an encoding."""

    def __init__(self, encodings, name):
        self.encoding, self.name = encodings[name], encodings[name].output
        self.output, self.words_of = encodings[self.name], {}

    def words(self, point):
        """The words if it is lost, those if it is written as another, or twice None."""
        if point not in self.words_of:
            self.words_of[point] = self.find(point)
        return self.words_of[point]

    def find(self, point):
        encoder = self.encoding.encoder()
        items = [*encoder.handle(point), *encoder.finish()]
        if any(item >= standard.UNMAPPABLE for item in items):
            return "%s has no bytes in %s" % (named(point), self.name), None
        back = standard.decode(self.output.decoder(), bytes(items))
        if back == [([point], None)]:
            return None, None
        if len(back) == 1 and len(back[0][0]) == 1:
            return None, "%s is written as %s in %s" % (named(point), named(back[0][0][0]), self.name)
        return None, "%s is written as bytes of another text in %s" % (named(point), self.name)


def places(encodings, job, data, folds=False):
    """The places of an input, as its pieces have them."""
    found, parts = plain_recode.pieces(encodings, job, data)
    target, told, row, line, column = Target(encodings, job.target), [], [], 1, 1
    for start, end, characters in parts:
        if characters is None:
            held = data[start:end]
            words = "byte" + "s" * (len(held) > 1) + "".join(" %02X" % byte for byte in held)
            told.append(Place(line, column, "%s in no character of %s" % (words, found), row, len(row), len(held)))
            row += ["<%02X>" % byte for byte in held]
            column += 1
        for point in characters or ():
            lost, folded = target.words(point)
            words = lost or (folded if folds else None)
            if words:
                told.append(Place(line, column, words, row, len(row), 1))
            if point == 10:
                if row and row[-1] == shown(13):
                    row.pop()
                row, line, column = [], line + 1, 1
            else:
                row.append(shown(point))
                column += 1
    return told


def run(program, words, given=b""):
    """Status, standard output and standard error of a program, by the name that it is installed by."""
    command, streams = [NAMES[program], *words], {"input": given, "capture_output": True}
    ran = subprocess.run(command, executable=program, timeout=PATIENCE, check=False, **streams)
    return ran.returncode, ran.stdout, ran.stderr


class Trial:
    """A file that is converted, and what is reported of it."""

    def __init__(self, folder, name, job, data, indexes=INDEXES):
        self.folder, self.name, self.job, self.data = folder, name, job, data
        self.path = os.path.join(folder, name)
        self.words = ["--from", job.source, "--to", job.target, "--mark", job.mark, "--indexes", indexes]
        with open(self.path, "wb") as file:
            file.write(data)
        self.status, self.output, self.log = run(RECODE, [*self.words, "--unmappable", job.policy], data)

    def told(self, *more, log=None):
        """Status, lines and standard error of `recode-places`."""
        given = self.log if log is None else log
        status, out, error = run(PLACES, [*self.words, *more, self.path], given)
        return status, out.decode().splitlines(), error.decode()

    def differences(self, what, found, right):
        if found != right:
            yield "%s, %s: %r and not %r" % (self.name, what, found, right)

    def compared(self, what, right, found):
        """Compares what was reported with the places that there are."""
        status, lines, error = found
        yield from self.differences(what, (status, error), (1 if right else 0, ""))
        yield from self.differences(what, len(lines), 3 * len(right))
        for number, place in enumerate(right):
            text, caret = place.context()
            has = lines[3 * number : 3 * number + 3]
            wanted = [place.head(self.path), text, caret if caret or len(has) < 3 else has[2]]
            yield from self.differences(what, has, wanted)


# Files whose whole output is written out: the words, the bytes, and what is printed after the name of the file.
WRITTEN = [
    (
        ["--from", "utf-8", "--to", "windows-1252"],
        "id,name,city\n1,José,Kraków\n2,café,日本\n3,x ß€,„Ω“\n".encode(),
        """:3:8: U+65E5 日 has no bytes in windows-1252
  3 | 2,café,日本
    |        ^^
:3:9: U+672C 本 has no bytes in windows-1252
  3 | 2,café,日本
    |          ^^
:4:9: U+03A9 Ω has no bytes in windows-1252
  4 | 3,x ß€,„Ω“
    |         ^
""",
    ),
    (
        ["--from", "shift_jis", "--to", "utf-8"],
        "〜波線\r\n壊れた".encode("shift_jis") + b"\xffx\x81\r\n\xa0",
        """:2:4: byte FF in no character of Shift_JIS
  2 | 壊れた<FF>x<81>
    |       ^^^^
:2:6: byte 81 in no character of Shift_JIS
  2 | 壊れた<FF>x<81>
    |            ^^^^
:3:1: byte A0 in no character of Shift_JIS
  3 | <A0>
    | ^^^^
""",
    ),
    (
        ["--from", "utf-8", "--to", "utf-8"],
        b"one\nlast\xe2\x82",
        ":2:5: bytes E2 82 in no character of UTF-8\n  2 | last<E2><82>\n    |     ^^^^^^^^\n",
    ),
    (
        ["--from", "utf-8", "--to", "windows-1252"],
        "\ufeffab\n".encode("utf-16-le") + b"\x00\xd8" + "c".encode("utf-16-le"),
        ":2:1: bytes 00 D8 in no character of UTF-16LE\n  2 | <00><D8>c\n    | ^^^^^^^^\n",
    ),
    (
        ["--from", "utf-8", "--to", "windows-1252"],
        "a\tb\u202e日c\r\ne\u0301f\r\n\u061c\rd".encode(),
        """:1:4: U+202E has no bytes in windows-1252
  1 | a b<U+202E>日c
    |    ^^^^^^^^
:1:5: U+65E5 日 has no bytes in windows-1252
  1 | a b<U+202E>日c
    |            ^^
:2:2: U+0301 \u0301 has no bytes in windows-1252
  2 | e\u0301f
    | ^
:3:1: U+061C has no bytes in windows-1252
  3 | <U+061C><U+000D>d
    | ^^^^^^^^
""",
    ),
    (
        ["--from", "utf-8", "--to", "shift_jis"],
        "a\u00adb\ufe0fc\u3164\n".encode(),
        """:1:2: U+00AD has no bytes in Shift_JIS
  1 | a<U+00AD>b<U+FE0F>c<U+3164>
    |  ^^^^^^^^
:1:4: U+FE0F has no bytes in Shift_JIS
  1 | a<U+00AD>b<U+FE0F>c<U+3164>
    |           ^^^^^^^^
:1:6: U+3164 has no bytes in Shift_JIS
  1 | a<U+00AD>b<U+FE0F>c<U+3164>
    |                    ^^^^^^^^
""",
    ),
    (
        ["--from", "utf-8", "--to", "windows-1252"],
        ("x" * 60 + "日" + "y" * 40 + "\n").encode(),
        ":1:61: U+65E5 日 has no bytes in windows-1252\n  1 | …%s日%s…\n    | %s^^\n" % ("x" * 48, "y" * 23, " " * 49),
    ),
    (
        ["--from", "utf-8", "--to", "shift_jis", "--folds"],
        "¥1 ‾ −\n".encode(),
        """:1:1: U+00A5 ¥ is written as U+005C \\ in Shift_JIS
  1 | ¥1 ‾ −
    | ^
:1:4: U+203E ‾ is written as U+007E ~ in Shift_JIS
  1 | ¥1 ‾ −
    |    ^
:1:6: U+2212 − is written as U+FF0D － in Shift_JIS
  1 | ¥1 ‾ −
    |      ^
""",
    ),
]

# Logs that are not of the input `LOST`, and the line that is refused.
LOST = "ab日\nc日\n".encode() + b"\xffd"
WRONG_LOGS = [
    (b"lost 1 26085\n", 1),
    (b"lost 2 26086\n", 1),
    (b"lost 2 26085\nlost 4 26085\n", 2),
    (b"lost 2 26085\nbad 7 1\n", 2),
    (b"bad 11 2\n", 1),
    (b"lost 5 26085\nlost 2 26085\n", 2),
    (b"lost 2 26085\nlost 2 26085\n", 2),
    (b"lost 2 26085\nlost 9 26085\n", 2),
    (b"bad 11 1\nlost 7 65533\nbad 12 1\n", 3),
    (b"lost 2 26085\n\n", 2),
    (b"lost 2  26085\n", 1),
    (b"hello\n", 1),
    (b"x" * 5000, 1),
]

# What a log may end with.
ENDS = [b"", b"lost 5 2608", b"lo", b"recode:"]

# Messages that end a log, and what is shown of them.
MESSAGES = [
    (b"recode: write fault\n", "recode: write fault\n"),
    (b"recode: read fault\nrecode: Is a directory\n", "recode: read fault\nrecode: Is a directory\n"),
    (b"recode: unknown label \x1b[1mx\xc2\x9b\n", "recode: unknown label <U+001B>[1mx<U+009B>\n"),
    (b"error: unexpected argument 'x' found\n\nUsage: ..\n", "error: unexpected argument 'x' found\n\nUsage: ..\n"),
    (b"error: \xff", "error: \n"),
    (b"error: " + b"x" * 5000, "error: " + "x" * 4089 + "\n"),
]

TRY_HELP = "\n\nFor more information, try '--help'.\n"
USAGE = "\n\nUsage: recode-places [OPTIONS] --from <LABEL> --to <LABEL> <INPUT> < LOG" + TRY_HELP
UTF_8 = ["--from", "utf-8", "--to", "utf-8"]

# Words, status and standard error of runs that report nothing; `INPUT` is a file with the byte FF.
REFUSALS = [
    (UTF_8, 2, "error: the following required arguments were not provided:\n  <INPUT>" + USAGE),
    (UTF_8 + ["INPUT", "INPUT"], 2, "error: unexpected argument 'INPUT' found" + USAGE),
    (
        UTF_8 + ["INPUT", "--mark", "none"],
        2,
        "error: invalid value 'none' for '--mark <MODE>'\n  [possible values: sniff, remove, keep]" + USAGE,
    ),
    (
        UTF_8 + ["INPUT", "--most", "+1"],
        2,
        "error: invalid value '+1' for '--most <N>'\n  [possible values: 0 to 18446744073709551615, in decimal digits]"
        + USAGE,
    ),
    (["--from", "x", "--to", "utf-8", "INPUT"], 2, "recode-places: unknown label x\n"),
    (["--from", "utf-8", "--to", "utf-9", "INPUT"], 2, "recode-places: unknown label utf-9\n"),
    ([b"\xff"], 2, "recode-places: a word is not UTF-8\n"),
    (UTF_8 + ["/dev/none"], 3, "recode-places: /dev/none: missing\n"),
    (["--from", "gbk", "--to", "utf-8", "INPUT"], 3, "recode-places: index-gb18030.txt: missing\n"),
    (["--from", "utf-8", "--to", "big5", "--no-log", "INPUT"], 3, "recode-places: index-big5.txt: missing\n"),
    (["--from", "utf-8", "--to", "big5", "--folds", "INPUT"], 3, "recode-places: index-big5.txt: missing\n"),
    (UTF_8 + ["/"], 4, "recode-places: read fault\n"),
]


def written_faults(folder):
    """What is wrong with the files whose output is written out."""
    for number, (words, data, right) in enumerate(WRITTEN):
        path = os.path.join(folder, "written%d.txt" % number)
        with open(path, "wb") as file:
            file.write(data)
        words = [*words, "--indexes", INDEXES]
        _, _, log = run(RECODE, [word for word in words if word != "--folds"], data)
        found = run(PLACES, [*words, path], log)
        wanted = 1, "".join(path * line.startswith(":") + line for line in right.splitlines(True)).encode(), b""
        if found != wanted:
            yield "written%d.txt: %r and not %r" % (number, found, wanted)


def log_faults(folder):
    """What is wrong with logs that do not fit, and with those that are a part."""
    trial = Trial(folder, "lost.txt", Job("utf-8", "windows-1252", "sniff", "decimal"), LOST)
    heads = ["%s:%s" % (trial.path, place) for place in ("1:3: U+65E5 日 has no", "2:2: U+65E5 日 has no", "3:1: byte FF in no")]

    def starts(lines):
        return [next((head for head in heads if line.startswith(head)), line) for line in lines[::3]]

    for log, line in WRONG_LOGS:
        status, _, error = trial.told(log=log)
        wanted = 4, "recode-places: line %d of the log is not of this input\n" % line
        yield from trial.differences("log %r" % log[:60], (status, error), wanted)
    for end in ENDS:
        status, lines, error = trial.told(log=b"lost 2 26085\n" + end)
        yield from trial.differences("end %r" % end, (status, starts(lines), error), (1, heads[:1], ""))
    for message, said in MESSAGES:
        for log, right in (b"", []), (b"lost 2 26085\n", heads[:1]):
            status, lines, error = trial.told(log=log + message)
            yield from trial.differences("message %r" % message[:60], (status, starts(lines), error), (4, right, said))
        status, lines, error = trial.told("--count", log=b"lost 2 26085\n" + message)
        yield from trial.differences("count and message %r" % message[:60], (status, len(lines), error), (4, 1, said))
    yield from trial.differences("no log", trial.told("--no-log", log=MESSAGES[0][0])[::2], (1, ""))
    rows = trial.log.splitlines(True)
    yield from trial.differences("log", rows, [b"lost 2 26085\n", b"lost 5 26085\n", b"bad 11 1\n", b"lost 7 65533\n"])
    for kept, right in [([0, 1, 3], heads), ([2], heads[2:]), ([3], heads[2:]), ([1, 2], heads[1:]), ([], [])]:
        status, lines, error = trial.told(log=b"".join(rows[number] for number in kept))
        yield from trial.differences("lines %r" % kept, (status, starts(lines), error), (1 if right else 0, right, ""))


def message_faults(folder):
    """Runs of `recode` that failed: the message at the end of the log is shown after the places, wherever reads cut it."""
    for count in (280, 281):
        # The message begins 6 bytes before byte 4096 of the log, or 9 bytes after it.
        trial = Trial(folder, "stopped.txt", Job("utf-8", "windows-1252", "sniff", "decimal"), "日".encode() * count)
        status, lines, error = trial.told("--most", "300", log=trial.log + b"recode: log fault\n")
        right = 4, 3 * count, "recode: log fault\n"
        yield from trial.differences("%d bytes and a message" % len(trial.log), (status, len(lines), error), right)
    trial = Trial(folder, "stopped.txt", Job("utf-8", "windows-1252", "sniff", "stop"), "a日b日".encode())
    status, lines, error = trial.told()
    right = 4, 3, "recode: unmappable 1 26085\n"
    yield from trial.differences("stop", (status, len(lines), error), right)


def refusal_faults(folder):
    """What is wrong with runs that report nothing, and with the texts that are asked for."""
    path = os.path.join(folder, "refused.txt")
    with open(path, "wb") as file:
        file.write(b"\xff")
    for words, status, message in REFUSALS:
        found = run(PLACES, [path if word == "INPUT" else word for word in words])
        if found != (status, b"", message.replace("INPUT' found", path + "' found").encode()):
            yield "recode-places %r: %r" % (words, found)
    for words in ("--version", "-V"):
        if run(PLACES, [words]) != (0, b"recode-places 0.1.0\n", b""):
            yield "recode-places %s: %r" % (words, run(PLACES, [words]))
    status, out, error = run(PLACES, ["--help"])
    if (status, error) != (0, b"") or b"vim +LINE FILE" not in out or b"not a pipe" not in out:
        yield "recode-places --help: %d %r" % (status, error)
    streams = [(">/dev/full", "write fault"), (">&-", "write fault"), ("<&-", "log: read fault"), ("</", "log: read fault")]
    for stream, wanted in streams:
        command = ["bash", "-c", 'exec "$@" %s' % stream, "bash", PLACES, *UTF_8, path]
        ran = subprocess.run(command, input=b"bad 0 1\n", capture_output=True, timeout=PATIENCE, check=False)
        if (ran.returncode, ran.stdout, ran.stderr) != (4, b"", b"recode-places: %s\n" % wanted.encode()):
            yield "recode-places %s: %r" % (stream, ran)


def flood_faults(folder):
    """Many places: how many are shown, and how often each is counted."""
    data = ("日x本\n" * 300).encode() + "日".encode() + b"\xff" * 7
    trial = Trial(folder, "flood.txt", Job("utf-8", "iso-8859-2", "sniff", "decimal"), data)
    total = 608
    for most, said in [
        ([], ", of which the first 20 are shown"),
        (["--most", "1"], ", of which the first is shown"),
        (["--most", "0"], ""),
        (["--most", "607"], ", of which the first 607 are shown"),
        (["--most", "608"], None),
    ]:
        status, lines, error = trial.told(*most)
        count = int(most[1]) if most else 20
        sums = [] if said is None else ["%s: %d places%s" % (trial.path, total, said)]
        right = 1, 3 * count, sums, ""
        yield from trial.differences("most %r" % most, (status, 3 * count, lines[3 * count :], error), right)
        last = ["%s:%d:%d: U+" % (trial.path, (count + 1) // 2, 1 if count % 2 else 3)]
        if 0 < count < 600:
            yield from trial.differences("most %r" % most, [lines[3 * count - 3][: len(last[0])]], last)
    counts = [
        "     301  U+65E5 日 has no bytes in ISO-8859-2",
        "     300  U+672C 本 has no bytes in ISO-8859-2",
        "       7  byte FF in no character of UTF-8",
    ]
    yield from trial.differences("count", trial.told("--count"), (1, counts, ""))
    yield from trial.differences("count of nothing", trial.told("--count", log=b""), (0, [], ""))


def long_faults(folder):
    """20 MB with three losses: one after 9 MB, one at a cut of the reads, and half a character at the end."""
    row = b"the quick brown fox jumps over the lazy dog, " * 4 + b"\n"
    data = bytearray(row * (20_000_000 // len(row)))
    losses = {9_000_050: b"\xff", 4096 * 3500 - 1: "日".encode()}
    for offset, loss in losses.items():
        data[offset : offset + len(loss)] = loss
    data += b"end \xf0\x9f"
    trial = Trial(folder, "long.txt", Job("utf-8", "windows-1252", "sniff", "decimal"), bytes(data))
    status, lines, error = trial.told()
    right = []
    for offset, words in [
        (9_000_050, "byte FF in no character of UTF-8"),
        (4096 * 3500 - 1, "U+65E5 日 has no bytes in windows-1252"),
        (len(data) - 2, "bytes F0 9F in no character of UTF-8"),
    ]:
        before = data[:offset]
        right.append("%s:%d:%d: %s" % (trial.path, before.count(b"\n") + 1, offset - before.rfind(b"\n"), words))
    yield from trial.differences("places", (status, lines[::3], error), (1, right, ""))
    yield from trial.differences("no log", trial.told("--no-log", log=b""), (status, lines, error))


def terminal_faults(folder):
    """On a terminal the place is bold and the caret red, and the codes in a file are not obeyed."""
    trial = Trial(folder, "terminal.txt", Job("utf-8", "windows-1252", "sniff", "decimal"), "\x1b[1m日\n".encode())
    reader, writer = os.openpty()
    command, streams = ["recode-places", *trial.words, trial.path], {"input": trial.log, "stdout": writer, "timeout": PATIENCE}
    ran = subprocess.run(command, executable=PLACES, stderr=subprocess.PIPE, check=False, **streams)
    told = os.read(reader, 10_000).decode().replace("\r\n", "\n")
    os.close(reader)
    os.close(writer)
    bold, red, plain = "\x1b[1m", "\x1b[1;31m", "\x1b[0m"
    right = "%s%s:1:5:%s U+65E5 日 has no bytes in windows-1252\n" % (bold, trial.path, plain)
    right += "  1 | <U+001B>[1m日\n    |            %s^^%s\n" % (red, plain)
    yield from trial.differences("on a terminal", (ran.returncode, told, ran.stderr), (1, right, b""))


def memory_faults(folder):
    """Each request for memory refused in turn: at the start nothing is reported, and later a part of what there is."""
    at_the_end = Job("utf-8", "shift_jis", "sniff", "decimal"), "日\n¥本".encode() + b"\xff"
    # Two places wait for the end of a long line.
    waiting = Job("utf-8", "windows-1252", "sniff", "decimal"), "日x本".encode() + b"y" * 100
    allocator = refused_memory.compiled(folder)
    for (job, data), more in (
        (at_the_end, ["--folds"]),
        (at_the_end, ["--count", "--no-log"]),
        (at_the_end, ["--most", "0"]),
        (waiting, []),
    ):
        trial = Trial(folder, "memory.txt", job, data)
        words = [*trial.words, *more, trial.path]
        (status, told, error), _ = refused_memory.run(PLACES, words, trial.log)
        yield from trial.differences("with memory", (status, told != b"", error), (1, True, b""))
        refused, spared = 0, 0
        while True:
            ended, was_refused = refused_memory.run(PLACES, words, trial.log, allocator, refused + 1)
            if not was_refused:
                break
            refused += 1
            spared += ended == (status, told, error)
            right = (3, b""), *((4, told[:size]) for size in range(len(told)))
            if ended != (status, told, error) and (ended[:2] not in right or ended[2] != b"recode-places: out of memory\n"):
                yield "memory.txt, request %d with %s: %r" % (refused, more, ended)
        if spared > refused_memory.SPARED or refused <= refused_memory.SPARED:
            yield "memory.txt, with %s: %d of %d refusals are without effect" % (more, spared, refused)


def made():
    """Files as Python's codecs make them, with what is wrong with them put in."""
    names = "名前,市\n田中,東京\n鈴木,大阪〜京都\n"
    yield "utf-8", "windows-1252", ("a,b\n1,café\n" + names).encode()
    yield "utf-8", "iso-2022-jp", ("ｶﾅ\x0e" + names + "¥‾é").encode()
    yield "shift_jis", "utf-8", names.encode("shift_jis") + b"\x81\xff\xa0\x82" + names.encode("shift_jis")[:-1]
    yield "shift_jis", "windows-1252", names.encode("shift_jis") * 3
    yield "euc-jp", "gb18030", names.replace("〜", "").encode("euc_jp") + b"\x8f\xa1\xfe\xff\n\x8e"
    yield "iso-2022-jp", "windows-1252", names.replace("〜", "").encode("iso2022_jp") + b"\x1b$B\x1b(B\x1b$x\x1b(Jab~\x1b$B!"
    yield "big5", "utf-8", b"a\x88\x62\x88\x64\n\x88\xa3\x88\xa5b\xff\x88\n" + "中文".encode("big5") + b"\xa4"
    yield "big5", "windows-1252", b"a\x88\x62\x88\x64\n\x88\xa3\x88\xa5b\xff\x88\n" + "中文".encode("big5")
    yield "gb18030", "big5", "汉字€😀\n".encode("gb18030") + b"\x81\x30\x81\x84\x31\xff\n"
    for order in ("le", "be"):
        data = "\ufeffline\r\né日\U0001f4a9\n".encode("utf-16-" + order)
        yield "utf-8", "windows-1252", data + bytes.fromhex("00d8 0a00 0a" if order == "le" else "d800 000a 00")
    yield "koi8-r", "ibm866", bytes(range(256)) * 3
    yield "utf-8", "gb18030", "\ue5e5\ue81e\u20ac\n".encode()


def random_files(encodings, count):
    """Files of random bytes: pieces of any kind, with lines."""
    inputs, chance = fuzz.Inputs(encodings), random.Random(3)
    names = list(encodings)
    for _ in range(count):
        source, target = chance.choice(names), chance.choice(["windows-1252", "Shift_JIS", "ISO-2022-JP", *names])
        text = inputs.text(chance, [source, target], chance.choice([20, 300, 3000]))
        for _ in range(len(text) // 40):
            text[chance.randrange(len(text))] = chance.choice([9, 10, 10, 13, 0x202E])
        yield source, target, inputs.changed(chance, inputs.encoded(source, text))


def model_faults(folder, encodings, files, kind):
    """What is reported of files, by their logs, with folds, and without a log, beside what the plain program reports."""
    for number, (source, target, data) in enumerate(files):
        source, target = (next(name for name in encodings if name.lower() == label.lower()) for label in (source, target))
        job = Job(source, target, ("sniff", "remove", "keep")[number % 3], "decimal")
        trial = Trial(folder, "%s%d.txt" % (kind, number), job, data)
        right = places(encodings, job, data)
        all_of_them = ["--most", "1000000"]
        yield from trial.compared("%s to %s" % (source, target), right, trial.told(*all_of_them))
        yield from trial.compared("no log", right, trial.told("--no-log", *all_of_them, log=b""))
        folded = places(encodings, job, data, True)
        yield from trial.compared("folds", folded, trial.told("--folds", *all_of_them))


def faults():
    """What the programs did wrong."""
    for program in (RECODE, PLACES):
        if not os.path.isfile(program):
            return ["%s was not built" % os.path.relpath(program, TOP)]
    encodings = standard.encodings(INDEXES)
    with tempfile.TemporaryDirectory() as folder:
        wrong = [*written_faults(folder), *log_faults(folder), *message_faults(folder), *refusal_faults(folder)]
        wrong += [*flood_faults(folder)]
        wrong += [*terminal_faults(folder), *memory_faults(folder)]
        wrong += [*long_faults(folder), *model_faults(folder, encodings, made(), "made")]
        wrong += model_faults(folder, encodings, random_files(encodings, 150), "random")
    print("%d outputs, %d logs, %d refusals" % (len(WRITTEN), len(WRONG_LOGS), len(REFUSALS)))
    return wrong


if __name__ == "__main__":
    sys.exit(main(faults()))
