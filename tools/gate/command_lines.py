#!/usr/bin/env python3
"""Runs `recode` as a process: a table of command lines, with what must come of each.

    python3 tools/gate/command_lines.py

The program is the one that `rt ci` or `rt run` has left in its `out/`. A row has the words, the input, and the status,
output and standard error that the man page promises for them, worked by hand. There is a row for each
status, each message and each value of an option. What is not here: streams that fail (`hostile_streams.py`), memory that
is refused (`refused_memory.py`), index texts that no one publishes (`hostile_indexes.py`).
"""

import os
import subprocess
import sys
import tempfile

from steps import TOP, main

PROGRAM = os.path.join(TOP, "crates/recode_cli/out/recode_cli")
INDEXES = os.path.join(TOP, "indexes")

# No row takes longer, in seconds.
PATIENCE = 30

UTF_8 = ["--from", "utf-8", "--to", "utf-8"]
UTF_16 = ["--from", "utf-16le", "--to", "utf-8"]
TO_WESTERN = ["--from", "utf-8", "--to", "windows-1252", "--indexes", INDEXES]
FROM_WESTERN = ["--from", "windows-1252", "--to", "utf-8", "--indexes", INDEXES]
FROM_JAPANESE = ["--from", "shift_jis", "--to", "utf-8", "--indexes", INDEXES]
TO_JAPANESE = ["--from", "utf-8", "--to", "shift_jis", "--indexes", INDEXES]

REPLACED = "\ufffd".encode()

# Words, input; status, output, standard error.
CONVERSIONS = [
    # 0: nothing is lost.
    (UTF_8, b"", 0, b"", b""),
    (UTF_8, b"a\xc3\xa9\xf0\x9f\x92\xa9", 0, b"a\xc3\xa9\xf0\x9f\x92\xa9", b""),
    (FROM_JAPANESE, b"A\x83\x6eB", 0, "AハB".encode(), b""),
    (TO_JAPANESE, "AハB".encode(), 0, b"A\x83\x6eB", b""),
    (UTF_16, b"a\0\x3d\xd8\xa9\xdc", 0, b"a\xf0\x9f\x92\xa9", b""),
    (["--from", "utf-8", "--to", "utf-16le"], "aé".encode(), 0, "aé".encode(), b""),
    (["--from", "utf-8", "--to", "replacement"], "aé".encode(), 0, "aé".encode(), b""),
    (["--to=utf-8", "--from=utf-8"], b"a", 0, b"a", b""),
    (["--from", " UTF8\t", "--to", "Unicode-1-1-UTF-8"], b"a", 0, b"a", b""),
    # 0: the two limits of the verdict: a wrong --from, and a mark that the output only seems to begin with.
    (FROM_WESTERN, b"\x83\x6e", 0, "ƒn".encode(), b""),
    (TO_WESTERN, "ï»¿é".encode(), 0, b"\xef\xbb\xbf\xe9", b""),
    # 0: marks, sniffed unless something else is asked for.
    (FROM_WESTERN, b"\xef\xbb\xbf\xc3\xa9", 0, b"\xc3\xa9", b""),
    (FROM_WESTERN + ["--mark", "sniff"], b"\xff\xfea\0", 0, b"a", b""),
    (FROM_WESTERN + ["--mark", "sniff"], b"\xfe\xff\0a", 0, b"a", b""),
    (FROM_WESTERN + ["--mark", "remove"], b"\xef\xbb\xbfa", 0, "ï»¿a".encode(), b""),
    (FROM_WESTERN + ["--mark", "keep"], b"\xff\xfea", 0, "ÿþa".encode(), b""),
    (UTF_8 + ["--mark", "remove"], b"\xef\xbb\xbfa", 0, b"a", b""),
    (UTF_8 + ["--mark", "keep"], b"\xef\xbb\xbfa", 0, b"\xef\xbb\xbfa", b""),
    # 0: the other options.
    (UTF_8 + ["--pivot", "utf8"], b"a", 0, b"a", b""),
    (UTF_8 + ["--pivot", "utf16"], b"\xf0\x9f\x92\xa9", 0, b"\xf0\x9f\x92\xa9", b""),
    (UTF_8 + ["--limit", "3"], b"abc", 0, b"abc", b""),
    (UTF_8 + ["--limit", "0"], b"", 0, b"", b""),
    (UTF_8 + ["--limit", "281474976710656"], b"a", 0, b"a", b""),
    (TO_WESTERN + ["--unmappable", "stop"], "é".encode(), 0, b"\xe9", b""),
    # 1: something is lost.
    (FROM_JAPANESE, b"A\x83\x6e\xffB", 1, "Aハ\ufffdB".encode(), b"bad 3 1\n"),
    (FROM_WESTERN, b"\xef\xbb\xbf\xe9", 1, REPLACED, b"bad 3 1\n"),
    (UTF_8, b"\xe2\x82", 1, REPLACED, b"bad 0 2\n"),
    (UTF_16, b"\0\xd8A", 1, REPLACED, b"bad 0 3\n"),
    (TO_WESTERN, "café 日".encode(), 1, b"caf\xe9 &#26085;", b"lost 5 26085\n"),
    (TO_WESTERN + ["--unmappable", "decimal"], "日".encode(), 1, b"&#26085;", b"lost 0 26085\n"),
    (TO_WESTERN + ["--unmappable", "hexadecimal"], "日".encode(), 1, b"&#x65E5;", b"lost 0 26085\n"),
    (UTF_8 + ["--unmappable", "stop"], b"a\xff", 1, b"a" + REPLACED, b"bad 1 1\n"),
    (TO_JAPANESE, "¥".encode(), 1, b"\\", b""),
    (TO_JAPANESE + ["--unmappable", "stop"], "¥".encode(), 1, b"\\", b""),
    (
        TO_WESTERN,
        b"\xc3\x28\xe6\x97\xa5\xff",
        1,
        b"&#65533;(&#26085;&#65533;",
        b"bad 0 1\nlost 0 65533\nlost 2 26085\nbad 5 1\nlost 3 65533\n",
    ),
    (
        ["--from", "utf-8", "--to", "iso-2022-jp", "--indexes", INDEXES],
        "ハ\x0eA".encode(),
        1,
        b"\x1b$B%O\x1b(B&#65533;A",
        b"lost 1 65533\n",
    ),
    # 0 and 1: more than the buffers hold.
    (TO_WESTERN, "é".encode() * 100_000, 0, b"\xe9" * 100_000, b""),
    (FROM_WESTERN + ["--pivot", "utf16"], b"\x80" * 5000, 0, "€".encode() * 5000, b""),
    (UTF_8, b"\xff" * 5000, 1, REPLACED * 5000, b"".join(b"bad %d 1\n" % place for place in range(5000))),
    # 4
    (UTF_8 + ["--limit", "2"], b"abc", 4, b"", b"recode: input too long\n"),
    (UTF_8 + ["--limit", "0"], b"a", 4, b"", b"recode: input too long\n"),
    (
        TO_WESTERN + ["--unmappable", "stop"],
        "caf\xe9 日本".encode(),
        4,
        b"caf\xe9 ",
        b"lost 5 26085\nrecode: unmappable 5 26085\n",
    ),
    (
        TO_WESTERN + ["--unmappable", "stop"],
        b"a\xffb",
        4,
        b"a",
        b"bad 1 1\nlost 1 65533\nrecode: unmappable 1 65533\n",
    ),
]

TRY_HELP = "\n\nFor more information, try '--help'.\n"
USAGE = "\n\nUsage: recode [OPTIONS] --from <LABEL> --to <LABEL> < INPUT > OUTPUT" + TRY_HELP

# What explains an unknown label, after its message.
UNKNOWN = "recode: %s: no encoding has this label; recode --list prints all labels\n"

# Words that are refused, and the message; nothing is read, so the input does not matter.
REFUSALS = [
    (
        [],
        "error: the following required arguments were not provided:\n  --from <LABEL>\n  --to <LABEL>"
        + USAGE,
    ),
    (
        ["--from", "utf-8"],
        "error: the following required arguments were not provided:\n  --to <LABEL>" + USAGE,
    ),
    (["--from"], "error: a value is required for '--from <LABEL>' but none was supplied" + TRY_HELP),
    (UTF_8 + ["file"], "error: unexpected argument 'file' found" + USAGE),
    (UTF_8 + ["--to", "gbk"], "error: the argument '--to <LABEL>' cannot be used multiple times" + USAGE),
    (
        UTF_8 + ["--mark", "none"],
        "error: invalid value 'none' for '--mark <MODE>'\n  [possible values: sniff, remove, keep]" + USAGE,
    ),
    (
        UTF_8 + ["--unmappable", "skip"],
        "error: invalid value 'skip' for '--unmappable <POLICY>'\n  [possible values: decimal, hexadecimal, stop]" + USAGE,
    ),
    (
        UTF_8 + ["--pivot", "utf32"],
        "error: invalid value 'utf32' for '--pivot <FORM>'\n  [possible values: utf8, utf16]" + USAGE,
    ),
    (
        UTF_8 + ["--limit", "281474976710657"],
        "error: invalid value '281474976710657' for '--limit <N>'\n"
        "  [possible values: 0 to 281474976710656, in decimal digits]" + USAGE,
    ),
    (["--from", "nope", "--to", "utf-8"], "recode: unknown label nope\n" + UNKNOWN % "--from"),
    (["--from", "utf-8", "--to", "utf-9"], "recode: unknown label utf-9\n" + UNKNOWN % "--to"),
    (["--from", "utf-9", "--to", "utf-9"], "recode: unknown label utf-9\n" + UNKNOWN % "--from"),
    (
        ["--from", "\x1b[31m\nbad 1 1\x7f\x9bé", "--to", "utf-8"],
        "recode: unknown label <U+001B>[31m<U+000A>bad 1 1<U+007F><U+009B>é\n" + UNKNOWN % "--from",
    ),
    (["--from", b"\xff"], "recode: a word is not UTF-8\n"),
]

# What explains a missing index file, after its message: its path, and the reason.
MISSING = "recode: %s: %s; set --indexes to the folder of the index files\n"
ABSENT = "No such file or directory (os error 2)"

# The words, the index files that are there, and what is said of which.
INDEX_FILES = [
    ("shift_jis utf-8", {}, "index-jis0208.txt: missing"),
    ("utf-8 windows-1252", {}, "index-windows-1252.txt: missing"),
    ("utf-8 gbk", {"gb18030": b""}, "index-gb18030-ranges.txt: missing"),
    ("shift_jis utf-8", {"jis0208": b"0\t0x80\n"}, "index-jis0208.txt: line 1: Row"),
    ("shift_jis utf-8", {"jis0208": b"0\t0x3000\n\n0\t0x3001\n"}, "index-jis0208.txt: line 3: Order"),
    ("shift_jis utf-8", {"jis0208": b"#\n11280\t0x3000\n"}, "index-jis0208.txt: line 2: Pointer"),
    ("utf-8 shift_jis", {"jis0208": b"8836\t0x4E00\n"}, "index-jis0208.txt: table: Reserved"),
    ("big5 utf-8", {"big5": b"0\t0x0041\n"}, "index-big5.txt: table: Entry"),
    (
        "gb18030 utf-8",
        {"gb18030": b"", "gb18030-ranges": b"0\t0x0080\n36\t0x0080\n"},
        "index-gb18030-ranges.txt: table: Ranges",
    ),
]


def run(words, given=b"", folder=None, name="recode"):
    """Status, standard output and standard error of the program, by the name that it is installed by or another."""
    command, streams = [name, *words], {"input": given, "capture_output": True}
    ran = subprocess.run(command, executable=PROGRAM, cwd=folder, timeout=PATIENCE, check=False, **streams)
    return ran.returncode, ran.stdout, ran.stderr


def differences(words, ended, wanted):
    if ended != wanted:
        shown = " ".join(str(word) for word in words)
        yield "recode %s: %s and not %s" % (shown, *("%d %r %r" % (s, o[:200], e[:400]) for s, o, e in (ended, wanted)))


def index_file_faults():
    for labels, files, message in INDEX_FILES:
        source, target = labels.split()
        with tempfile.TemporaryDirectory() as folder:
            for name, text in files.items():
                with open(os.path.join(folder, "index-%s.txt" % name), "wb") as file:
                    file.write(text)
            name, _, fault = message.partition(": ")
            for where, path, words in [(folder, ".", []), (None, folder, ["--indexes", folder])]:
                said = "recode: %s\n" % message + (MISSING % (path + "/" + name, ABSENT) if fault == "missing" else "")
                words = ["--from", source, "--to", target, *words]
                yield from differences(words, run(words, b"a", where), (3, b"", said.encode()))


def other_files():
    """A folder, a file without an end and a link to itself in place of an index file; a file, and nothing, in place of the
    folder."""
    words, name = ["--from", "shift_jis", "--to", "utf-8"], "index-jis0208.txt"

    def wanted(folder, reason):
        return 3, b"", ("recode: %s: missing\n" % name + MISSING % (folder + "/" + name, reason)).encode()

    shown = {"/dev/null": "Not a directory (os error 20)", "/dev/none": ABSENT, "/dev/\x1bnone": ABSENT}
    for other, reason in shown.items():
        given = [*words, "--indexes", other]
        yield from differences(given, run(given, b"A"), wanted(other.replace("\x1b", "<U+001B>"), reason))
    with tempfile.TemporaryDirectory() as folder:
        path = os.path.join(folder, name)
        os.mkdir(path)
        yield from differences(words, run(words, b"A", folder), wanted(".", "Is a directory (os error 21)"))
        os.rmdir(path)
        for other, reason in [("/dev/zero", "longer than 16777216 bytes"), (name, "Too many levels of symbolic links (os error 40)")]:
            os.symlink(other, path)
            yield from differences(words, run(words, b"A", folder), wanted(".", reason))
            os.remove(path)


def text_faults():
    """The three texts: the Encoding Standard has 40 encodings and 228 labels (4.2), no two of them alike."""
    for word in ("--version", "-V"):
        yield from differences([word], run([word]), (0, b"recode 0.1.0\n", b""))
    for word in ("--help", "-h"):
        status, out, log = run([word])
        parts = [b"Usage: recode [OPTIONS] --from <LABEL> --to <LABEL> < INPUT > OUTPUT", b"bad OFFSET LENGTH", b"lost INDEX SCALAR"]
        parts += [b"--indexes", b"--mark", b"--unmappable", b"--pivot", b"--limit", b"--list", b"--version"]
        if (status, log) != (0, b"") or not all(part in out for part in parts):
            yield "recode %s: %d %r %r" % (word, status, out, log)
    status, out, log = run(["--list"])
    rows = [line.split(": ") for line in out.decode().splitlines()]
    labels = [label for row in rows for label in row[-1].split(" ")]
    if (status, log, len(rows), len(labels), len(set(labels))) != (0, b"", 40, 228, 228):
        yield "recode --list: status %d, %d lines, %d labels, %r" % (status, len(rows), len(labels), log)


def faults():
    """What the program did wrong."""
    if not os.path.isfile(PROGRAM):
        return ["%s was not built" % os.path.relpath(PROGRAM, TOP)]
    wrong = [*text_faults(), *index_file_faults(), *other_files()]
    for words, given, *wanted in CONVERSIONS:
        wrong += differences(words, run(words, given), tuple(wanted))
    # The program's own name is a word as well.
    refused = (2, b"", b"recode: a word is not UTF-8\n")
    wrong += differences([b"\xed\xa0\x80"], run(["--version"], name=b"\xed\xa0\x80"), refused)
    for words, message in REFUSALS:
        wrong += differences(words, run(words), (2, b"", message.encode()))
    print("%d conversions, %d refusals, %d index files" % (len(CONVERSIONS), len(REFUSALS), len(INDEX_FILES)))
    return wrong


if __name__ == "__main__":
    sys.exit(main(faults()))
