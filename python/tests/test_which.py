"""`which`, and the commands beside the conversion: beside plain programs over the standard's algorithms."""

import doctest
import io
import os
import random
import re
import shutil
import subprocess
import sys
import unittest
from pathlib import Path
from typing import Dict, List, Tuple
from unittest import mock

import cases
import jillapun
from jillapun import _commands as commands
from jillapun import _places, _which
from jillapun._labels import LABELS
from test_codecs import EDGES, inputs, seen_by
from test_files import Folder
from test_program import COMMAND, ENVIRONMENT, Programs

sys.path += [os.path.join(cases.TOP, "tools", folder) for folder in ("gate", "oracles")]

import places  # noqa: E402
import standard  # noqa: E402
from plain_recode import Job  # noqa: E402

ENCODINGS: Dict[str, standard.Encoding] = standard.encodings(os.path.join(cases.TOP, "indexes"))
MINUTE = 60


class Facts(Folder):
    def facts(self, data: bytes) -> Dict[str, Tuple[int, List[str]]]:
        """Of each encoding the count, and those that read the input alike."""
        found = jillapun.which(data)
        self.assertEqual(found.read, len(data))
        facts = {name: (one.bad, one.encodings) for one in found.readings for name in one.encodings}
        self.assertEqual(sum(len(one.encodings) for one in found.readings), 40)
        self.assertEqual(sorted(facts), sorted(set(LABELS.values())))
        return facts

    def test_beside_the_standard(self) -> None:
        """Counts and groups, of inputs of all kinds."""
        chance = random.Random(1)
        given = [data for name in sorted(EDGES) for data in inputs(name or "windows-1252", 4)]
        for data in [b"", b"a", "é 日本\n".encode(), bytes(range(256)), *chance.sample(given, 24)]:
            seen = {name: seen_by(name, ENCODINGS[name], data) for name in ENCODINGS}
            for name, (bad, alike) in self.facts(data).items():
                self.assertEqual(bad, len(seen[name][1]), (name, data))
                same = {other for other in seen if (seen[other][0], len(seen[other][1])) == (seen[name][0], bad)}
                same = same if not data or name == "replacement" else same - {"replacement"}
                self.assertEqual(set(alike), {name} if data and name == "replacement" else same, (name, data))

    def test_order(self) -> None:
        """By the count; replacement, of which the count says nothing, is the last."""
        for data in (b"\xff\xfe\xfd", b"abc\x80", bytes(range(256))):
            readings = jillapun.which(data).readings
            counts = [one.bad for one in readings[:-1]]
            self.assertEqual((counts, readings[-1].encodings), (sorted(counts), ["replacement"]))

    def test_sources(self) -> None:
        """Bytes, a path, a file, and one that gives a few bytes at a time, as long as some chunks."""
        data = "日本語のテキスト\n".encode() * 9000 + b"\xff"
        wanted = jillapun.which(data)
        self.assertEqual([one.bad for one in wanted.readings if one.encodings == ["UTF-8"]], [1])
        text = jillapun.decode(data, "utf-8").text
        self.assertEqual([one.lines for one in wanted.readings if one.encodings == ["UTF-8"]], [text.split("\n")[:3]])

        class Slow(io.BytesIO):
            def read(self, size: int = -1) -> bytes:
                return super().read(min(size, 777))

        path, told = self.put("a", data), []
        for source in (path, Path(path), io.BytesIO(data), Slow(data), bytearray(data)):
            self.assertEqual(jillapun.which(source), wanted)
        jillapun.which(path, progress=told.append)
        self.assertEqual((told[0], told[-1], sorted(told)), (1 << 16, len(data), told))
        self.assertRaises(TypeError, jillapun.which, 3)
        self.assertRaises(FileNotFoundError, jillapun.which, path + "0")

    def lines(self, data: bytes, name: str, count: int = 3) -> Tuple[int, List[str]]:
        found = jillapun.which(io.BytesIO(data), lines=count)
        return found.line, next(one.lines for one in found.readings if name in one.encodings)

    def test_lines(self) -> None:
        """From the first that is not all printable ASCII on."""
        for size in (0, 1, 1000, 70000):
            head = b"plain;\ttext\r\n" * size
            data = head + "Zoë;1\r\nb\n\nZoë".encode()
            self.assertEqual(self.lines(data, "UTF-8"), (size + 1, ["Zoë;1", "b", ""]))
            self.assertEqual(self.lines(data, "UTF-8", 9), (size + 1, ["Zoë;1", "b", "", "Zoë"]))
            self.assertEqual(self.lines(data, "windows-1252", 1), (size + 1, ["ZoÃ«;1"]))
            self.assertEqual(self.lines(head + b"x\x1b$B0!", "ISO-2022-JP"), (size + 1, ["x亜"]))
        self.assertEqual(self.lines(b"a\nb\n", "UTF-8"), (1, ["a", "b"]))
        self.assertEqual(self.lines(b"", "UTF-8"), (1, [""]))
        self.assertEqual(self.lines(b"x\n" * 5000, "UTF-8", 2), (1, ["x", "x"]))
        self.assertEqual(self.lines(b"", "UTF-8", 0), (1, []))

    def test_lines_of_utf_16(self) -> None:
        """Units begin at even places, and a mark is left out at the start alone."""
        for name, codec, mark in (("UTF-16LE", "utf-16-le", b"\xff\xfe"), ("UTF-16BE", "utf-16-be", b"\xfe\xff")):
            for text in ("é\n日本\nb", "日\n", "ab\ncd\n"):
                lines = text.removesuffix("\n").split("\n")
                self.assertEqual(self.lines(mark + text.encode(codec), name), (1, lines))
            # The line in bytes begins behind the 0A of U+0A41, in the middle of a unit where the 0A is the first byte.
            data = b"!\nA\n" + "日本".encode(codec)
            self.assertEqual(self.lines(data, name)[1][-1][-2:], "日本")

    def test_marks(self) -> None:
        """At the start alone, also if it comes byte by byte."""

        class Slow(io.BytesIO):
            def read(self, size: int = -1) -> bytes:
                return super().read(1)

        rows = {b"\xef\xbb\xbfa": "UTF-8", b"\xff\xfea\0": "UTF-16LE", b"\xfe\xff\0a": "UTF-16BE"}
        rows.update(dict.fromkeys([b"", b"a", b"\xef\xbb", b"\xff", b"a\xff\xfe", b"\xbf\xbb\xef"]))
        for data, name in rows.items():
            self.assertEqual((jillapun.which(data).mark, jillapun.which(Slow(data)).mark), (name, name), data)

    def test_long_lines(self) -> None:
        """A part of a line, from a little before the first byte that decides."""
        data = b"x" * 100000 + "é".encode() + b"y" * 100000
        line, (text,) = self.lines(data, "UTF-8")
        self.assertEqual((line, text[:257]), (1, "x" * 256 + "é"))
        self.assertLess(len(text), 5000)

    def test_what_is_not_decided(self) -> None:
        """The bytes at the end of those that are shown are not malformed, unless the input ends there."""
        text = self.lines("日".encode() * 5000, "UTF-8")[1][0]
        self.assertEqual(set(text), {"日"})
        self.assertEqual(self.lines("日".encode()[:2], "UTF-8"), (1, ["\ufffd"]))

    def test_examples(self) -> None:
        ran = doctest.testmod(_which, extraglobs=vars(jillapun))
        self.assertEqual((ran.failed, ran.attempted), (0, 3))


class Places(Folder):
    def heads(self, data: bytes, job: Job) -> List[str]:
        words = job.source, job.target
        return [
            "%d:%d: %s" % (place.line, place.column, place)
            for place in _places.places_in(io.BytesIO(data), *words, mark=job.mark)
        ]

    def test_beside_a_plain_program(self) -> None:
        """The lines are those of `recode-places`, by the plain program that the gate compares it with."""
        chance = random.Random(2)
        for name in sorted(ENCODINGS):
            for data in inputs(name, 12):
                target = chance.choice(["UTF-8", "windows-1252", "ISO-2022-JP", "Big5"])
                mark = chance.choice(["sniff", "remove", "keep"])
                job = Job(name, target, mark, "decimal")
                wanted = [place.head("")[1:] for place in places.places(ENCODINGS, job, data)]
                self.assertEqual(self.heads(data, job), wanted, (data, job))

    def test_written(self) -> None:
        """Files of which `tools/gate/places.py` has the output by hand."""
        for words, data, output in places.WRITTEN:
            if "--folds" not in words:
                wanted = [line[1:] for line in output.splitlines() if line.startswith(":")]
                self.assertEqual(self.heads(data, Job(words[1], words[3], "sniff", "decimal")), wanted)

    def test_chunks(self) -> None:
        """Sequences over the ends of chunks."""
        for ahead in range(65530, 65540):
            data = b"\n" * 7 + b"a" * (ahead - 7) + b"\xf0\x9f\x92x" + "日".encode() + b"\n\xff"
            place = ahead - 6
            told = ["8:%d: bytes F0 9F 92 in no character of UTF-8" % place]
            told += ["8:%d: U+65E5 日 has no bytes in windows-1252" % (place + 2), "9:1: byte FF in no character of UTF-8"]
            self.assertEqual(self.heads(data, Job("utf-8", "l1", "sniff", "decimal")), told)


class Commands(Programs):
    def ran(self, *words: str) -> Tuple[int, str, str]:
        with mock.patch("test_program.WORDS", []):
            return self.run_it(*words)

    def test_which(self) -> None:
        path = self.put("a", b"name\nx\x1b[2J\xc3\xa9\n")
        status, out, error = self.ran("which", "--all", path)
        self.assertEqual((status, error), (0, ""))
        lines = out.splitlines()
        self.assertEqual(lines[:2], ["%s: 13 bytes" % path, "malformed  encodings"])
        self.assertIn("        0  ISO-8859-14, ISO-8859-15, windows-1252, windows-1254", lines)
        self.assertEqual(lines[lines.index("line 2:") - 1], "        1  replacement")
        self.assertIn("  UTF-8           x<U+001B>[2Jé", lines)
        self.assertNotIn("\x1b", out)
        status, out, _ = self.ran("which", "--most", "1", "--lines", "1", path)
        self.assertEqual(sum(line.startswith("  ") and line[2] != " " for line in out.splitlines()), 1)
        self.assertNotIn("line", self.ran("which", "--lines", "0", path)[1].replace("lines", ""))
        self.assertNotIn("line 1", self.ran("which", "--most", "0", path)[1])

    def test_which_in_a_line(self) -> None:
        """One for each file, whatever its name."""
        rows = {
            "a\x1b\n": (b"abc", "ASCII"),
            "b": ("é\n".encode(), "UTF-8"),
            "c": (b"\xff\xfea\0", "UTF-16LE (byte order mark)"),
            "d": (b"\xef\xbb\xbf\xff", "UTF-8 (byte order mark) (malformed sequences: 1)"),
            "e": ("café\n".encode("cp1252"), "not UTF-8; valid in windows-1252 and N other encodings"),
            "f": ("日本語です。\n".encode("cp932"), "not UTF-8; valid in Shift_JIS, GBK and N other encodings"),
            "g": ("日本".encode("iso2022_jp"), "ISO-2022-JP, or ASCII with escapes"),
            "h": ("name;3\n".encode("utf-16-le"), "has NUL bytes: UTF-16 without a byte order mark, or no text"),
            "i": (b"", "empty"),
        }
        status, out, error = self.ran("which", *(self.put(name, data) for name, (data, _) in rows.items()))
        self.assertEqual((status, error), (0, ""))
        told = ["%s: %s" % (name.replace("\x1b\n", "<U+001B><U+000A>"), line) for name, (_, line) in rows.items()]
        self.assertEqual(re.sub(r"\d+ other", "N other", out).splitlines(), [self.at(line) for line in told])
        self.assertIn("begins with a byte order mark of UTF-16LE\n", self.ran("which", "--all", self.at("c"))[1])

    def test_shown(self) -> None:
        """A name, and what turns the direction of a text or writes to a terminal, stand by number; lines are cut."""
        path = self.put("\u202ea\x1b", "\u202e\u009b1m日\n".encode() + "é".encode() * 200)
        _, out, _ = self.ran("which", "--all", path)
        self.assertFalse(set("\x1b\u202e\x9b") & set(out))
        self.assertIn("<U+202E><U+009B>1m日", out)
        self.assertIn("é" * 63 + "…\n", out)

    def test_statuses(self) -> None:
        path = self.put("a", b"abc")
        none = self.at("none")
        self.assertEqual(self.ran("which", path, none)[::2], (4, none + ": No such file or directory\n"))
        self.assertEqual(self.ran("which", self.folder)[::2], (4, self.folder + ": Is a directory\n"))
        self.assertEqual(self.ran("which", "--indexes", self.folder, path)[0], 3)
        self.assertEqual(self.ran("which")[0], 2)
        self.assertEqual(self.ran("which", "--lines", "-1", path)[0], 2)
        words = ["places", "--from", "none", "--to", "utf-8", path]
        self.assertEqual(self.ran(*words)[::2], (2, '--from: unknown label none; "jillapun labels" lists all\n'))
        self.assertEqual(self.ran("labels", "x")[0], 2)
        self.assertEqual(self.ran("none")[0], 2)

    def test_places(self) -> None:
        good, bad = self.put("a", "é\n".encode()), self.put("b\x1b", "é\n日".encode() + b"\xff")
        words = ["places", "--from", "utf-8", "--to", "l1"]
        self.assertEqual(self.ran(*words, good), (0, "", ""))
        told = ["2:1: U+65E5 日 has no bytes in windows-1252\n", "2:2: byte FF in no character of UTF-8\n"]
        shown = self.at("b<U+001B>")
        self.assertEqual(self.ran(*words, bad, good), (1, "".join("%s:%s" % (shown, line) for line in told), ""))
        self.holds(**{"a": "é\n".encode(), "b\x1b": "é\n日".encode() + b"\xff"})

    def test_labels(self) -> None:
        """All, each once, and each finds its encoding."""
        status, out, _ = self.ran("labels")
        rows = dict(line.split(": ") for line in out.splitlines())
        self.assertEqual((status, len(rows)), (0, 40))
        self.assertEqual({label: name for name, labels in rows.items() for label in labels.split()}, LABELS)

    def test_convert(self) -> None:
        """As without the word, and a file of that name is converted by its path."""
        self.put("a", b"\xff")
        words = ["--from", "l1", "--to", "utf-8"]
        self.assertEqual(self.ran("convert", *words, "--in-place", self.path), (0, "", ""))
        self.holds(a=b"\xc3\xbf")
        self.assertEqual(self.ran(*words, "--in-place", "--force", self.path), (0, "", ""))
        self.holds(a="Ã¿".encode())

    def test_a_terminal(self) -> None:
        """The line of progress stands on standard error, and is gone at the end."""
        path = self.put("a\x1b", b"x" * 200000)
        with mock.patch.object(sys, "stderr", io.StringIO()) as error, mock.patch.object(error, "isatty", lambda: True):
            with mock.patch.object(sys, "stdout", io.StringIO()):
                self.assertEqual(commands.tell_which([path]), 0)
        lines = error.getvalue().split("\r\x1b[K")
        label = self.at("a<U+001B>")
        wanted = ["", *("1 of 1: %s (%d%%)" % (label, part) for part in (0, 32, 65, 98, 100)), ""]
        self.assertEqual(lines, wanted)

    def test_standard_output_fails(self) -> None:
        path = self.put("a", b"\xff")
        for words in (["which", path], ["places", "--from", "utf-8", "--to", "utf-8", path], ["labels"]):
            with open("/dev/full", "wb") as full:
                streams = {"stdout": full, "stderr": subprocess.PIPE, "timeout": MINUTE}
                ran = subprocess.run([*COMMAND[:3], *words], env=ENVIRONMENT, check=False, **streams)
            self.assertEqual((ran.returncode, ran.stderr), (4, b"standard output: No space left on device\n"))

    def test_a_pipe(self) -> None:
        words = [*COMMAND[:3], "which", "/dev/stdin"]
        streams = {"input": b"abc", "capture_output": True, "timeout": MINUTE}
        ran = subprocess.run(words, env=ENVIRONMENT, check=False, **streams)
        self.assertEqual((ran.returncode, ran.stdout), (0, b"/dev/stdin: ASCII\n"))


# What is typed, and what bash completes the last word to.
TYPED = [
    (["p"], "places"),
    (["which", "--l"], "--lines"),
    (["places", "--from", "shift_"], "shift_jis"),
    (["places", "--to", "=", "UTF-1"], "utf-16 utf-16be utf-16le"),
    (["places", "--u"], ""),
    (["--u"], "--unmappable"),
    (["convert", "--unmappable", "h"], "hexadecimal"),
    (["which", "some"], "some.txt"),
    (["--from", "l1", "--into", "s"], ""),
]

COMPLETED = """
source "$1"
shift
COMP_WORDS=("$@") COMP_CWORD=$(($# - 1))
_jillapun "$1"
echo "${COMPREPLY[*]}"
"""


class Completion(Folder):
    def test_bash(self) -> None:
        bash = shutil.which("bash")
        if not bash:
            self.skipTest("no bash")
        self.put("some.txt", b"")
        self.put("jillapun", b'#!/bin/sh\nexec "%s" -m jillapun "$@"\n' % os.fsencode(sys.executable))
        os.chmod(self.at("jillapun"), 0o755)
        script = os.path.join(cases.TOP, "completions", "jillapun.bash")
        if not os.path.exists(script):
            self.skipTest("no completion beside the package")
        for words, wanted in TYPED:
            command = [bash, "-c", COMPLETED, "bash", script, self.at("jillapun"), *words]
            ran = subprocess.run(
                command, env=ENVIRONMENT, cwd=self.folder, capture_output=True, text=True, check=False, timeout=MINUTE
            )
            self.assertEqual((sorted(ran.stdout.split()), ran.stderr), (wanted.split(), ""), words)


if __name__ == "__main__":
    unittest.main()
