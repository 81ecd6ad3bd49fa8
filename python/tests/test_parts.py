"""Files that are converted in parts, beside one conversion of the whole: output, losses and report are the same."""

import errno
import os
import random
import subprocess
import sys
import threading
import tracemalloc
import unittest
from pathlib import Path
from typing import Any, Dict, List, Tuple
from unittest import mock

import cases
import jillapun
from jillapun import _parts
from test_files import BAD, GOOD, Folder
from test_program import Programs

SOURCES = [
    "utf-8",
    "windows-1252",
    "koi8-r",
    "shift_jis",
    "euc-jp",
    "gbk",
    "gb18030",
    "big5",
    "euc-kr",
    "x-user-defined",
]
UNCUT = ["utf-16le", "utf-16be", "iso-2022-jp", "replacement"]
MARKS = [b"", b"", b"\xef\xbb\xbf", b"\xff\xfe", b"\xfe\xff", b"\xef\xbb", b"\xef\xbb\n\xbf", b"\xff"]

# What can be put together to an input: characters that one target or another lacks or folds, cuts, and malformed bytes.
PIECES = [
    "a",
    "0",
    "/",
    " ",
    "\n",
    "\r\n",
    "\0",
    "\x1b",
    "é",
    "ß",
    "¥",
    "‾",
    "日本",
    "ハ",
    "\uff76",
    "한",
    "🙂",
    "€",
    "\ufffd",
]
WRONG = [b"\xff", b"\x80", b"\x81", b"\xe3\x83", b"\xf0\x9f", b"\x81\x30\x81", b"\x8f\xa1", b"\x83\n", b"\xfe"]


def input_of(chance: random.Random, source: str) -> bytes:
    data = chance.choice(MARKS)
    pieces = chance.sample(PIECES, chance.randrange(1, len(PIECES)))
    for _ in range(chance.randrange(80)):
        piece = jillapun.encode(chance.choice(pieces) * chance.randrange(1, 4), jillapun.output_name(source)).data
        data += chance.choice(WRONG) if chance.random() < 0.1 else piece
    return data


class Parts(Folder):
    def found(self, *words: str, threads: int = 1, part: int = 1, **options: Any) -> Tuple[Any, ...]:
        """The result or the exception of a conversion of the file `a`, the losses as they came, and the output."""
        told: List[jillapun._results.Loss] = []
        read: List[int] = []
        try:
            with mock.patch("jillapun._parts.PART", part):
                result: Any = jillapun.convert_file(
                    self.path, self.at("b"), *words, threads=threads, on_loss=told.append, keep_losses=3,
                    progress=read.append, **options,
                )  # fmt: skip
            self.assertEqual((read, read[-1]), (sorted(read), result.read))
        except (jillapun.JillapunError, OSError) as fault:
            result = type(fault), str(fault), {**vars(fault), "lost": getattr(fault, "lost", None)}
        output = Path(self.at("b"))
        data = output.read_bytes() if output.exists() else None
        output.unlink(missing_ok=True)
        self.assertEqual(os.listdir(self.folder), ["a"])
        return result, told, data

    def agree(self, data: bytes, *words: str, part: int = 1, threads: int = 4, **options: Any) -> Tuple[Any, ...]:
        """Parts give what the whole gives, which is returned."""
        self.put("a", data)
        whole = self.found(*words, **options)
        self.assertEqual(
            self.found(*words, threads=threads, part=part, **options), whole, (data, words, part, options)
        )
        return whole

    def test_random_inputs(self) -> None:
        chance = random.Random(20)
        seen = set()
        for _ in range(150):
            source, target = chance.choice(SOURCES + UNCUT), chance.choice(SOURCES + ["iso-2022-jp", "utf-16le"])
            data = input_of(chance, source)
            options: Dict[str, Any] = {
                "mark": chance.choice(["sniff", "sniff", "remove", "keep"]),
                "unmappable": chance.choice(["decimal", "hexadecimal", "stop"]),
                "limit": chance.choice([None, None, None, len(data), chance.randrange(len(data) + 1)]),
            }
            part, threads = chance.choice([1, 2, 3, 7, 20, 100]), chance.randrange(2, 6)
            result = self.agree(data, source, target, part=part, threads=threads, **options)[0]
            seen.add(result[0] if isinstance(result[0], type) else result.faithful)
        self.assertEqual(seen, {True, False, jillapun.Stopped, jillapun.TooLong})

    def test_no_input_and_short_ones(self) -> None:
        for data in (
            b"",
            b"\n",
            b"a",
            b"\n\n",
            b"\xef\xbb\xbf",
            b"\xef\xbb\xbf\n",
            b"\xff\xfe\n\0",
            b"\xff",
            b"\n\xe3",
        ):
            for mark in ("sniff", "remove", "keep"):
                self.agree(data, "utf-8", "windows-1252", mark=mark)
                self.agree(data, "gbk", "utf-8", mark=mark)

    def test_no_byte_to_cut_at(self) -> None:
        """The whole is one part, of many blocks, also where the cuts of blocks go through characters."""
        for part in (1, 2, 7, 100):
            self.agree("日é🙂本".encode() * 99 + b"\xe3\x81", "utf-8", "windows-1252", part=part)
            self.agree(b"\x90\x30\x81\x30" * 99, "gb18030", "utf-8", part=part)
            self.agree(b"\xef\xbb\xbf" + "日é".encode() * 99, "shift_jis", "koi8-r", part=part)

    def test_one_very_long_line(self) -> None:
        """Between short ones, longer than what is looked through for a byte to cut at."""
        data = "é 日\n".encode() * 9 + "é日".encode() * 50_000 + "\né 日".encode() * 9
        self.assertEqual(self.agree(data, "utf-8", "windows-1252", part=1000)[0].lost, 50_018)

    def test_lost_characters_that_come_late(self) -> None:
        """Their indexes count the characters of all parts before."""
        text = "é日 " * 300 + "\ud7ff " + "é日 " * 300 + "\ud7ff 🙂 " * 300
        for source in ("utf-8", "gb18030"):
            for target in ("shift_jis", "euc-jp"):
                data = jillapun.encode(text.replace("é", "ü"), source).data
                told = self.agree(b"\xff " + data, source, target, part=50)[1]
                self.assertEqual(told[-1], jillapun.Lost(2 + text.rindex("🙂"), "🙂"))

    def test_what_is_not_cut(self) -> None:
        """Where an encoding is not compatible with ASCII, by a label or by a mark, and what is no regular file."""
        rows = [(source, "utf-8", b"") for source in UNCUT] + [
            ("utf-8", "iso-2022-jp", b""),
            ("utf-8", "utf-8", b"\xff\xfe"),
        ]
        for source, target, head in rows:
            with mock.patch("jillapun._files.put_parts", side_effect=AssertionError):
                self.agree(head + b"a\n\0\n\0" * 9, source, target)
        os.mkfifo(self.at("pipe"))
        with subprocess.Popen(["sh", "-c", 'printf "caf\\303\\251 \\n" > "$0"', self.at("pipe")]):
            done = jillapun.convert_file(self.at("pipe"), self.at("b"), "utf-8", "windows-1252", threads=2)
        self.assertEqual((done.read, Path(self.at("b")).read_bytes()), (7, b"caf\xe9 \n"))

    def test_the_encoding_of_parts(self) -> None:
        rows = [
            ("sjis", "utf-8", "sniff", b"a\n", "Shift_JIS"),
            ("sjis", "utf-16le", "sniff", b"", "Shift_JIS"),
            ("sjis", "utf-8", "sniff", b"\xef\xbb\xbfa", "UTF-8"),
            ("sjis", "utf-8", "remove", b"\xef\xbb\xbfa", "Shift_JIS"),
            ("sjis", "utf-8", "sniff", b"\xff\xfe", None),
            ("sjis", "utf-8", "keep", b"\xff\xfe", "Shift_JIS"),
            ("utf-16le", "utf-8", "sniff", b"\xef\xbb\xbf", "UTF-8"),
            ("sjis", "iso-2022-jp", "sniff", b"a", None),
            ("replacement", "utf-8", "sniff", b"a", None),
        ]
        for source, target, mark, head, want in rows:
            self.assertEqual(jillapun.part_encoding(head, source, target, mark=mark), want, (source, target, mark, head))

    def test_so_many_at_once(self) -> None:
        """Three parts are converted at once, and no more."""
        together, work = threading.Barrier(3), _parts._Block.convert
        running: List[int] = []
        most: List[int] = []

        def convert(block: _parts._Block, before: Any) -> None:
            running.append(1)
            most.append(len(running))
            if block.part.start < 6:
                together.wait(60)
            work(block, before)
            running.pop()

        self.put("a", b"a\n" * 100)
        with mock.patch("jillapun._parts._Block.convert", convert):
            self.found("utf-8", "windows-1252", threads=3)
        self.assertEqual(max(most), 3)
        self.assertRaises(ValueError, self.found, "utf-8", "utf-8", threads=0)

    def test_in_its_own_place(self) -> None:
        for data, options in ((GOOD * 9, {}), (BAD * 9, {}), (BAD * 9, {"lossy": True}), (BAD * 9, {"backup": "~"})):
            found = []
            for threads in (1, 3):
                self.put("a", data)
                with mock.patch("jillapun._parts.PART", 10):
                    try:
                        done: Any = jillapun.convert_file(
                            self.path, self.path, "utf-8", "windows-1252", in_place=True, threads=threads, **options
                        )
                    except jillapun.NotReplaced as fault:
                        done = str(fault), fault.done
                found.append((done, {name: Path(self.at(name)).read_bytes() for name in os.listdir(self.folder)}))
                Path(self.at("a~")).unlink(missing_ok=True)
            self.assertEqual(*found)

    def test_what_callbacks_raise(self) -> None:
        """The conversion ends, and its threads do."""
        self.put("a", BAD * 1000)
        running = threading.active_count()
        for fault in (KeyboardInterrupt, SystemExit, RuntimeError):
            for name in ("progress", "on_loss"):
                calls = mock.Mock(side_effect=[None, None, fault])
                with self.assertRaises(fault), mock.patch("jillapun._parts.PART", 10):
                    jillapun.convert_file(
                        self.path, self.path, "utf-8", "windows-1252", in_place=True, lossy=True, threads=3,
                        **{name: calls},
                    )  # fmt: skip
                self.assertEqual(calls.call_count, 3)
        self.assertEqual(threading.active_count(), running)
        self.holds(a=BAD * 1000)

    def test_reading_that_fails(self) -> None:
        """After two parts, of 26 bytes: what they lose is handed over, and then what failed is raised."""
        self.put("a", BAD * 100)
        all_told = self.found("utf-8", "windows-1252")[1]
        found = _parts._FIND_CUT(BAD)
        with mock.patch("jillapun._parts._FIND_CUT", side_effect=[found, found, OSError(errno.EIO, "the disk fails")]):
            result, told, data = self.found("utf-8", "windows-1252", threads=3, part=8)
        self.assertEqual((result[:2], data), ((OSError, "[Errno %d] the disk fails" % errno.EIO), None))
        self.assertEqual(told, all_told[:10])

    def test_writing_that_fails(self) -> None:
        """In the third part the output gets longer than a file may be: message and folder are those of one thread."""
        data = "日 ".encode() * 10_000
        self.put("a", data)
        code = (
            "import jillapun, resource, sys; from jillapun import _parts; _parts.PART = 10_000;"
            "resource.setrlimit(resource.RLIMIT_FSIZE, (60_000, 60_000));"
            "jillapun.convert_file('a', sys.argv[1], 'utf-8', 'windows-1252', in_place=sys.argv[1] == 'a', lossy=True,"
            "threads=int(sys.argv[2]))"
        )
        environment = {**os.environ, "PYTHONPATH": os.path.join(cases.TOP, "python")}
        said = set()
        for target in ("a", "b"):
            for threads in ("1", "3"):
                words = [sys.executable, "-c", code, target, threads]
                ran = subprocess.run(
                    words, cwd=self.folder, env=environment, capture_output=True, text=True, check=False
                )
                said.add((ran.returncode, ran.stderr.strip().split("\n")[-1]))
                self.holds(a=data)
        self.assertEqual(said, {(1, "OSError: [Errno %d] %s" % (errno.EFBIG, os.strerror(errno.EFBIG)))})

    def test_memory(self) -> None:
        """It does not grow with the file, which is longer than all that is used, with cuts or without."""
        for line in ("é日 aaa\n", "é日aaa"):
            self.put("a", line.encode() * 600_000)
            tracemalloc.start()
            with mock.patch("jillapun._parts.PART", 1 << 15):
                done = jillapun.convert_file(self.path, self.at("b"), "utf-8", "windows-1252", threads=3)
            peak = tracemalloc.get_traced_memory()[1]
            tracemalloc.stop()
            self.assertEqual(done.lost, 600_000)
            self.assertLess(peak, 3 << 20)


class Joins(unittest.TestCase):
    """Losses and reports of parts that the caller converts, joined, beside one conversion of the whole."""

    def made(self, parts: List[bytes], source: str, later: str, target: str, **words: Any) -> Tuple[Any, ...]:
        """What conversions of the parts of an input give together."""
        told, output = jillapun.Report(), b""
        losses: List[jillapun._results.Loss] = []
        for number, data in enumerate(parts):
            first = {"source": source} if not number else {"source": later, "mark": "keep"}
            converter = jillapun.Converter(target=target, **first, **words)
            try:
                done = converter.convert(data, last=True)
            except jillapun.Stopped as stop:
                losses += jillapun.join_losses(told, stop.losses)
                return output + stop.output, losses, jillapun.join_losses(told, [stop.lost])[0]
            output += done.output
            losses += jillapun.join_losses(told, done.losses)
            told = jillapun.join_reports(told, converter.report)
        return output, losses, told

    def test_random_inputs(self) -> None:
        chance = random.Random(21)
        seen = set()
        for _ in range(500):
            source, target = chance.choice(SOURCES), chance.choice(SOURCES + ["utf-16le"])
            data = input_of(chance, source)
            later = jillapun.part_encoding(data, source, target)
            if not later:
                continue
            cuts = [cut + 1 for cut, byte in enumerate(data[:-1]) if byte < 0x30 and chance.random() < 0.5]
            parts = [data[start:end] for start, end in zip([0, *cuts], [*cuts, None])]
            words = {"unmappable": chance.choice(["decimal", "hexadecimal", "stop"])}
            whole = self.made([data], source, later, target, **words)
            self.assertEqual(self.made(parts, source, later, target, **words), whole, (parts, source, target, words))
            seen.add((type(whole[2]), len(parts) > 1))
        self.assertEqual(seen, {(kind, many) for kind in (jillapun.Report, jillapun.Lost) for many in (False, True)})

    def test_numbers_by_hand(self) -> None:
        """A part behind ten bytes, which are seven characters."""
        before = jillapun.Report(read=10, bad=1, lost=0, faithful=False, characters=7)
        losses = jillapun.join_losses(before, [jillapun.Bad(3, 2), jillapun.Lost(2, "日")])
        self.assertEqual(losses, [jillapun.Bad(13, 2), jillapun.Lost(9, "日")])
        part = jillapun.Report(read=5, bad=0, lost=1, faithful=True, characters=4)
        self.assertEqual(jillapun.join_reports(before, part), (15, 1, 1, False, 11))
        self.assertEqual(jillapun.join_reports(jillapun.Report(), part), part)

    def test_numbers_of_no_conversion(self) -> None:
        one, most = jillapun.Report(read=1, characters=1), 2**64 - 1
        self.assertEqual(jillapun.join_losses(one, [jillapun.Bad(most - 1, 1)]), [jillapun.Bad(most, 1)])
        for number in (most, most + 1, -1):
            for loss in (jillapun.Bad(number, 1), jillapun.Lost(number, "日")):
                self.assertRaises(OverflowError, jillapun.join_losses, one, [loss])
            for name in ("read", "characters"):
                told = one._replace(**{name: number})
                self.assertRaises(OverflowError, jillapun.join_reports, told, one)
                self.assertRaises(OverflowError, jillapun.join_reports, one, told)


class Words(Programs):
    def test_the_program(self) -> None:
        """It says and writes the same, whatever the number."""
        self.folders("one", "many")
        self.put("a", (BAD + GOOD) * 50 + "日本\n".encode())
        with mock.patch("jillapun._parts.PART", 10):
            one = self.run_it("--into", self.at("one"), self.path)
            self.assertEqual(self.run_it("--threads", "3", "--into", self.at("many"), self.path), one)
        self.assertEqual(one[0], 1)
        self.assertEqual(*(Path(self.at(name)).read_bytes() for name in ("one/a", "many/a")))

    def test_numbers(self) -> None:
        self.put("a", GOOD)
        for word in ("0", "-1", "x", "", "1.5"):
            self.assertIn("--threads", self.refused(2, "--threads", word, self.path))


if __name__ == "__main__":
    unittest.main()
