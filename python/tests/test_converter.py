"""`Converter` beside `convert`: one output, one list of losses and one verdict, wherever the input is cut."""

import asyncio
import contextlib
import io
import os
import random
import runpy
import socket
import threading
import unittest
from pathlib import Path
from typing import Any, Iterator, List, Tuple
from unittest import mock

import cases
import jillapun
from jillapun import Bad, Lost, _steps
from jillapun._labels import LABELS
from jillapun._results import Loss
from jillapun._rooms import Rooms
from test_codecs import inputs

# The output, what was lost, and the verdict, or what it stopped at.
Made = Tuple[bytes, List[Loss], Any]

TARGETS = ("utf-8", "windows-1252", "shift_jis", "iso-2022-jp", "gb18030", "big5", "x-user-defined")


def whole(data: bytes, source: str, target: str, **words: Any) -> Made:
    """What `convert` gives."""
    try:
        return tuple(jillapun.convert(data, source, target, **words))
    except jillapun.Stopped as stop:
        return stop.output, stop.losses, stop.lost


def by_parts(parts: List[bytes], source: str, target: str, **words: Any) -> Made:
    """What a converter gives of these parts, the last of which is the last of the stream."""
    converter, output, losses = jillapun.Converter(source, target, **words), b"", []
    try:
        for number, data in enumerate(parts, 1):
            assert converter.report is None
            part = converter.convert(data, last=number == len(parts))
            output, losses = output + part.output, losses + part.losses
    except jillapun.Stopped as stop:
        assert converter.report is None
        return output + stop.output, losses + stop.losses, stop.lost
    counts = [sum(isinstance(loss, kind) for loss in losses) for kind in (Bad, Lost)]
    assert converter.report[:3] == (sum(map(len, parts)), *counts), converter.report
    return output, losses, converter.report.faithful


def cuts(data: bytes) -> Iterator[List[bytes]]:
    """Every cut in two, one that leaves nothing to the last call, and a part for each byte."""
    yield from ([data[:place], data[place:]] for place in range(len(data) + 1))
    yield [data[place : place + 1] for place in range(len(data))] + [b""]


class Cuts(unittest.TestCase):
    def same(self, data: bytes, source: str, target: str, **words: Any) -> None:
        wanted = whole(data, source, target, **words)
        for parts in cuts(data):
            made = by_parts(parts, source, target, **words)
            self.assertEqual(made, wanted, "%s to %s, %s: %s" % (source, target, words, parts))

    def each_encoding(self, count: int) -> None:
        """Random inputs of each encoding, malformed at their ends too, with each policy and each handling of marks."""
        chance, marks = random.Random(1), ("sniff", "remove", "keep")
        for name in sorted(set(LABELS.values())):
            for data in inputs(name, count):
                target = chance.choice(TARGETS)
                unmappable = chance.choice(("decimal", "hexadecimal", "stop"))
                self.same(data, name, target, mark=chance.choice(marks), unmappable=unmappable)

    def test_each_encoding(self) -> None:
        self.each_encoding(30)

    def test_little_room(self) -> None:
        """A byte and a record at a time."""
        with mock.patch.object(_steps, "rooms", Rooms(1, 1)):
            self.each_encoding(5)
            converter = jillapun.Converter("utf-8", "windows-1252")
            for _ in range(2):
                part = converter.convert("a日".encode() + b"\xff")
                self.assertEqual((part.output, len(part.losses)), (b"a&#26085;&#65533;", 3))

    def test_each_target(self) -> None:
        """Texts, of which each encoding lacks some characters, to all encodings."""
        text = "aé日ｱ한中😀¥\u200d€\x1b"
        for name in sorted(set(LABELS.values())):
            for unmappable in ("decimal", "hexadecimal", "stop"):
                self.same(text.encode(), "utf-8", name, unmappable=unmappable)

    def test_marks(self) -> None:
        """Marks of three encodings, their beginnings, and what follows them."""
        for mark in (b"\xef\xbb\xbf", b"\xff\xfe", b"\xfe\xff"):
            for data in (mark, mark[:-1], mark + mark, mark + b"a\0b\0", mark + b"\xe3\x81"):
                for name in ("utf-8", "utf-16le", "utf-16be", "windows-1252", "iso-2022-jp"):
                    for handling in ("sniff", "remove", "keep"):
                        self.same(data, name, "utf-8", mark=handling)

    def test_malformed_at_the_end(self) -> None:
        rows = [(b"a\xe3\x81", "utf-8"), (b"a\xf0\x9f\x98", "utf-8"), (b"\x83", "sjis"), (b"a\x8f\xa2", "euc-jp")]
        rows += [(b"\x81\x30\x81", "gb18030"), (b"\x1b$B$", "iso-2022-jp"), (b"a\x1b$", "iso-2022-jp")]
        for data, name in rows:
            self.assertEqual(whole(data, name, "utf-8")[2], False)
            self.same(data, name, "windows-1252")
            self.same(data, name, "windows-1252", unmappable="stop")

    def test_long_parts(self) -> None:
        """More output, and more losses, than a step has room for."""
        data = "é日".encode() * 70000
        wanted = whole(data, "utf-8", "windows-1252")
        self.assertEqual(len(wanted[1]), 70000)
        for parts in ([data], [data[:200001], data[200001:], b""]):
            self.assertEqual(by_parts(parts, "utf-8", "windows-1252"), wanted)


class Limits(unittest.TestCase):
    def test_each_limit(self) -> None:
        """An input within the limit is converted; of a longer one what is handed out is a part."""
        data = "é日\x1b".encode() + b"\xff"
        wanted = whole(data, "utf-8", "iso-2022-jp")
        for limit in range(len(data) + 2):
            for parts in cuts(data):
                with self.subTest(limit=limit, parts=parts):
                    if limit < len(data):
                        self.too_long(parts, limit, wanted)
                    else:
                        self.assertEqual(by_parts(parts, "utf-8", "iso-2022-jp", limit=limit), wanted)
            if limit < len(data):
                self.assertRaises(jillapun.TooLong, whole, data, "utf-8", "iso-2022-jp", limit=limit)

    def too_long(self, parts: List[bytes], limit: int, wanted: Made) -> None:
        converter, output, losses = jillapun.Converter("utf-8", "iso-2022-jp", limit=limit), b"", []
        with self.assertRaises(jillapun.TooLong):
            for part in (*parts, b""):
                made = converter.convert(part)
                output, losses = output + made.output, losses + made.losses
        self.assertTrue(wanted[0].startswith(output))
        self.assertEqual(losses, wanted[1][: len(losses)])
        self.assertRaisesRegex(ValueError, "ended", converter.convert, b"")

    def test_words(self) -> None:
        """They are refused as `convert` refuses them."""
        none = jillapun.Indexes(texts={})
        for words in ({"mark": "no"}, {"unmappable": "no"}, {"limit": -1}, {"indexes": none}):
            made = []
            for call in (jillapun.Converter, lambda *names, **words: jillapun.convert(b"", *names, **words)):
                with self.assertRaises(Exception) as it:
                    call("big5", "utf-8", **words)
                made.append((type(it.exception), str(it.exception)))
            self.assertEqual(made[0], made[1])
        self.assertRaises(jillapun.UnknownLabel, jillapun.Converter, "utf-8", "none")


class Calls(unittest.TestCase):
    def test_losses_of_a_call(self) -> None:
        """Each call has its own, which count from the start of the stream."""
        converter = jillapun.Converter("shift_jis", "windows-1252")
        given = b"a\xff", b"\x83", b"\x6e\xff", b""
        made = [converter.convert(data) for data in given]
        self.assertEqual(b"".join(part.output for part in made), b"a&#65533;&#12495;&#65533;")
        self.assertEqual(made[0].losses, [Bad(1, 1), Lost(1, "\ufffd")])
        self.assertEqual([part.losses for part in made[1:]], [[], [Lost(2, "ハ"), Bad(4, 1), Lost(3, "\ufffd")], []])
        self.assertEqual((converter.report, converter.convert(b"", last=True)), (None, (b"", [])))
        self.assertEqual(converter.report, (5, 2, 3, False, 4))

    def test_the_end(self) -> None:
        """The verdict can be that something is lost where no loss was reported; and after the end there is no more."""
        rows = ("a", True, "nothing was lost"), ("¥", False, "some characters do not read back")
        for text, is_faithful, words in rows:
            converter = jillapun.Converter("utf-8", "shift_jis")
            converter.convert(text.encode(), last=True)
            self.assertEqual(converter.report, (len(text.encode()), 0, 0, is_faithful, 1))
            self.assertEqual(converter.report.summary, words)
            self.assertRaisesRegex(ValueError, "ended", converter.convert, b"")

    def test_stop(self) -> None:
        """It has what the last call wrote and lost."""
        converter = jillapun.Converter("utf-8", "iso-2022-jp", unmappable="stop")
        self.assertEqual(converter.convert(b"a"), (b"a", []))
        with self.assertRaises(jillapun.Stopped) as it:
            converter.convert("日😀日".encode())
        self.assertEqual((it.exception.output, it.exception.lost), (b"\x1b$BF|\x1b(B", (2, "😀")))
        self.assertEqual((it.exception.losses, converter.report), ([Lost(2, "😀")], None))
        self.assertRaisesRegex(ValueError, "ended", converter.convert, b"")

    def test_bytes(self) -> None:
        """Whatever has bytes. What has none is refused, and the stream goes on."""
        converter = jillapun.Converter("utf-8", "utf-16le")
        for given in (b"ab", bytearray(b"ab"), memoryview(b"axbx")[::2]):
            self.assertEqual(converter.convert(given), (b"ab", []))
        for given in (2, "ab", None):
            self.assertRaises(TypeError, converter.convert, given)
        self.assertEqual(converter.convert(b"c", last=True), (b"c", []))
        self.assertEqual(converter.report, (7, 0, 0, True, 7))

    def test_threads(self) -> None:
        """Each loss is returned by one of the calls, and each byte is written by one."""
        converter, made = jillapun.Converter("utf-8", "windows-1252"), []

        def work() -> None:
            for _ in range(50):
                made.append(converter.convert(b"a\xff" * 100))

        threads = [threading.Thread(target=work) for _ in range(4)]
        for thread in threads:
            thread.start()
        for thread in threads:
            thread.join()
        converter.convert(b"", last=True)
        self.assertEqual({part.output for part in made}, {b"a&#65533;" * 100})
        self.assertEqual({len(part.losses) for part in made}, {200})
        places = sorted(loss.offset for part in made for loss in part.losses if isinstance(loss, Bad))
        self.assertEqual(places, list(range(1, 40000, 2)))
        self.assertEqual(converter.report, (40000, 20000, 20000, False, 40000))


class Documents(unittest.TestCase):
    path = Path(cases.TOP, "docs/examples/python/convert_stream.py")

    def test_the_example(self) -> None:
        """Its answer to a client that sends a byte at a time."""
        answer = runpy.run_path(os.fspath(self.path))["answer"]
        ours, theirs = socket.socketpair()

        async def spoken() -> bytes:
            reader, writer = await asyncio.open_connection(sock=ours)
            answered = asyncio.ensure_future(answer(*await asyncio.open_connection(sock=theirs)))
            for byte in "日本".encode("cp932") + b"\xff\n\x83":
                writer.write(bytes([byte]))
                await asyncio.sleep(0)
            writer.write_eof()
            heard = await reader.read()
            await answered
            writer.close()
            return heard

        said = io.StringIO()
        with contextlib.redirect_stdout(said):
            heard = asyncio.run(spoken())
        self.assertEqual(heard.decode(), "日本\ufffd\n\ufffd")
        lines = ["bad 4 1", "bad 6 1", "malformed sequences: 2, characters without bytes: 0"]
        self.assertEqual(said.getvalue().splitlines(), lines)


if __name__ == "__main__":
    unittest.main()
