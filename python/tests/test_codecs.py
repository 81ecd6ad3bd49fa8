"""The codecs under Python's names: beside a plain program of the standard's algorithms, `tools/oracles/standard.py`, and
beside Python's own codecs where both agree."""

import codecs
import csv
import doctest
import io
import os
import random
import sys
import tempfile
import unittest
from pathlib import Path
from typing import Any, Callable, Iterator, List, Tuple

import cases
import installed
import jillapun
from jillapun._labels import LABELS

sys.path.append(os.path.join(cases.TOP, "tools", "oracles"))

import standard  # noqa: E402

jillapun.register()

# Bytes that begin, go on with or break sequences, by encodings; all others have those of "".
EDGES = {
    "": "0041 7F 80 8F 90 A0 A4 D0 E9 FF",
    "UTF-8": "0041 7F 80 8F 90 9F A0 BF C2 DF E0 ED EF BB BF F0 F4 F5 FF",
    "UTF-16LE": "0041 3D D8 DE D9 DC FF FE",
    "UTF-16BE": "0041 3D D8 DE D9 DC FF FE",
    "Shift_JIS": "0041 7F 80 81 83 6E 9F A0 A6 E0 FC FD FF",
    "EUC-JP": "0041 7F 8E 8F A1 A4 B0 CA DE FE FF",
    "EUC-KR": "0041 7F 80 81 A1 B0 C6 FE FF",
    "Big5": "0041 7F 80 87 88 62 64 A3 A4 40 FE FF",
    "GBK": "0030 39 41 7F 80 81 84 90 A1 E3 FE FF",
    "gb18030": "0030 39 41 7F 80 81 84 90 A1 E3 FE FF",
    "ISO-2022-JP": "0A 41 5C 7E 0E 7F 80 1B 24 28 40 42 49 4A 21",
}
ESCAPES = [b"\x1b(B", b"\x1b(J", b"\x1b(I", b"\x1b$@", b"\x1b$B", b"\x1b$B$O", b"\x1b(I1"]
MARKS = {"UTF-8": b"\xef\xbb\xbf", "UTF-16LE": b"\xff\xfe", "UTF-16BE": b"\xfe\xff"}

# Encodings with the codec of Python that is nearest to each.
PAIRS = {
    "web-shift_jis": "cp932",
    "web-windows-1252": "cp1252",
    "web-utf-8": "utf-8",
    "web-gb18030": "gb18030",
    "web-euc-jp": "euc_jp",
    "web-euc-kr": "cp949",
    "web-big5": "big5hkscs",
    "web-iso-2022-jp": "iso2022_jp",
}
JAPANESE = "日本語のテキスト、\nカナと ASCII\r\n最後の行"
TEXTS = {
    "web-windows-1252": "Größe, naïve — “quoted”\n12 €\r\nlast line",
    "web-euc-kr": "한국어 텍스트\nASCII 와 함께\r\n마지막 줄",
    "web-big5": "中文的文字\n和 ASCII\r\n最後一行",
    "web-gb18030": "中文的文字\n和 ASCII 😀é\r\n最后一行",
    "web-utf-8": "日本語 é 😀\n行\r\nlast",
}


def inputs(name: str, count: int) -> Iterator[bytes]:
    """Random inputs of an encoding, some with a mark at the start."""
    chance = random.Random(name)
    pieces = [bytes([byte]) for byte in bytes.fromhex(EDGES.get(name, EDGES[""]))]
    pieces += ESCAPES * 2 if name == "ISO-2022-JP" else []
    for _ in range(count):
        mark = MARKS.get(name, b"") if chance.random() < 0.2 else b""
        yield mark + b"".join(chance.choices(pieces, k=chance.randrange(14)))


def seen_by(name: str, encoding: standard.Encoding, data: bytes) -> Tuple[str, List[Tuple[int, int]]]:
    """The text, and where each malformed sequence begins and ends, as the plain program has them."""
    mark = MARKS.get(name, b"")
    begin = len(mark) if mark and data.startswith(mark) else 0
    text, losses = "", []
    for start, end, points in standard.pieces(encoding.decoder(), data[begin:]):
        if points is None:
            losses.append((begin + start, begin + end))
        text += "\ufffd" if points is None else "".join(map(chr, points))
    return text, losses


class Log:
    """A handler that keeps where each loss is, and what is lost there, and writes U+FFFD or something of its own."""

    def __init__(self, replacement: Any = "\ufffd"):
        self.spans: List[Tuple[int, int]] = []
        self.pieces: List[Any] = []
        self.replacement = replacement
        codecs.register_error("log", self.handle)

    def handle(self, error: Any) -> Tuple[Any, int]:
        self.spans.append((error.start, error.end))
        self.pieces.append(error.object[error.start : error.end])
        return self.replacement, error.end


class Names(unittest.TestCase):
    def test_examples(self) -> None:
        self.assertEqual(doctest.testmod(sys.modules["jillapun.codecs"])[0], 0)

    def test_labels(self) -> None:
        for label, name in LABELS.items():
            self.assertEqual(jillapun.name(label), name)
            for form in ("web-" + label, "WEB_" + label.upper(), "web " + label.replace("-", " ")):
                self.assertEqual(codecs.lookup(form).name, "web-" + name.lower())

    def test_names_of_python(self) -> None:
        for name, wanted in (("cp932", "shift_jis"), ("cp949", "euc-kr"), ("euc_jp", "euc-jp"), ("utf_8", "utf-8")):
            self.assertEqual(codecs.lookup("web-" + name).name, "web-" + wanted)
        with self.assertRaisesRegex(LookupError, r"web-latin_1 \(the nearest label is web-latin1\)"):
            codecs.lookup("web-latin-1")

    def test_unknown(self) -> None:
        for name in ("web-none", "web-", "web", "webshift_jis", "web-web-utf-8"):
            self.assertRaises(LookupError, codecs.lookup, name)

    def test_no_encoders(self) -> None:
        for name in ("web-utf-16le", "web-utf-16be", "web-replacement"):
            with self.assertRaisesRegex(LookupError, "no encoder"):
                "a".encode(name)
            file = io.TextIOWrapper(io.BytesIO(b""), name)
            self.assertEqual(file.read(), "")
            self.assertRaises(LookupError, file.write, "a")
            with codecs.StreamReaderWriter(io.BytesIO(), codecs.getreader(name), codecs.getwriter(name)) as stream:
                stream.seek(0)
                self.assertRaises(LookupError, stream.write, "a")


class Decoders(unittest.TestCase):
    """Each encoding beside the plain program: at once, by parts, and by states that are taken and brought back."""

    @classmethod
    def setUpClass(cls) -> None:
        cls.encodings = standard.encodings(os.path.join(cases.TOP, "indexes"))

    def each(self, count: int) -> Iterator[Tuple[str, bytes, str, List[Tuple[int, int]]]]:
        for name, encoding in self.encodings.items():
            for data in inputs(name, count if name not in standard.SINGLE_BYTE else count // 10):
                yield ("web-" + name.lower(), data, *seen_by(name, encoding, data))

    def test_whole(self) -> None:
        for name, data, text, losses in self.each(100):
            with self.subTest(name=name, data=data):
                log = Log()
                self.assertEqual(data.decode(name, "log"), text)
                self.assertEqual(log.spans, losses)
                self.assertEqual(data.decode(name, "replace"), text)
                self.assertEqual(bytearray(data).decode(name, "ignore"), "".join(self.kept(name, data, losses)))
                if losses:
                    with self.assertRaises(UnicodeDecodeError) as raised:
                        data.decode(name)
                    error = raised.exception
                    self.assertEqual((error.encoding, error.object, error.start, error.end), (name, data, *losses[0]))
                else:
                    self.assertEqual(data.decode(name), text)

    def kept(self, name: str, data: bytes, losses: List[Tuple[int, int]]) -> Iterator[str]:
        """The text but for the U+FFFD of losses: an input may have some of its own."""
        marked, log = "\ue000", Log("\ue000")
        yield data.decode(name, "log").replace(marked, "")
        self.assertEqual(len(log.spans), len(losses))

    def test_long(self) -> None:
        """More than one call has room for, and than is tried by one call."""
        for name, encoding in self.encodings.items():
            parts = list(inputs(name, 40)) * 12
            data = b"".join(parts)
            text, losses = seen_by(name, encoding, data)
            log = Log()
            self.assertEqual(data.decode("web-" + name.lower(), "log"), text)
            self.assertEqual(log.spans, losses)
            self.assertEqual(data.decode("web-" + name.lower(), "replace"), text)

    def test_room(self) -> None:
        """More text than one call has room for."""
        for name, codec in PAIRS.items():
            text = TEXTS.get(name, JAPANESE) * 3000
            self.assertEqual(text.encode(codec).decode(name), text)
            self.assertEqual(text.encode(name), text.encode(codec))

    def test_cuts(self) -> None:
        """In two at each place, and byte by byte: text and malformed bytes are as at once."""
        for name, data, text, losses in self.each(30):
            with self.subTest(name=name, data=data):
                decoder_of = codecs.getincrementaldecoder(name)
                wanted = [data[start:end] for start, end in losses]
                for cut in range(len(data) + 1):
                    log, decoder = Log(), decoder_of("log")
                    self.assertEqual(
                        decoder.decode(data[:cut]) + decoder.decode(data[cut:], True), text, "cut at %d" % cut
                    )
                    self.assertEqual(log.pieces, wanted, "cut at %d" % cut)
                for errors in ("log", "replace"):
                    decoder = decoder_of(errors)
                    parts = [decoder.decode(data[place : place + 1]) for place in range(len(data))]
                    self.assertEqual("".join(parts) + decoder.decode(b"", True), text)

    def test_states(self) -> None:
        """A decoder that takes another's state over goes on as that would."""
        for name, data, text, _ in self.each(30):
            with self.subTest(name=name, data=data):
                decoder_of = codecs.getincrementaldecoder(name)
                decoder, begun = decoder_of("replace"), ""
                begin = decoder.getstate()
                self.assertEqual(begin[0], b"")
                for place in range(len(data)):
                    other = decoder_of("replace")
                    other.setstate(decoder.getstate())
                    self.assertEqual(begun + other.decode(data[place:], True), text)
                    begun += decoder.decode(data[place : place + 1])
                decoder.reset()
                self.assertEqual(decoder.getstate(), begin)
                self.assertEqual(decoder.decode(data, True), text)

    def test_foreign_states(self) -> None:
        """Those that no decoder or encoder has are refused at once."""
        for name in {"web-" + each.lower() for each in LABELS.values()}:
            decoder, encoder = codecs.getincrementaldecoder(name)(), codecs.getincrementalencoder(name)()
            begun, other = decoder.getstate(), encoder.getstate()
            for state in (None, 5, b"", (b"",), (b"", 0, 0), ("", 0), (b"", None), (b"", 0.0), [b"", 0]):
                self.assertRaises(TypeError, decoder.setstate, state)
            for state in ((b"", -1), (b"", 4), (b"", 1 << 70), (b"123456789", 0)):
                self.assertRaises(UnicodeError, decoder.setstate, state)
            for state in (None, "", 0.0, (b"", 0)):
                self.assertRaises(TypeError, encoder.setstate, state)
            for state in (-1, 5, 1 << 70):
                self.assertRaises(UnicodeError, encoder.setstate, state)
            self.assertEqual((decoder.getstate(), encoder.getstate()), (begun, other))
            file = io.TextIOWrapper(io.BytesIO(b"abc\n"), name)
            self.assertRaises(UnicodeError, file.seek, 50 << 64 | 3)
        # No encoder of ISO-2022-JP writes katakana of one byte.
        self.assertRaises(UnicodeError, codecs.getincrementalencoder("web-iso-2022-jp")().setstate, 3)

    def test_few_bytes_wait(self) -> None:
        """What is undecided is short, however long the input is: so `tell` has a small state."""
        for name, data, _, _ in self.each(30):
            with self.subTest(name=name, data=data):
                decoder = codecs.getincrementaldecoder(name)("replace")
                decoder.decode(data * 3)
                self.assertLess(len(decoder.getstate()[0]), 7)

    def test_readers(self) -> None:
        """Stream readers, by some bytes at a time; what waits at the end is malformed."""
        for name, data, text, _ in self.each(20):
            with self.subTest(name=name, data=data):
                for size in (1, 3, -1, None):
                    reader = codecs.getreader(name)(io.BytesIO(data), "replace")
                    self.assertEqual("".join(iter(lambda: reader.read(size), "")), text)
                    reader.seek(0)
                    self.assertEqual("".join(iter(lambda: reader.readline(None), "")), text)
                    reader.seek(0)
                    self.assertEqual("".join(reader.readlines()), text)

    def test_error_leaves_state(self) -> None:
        """After an error a decoder is where it was."""
        decoder = codecs.getincrementaldecoder("web-shift_jis")()
        decoder.decode(b"A\x83")
        with self.assertRaises(UnicodeDecodeError) as raised:
            decoder.decode(b"n\xff")
        self.assertEqual((raised.exception.object, raised.exception.start), (b"\x83n\xff", 2))
        self.assertEqual(decoder.decode(b"nB"), "ハB")


class Encoders(unittest.TestCase):
    """Each encoding beside the plain program."""

    TEXTS = "aé\x80€日本ハｱ¥‾\\~\n\x0e\x1b\uf780\ufffd😀中丂ęбα가"

    @classmethod
    def setUpClass(cls) -> None:
        every = standard.encodings(os.path.join(cases.TOP, "indexes"))
        cls.encodings = {name: encoding for name, encoding in every.items() if encoding.output == name}

    def each(self, count: int) -> Iterator[Tuple[str, str, List[int]]]:
        for name, encoding in self.encodings.items():
            chance = random.Random(name)
            for _ in range(count):
                text = "".join(chance.choices(self.TEXTS, k=chance.randrange(12)))
                yield "web-" + name.lower(), text, standard.encode(encoding.encoder(), map(ord, text))

    def written(self, items: List[int], lost: Callable[[int], bytes]) -> bytes:
        unmappable = standard.UNMAPPABLE
        return b"".join(lost(item - unmappable) if item >= unmappable else bytes([item]) for item in items)

    def test_whole_and_cuts(self) -> None:
        for name, text, items in self.each(40):
            with self.subTest(name=name, text=text):
                data, log = self.written(items, lambda _: b"??"), Log(b"??")
                lost = sum(item >= standard.UNMAPPABLE for item in items)
                self.assertEqual(text.encode(name, "log"), data)
                self.assertEqual(len(log.spans), lost)
                for cut in range(len(text) + 1):
                    encoder = codecs.getincrementalencoder(name)("log")
                    begun = encoder.encode(text[:cut])
                    other = codecs.getincrementalencoder(name)("log")
                    other.setstate(encoder.getstate())
                    self.assertEqual(begun + encoder.encode(text[cut:], True), data)
                    self.assertEqual(begun + other.encode(text[cut:], True), data)
                stream = io.BytesIO()
                with codecs.getwriter(name)(stream, "log") as writer:
                    writer.writelines(text)
                    writer.reset()
                    self.assertEqual(stream.getvalue(), data)

    def test_long_parts(self) -> None:
        """Parts that one call has no room for, one after another."""
        for name in ("UTF-8", "windows-1252", "Shift_JIS", "gb18030", "ISO-2022-JP"):
            encoding, text = self.encodings[name], self.TEXTS * 600
            wanted = self.written(standard.encode(encoding.encoder(), map(ord, text * 2)), lambda _: b"??")
            Log(b"??")
            encoder = codecs.getincrementalencoder("web-" + name.lower())("log")
            self.assertEqual(encoder.encode(text) + encoder.encode(text, True), wanted)
            self.assertEqual(encoder.getstate(), codecs.getincrementalencoder("web-iso-2022-jp")().getstate())

    def test_positions(self) -> None:
        for name, encoding in self.encodings.items():
            for character in self.TEXTS:
                items = standard.encode(encoding.encoder(), [ord(character)])
                if any(item >= standard.UNMAPPABLE for item in items):
                    text = "ab" + character + "c"
                    with self.assertRaises(UnicodeEncodeError) as raised:
                        text.encode("web-" + name.lower())
                    error = raised.exception
                    wanted = ("web-" + name.lower(), text, 2, 3)
                    self.assertEqual((error.encoding, error.object, error.start, error.end), wanted)

    def test_handlers(self) -> None:
        """What a handler writes for characters without bytes, as it does in Python's codecs."""
        handlers = ("ignore", "replace", "xmlcharrefreplace", "backslashreplace", "namereplace", "surrogateescape")
        text = "aд\udcff日é😀\udc80\udcfe"
        for count in (1, 700):
            for errors in handlers:
                for ours, theirs in (
                    ("web-windows-1252", "cp1252"),
                    ("web-iso-8859-2", "iso8859_2"),
                    ("web-utf-8", "utf-8"),
                ):
                    with self.subTest(errors=errors, ours=ours):
                        self.assertEqual(self.made(text * count, ours, errors), self.made(text * count, theirs, errors))
                        self.assertEqual(
                            self.made("dдé" * count, ours, errors), self.made("dдé" * count, theirs, errors)
                        )

    def made(self, text: str, codec: str, errors: str) -> Any:
        """The bytes, or where the first loss begins."""
        try:
            return text.encode(codec, errors)
        except UnicodeEncodeError as error:
            return error.start

    def test_unencodable_replacement(self) -> None:
        Log("日")
        with self.assertRaises(UnicodeEncodeError) as raised:
            "aд".encode("web-windows-1252", "log")
        self.assertEqual(raised.exception.start, 1)
        Log("é")
        self.assertEqual("aдb".encode("web-windows-1252", "log"), b"a\xe9b")

    def test_controls_of_iso_2022_jp(self) -> None:
        """The handler sees the control that is there; what `reset` owes is an escape."""
        self.assertEqual("日\x1b".encode("web-iso-2022-jp", "xmlcharrefreplace"), b"\x1b$BF|\x1b(B&#27;")
        self.assertEqual(
            ("¥д" * 2).encode("web-iso-2022-jp", "backslashreplace"), b"\x1b(J\\\x1b$B'U\x1b(J\\\x1b$B'U\x1b(B"
        )
        stream = io.BytesIO()
        writer = codecs.getwriter("web-iso-2022-jp")(stream)
        writer.write("日"), writer.write("本")
        self.assertEqual(stream.getvalue(), b"\x1b$BF|K\\")
        writer.reset()
        self.assertEqual(stream.getvalue(), b"\x1b$BF|K\\\x1b(B")


    def test_appended_iso_2022_jp(self) -> None:
        """`open` does not end a text, so what is appended to it says that it begins in ASCII."""
        for more, wanted in (("A", b"\x1b(BA"), ("本", b"\x1b$BK\\"), ("", b"")):
            with self.subTest(more), tempfile.TemporaryDirectory() as folder:
                path = os.path.join(folder, "text")
                for mode, text in (("w", "日"), ("a", more)):
                    with open(path, mode, encoding="web-iso-2022-jp") as file:
                        file.write(text)
                with open(path, "rb") as file:
                    self.assertEqual(file.read(), b"\x1b$BF|" + wanted)
                with open(path, encoding="web-iso-2022-jp") as file:
                    self.assertEqual(file.read(), "日" + more)
        encoder = codecs.getincrementalencoder("web-iso-2022-jp")()
        encoder.setstate(encoder.getstate())
        self.assertEqual(encoder.encode("A"), b"A")


class Handlers(unittest.TestCase):
    """Python's handlers, and those that go on elsewhere than at the end of a loss."""

    def test_decoding_handlers(self) -> None:
        data = b"a\xff\x80b\xc3(\xf0\x9f\x98\xe2"
        for errors in ("ignore", "replace", "backslashreplace", "surrogateescape"):
            self.assertEqual(data.decode("web-utf-8", errors), data.decode("utf-8", errors))
            decoder = codecs.getincrementaldecoder("web-utf-8")(errors)
            parts = [decoder.decode(data[place : place + 1]) for place in range(len(data))]
            self.assertEqual("".join(parts) + decoder.decode(b"", True), data.decode("utf-8", errors))

    def test_positions_beside_python(self) -> None:
        """Python finds the same losses in UTF-8, and single bytes without a character in code pages."""
        chance = random.Random(5)
        for name, codec, alphabet in (
            ("web-utf-8", "utf-8", bytes.fromhex(EDGES["UTF-8"])),
            ("web-windows-1253", "cp1253", bytes.fromhex("41 C1 D2 E9 AA FF")),
            ("web-iso-8859-7", "iso8859_7", bytes.fromhex("41 C1 D2 AE FF")),
        ):
            for _ in range(500):
                data = bytes(chance.choices(alphabet, k=chance.randrange(12)))
                spans = []
                for each in (name, codec):
                    log = Log()
                    data.removeprefix(b"\xef\xbb\xbf").decode(each, "log")
                    spans.append(log.spans)
                self.assertEqual(*spans, data)

    def test_surrogates_come_back(self) -> None:
        chance = random.Random(7)
        for name in ("web-shift_jis", "web-euc-jp", "web-windows-1253", "web-utf-8", "web-euc-kr"):
            for _ in range(300):
                data = bytes(chance.choices(b"A\x81\xa0\xc1\xff\xfd\x80\xd2", k=8))
                text = data.decode(name, "surrogateescape")
                if all(ord(c) < 0x80 or 0xDC80 <= ord(c) <= 0xDCFF for c in text):
                    self.assertEqual(text.encode(name, "surrogateescape"), data)

    def test_moving_handlers(self) -> None:
        """A handler may skip what follows, or go back."""
        codecs.register_error("skip", lambda error: ("<>", error.end + 1))
        codecs.register_error("last", lambda error: ("<>", -1))
        for count in (1, 2000):
            self.assertEqual((b"a\xffbc" * count).decode("web-shift_jis", "skip"), "a<>c" * count)
            self.assertEqual(("aдbc" * count).encode("web-windows-1252", "skip"), b"a<>c" * count)
        self.assertEqual(b"a\xffbc".decode("web-utf-8", "last"), "a<>c")
        self.assertEqual("aдbc".encode("web-windows-1252", "last"), b"a<>c")
        # The mode stays, and bytes that are skipped are not looked at.
        self.assertEqual(b"\x1b$B\xff!$O$O".decode("web-iso-2022-jp", "skip"), "<>はは")
        again = iter([1])
        codecs.register_error("again", lambda error: ("<>", error.end - next(again, 0)))
        self.assertEqual(b"\x1b$B$O\xff$O".decode("web-iso-2022-jp", "again"), "は<><>は")

    def test_wrong_handlers(self) -> None:
        for result, kind in ((None, TypeError), (("", 1, 2), TypeError), ((b"", 1), TypeError), (("", 9), IndexError)):
            codecs.register_error("wrong", lambda error, result=result: result)
            self.assertRaises(kind, b"\xff".decode, "web-utf-8", "wrong")
        for result, kind in ((None, TypeError), ((1, 1), TypeError), (("", -9), IndexError)):
            codecs.register_error("wrong", lambda error, result=result: result)
            self.assertRaises(kind, "д".encode, "web-windows-1252", "wrong")
        self.assertRaises(LookupError, b"\xff".decode, "web-utf-8", "no such handler")
        self.assertRaises(TypeError, codecs.encode, b"", "web-utf-8")
        self.assertRaises(TypeError, codecs.decode, "", "web-utf-8")

    def test_types(self) -> None:
        """A length is that of the bytes, whatever an object says of itself."""

        class Liar(bytes):
            def __len__(self) -> int:
                return 1000

        class Text(str):
            def encode(self, *words: str) -> bytes:
                return Liar(b"x")

            def __getitem__(self, place: Any) -> str:
                return self

        for count in (1, 2000):
            self.assertEqual(codecs.encode(Text("aд" * count), "web-utf-8"), "aд".encode() * count)
        codecs.register_error("text", lambda error: (Text("?"), error.end))
        self.assertEqual("aд".encode("web-windows-1252", "text"), b"a?")
        self.assertEqual("aд".encode("web-iso-2022-jp", "text"), "aд".encode("iso2022_jp"))
        self.assertEqual("aé".encode("web-iso-2022-jp", "text"), b"a?")
        decoder = codecs.getincrementaldecoder("web-shift_jis")()
        decoder.setstate((Liar(b"\x83"), 0))
        self.assertEqual(decoder.decode(Liar(b"n")), "ハ")

    def test_surrogatepass_does_nothing(self) -> None:
        """Python's handler knows UTF-8 and UTF-16 by their names."""
        self.assertRaises(UnicodeEncodeError, "\ud800".encode, "web-utf-8", "surrogatepass")
        self.assertRaises(UnicodeDecodeError, b"\xed\xa0\x80".decode, "web-utf-8", "surrogatepass")

    def test_handler_that_decodes(self) -> None:
        """A handler may call the codecs itself."""
        codecs.register_error("inner", lambda error: (b"\x83\x6e".decode("web-shift_jis"), error.end))
        self.assertEqual((b"a" * 2000 + b"\xffb").decode("web-shift_jis", "inner"), "a" * 2000 + "ハb")


class Files(unittest.TestCase):
    """`open` and `TextIOWrapper`, beside themselves over a codec of Python's."""

    def setUp(self) -> None:
        folder = tempfile.TemporaryDirectory()
        self.addCleanup(folder.cleanup)
        self.path = os.path.join(folder.name, "a.txt")

    def both(self, work: Callable[[str], Any], text: str = "") -> None:
        for ours, theirs in PAIRS.items():
            with self.subTest(codec=ours):
                self.text = (text or TEXTS.get(ours, JAPANESE)) * 40
                results = []
                for codec in (ours, theirs):
                    Path(self.path).write_bytes(self.text.encode(theirs))
                    results.append(work(codec))
                self.assertEqual(*results)

    def test_reading(self) -> None:
        def work(codec: str) -> Any:
            with open(self.path, encoding=codec) as file:
                parts = [file.read(7), file.readline(), file.readline(3), *file.readlines()]
            with open(self.path, encoding=codec, newline="") as file:
                return parts, list(file)

        self.both(work)

    def test_tell_and_seek(self) -> None:
        """Each place that `tell` names after some characters is where these are behind."""
        for ours in PAIRS:
            self.text = TEXTS.get(ours, JAPANESE) * 20
            data = self.text.encode(PAIRS[ours])
            for chunk in (8192, 5):
                with self.subTest(codec=ours, chunk=chunk):
                    file = io.TextIOWrapper(io.BytesIO(data), encoding=ours, newline="")
                    file._CHUNK_SIZE = chunk
                    places = []
                    for _ in range(len(self.text)):
                        places.append(file.tell())
                        file.read(1)
                    self.assertEqual(file.read(), "")
                    for index in random.Random(ours).sample(range(len(places)), 60):
                        file.seek(places[index])
                        self.assertEqual(file.read(9), self.text[index : index + 9])
                        file.seek(places[index])
                        self.assertEqual(file.tell(), places[index])

    def test_tell_is_the_offset(self) -> None:
        """In all but ISO-2022-JP, which has modes."""
        for name in sorted({*LABELS.values()} - {"ISO-2022-JP"}):
            unit = 2 if name.startswith("UTF-16") else 1
            codec = {"UTF-16LE": "utf-16-le", "UTF-16BE": "utf-16-be"}.get(name, "ascii")
            data = "ab\ncd\nef\n".encode(codec)
            with self.subTest(name=name):
                file = io.TextIOWrapper(io.BytesIO(data), "web-" + name, "replace")
                file.readline()
                self.assertEqual(file.tell(), len(data) if name == "replacement" else 3 * unit)
                file.read()
                self.assertEqual(file.tell(), len(data))
        for ours in set(PAIRS) - {"web-iso-2022-jp"}:
            # After a carriage return `TextIOWrapper` has a state of its own.
            text = TEXTS.get(ours, JAPANESE).replace("\r", "")
            file = io.TextIOWrapper(io.BytesIO(text.encode(ours)), ours, newline="")
            for end in range(1, len(text) + 1):
                file.read(1)
                self.assertEqual(file.tell(), len(text[:end].encode(ours)))

    def test_tell_with_mark(self) -> None:
        """A mark is left out at the start alone, also after a `seek`."""
        text = "a\ufeffb\nc\n"
        for ours, theirs in (("UTF-8", "utf-8"), ("UTF-16LE", "utf-16-le"), ("UTF-16BE", "utf-16-be")):
            file = io.TextIOWrapper(io.BytesIO(MARKS[ours] + text.encode(theirs)), "web-" + ours)
            self.assertEqual(file.readline(), "a\ufeffb\n")
            place = file.tell()
            self.assertEqual(file.read(), "c\n")
            file.seek(0)
            self.assertEqual(file.read(), text)
            file.seek(place)
            self.assertEqual(file.read(), "c\n")
            file.seek(0)
            file.read(1)
            file.seek(file.tell())
            self.assertEqual(file.read(2), "\ufeffb")

    def test_writing(self) -> None:
        def work(codec: str) -> Any:
            with open(self.path, "w", encoding=codec) as file:
                file.write(self.text[:50])
                file.write("\n")
                places = [file.tell()]
                for line in self.text.splitlines(keepends=True):
                    file.write(line)
                file.write("\n")
            with open(self.path, "a", encoding=codec) as file:
                places.append(file.tell())
                file.write(self.text[:30] + "\n")
            with open(self.path, "r+", encoding=codec) as file:
                file.read(5), file.seek(0)
                file.write("abc\n")
                file.seek(0, io.SEEK_END)
                file.write("end\n")
            # Python's ISO-2022-JP writes an escape to ASCII after each `seek`.
            return places, Path(self.path).read_bytes().replace(b"\x1b(Bend", b"end")

        self.both(work)

    def test_errors_of_files(self) -> None:
        data = b"a\n" * 6000 + b"b\xff\n"
        Path(self.path).write_bytes(data)
        with open(self.path, encoding="web-shift_jis") as file, self.assertRaises(UnicodeDecodeError):
            file.read()
        with open(self.path, encoding="web-shift_jis", errors="replace") as file:
            self.assertEqual(file.readlines()[-1], "b\ufffd\n")
        with open(self.path, "w", encoding="web-windows-1252", errors="xmlcharrefreplace") as file:
            file.write("日é")
        self.assertEqual(Path(self.path).read_bytes(), b"&#26085;\xe9")

    def test_codecs_open(self) -> None:
        def work(codec: str) -> Any:
            with codecs.open(self.path, encoding=codec) as file:
                parts = [file.readline(), file.read(20) + file.readline(), *file]
            with codecs.open(self.path, "w", encoding=codec) as file:
                file.write(self.text[:50] + "\n")
            return "".join(parts), Path(self.path).read_bytes()

        self.both(work)

    def test_csv(self) -> None:
        rows = [["名前", "値"], ["ハ, ", '"引用"'], ["行\n行", "ソ表"]]
        with open(self.path, "w", encoding="web-shift_jis", newline="") as file:
            csv.writer(file).writerows(rows)
        with open(self.path, encoding="cp932", newline="") as file:
            self.assertEqual(list(csv.reader(file)), rows)
        with open(self.path, encoding="web-shift_jis", newline="") as file:
            self.assertEqual(list(csv.reader(file)), rows)

    def test_iterators(self) -> None:
        for ours, theirs in PAIRS.items():
            text = TEXTS.get(ours, JAPANESE)
            data = b"".join(codecs.iterencode(iter(text), ours))
            self.assertEqual(data, text.encode(theirs))
            self.assertEqual("".join(codecs.iterdecode((data[i : i + 1] for i in range(len(data))), ours)), text)

    def test_recoder(self) -> None:
        stream = codecs.EncodedFile(io.BytesIO("日本".encode("cp932")), "utf-8", "web-shift_jis")
        self.assertEqual(stream.read(), "日本".encode())

    def test_pandas(self) -> None:
        """Debian's pandas, if it is there."""
        pandas = installed.package("pandas")
        Path(self.path).write_bytes("名,値\nハ,1\nソ,2\n".encode("cp932"))
        for engine in ("c", "python"):
            table = pandas.read_csv(self.path, encoding="web-shift_jis", engine=engine)
            self.assertEqual(table.to_dict("list"), {"名": ["ハ", "ソ"], "値": [1, 2]})
        table.to_csv(self.path, encoding="web-gb18030", index=False)
        self.assertEqual(Path(self.path).read_bytes(), "名,値\nハ,1\nソ,2\n".encode("gb18030"))


if __name__ == "__main__":
    unittest.main()
