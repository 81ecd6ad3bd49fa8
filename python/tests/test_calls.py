"""What no case says: errors, files, streams over files, and threads."""

import ast
import ctypes
import doctest
import inspect
import io
import os
import re
import subprocess
import sys
import tempfile
import threading
import tracemalloc
import unittest
from pathlib import Path
from unittest import mock

import cases
import jillapun
from jillapun import _bare, _indexes, _texts
from jillapun._labels import LABELS
from jillapun._rooms import Rooms

TEXT = "日本語のテキスト、\nカナと ASCII\n" * 3000


class Errors(unittest.TestCase):
    def test_labels(self) -> None:
        self.assertRaises(jillapun.UnknownLabel, jillapun.decode, b"", "none such")
        self.assertRaises(LookupError, jillapun.encode, "", "latin-none")
        self.assertEqual(jillapun.name(" SJIS\n"), "Shift_JIS")

    def test_labels_fill_no_memory(self) -> None:
        """Those with more white space around them are no other keys of a cache."""
        caches = _indexes._number_of, _bare.decoding, _bare.encoding_to, _bare.converting
        for cache in caches:
            cache.cache_clear()
        for count in range(100):
            label = " " * (40 + count) + "Latin1\n"
            self.assertEqual(jillapun.name(label), "windows-1252")
            self.assertEqual(jillapun.decode(b"\xe9", label).text, "é")
            self.assertEqual(jillapun.encode("é", label).data, b"\xe9")
            self.assertEqual(jillapun.convert(b"\xe9", label, label).output, b"\xe9")
        self.assertEqual([cache.cache_info().currsize for cache in caches], [1, 1, 1, 1])
        self.assertTrue(all(cache.cache_info().maxsize for cache in caches))
        self.assertGreaterEqual(_indexes.LONGEST, max(map(len, LABELS)))

    def test_indexes(self) -> None:
        none = jillapun.Indexes(texts={})
        self.assertEqual(jillapun.decode(b"a", "utf-8", indexes=none).text, "a")
        self.assertRaises(jillapun.IndexesMissing, jillapun.decode, b"a", "big5", indexes=none)
        self.assertRaises(jillapun.IndexesMissing, jillapun.Decoder, "big5", indexes=none)
        with self.assertRaisesRegex(jillapun.IndexesMissing, "index-big5.txt: line 2 is faulty"):
            jillapun.Indexes(texts={"index-big5.txt": b"0\t0x43F0\nwhat\n"})
        self.assertRaises(jillapun.IndexesMissing, jillapun.Indexes, texts={"index-none.txt": b""})
        with self.assertRaisesRegex(jillapun.IndexesMissing, "/dev/null"):
            jillapun.Indexes("/dev/null")

    def test_indexes_of_the_library(self) -> None:
        """The library has the index texts of the repository, by which the default ones are made."""
        texts = {path.name: path.read_bytes() for path in Path(cases.TOP, "indexes").glob("index-*.txt")}
        self.assertEqual(jillapun._library.index_texts(), texts)
        self.assertTrue(jillapun.Indexes().have_standard_folds)

    def test_limit(self) -> None:
        self.assertEqual(jillapun.convert(b"abc", "utf-8", "utf-8", limit=3).output, b"abc")
        for data in (b"abcd", b"a\xff", b"a\xff" * 100000):
            words = {"unmappable": "stop", "limit": len(data) - 1}
            self.assertRaises(jillapun.TooLong, jillapun.convert, data, "utf-8", "windows-1252", **words)
        self.assertEqual(jillapun.convert(b"abc", "utf-8", "utf-8", limit=2**64).output, b"abc")
        self.assertRaises(ValueError, jillapun.convert, b"", "utf-8", "utf-8", limit=-1)

    def test_bytes(self) -> None:
        """Whatever has bytes; a number, of which Python makes so many zeros, has none."""
        for given in (bytearray(b"ab"), memoryview(b"axbx")[::2]):
            self.assertEqual(jillapun.decode(given, "utf-8").text, "ab")
        decoder = jillapun.Decoder("utf-8")
        for call in (jillapun.decode, lambda data, label: jillapun.convert(data, label, label)):
            self.assertRaises(TypeError, call, 2, "utf-8")
        self.assertRaises(TypeError, decoder.decode, 2)
        self.assertEqual(decoder.decode(b"ab", last=True), "ab")

    def test_words(self) -> None:
        with self.assertRaisesRegex(ValueError, "mark='no': use 'sniff', 'remove' or 'keep'"):
            jillapun.decode(b"", "utf-8", mark="no")
        with self.assertRaisesRegex(ValueError, "unmappable='no': use 'decimal', 'hexadecimal' or 'stop'"):
            jillapun.encode("", "utf-8", unmappable="no")
        self.assertRaises(ValueError, jillapun.part_encoding, b"", "utf-8", "utf-8", mark="no")
        self.assertRaises(UnicodeEncodeError, jillapun.encode, "\ud800", "utf-8")

    def test_types_of_words(self) -> None:
        """Each public call names the values of its words to type checkers."""
        types = {"mark": jillapun._library.Mark, "unmappable": jillapun._library.Unmappable}
        texts = jillapun.decode, jillapun.encode, jillapun.convert, jillapun.convert_file, jillapun.part_encoding
        streams = jillapun.open, jillapun.Reader, jillapun.Writer, jillapun.Decoder, jillapun.Encoder, jillapun.Converter
        for call in texts + streams:
            found = {name: word.annotation for name, word in inspect.signature(call).parameters.items() if name in types}
            self.assertTrue(found, call)
            self.assertEqual(found, {name: types[name] for name in found}, call)

    def test_keep_losses(self) -> None:
        """The losses are counted, and only the first are kept, as of files."""
        for count in (0, 3, 5000):
            data, text = b"a\xff" * count, "é日" * count
            whole, encoded = jillapun.decode(data, "utf-8"), jillapun.encode(text, "windows-1252")
            for keep in (0, 2, 10000):
                done = jillapun.decode(data, "utf-8", keep_losses=keep)
                self.assertEqual(done, (whole.text, whole.losses[:keep], count))
                self.assertEqual((done.kept_losses, done.bad), done[1:])
                made = jillapun.encode(text, "windows-1252", keep_losses=keep)
                self.assertEqual(made, (encoded.data, encoded.losses[:keep], count, encoded.faithful))
                self.assertEqual((made.kept_losses, made.lost, made.faithful), made[1:])
        self.assertEqual(jillapun.encode("¥", "shift_jis", keep_losses=1), (b"\\", [], 0, False))
        with self.assertRaises(jillapun.Stopped) as stop:
            jillapun.encode("é日", "windows-1252", unmappable="stop", keep_losses=0)
        self.assertEqual((stop.exception.lost, stop.exception.output), ((1, "日"), b"\xe9"))

    def test_keep_losses_keeps_memory(self) -> None:
        """A million bad bytes, of which the list would take 110 MB."""
        tracemalloc.start()
        self.addCleanup(tracemalloc.stop)
        done = jillapun.decode(b"\xff" * 1000000, "utf-8", keep_losses=5)
        self.assertEqual((len(done.text), len(done.kept_losses), done.bad), (1000000, 5, 1000000))
        self.assertLess(tracemalloc.get_traced_memory()[1], 20 << 20)

    def test_room(self) -> None:
        """More output, and more losses, than there is room for at once, of inputs that are short and long."""
        for count in (1, 4096, 4097, 21845, 21846, 100000):
            done = jillapun.convert("日".encode() * count, "utf-8", "windows-1252")
            self.assertEqual(done, (b"&#26085;" * count, [jillapun.Lost(index, "日") for index in range(count)], False))
            self.assertEqual(jillapun.decode(b"a\xa1" * count, "windows-874").text, "aก" * count)


class Files(unittest.TestCase):
    def setUp(self) -> None:
        self.folder = tempfile.TemporaryDirectory()
        self.path = os.path.join(self.folder.name, "a.txt")

    def tearDown(self) -> None:
        self.folder.cleanup()

    def test_stream(self) -> None:
        for label, codec in (("iso-2022-jp", "iso2022_jp"), ("euc-jp", "euc_jp"), ("utf-8", "utf_8")):
            with jillapun.open(self.path, "w", encoding=label) as file:
                for start in range(0, len(TEXT), 777):
                    file.write(TEXT[start : start + 777])
            self.assertEqual(Path(self.path).read_bytes(), TEXT.encode(codec))
            with jillapun.open(self.path, encoding=label) as file:
                self.assertEqual(list(file), TEXT.splitlines(keepends=True))
                self.assertEqual(file.bad, 0)
            with jillapun.open(self.path, encoding=label) as file:
                parts = [file.read(1000), file.readline(), file.readline(3), file.read()]
            self.assertEqual("".join(parts), TEXT)
            self.assertEqual((len(parts[0]), parts[1][-1], len(parts[2])), (1000, "\n", 3))

    def test_losses_of_streams(self) -> None:
        Path(self.path).write_bytes(b"a\xff\nb\x83")
        told = []
        with jillapun.open(self.path, encoding="shift_jis", on_loss=told.append, keep_losses=1) as file:
            self.assertEqual(file.read(), "a\ufffd\nb\ufffd")
            self.assertEqual((file.bad, file.kept_losses, told), (2, [(1, 1)], [(1, 1), (4, 1)]))
        told = []
        words = {"encoding": "windows-1252", "unmappable": "hexadecimal", "on_loss": told.append, "keep_losses": 1}
        with jillapun.open(self.path, "w", **words) as file:
            file.write("é日本")
            self.assertEqual((file.lost, file.kept_losses, told), (2, [(1, "日")], [(1, "日"), (2, "本")]))
            self.assertEqual(file.faithful, None)
        self.assertEqual(file.faithful, False)
        self.assertEqual(Path(self.path).read_bytes(), b"\xe9&#x65E5;&#x672C;")
        encoder = jillapun.Encoder("iso-2022-jp", unmappable="stop")
        with self.assertRaises(jillapun.Stopped) as stop:
            encoder.encode("日💩")
        self.assertEqual((stop.exception.output, stop.exception.lost), (b"\x1b$BF|\x1b(B", (1, "💩")))

    def test_convert_file(self) -> None:
        Path(self.path).write_bytes(TEXT.encode("cp932") + b"\xff")
        words = {"in_place": True, "lossy": True, "keep_losses": 9}
        done = jillapun.convert_file(self.path, self.path, "shift_jis", "utf-8", **words)
        self.assertEqual(Path(self.path).read_text(encoding="utf-8"), TEXT + "\ufffd")
        size = len(TEXT.encode("cp932"))
        self.assertEqual(done, (size + 1, 1, 0, False, [(size, 1)], len(TEXT) + 1))

    def test_convert_file_by_chunks(self) -> None:
        """A file of some chunks, with more losses in each than a call has records for."""
        data, told, losses = "é日".encode() * 70000, [], []
        Path(self.path).write_bytes(data)
        words = {"progress": told.append, "on_loss": losses.append, "keep_losses": 20000, "lossy": True}
        done = jillapun.convert_file(self.path, self.path, "utf-8", "windows-1252", in_place=True, **words)
        wanted = jillapun.convert(data, "utf-8", "windows-1252")
        self.assertEqual(Path(self.path).read_bytes(), wanted.output)
        self.assertEqual(losses, wanted.losses)
        self.assertEqual(done, (len(data), 0, 70000, False, wanted.losses[:20000], 140000))
        self.assertEqual((told[0], told[-1], len(told)), (1 << 16, len(data), 7))

    def test_limit_of_file(self) -> None:
        Path(self.path).write_bytes(b"abcd")
        done = jillapun.convert_file(self.path, self.path, "utf-8", "utf-8", in_place=True, limit=4)
        self.assertEqual(done, (4, 0, 0, True, [], 4))
        with self.assertRaises(jillapun.TooLong):
            jillapun.convert_file(self.path, self.path, "utf-8", "utf-8", in_place=True, limit=3)
        self.assertEqual(os.listdir(self.folder.name), ["a.txt"])

    def test_stop_in_a_file(self) -> None:
        """What stands before the character is written, and the file is closed without a word more."""
        with self.assertRaises(jillapun.Stopped):
            with jillapun.open(self.path, "w", encoding="iso-2022-jp", unmappable="stop") as file:
                file.write("日")
                file.write("本💩日")
        self.assertTrue(file.closed)
        self.assertEqual(Path(self.path).read_bytes(), b"\x1b$BF|K\\\x1b(B")
        self.assertRaises(ValueError, file.write, "日")

    def test_what_could_not_be_made_says_no_more(self) -> None:
        """Python closes it, and would print what that raises."""
        files = "import io, jillapun\nfor kind in (jillapun.Reader, jillapun.Writer):\n"
        files += "    try: kind(io.BytesIO(), 'none')\n    except LookupError: print('unknown')\n"
        environment = {**os.environ, "PYTHONPATH": os.path.join(cases.TOP, "python")}
        words = [sys.executable, "-X", "dev", "-c", files]
        ran = subprocess.run(words, env=environment, capture_output=True, check=False)
        self.assertEqual((ran.stdout, ran.stderr), (b"unknown\n" * 2, b""))

    def test_unknown_words_empty_no_file(self) -> None:
        Path(self.path).write_bytes(b"abc")
        self.assertRaises(LookupError, jillapun.open, self.path, "w", encoding="none")
        self.assertRaises(ValueError, jillapun.open, self.path, "w", encoding="utf-8", unmappable="none")
        none = jillapun.Indexes(texts={})
        self.assertRaises(jillapun.IndexesMissing, jillapun.open, self.path, "w", encoding="big5", indexes=none)
        self.assertRaises(ValueError, jillapun.open, self.path, "wb", encoding="utf-8")
        self.assertEqual(Path(self.path).read_bytes(), b"abc")

    def test_files_that_take_or_give_a_part(self) -> None:
        """A raw file takes less than it is handed; one that does not wait has nothing yet, which is not its end."""

        class Raw(io.RawIOBase):
            def __init__(self) -> None:
                self.data = b""

            def writable(self) -> bool:
                return True

            def write(self, data: bytes) -> int:
                self.data += bytes(data[:7])
                return min(7, len(data))

        raw = Raw()
        writer = jillapun.Writer(raw, "utf-8")
        writer.write(TEXT)
        writer.flush()
        self.assertEqual(raw.data, TEXT.encode())
        reading, writing = os.pipe()
        os.set_blocking(reading, False)
        with open(reading, "rb", buffering=0) as file, open(writing, "wb", buffering=0) as end:
            end.write(b"abc")
            reader = jillapun.Reader(file, "utf-8")
            self.assertEqual(reader.read(3), "abc")
            self.assertRaises(BlockingIOError, reader.read)
            end.write(b"def\n")
            self.assertEqual(reader.readline(), "def\n")

    def test_long_lines(self) -> None:
        """Lines and parts of them over many chunks."""
        lines = ["x" * 200000 + "\n", "\n", "é" * 100000]
        Path(self.path).write_bytes("".join(lines).encode())
        with jillapun.open(self.path, encoding="utf-8") as file:
            self.assertEqual(file.readlines(), lines)
        with jillapun.open(self.path, encoding="utf-8") as file:
            parts = [file.readline(150000), file.readline(0), file.readline(), file.read(0), file.read(2), file.read()]
        self.assertEqual(parts, [lines[0][:150000], "", lines[0][150000:], "", "\né", lines[2][1:]])


class Streams(unittest.TestCase):
    def test_losses_as_they_come(self) -> None:
        """Each is handed on once, by the call that reads it."""
        told = []
        decoder = jillapun.Decoder("shift_jis", on_loss=told.append, keep_losses=2)
        counts = []
        for data in (b"a\xff", b"\x83", b"\xff\xffa"):
            decoder.decode(data)
            counts.append((decoder.bad, len(told)))
        self.assertEqual(counts, [(1, 1), (1, 1), (3, 3)])
        self.assertEqual((told, decoder.kept_losses), ([(1, 1), (2, 2), (4, 1)], [(1, 1), (2, 2)]))

    def test_a_callback_that_raises(self) -> None:
        """The stream has ended: it does not go on with a part missing."""

        def refuse(loss: jillapun.Bad) -> None:
            raise UnicodeError("%s" % (loss,))

        decoder = jillapun.Decoder("utf-8", on_loss=refuse)
        self.assertEqual(decoder.decode(b"abc"), "abc")
        self.assertRaisesRegex(UnicodeError, "bad 4 1", decoder.decode, b"d\xffe")
        self.assertRaisesRegex(ValueError, "ended", decoder.decode, b"f")
        with tempfile.TemporaryDirectory() as folder:
            path = os.path.join(folder, "a")
            Path(path).write_bytes(b"d\xffe" * 40000)
            with jillapun.open(path, encoding="utf-8", on_loss=refuse) as file:
                self.assertRaises(UnicodeError, file.read, 1)
                self.assertRaisesRegex(ValueError, "ended", file.read, 1)

    def test_a_callback_that_calls(self) -> None:
        """Other streams go on, and this one says that it cannot."""
        other, told = jillapun.Decoder("utf-8"), []

        def call(loss: jillapun.Bad) -> None:
            told.append(other.decode(b"\xff\xe3\x81"))
            told.append(jillapun.decode(b"\xff", "utf-8").text)
            self.assertRaisesRegex(ValueError, "ended", decoder.decode, b"x")

        decoder = jillapun.Decoder("utf-8", on_loss=call)
        self.assertEqual(decoder.decode(b"a\xffb\xffc", last=True), "a\ufffdb\ufffdc")
        self.assertEqual(told, ["\ufffd", "\ufffd", "\ufffd\ufffd", "\ufffd"])

    def test_text_that_is_none(self) -> None:
        """A lone surrogate is refused before anything is taken."""
        encoder = jillapun.Encoder("utf-8")
        self.assertRaises(UnicodeEncodeError, encoder.encode, "a\ud800")
        self.assertEqual(encoder.encode("b", last=True), b"b")
        self.assertRaisesRegex(ValueError, "ended", encoder.encode, "c")

    def test_verdict(self) -> None:
        """A character that does not read back makes the verdict false, and is not in the list of losses."""
        for text, verdict in (("a", True), ("¥", False)):
            encoder = jillapun.Encoder("shift_jis")
            encoder.encode(text)
            self.assertEqual(encoder.faithful, None)
            encoder.encode("", last=True)
            self.assertEqual((encoder.faithful, encoder.lost), (verdict, 0))

    def test_records(self) -> None:
        """The form by which records are read is that of the structure."""
        library = jillapun._library
        self.assertEqual(library.LOSS.size, ctypes.sizeof(library.Loss))
        loss = library.Loss(1 << 40, 0x10FFFF, library.LOST)
        self.assertEqual(library.LOSS.unpack(bytes(loss)), (1 << 40, 0x10FFFF, library.LOST))

    def test_converter(self) -> None:
        """A converter has as many bytes as the header says, if that stands beside the package."""
        header = Path(__file__).resolve().parents[2] / "include" / "jillapun.h"
        if not header.is_file():
            self.skipTest("there is no header here")
        said = re.search(r"sizeof\(jillapun_converter\) == (\d+)", header.read_text())
        self.assertEqual(said and int(said[1]), ctypes.sizeof(jillapun._library.Converter))


class Threads(unittest.TestCase):
    def test_threads(self) -> None:
        """Calls at once, over the same indexes."""
        data, wanted, wrong = TEXT.encode(), TEXT.encode("euc_jp"), []

        def work() -> None:
            for _ in range(10):
                if jillapun.convert(data, "utf-8", "euc-jp") != (wanted, [], True):
                    wrong.append(1)

        threads = [threading.Thread(target=work) for _ in range(4)]
        for thread in threads:
            thread.start()
        for thread in threads:
            thread.join()
        self.assertEqual(wrong, [])


# Counts the calls of the library, by whatever name they are kept.
COUNTED = """
import collections, ctypes
counts = collections.Counter()

def counting(library):
    class Library(library):
        def __getitem__(self, name):
            kind = self._FuncPtr

            class Counted(kind):
                _flags_, _restype_ = kind._flags_, kind._restype_

                def __call__(self, *words):
                    counts[name] += 1
                    return kind.__call__(self, *words)

            return Counted((name, self))

    return Library

ctypes.CDLL, ctypes.PyDLL = counting(ctypes.CDLL), counting(ctypes.PyDLL)
import jillapun

def counted(call, *words, **options):
    call(*words, **options)
    counts.clear()
    for _ in range(3):
        call(*words, **options)
    print({name[9:]: count // 3 for name, count in counts.items()})
"""


class Counts(unittest.TestCase):
    def counts(self, *calls: str) -> list:
        """Which calls of the library each call makes, and how many, once all is loaded."""
        lines = COUNTED + "".join("counted(jillapun.%s)\n" % call for call in calls)
        environment = {**os.environ, "PYTHONPATH": os.path.join(cases.TOP, "python")}
        words = [sys.executable, "-c", lines]
        ran = subprocess.run(words, env=environment, capture_output=True, text=True, check=True)
        return [ast.literal_eval(line) for line in ran.stdout.splitlines()]

    def test_nothing_is_lost(self) -> None:
        """One call, which makes no list if the text is short."""
        found = self.counts("decode, b'abc', 'utf-8'", "decode, b'\\x83\\x6e', 'sjis', mark='sniff'")
        self.assertEqual(found, [{"decode": 1}] * 2)
        found = self.counts("encode, 'é', 'l1'", "encode, 'é', 'utf-8', unmappable='stop'")
        self.assertEqual(found, [{"encode": 1}] * 2)
        found = self.counts(*("encode, '日', '%s'" % label for label in jillapun._bare.FOLDED))
        self.assertEqual(found, [{"encode": 1}] * 5)
        longer = "decode, b'a' * 1025, 'utf-8'", "encode, '日' * 342, 'sjis'"
        found = self.counts("convert, b'a', 'l1', 'utf-8'", *longer)
        self.assertEqual(found, [{"convert": 1}] * 3)

    def test_something_is_lost(self) -> None:
        """One call more, unless a character is written as another."""
        found = self.counts("decode, b'\\xff', 'utf-8'", "encode, '日', 'l1', unmappable='hexadecimal'")
        self.assertEqual(found, [{"decode": 1, "convert": 1}, {"encode": 1, "convert": 1}])
        self.assertEqual(self.counts("encode, '¥', 'sjis'", "encode, 'ｱ', 'csiso2022jp'"), [{"convert": 1}] * 2)


class Short(unittest.TestCase):
    """Texts that the library is first asked for without a list of what is lost."""

    ENCODINGS = sorted({jillapun.name(label) for label in LABELS})

    def test_verdict(self) -> None:
        """Where all that has bytes is said to read back, it does: each character of the standard's indexes by itself,
        and all, by parts, with what comes before."""
        for name in self.ENCODINGS:
            folded = jillapun._bare.encoding_to(name, "decimal", None)[3]
            text = "".join(character for character in self.characters(name) if not (folded and folded(character)))
            for start in range(0, len(text), 300):
                part = text[start : start + 300]
                data, losses, faithful = jillapun.encode(part, name)
                self.assertEqual((losses, faithful), ([], True))
                self.assertEqual(jillapun.decode(data, jillapun.output_name(name), mark="keep"), (part, []), name)
                self.assertEqual(jillapun.convert(part.encode(), "utf-8", name, mark="keep"), (data, [], True))

    def test_folded(self) -> None:
        """Of all characters, those that an encoding writes as others are the ones for which the verdict is asked."""
        every = "".join(map(chr, [*range(0xD800), *range(0xE000, 0x110000)]))
        for label in jillapun._bare.FOLDED:
            folded = jillapun._bare.encoding_to(label, "decimal", None)[3]
            lost = {loss.index for loss in jillapun.encode(every, label).losses}
            kept = [character for index, character in enumerate(every) if index not in lost and not folded(character)]
            self.assertEqual(jillapun.encode("".join(kept), label)[1:], ([], True))
            for character in filter(folded, every):
                self.assertEqual(jillapun.encode(character, label)[1:], ([], False), (label, character))

    def test_other_indexes(self) -> None:
        """By indexes that are not the standard's, the verdict is asked for each text."""
        texts = jillapun._library.index_texts()
        self.assertTrue(jillapun.Indexes(texts=texts).have_standard_folds)
        rows = texts["index-gb18030.txt"].decode().splitlines(keepends=True)
        texts["index-gb18030.txt"] = "".join(row for row in rows if "\t0xE5E5\t" not in row).encode()
        other = jillapun.Indexes(texts={**texts, "index-jis0208.txt": texts["index-jis0208.txt"] + b"# the same rows\n"})
        self.assertFalse(other.have_standard_folds)
        for label in jillapun._bare.FOLDED:
            self.assertTrue(jillapun._bare.encoding_to(label, "decimal", other)[3]("a"))
            for text in ("a", "\u65e5", "\u2212", "\ue78d", "\ue5e5"):
                wanted = jillapun.convert(text.encode(), "utf-8", label, mark="keep", indexes=other)
                self.assertEqual(jillapun.encode(text, label, indexes=other), wanted)

    def characters(self, name: str) -> str:
        """The characters of all bytes and pairs of bytes that an encoding has bytes for; some, if it has them for all."""
        if jillapun.output_name(name) == "UTF-8":
            return "".join(map(chr, [*range(0, 0xD800, 61), *range(0xE000, 0x110000, 2003)]))
        pairs = b"".join(bytes((lead, trail)) for lead in range(0x80, 0x100) for trail in range(0x40, 0x100))
        read = {*jillapun.decode(bytes(range(256)), name).text, *jillapun.decode(pairs, name).text}
        text = "".join(sorted(read - {"\ufffd"}))
        lost = {loss.character for loss in jillapun.encode(text, name).losses}
        return "".join(character for character in text if character not in lost)

    def test_beside_lists(self) -> None:
        """The results of a short text are those of a conversion, which lists what is lost."""
        for name in self.ENCODINGS:
            for data in (b"", b"abc", b"a\x80\xe9", b"\xef\xbb\xbfa", b"\xff\xfea\0", b"\x1b$B0!", bytes(range(256)) * 4):
                for mark in ("remove", "sniff", "keep"):
                    output, losses, _ = jillapun.convert(data, name, "utf-8", mark=mark)
                    self.assertEqual(jillapun.decode(data, name, mark=mark), (output.decode(), losses))
            for text in ("", "abc", "é", "日本", "¥‾−", "aｱ", "\ue78d", "\x0e\x1b", "\ufeffa", "\ufffd", "a" * 1023 + "é"):
                for policy in ("decimal", "hexadecimal"):
                    wanted = jillapun.convert(text.encode(), "utf-8", name, mark="keep", unmappable=policy)
                    self.assertEqual(jillapun.encode(text, name, unmappable=policy), wanted)

    def test_room(self) -> None:
        """More output than there is room for."""
        with mock.patch.object(_texts, "_take", Rooms(4, 1).take):
            self.assertEqual(jillapun.decode(b"abcde", "utf-8"), ("abcde", []))
            self.assertEqual(jillapun.encode("abcde", "l1"), (b"abcde", [], True))
            self.assertEqual(jillapun.encode("abcde", "sjis"), (b"abcde", [], True))

    def test_types(self) -> None:
        """A length is that of the bytes, whatever an object says of itself."""

        class Liar(bytes):
            def __len__(self) -> int:
                return 1000

        class Text(str):
            def encode(self, *words: str) -> bytes:
                return Liar(b"x")

        self.assertEqual(jillapun.decode(Liar(b"ab"), "utf-8"), ("ab", []))
        self.assertEqual(jillapun.encode(Text("ab"), "utf-8"), (b"ab", [], True))
        self.assertRaises(TypeError, jillapun.encode, b"ab", "utf-8")
        self.assertEqual(jillapun.Encoder("utf-8").encode(Text("ab"), last=True), b"ab")
        self.assertEqual(jillapun.part_encoding(Liar(b"a"), "sjis", "utf-8"), "Shift_JIS")
        texts = {name: Liar(text) for name, text in jillapun._library.index_texts().items()}
        self.assertEqual(jillapun.decode(b"\x83\x6e", "sjis", indexes=jillapun.Indexes(texts=texts)).text, "ハ")

        class File(io.BytesIO):
            def read(self, size: int = -1) -> bytes:
                return Liar(super().read(size))

        self.assertEqual(jillapun.which(File(b"abc")).read, 3)
        self.assertEqual(jillapun.Reader(File(b"abc"), "utf-8").read(), "abc")


class Documents(unittest.TestCase):
    def test_examples(self) -> None:
        """What docs and docstrings show is what comes."""
        modules = [jillapun, *(sys.modules["jillapun." + name] for name in ("_texts", "_streams"))]
        ran = [doctest.testmod(module, extraglobs=vars(jillapun)) for module in modules]
        ran.append(doctest.testfile(os.path.join(cases.TOP, "docs/PYTHON.md"), module_relative=False, encoding="utf-8"))
        self.assertEqual([result.failed for result in ran], [0] * 4)
        self.assertTrue(all(result.attempted >= 3 for result in ran))


if __name__ == "__main__":
    unittest.main()
