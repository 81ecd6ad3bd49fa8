"""`jillapun.webencodings`, beside Debian's `webencodings`, and under html5lib and tinycss2, if they are there."""

import contextlib
import doctest
import random
import re
import sys
import unittest
from typing import Any, Callable, Iterator

import installed
from jillapun import webencodings as ours

PARTS = [b"", b"\xef", b"\xbb", b"\xbf", b"\xff", b"\xfe", b"a", b"\xe9", b"\x83", b"\x6e", b"A\x93"]
TEXTS = ["", "a", "é", "日本", "€", "\U0001f600"]
LABELS = [
    "utf8",
    " UTF-8\n",
    "latin1",
    "Shift_JIS",
    "utf-16",
    "utf-16be",
    "x-user-defined",
    "x-mac-cyrillic",
    "koi8-u",
    "gbk",
]
WRONG = ["", "nope", "utf\xa08", "\u212aoi8-r", "utf 8", "\x0butf8"]


def result(call: Callable[[], Any]) -> Any:
    """What a call returns, with encodings by their names, or which error it raises."""
    try:
        return plain(call())
    except Exception as error:
        # A UnicodeError of one codec says why in other words than that of another.
        return type(error), error.args if type(error) is LookupError else None


def plain(value: Any) -> Any:
    if isinstance(value, tuple):
        return tuple(map(plain, value))
    return (
        value.name
        if hasattr(value, "codec_info")
        else value
        if isinstance(value, (str, bytes, type(None)))
        else list(value)
    )


class Documents(unittest.TestCase):
    def test_examples(self) -> None:
        self.assertEqual(doctest.testmod(ours)[0], 0)


class Beside(unittest.TestCase):
    """The same calls of both."""

    @classmethod
    def setUpClass(cls) -> None:
        cls.theirs = installed.package("webencodings")

    def same(self, call: Callable[[Any], Any], note: Any = None) -> None:
        self.assertEqual(result(lambda: call(ours)), result(lambda: call(self.theirs)), note)

    def test_names(self) -> None:
        for name in ours.__all__:
            self.assertTrue(hasattr(self.theirs, name), name)
        self.assertEqual(ours.VERSION, self.theirs.VERSION)

    def test_labels(self) -> None:
        """Today's standard has more labels, and no HZ and ISO-2022-KR but as replacement."""
        changed = {"hz-gb-2312", "csiso2022kr", "iso-2022-kr"}
        for label, name in self.theirs.LABELS.items():
            self.assertEqual(ours.LABELS[label], "replacement" if label in changed else name)
        for label in [*self.theirs.LABELS, *LABELS, *WRONG]:
            if label not in changed:
                self.same(lambda module, label=label: module.lookup(label), label)
                self.same(lambda module, label=label: repr(module.lookup(label.upper())), label)
        self.assertIs(ours.lookup("utf8"), ours.UTF8)
        self.assertIs(ours.lookup(" SJIS"), ours.lookup("shift-jis"))

    def test_ascii_lower(self) -> None:
        for text in ("ABC xyz", "ÀÉ\u212aZ", ""):
            self.same(lambda module, text=text: module.ascii_lower(text))

    def inputs(self) -> Iterator[Any]:
        chance = random.Random(3)
        for _ in range(300):
            # Of multi-byte encodings UTF-8 and UTF-16: in the others Python's codecs replace other sequences.
            label = chance.choice(["latin1", "utf8", "utf-16", "koi8-u", "x-user-defined", "nope"])
            yield label, chance.choice(["replace", "strict", "ignore"]), chance.choices(PARTS, k=chance.randrange(6))

    def test_decode(self) -> None:
        for label, errors, parts in self.inputs():
            data = b"".join(parts)
            self.same(lambda module: module.decode(data, label, errors), (label, errors, data))
            self.same(lambda module: module.decode(data, label), (label, data))

    def test_iter_decode(self) -> None:
        for label, errors, parts in self.inputs():
            self.same(lambda module: module.iter_decode(iter(parts), label, errors), (label, errors, parts))

    def test_incremental_decoder(self) -> None:
        for label, errors, parts in (*self.inputs(), ("sjis", "strict", [b"\x83", b"\x6e", b"a\x83", b"\x6e"])):

            def work(module: Any) -> Any:
                decoder = module.IncrementalDecoder(label, errors)
                found = [(decoder.decode(part), plain(decoder.encoding)) for part in parts]
                return str(found + [decoder.decode(b"", final=True)])

            self.same(work, (label, errors, parts))

    def test_encode(self) -> None:
        chance = random.Random(4)
        for _ in range(300):
            label = chance.choice([*LABELS, "nope"]).replace("gbk", "gb18030")
            errors = chance.choice(["strict", "xmlcharrefreplace", "replace"])
            parts = chance.choices(TEXTS, k=chance.randrange(5))

            def by_parts(module: Any) -> Any:
                encoder = module.IncrementalEncoder(label, errors)
                return b"".join(map(encoder.encode, parts)) + encoder.encode("", final=True)

            self.same(lambda module: module.encode("".join(parts), label, errors), (label, errors, parts))
            self.same(lambda module: module.iter_encode(iter(parts), label, errors), (label, errors, parts))
            self.same(by_parts, (label, errors, parts))
        self.same(lambda module: module.encode("é"))
        self.same(lambda module: module.encode("é", module.UTF8))
        self.same(lambda module: module.iter_encode(["é"]))

    def test_reads_on_demand(self) -> None:
        """Only as many parts are read as say what the encoding is."""
        for module in (ours, self.theirs):
            parts = iter([b"a", b"b", b"c", b"d"])
            output, encoding = module.iter_decode(parts, "latin1")
            self.assertEqual((encoding.name, next(output), next(parts)), ("windows-1252", "abc", b"d"))

    def test_their_tests(self) -> None:
        """The tests of that package, but for encodings that the standard no longer has."""
        tests = installed.package("webencodings.tests")
        names = [
            name for name in dir(tests) if name.startswith("test_") and name not in ("test_all_labels", "test_labels")
        ]
        self.assertGreater(len(names), 4)
        for name in names:
            with self.subTest(name=name), self.replaced(tests):
                getattr(tests, name)()

    @contextlib.contextmanager
    def replaced(self, tests: Any) -> Iterator[None]:
        """The tests' names bound to what stands here under them."""
        kept = {name: getattr(tests, name) for name in ours.__all__ if hasattr(tests, name)}
        for name in kept:
            setattr(tests, name, getattr(ours, name))
        try:
            yield
        finally:
            for name, value in kept.items():
                setattr(tests, name, value)


# What the documents of a page say of themselves, their text, and the bytes.
PAGES = [
    ("shift_jis", "cp932", "日本語、ソ表能"),
    ("gb18030", "gb18030", "中文 é 😀"),
    ("windows-1252", "cp1252", "naïve — €"),
    ("euc-kr", "cp949", "한국어"),
    ("iso-2022-jp", "iso2022_jp", "日本"),
]


def over_ours(*names: str) -> Any:
    """Packages, imported anew over `jillapun.webencodings` with the one line that it takes. Without them the test is skipped."""
    for name in names:
        installed.package(name)
    kept = {name: module for name, module in sys.modules.items() if name.split(".")[0] in (*names, "webencodings")}
    for name in kept:
        del sys.modules[name]
    sys.modules["webencodings"] = ours
    try:
        return [installed.package(name) for name in names]
    finally:
        for name in [name for name in sys.modules if name.split(".")[0] in (*names, "webencodings")]:
            del sys.modules[name]
        sys.modules.update(kept)


class Parsers(unittest.TestCase):
    def test_html5lib(self) -> None:
        """Documents that say in which encoding they are, as Debian's html5lib reads them over both."""
        (html5lib,) = over_ours("html5lib")
        theirs = installed.package("html5lib")
        for label, codec, text in PAGES:
            page = ('<meta charset="%s"><title>%s</title><p>%s</p>' % (label, text, text * 3000)).encode(codec)
            for given in (page, page.replace(b"</title>", b"\xff</title>"), page[:-5], b"\xef\xbb\xbf" + page):
                with self.subTest(label=label, begin=given[:60]):
                    read, wanted = (module.parse(given, namespaceHTMLElements=False) for module in (html5lib, theirs))
                    for tag in ("title", "p"):
                        # Python's codecs replace a malformed sequence more or less often.
                        texts = [re.sub("\ufffd+", "\ufffd", tree.findtext(".//" + tag)) for tree in (read, wanted)]
                        self.assertEqual(*texts)
                    if given is page:
                        self.assertEqual((read.findtext(".//title"), read.findtext(".//p")), (text, text * 3000))
        parser = html5lib.HTMLParser()
        parser.parse(b"<p>\x83\x6e", transport_encoding="sjis")
        self.assertEqual(parser.documentEncoding, "shift_jis")

    def test_tinycss2(self) -> None:
        (tinycss2,) = over_ours("tinycss2")
        for label, codec, text in PAGES:
            sheet = ('@charset "%s"; a { content: "%s" }' % (label, text)).encode(codec)
            rules, encoding = tinycss2.parse_stylesheet_bytes(sheet, skip_whitespace=True)
            self.assertEqual(encoding.name, label)
            self.assertIn(text, rules[-1].serialize())
        for given, name in ((b"\xef\xbb\xbfa{}", "utf-8"), (b'@charset "utf-16"; a{}', "utf-8"), (b"a{}", "utf-8")):
            self.assertEqual(tinycss2.parse_stylesheet_bytes(given)[1].name, name)
        self.assertEqual(
            tinycss2.parse_stylesheet_bytes(b"a{}", environment_encoding=ours.lookup("latin1"))[1].name, "windows-1252"
        )


if __name__ == "__main__":
    unittest.main()
