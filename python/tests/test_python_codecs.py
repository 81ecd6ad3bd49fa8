"""Beside Python's own codecs, where the Encoding Standard and Python agree: a plain program of the standard's algorithms,
`tools/oracles/standard.py`, says where."""

import os
import random
import sys
import unittest
from typing import Optional

import cases
import jillapun
from jillapun import _python_names
from jillapun._labels import LABELS

sys.path.append(os.path.join(cases.TOP, "tools", "oracles"))

import standard  # noqa: E402

# Each encoding with the codec of Python that is nearest to it.
CODECS = {
    "Big5": "big5hkscs",
    "EUC-JP": "euc_jp",
    "EUC-KR": "cp949",
    "gb18030": "gb18030",
    "GBK": "gbk",
    "IBM866": "cp866",
    "ISO-2022-JP": "iso2022_jp",
    "KOI8-R": "koi8_r",
    "KOI8-U": "koi8_u",
    "macintosh": "mac_roman",
    "Shift_JIS": "cp932",
    "UTF-16BE": "utf_16_be",
    "UTF-16LE": "utf_16_le",
    "UTF-8": "utf_8",
    "x-mac-cyrillic": "mac_cyrillic",
    **{"windows-%d" % page: "cp%d" % page for page in (874, *range(1250, 1259))},
    **{"ISO-8859-%d" % part: "iso8859_%d" % part for part in (2, 3, 4, 5, 6, 7, 8, 10, 13, 14, 15, 16)},
}

# Characters are tried up to here, and some behind.
EDGE = 0x10000
BEHIND = range(0x1F300, 0x1F650)


# What these codecs of Python's read, and the standard does not; no single byte of others is read otherwise.
ONLY_PYTHON = {"cp932": [b"\xa0", b"\xfd", b"\xfe", b"\xff"]}
# What the standard reads, and these codecs do not, but for C1 controls.
ONLY_STANDARD = {"cp1255": [b"\xca"]}
# A codec that is accepted may not read these sequences otherwise: each byte, and, with several bytes, each pair.
BYTES = [bytes([first]) for first in range(256)]
PAIRS = [bytes([first, second]) for first in range(128, 256) for second in range(256)]


class Names(unittest.TestCase):
    """Python's names of encodings that are no labels."""

    @classmethod
    def setUpClass(cls) -> None:
        cls.encodings = standard.encodings(os.path.join(cases.TOP, "indexes"))

    def read(self, name: str, data: bytes) -> Optional[str]:
        texts = standard.decode(self.encodings[name].decoder(), data)
        return None if len(texts) > 1 else "".join(map(chr, texts[0][0]))

    def test_same_index(self) -> None:
        """A codec whose name is accepted reads what the encoding reads."""
        for codec, label in _python_names._SAME.items():
            name = LABELS[label]
            if name.startswith("UTF-"):
                continue
            only_python, only_standard = [], []
            for data in BYTES + (PAIRS if name not in standard.SINGLE_BYTE else []):
                wanted = self.read(name, data)
                try:
                    found: Optional[str] = data.decode(codec)
                except UnicodeError:
                    found = None
                if found is None and wanted is not None:
                    only_standard += [data] if not "\x80" <= wanted <= "\x9f" else []
                elif wanted is None and found is not None:
                    # A pair of a first byte that only Python reads says no more than this byte.
                    only_python += [data] if all(byte not in data for byte in only_python) else []
                else:
                    self.assertEqual(found, wanted, (codec, data))
            self.assertEqual(only_python, ONLY_PYTHON.get(codec, []), codec)
            self.assertEqual(only_standard, ONLY_STANDARD.get(codec, []), codec)

    def test_accepted(self) -> None:
        for label, name in (
            ("cp932", "Shift_JIS"),
            (" CP949\n", "EUC-KR"),
            ("uhc", "EUC-KR"),
            ("euc_jp", "EUC-JP"),
            ("utf_8", "UTF-8"),
            ("cp65001", "UTF-8"),
            ("utf_16_le", "UTF-16LE"),
            ("mac_roman", "macintosh"),
            ("mac_cyrillic", "x-mac-cyrillic"),
            ("cp874", "windows-874"),
            ("latin7", "ISO-8859-13"),
            ("iso8859_1", "windows-1252"),
        ):
            self.assertEqual(jillapun.name(label), name)
        self.assertEqual(jillapun.convert(b"\x83\x6e", "cp932", "utf_8").output, "ハ".encode())

    def test_nearest(self) -> None:
        """The names of codecs with another index are refused, with the label of the nearest encoding."""
        for name, label in (("latin_1", "latin1"), ("cp950", "big5"), ("ujis", "euc-jp"), ("cp936", "gbk")):
            with self.assertRaisesRegex(jillapun.UnknownLabel, r"^%s \(the nearest label is %s\)$" % (name, label)):
                jillapun.name(name)
        for label in {*_python_names._NEAREST.values(), *_python_names._SAME.values()}:
            self.assertIn(label, LABELS)
        for name in ("cp437", "utf_7", "none such", "utf -8", "utf--8", "\u212aoi8-r", ""):
            with self.assertRaises(jillapun.UnknownLabel) as raised:
                jillapun.name(name)
            self.assertEqual(str(raised.exception), name.lower() if name.isascii() else name)

    def test_labels_have_one_spelling(self) -> None:
        """No label is another with `_` in place of `-`, unless both are of one encoding."""
        for label, name in LABELS.items():
            self.assertEqual(jillapun.name(label.replace("-", "_")), name)
            self.assertEqual(jillapun.name(label.replace("_", "-").upper()), name)


class Codecs(unittest.TestCase):
    @classmethod
    def setUpClass(cls) -> None:
        cls.encodings = standard.encodings(os.path.join(cases.TOP, "indexes"))

    def agreed(self, name: str, codec: str) -> dict:
        """The characters that both write as the same bytes and read back, with those bytes."""
        forms, encoding = {}, self.encodings[name]
        for point in (*range(0x80), *range(0xA0, EDGE), *BEHIND):
            try:
                data = chr(point).encode(codec)
                if data.decode(codec) != chr(point):
                    continue
            except UnicodeError:
                continue
            encoder = self.encodings[encoding.output].encoder() if encoding.output == name else None
            if encoder and bytes(i & 0xFF for i in standard.encode(encoder, [point])) != data:
                continue
            if standard.decode(encoding.decoder(), data) == [([point], None)]:
                forms[chr(point)] = data
        return forms

    def test_codecs(self) -> None:
        for name, codec in CODECS.items():
            with self.subTest(name=name, codec=codec):
                forms = self.agreed(name, codec)
                self.assertGreater(len(forms), 120 if name in standard.SINGLE_BYTE else 5000)
                letters = list(forms)
                random.Random(name).shuffle(letters)
                text = "".join(letters)
                data = text.encode(codec)
                self.assertEqual(jillapun.decode(data, name, mark="keep"), (text, []))
                if self.encodings[name].output == name:
                    self.assertEqual(jillapun.encode(text, name), (data, [], True))

    def test_malformed_utf_8(self) -> None:
        """Python replaces the same sequences of UTF-8 as the standard does."""
        chance = random.Random(8)
        edges = bytes.fromhex("0041 7F 80 8F 90 9F A0 BF C2 DF E0 ED EF F0 F4 F5 FF")
        for _ in range(2000):
            data = bytes(chance.choices(edges, k=chance.randrange(12)))
            done = jillapun.decode(data, "utf-8", mark="keep")
            self.assertEqual(done.text, data.decode("utf-8", "replace"))
            self.assertEqual(len(done.losses), done.text.count("\ufffd"))


if __name__ == "__main__":
    unittest.main()
