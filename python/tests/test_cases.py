"""The cases of the libraries and of the engine, by this package."""

import os
import tempfile
import unittest
from typing import Dict, Tuple

import cases
import jillapun
from jillapun import Bad, Lost


class Tables:
    """Indexes by their texts. Each is loaded once, since it stays."""

    def __init__(self) -> None:
        self.made: Dict[Tuple, jillapun.Indexes] = {}

    def of(self, texts: cases.Texts) -> jillapun.Indexes:
        key = tuple(sorted(texts.items()))
        if key not in self.made:
            self.made[key] = jillapun.Indexes(texts=texts)
        return self.made[key]


TABLES = Tables()


class Streams(unittest.TestCase):
    """Streams and texts of `test_encoding_cases`: whole, and cut in two at each place."""

    def test_streams(self) -> None:
        count = 0
        for place, words, texts in cases.lines_in("test_encoding_cases"):
            case = cases.stream_of(words)
            if not case:
                continue
            count += 1
            indexes = TABLES.of(texts)
            losses = [Bad(*loss) for loss in case.losses]
            with self.subTest(place=place, words=words):
                done = jillapun.decode(case.data, case.encoding, mark=case.mark, indexes=indexes)
                self.assertEqual((done.text, done.losses), (case.text, losses))
                for cut in range(len(case.data) + 1):
                    told = []
                    decoder = jillapun.Decoder(case.encoding, mark=case.mark, indexes=indexes, on_loss=told.append)
                    text = decoder.decode(case.data[:cut]) + decoder.decode(case.data[cut:], last=True)
                    self.assertEqual((text, told, decoder.bad), (case.text, losses, len(losses)), "cut at %d" % cut)
        self.assertGreater(count, 90)

    def test_texts(self) -> None:
        count = 0
        for place, words, texts in cases.lines_in("test_encoding_cases"):
            case = cases.text_case_of(words)
            if not case:
                continue
            count += 1
            indexes = TABLES.of(texts)
            losses = [Lost(*loss) for loss in case.losses]
            with self.subTest(place=place, words=words):
                done = jillapun.encode(case.text, case.encoding, indexes=indexes)
                self.assertEqual((done.data, done.losses), (case.data, losses))
                for cut in range(len(case.text) + 1):
                    told = []
                    encoder = jillapun.Encoder(case.encoding, indexes=indexes, on_loss=told.append)
                    data = encoder.encode(case.text[:cut]) + encoder.encode(case.text[cut:], last=True)
                    self.assertEqual((data, told, encoder.lost), (case.data, losses, len(losses)), "cut at %d" % cut)
                    self.assertEqual(encoder.faithful, done.faithful)
        self.assertGreater(count, 40)

    def test_labels(self) -> None:
        count = 0
        for place, words, _ in cases.lines_in("test_encoding_cases"):
            if not words.startswith("label ") or "\\x" in words:
                continue
            count += 1
            label, _, wanted = words[6:].rpartition(" -> ")
            for sign, character in (("\\t", "\t"), ("\\n", "\n"), ("\\r", "\r")):
                label = label.replace(sign, character)
            with self.subTest(place=place, label=label):
                if label == "latin7":
                    # Python's name of it, which is no label.
                    self.assertEqual(jillapun.name(label), "ISO-8859-13")
                elif wanted == "none":
                    self.assertRaises(LookupError, jillapun.name, label)
                else:
                    self.assertEqual(jillapun.name(label), wanted)
        self.assertGreater(count, 60)

    def test_output_encodings(self) -> None:
        for _, words, _ in cases.lines_in("test_encoding_cases"):
            if words.startswith("encoding "):
                name, _, output = words.split()[1:4]
                self.assertEqual((jillapun.name(name), jillapun.output_name(name)), (name, output))


class Conversions(unittest.TestCase):
    """Conversions of `test_recode_cases`, in memory and from file to file."""

    def test_conversions(self) -> None:
        count = 0
        empty = {name: b"" for name in cases.KINDS}
        with tempfile.TemporaryDirectory() as folder:
            for place, words, texts in cases.lines_in("test_recode_cases"):
                case = cases.conversion_of(words)
                if not case:
                    continue
                count += 1
                indexes = TABLES.of({**empty, **texts})
                for mark in case.marks:
                    with self.subTest(place=place, words=words, mark=mark):
                        self.in_memory(case, mark, indexes)
                        self.in_files(case, mark, indexes, folder)
        self.assertGreater(count, 400)

    def in_memory(self, case: cases.Conversion, mark: str, indexes: jillapun.Indexes) -> None:
        words = {"mark": mark, "unmappable": case.policy, "indexes": indexes}
        try:
            done = jillapun.convert(case.data, case.source, case.target, **words)
            verdict = "faithful" if done.faithful else "lossy"
        except jillapun.Stopped as stop:
            done, verdict = stop, "stopped %d %d" % (stop.lost.index, ord(stop.lost.character))
        self.assertEqual((done.output, list(map(str, done.losses)), verdict), (case.output, case.log, case.verdict))

    def in_files(self, case: cases.Conversion, mark: str, indexes: jillapun.Indexes, folder: str) -> None:
        given, made = os.path.join(folder, "given"), os.path.join(folder, "made")
        with open(given, "wb") as file:
            file.write(case.data)
        told = []
        words = {"mark": mark, "unmappable": case.policy, "indexes": indexes, "on_loss": told.append}
        try:
            done = jillapun.convert_file(given, made, case.source, case.target, **words)
            verdict = "faithful" if done.faithful else "lossy"
        except jillapun.Stopped as stop:
            verdict = "stopped %d %d" % (stop.lost.index, ord(stop.lost.character))
        else:
            with open(made, "rb") as file:
                self.assertEqual(file.read(), case.output)
            counts = [sum(isinstance(loss, kind) for loss in told) for kind in (Bad, Lost)]
            self.assertEqual([done.read, done.bad, done.lost], [len(case.data), *counts])
        self.assertEqual((list(map(str, told)), verdict), (case.log, case.verdict))


if __name__ == "__main__":
    unittest.main()
