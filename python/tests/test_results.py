"""What calls return and raise, handed to another process, copied and compared."""

import copy
import os
import pickle
import subprocess
import sys
import tempfile
import unittest
from pathlib import Path
from typing import Any, Dict

import cases
import jillapun
from jillapun import _places

LOST = jillapun.Lost(1, "日")
DONE = jillapun.ConvertedFile(3, 0, 1, False, [LOST], 2)

# One of each kind of result.
RESULTS = [
    jillapun.Bad(3, 1),
    LOST,
    jillapun.Decoded("a\ufffd", [jillapun.Bad(1, 1)]),
    jillapun.DecodedKept("a\ufffd", [], 1),
    jillapun.Encoded(b"a&#26085;", [LOST], False),
    jillapun.EncodedKept(b"a&#26085;", [], 1, False),
    jillapun.Converted(b"a", [jillapun.Bad(1, 1), LOST], False),
    jillapun.ConvertedPart(b"a", [LOST]),
    jillapun.Report(3, 0, 1, False, 2),
    DONE,
    jillapun.Reading(["UTF-8"], 1, ["a"]),
    jillapun.Which(3, 1, [jillapun.Reading(["UTF-8"], 1, ["a"])], None),
    _places.Place(1, 2, b"\xff", "UTF-8"),
]
# One of each exception that is not made of a text alone.
RAISED: Dict[Any, Exception] = {
    jillapun.Stopped: jillapun.Stopped(LOST, b"a", [jillapun.Bad(0, 1), LOST]),
    jillapun.NotReplaced: jillapun.NotReplaced(DONE),
    jillapun.UnknownLabel: jillapun.UnknownLabel("cp950", "big5"),
}
EXCEPTIONS = [
    RAISED.get(kind) or kind("a text")
    for kind in map(jillapun.__dict__.get, jillapun.__all__)
    if isinstance(kind, type) and issubclass(kind, Exception)
]

WAYS = [
    copy.copy,
    copy.deepcopy,
    *(
        lambda it, protocol=protocol: pickle.loads(pickle.dumps(it, protocol))
        for protocol in range(2, pickle.HIGHEST_PROTOCOL + 1)
    ),
]

# A pool of processes, in which a worker loses something.
POOL = """
import concurrent.futures, multiprocessing, sys
import jillapun

def work(text):
    return jillapun.encode(text, "windows-1252", unmappable="stop")

def convert(path):
    return jillapun.convert_file(path, path, "utf-8", "windows-1252", in_place=True)

def told(call, *words):
    try:
        print(call(*words))
    except (jillapun.Stopped, jillapun.NotReplaced) as fault:
        print(type(fault).__name__, fault)

if __name__ == "__main__":
    texts = ["a", "é日", "b"]
    with multiprocessing.Pool(1) as pool:
        told(pool.map, work, texts)
        told(pool.map, work, texts[:1])
        told(pool.map, convert, sys.argv[1:])
    with concurrent.futures.ProcessPoolExecutor(1) as pool:
        told(lambda: list(pool.map(work, texts)))
        told(lambda: list(pool.map(work, texts[:1])))
"""
STOPPED = "Stopped no bytes for U+65E5, the character at index 1\n"
ENCODED = "[Encoded(data=b'a', losses=[], faithful=True)]\n"
# It takes no longer, in seconds.
PATIENCE = 60


class Results(unittest.TestCase):
    def test_results(self) -> None:
        """They are equal, of the same kind, and can be printed. No public one is left out."""
        public = {kind for kind in map(jillapun.__dict__.get, jillapun.__all__) if hasattr(kind, "_fields")}
        self.assertLessEqual(public, set(map(type, RESULTS)))
        for result in RESULTS:
            for way in WAYS:
                with self.subTest(result=result):
                    again = way(result)
                    self.assertEqual((again, type(again), repr(again)), (result, type(result), repr(result)))
                    self.assertEqual(hasattr(result, "summary") and result.summary, getattr(again, "summary", False))

    def test_exceptions(self) -> None:
        """They say the same, and have the same members."""
        self.assertGreaterEqual(len(EXCEPTIONS), 6)
        for fault in EXCEPTIONS:
            for way in WAYS:
                with self.subTest(fault=fault):
                    again = way(fault)
                    self.assertEqual((type(again), again.args, str(again)), (type(fault), fault.args, str(fault)))
                    self.assertEqual(vars(again), vars(fault))

    def test_which(self) -> None:
        found = jillapun.which("é 日本".encode())
        for way in WAYS:
            self.assertEqual(way(found), found)

    def test_streams(self) -> None:
        """Streams and indexes stay in their process."""
        for it in (jillapun.Converter("utf-8", "utf-8"), jillapun.Decoder("utf-8"), jillapun.Indexes(texts={})):
            self.assertRaises((TypeError, ValueError), pickle.dumps, it)

    def test_pools(self) -> None:
        """A worker that loses something breaks no pool, and its exception arrives."""
        with tempfile.TemporaryDirectory() as folder:
            script, path = Path(folder, "pool.py"), Path(folder, "text")
            script.write_text(POOL, encoding="utf-8")
            path.write_bytes("日".encode())
            environment = {**os.environ, "PYTHONPATH": os.path.join(cases.TOP, "python"), "PYTHONIOENCODING": "utf-8"}
            words = [sys.executable, str(script), str(path)]
            with subprocess.Popen(
                words, env=environment, stdout=subprocess.PIPE, stderr=subprocess.STDOUT, start_new_session=True
            ) as process:
                try:
                    output = process.communicate(timeout=PATIENCE)[0].decode()
                except subprocess.TimeoutExpired:
                    os.killpg(process.pid, 9)
                    raise
        lines = output.splitlines(keepends=True)
        self.assertEqual(lines[:2] + lines[3:], [STOPPED, ENCODED, STOPPED, ENCODED])
        self.assertTrue(lines[2].startswith("NotReplaced left as it was"))


if __name__ == "__main__":
    unittest.main()
