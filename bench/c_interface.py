#!/usr/bin/env python3
"""Measures the library for C: see bench/README.md.

    python3 bench/c_interface.py [--rounds N] [--megabytes N] [--short] [--write] [WORD..]

`jillapun_convert` from memory to memory, called through the Python package, and `jillapun_converter_step`, into a room of
64 KiB that is used again, beside `recode` and, where cargo and the crate are there, a program over encoding_rs, on the
inputs of `programs.py`; and texts of 20 bytes beside Python's own codecs.
It wants `recode` built (`make build`) and the library (`make c`, or JILLAPUN_LIBRARY). With words it measures the
workloads that have one of them in their names; with --short the texts of 20 bytes alone, which want only the library.

What counts is processor time: of the calling thread for a call, of a whole run for a program, which reads its input and
its indexes and writes to /dev/null. Rounds of two sides take turns, and a ratio is the median of the ratios of neighbours,
with its quartiles; one whose quartiles are more than a tenth apart has a `~`. Of texts of 20 bytes the least time of many
short rounds counts. With --write the results go to bench/results.
"""

import argparse
import ctypes
import os
import statistics
import sys
import tempfile
import time

HERE = os.path.dirname(os.path.abspath(__file__))
sys.path[:0] = [HERE, os.path.join(HERE, "..", "python")]
os.environ.setdefault("JILLAPUN_INDEXES", os.path.join(HERE, "..", "indexes"))

import jillapun
import programs
from jillapun import _bare as bare
from jillapun import _library as library
from jillapun._indexes import handle_of, number_of

# Texts of 20 bytes: what they are, the text, the label and Python's codec.
SHORT = [
    ("ASCII, UTF-8", "twenty bytes of text", "utf-8", "utf-8"),
    ("Japanese, UTF-8", "日本語テキスa ", "utf-8", "utf-8"),
    ("Western, windows-1252", "vingt octets déjà là", "windows-1252", "cp1252"),
    ("Japanese, Shift_JIS", "日本語のテキスト十字", "shift_jis", "cp932"),
    ("Japanese, EUC-JP", "日本語のテキスト十字", "euc-jp", "euc_jp"),
    ("Japanese, ISO-2022-JP", "日本語テキスト", "iso-2022-jp", "iso2022_jp"),
    ("Chinese, gb18030", "二十个字节的中文文本", "gb18030", "gb18030"),
    ("Chinese, GBK", "二十个字节的中文文本", "gbk", "gbk"),
]
# The calls of a round of these, and how many rounds there are for one of the workloads.
CALLS, TIMES = 300, 20


class Call:
    """`jillapun_convert` on one input, into memory that is there already."""

    def __init__(self, data, source, target):
        size = 3 * len(data) + 64
        self.room, self.losses, self.report = ctypes.create_string_buffer(size), (library.Loss * 16)(), library.Report()
        words = number_of(source), number_of(target), library.MARKS["keep"], library.POLICIES["decimal"]
        self.words = (handle_of(None), *words, library.NO_LIMIT, data, len(data), self.room, size, self.losses, 16)

    def made(self):
        status = library.library.jillapun_convert(*self.words, ctypes.byref(self.report))
        if status not in (library.OK, library.LOSSY):
            sys.exit("status %d" % status)
        return self.room.raw[: self.report.written]

    def spent(self):
        start = time.thread_time()
        library.library.jillapun_convert(*self.words, ctypes.byref(self.report))
        return time.thread_time() - start


class Steps:
    """A conversion of one input by steps, into room that is used again."""

    SIZE, RECORDS = 1 << 16, 1 << 10

    def __init__(self, data, source, target):
        self.data, self.handle = data, library.Converter()
        words = number_of(source), number_of(target), library.MARKS["keep"], library.POLICIES["decimal"]
        self.words = (handle_of(None), *words, library.NO_LIMIT, ctypes.byref(self.handle))
        self.room, self.losses = ctypes.create_string_buffer(self.SIZE), (library.Loss * self.RECORDS)()
        self.progress, self.report = library.ConverterProgress(), library.Report()

    def calls(self):
        """Each call of the step, after it was made."""
        lent = self.room, self.SIZE, self.losses, self.RECORDS, ctypes.byref(self.progress), ctypes.byref(self.report)
        handle, start, size = ctypes.byref(self.handle), library.address_of(self.data), len(self.data)
        library.streams().jillapun_converter_new(*self.words)
        at, status = 0, library.GOES_ON
        while status == library.GOES_ON:
            status = library.library.jillapun_converter_step(handle, start + at, size - at, True, *lent)
            at += self.progress.read
            yield status

    def made(self):
        return b"".join(self.room[: self.progress.written] for _ in self.calls())

    def spent(self):
        start = time.thread_time()
        for _ in self.calls():
            pass
        return time.thread_time() - start


def compared(ours, theirs, rounds):
    """How many times as fast ours is, and the median time of each."""
    ratios, own, other = [], [], []
    before = theirs()
    for _ in range(rounds):
        spent = ours()
        after = theirs()
        ratios.append((before + after) / 2 / spent)
        own.append(spent)
        other.append(after)
        before = after
    return programs.Ratio(ratios), statistics.median(own), statistics.median(other)


def whole_rows(given, work):
    texts, other = dict(programs.texts()), programs.peer(work)
    for title, name, source, target in programs.chosen(given.words):
        codec = programs.PYTHON.get(source, source)
        path = programs.write_input(work, texts[name].encode(codec), given.megabytes)
        with open(path, "rb") as file:
            data = file.read()
        call, steps, size = Call(data, source, target), Steps(data, source, target), len(data) / 1e6
        commands = [programs.recode(given.program, source, target)] + ([[other, source, target]] if other else [])
        made = call.made()
        cells = [title + (" (steps differ)" if steps.made() != made else "")]
        for command in commands:
            target_path = os.path.join(work, "output")
            programs.run(command, path, target_path)
            with open(target_path, "rb") as file:
                if file.read() != made:
                    cells[0] += " (differs)"
            spent = lambda: programs.run(command, path, os.devnull)[0]
            ratio, own, theirs = compared(call.spent, spent, given.rounds)
            by_steps, own_by_steps, _ = compared(steps.spent, spent, given.rounds)
            if len(cells) == 1:
                cells += ["%.0f" % (size / own), "%.0f" % (size / own_by_steps)]
            cells += ["%.0f" % (size / theirs), str(ratio), str(by_steps)]
        yield cells


def timed(work, count):
    """The processor time of each of some calls, in microseconds."""
    start = time.thread_time()
    for _ in range(count):
        work()
    return (time.thread_time() - start) / count * 1e6


def least(works, rounds, count=CALLS):
    """The least processor time of a call of each, in microseconds, of rounds that take turns: whatever disturbs a call
    makes it longer."""
    return [min(times) for times in zip(*([timed(work, count) for work in works] for _ in range(rounds)))]


def short_rows(given):
    for title, text, label, codec in SHORT:
        data = text.encode(codec)
        assert jillapun.decode(data, label).text == text and jillapun.encode(text, label).data == data, title
        call = Call(data, label, "utf-8")
        *words, data_size, room, size, losses, count = call.words
        words[-2] = library.Long(library.NO_LIMIT)
        lent = ctypes.byref(room), library.Size(size), ctypes.byref(losses), library.Size(count)
        words = (*words, library.Size(data_size), *lent, ctypes.byref(call.report))
        works = [
            lambda: jillapun.decode(data, label),
            lambda: data.decode(codec, "replace"),
            lambda: jillapun.encode(text, label),
            lambda: text.encode(codec, "xmlcharrefreplace"),
            lambda: jillapun.convert(data, label, "utf-8"),
            lambda: bare.convert_all(*words),
        ]
        yield [title, *("%.2f" % spent for spent in least(works, TIMES * given.rounds))]


def shown(rows):
    for cells in rows:
        print(" | ".join(cells), flush=True)
        yield cells


def main():
    parser = argparse.ArgumentParser(description=__doc__, formatter_class=argparse.RawDescriptionHelpFormatter)
    parser.add_argument("--rounds", type=int, default=15)
    parser.add_argument("--megabytes", type=int, default=8)
    parser.add_argument("--program", default=programs.RECODE)
    parser.add_argument("--short", action="store_true")
    parser.add_argument("--write", action="store_true")
    parser.add_argument("words", nargs="*")
    given = parser.parse_args()
    given.linear = False
    about = programs.machine(given)
    print(about, flush=True)
    if not given.short:
        with tempfile.TemporaryDirectory(dir="/dev/shm" if os.path.isdir("/dev/shm") else None) as work:
            whole = list(shown(whole_rows(given, work)))
        if given.write:
            head = ["Workload", "`jillapun_convert`", "by steps"]
            for name in ("recode", "encoding_rs"):
                head += [name, "to " + name, "by steps, to " + name]
            what = "The library for C from memory to memory, in one call and by steps: " + programs.SPEED_UNIT.replace("recode", "ours")
            programs.record("c_interface", what + ". " + about, head[: len(whole[0])], whole)
    short = list(shown(short_rows(given)))
    if given.write:
        about = "%s; Python %s, the least of %d rounds of %d calls." % (
            about.rpartition("; ")[0], sys.version.split()[0], TIMES * given.rounds, CALLS)  # fmt: skip
        head = ["20 bytes", "jillapun.decode", "bytes.decode", "jillapun.encode", "str.encode", "jillapun.convert"]
        what = "Texts of 20 bytes in Python: microseconds of processor time a call. "
        programs.record("python_short", what + about, [*head, "jillapun_convert alone"], short)


if __name__ == "__main__":
    sys.exit(main())
