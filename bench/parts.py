#!/usr/bin/env python3
"""Measures one conversion in parts beside one `recode`, and beside `iconv` under GNU parallel: see bench/README.md.

    python3 bench/parts.py [--megabytes N] [--parts N,N,..] [--folder PATH] [--write]

It wants the program and the library built (`make build`, `make c`), and room for three times the input in the folder. The
input is lines in Shift_JIS, of which one in fifty has a malformed byte. Each conversion reads a file and writes an output and a
log into files, which are compared with those of one `recode`, byte by byte. Wall time and processor time are those of whole
processes, with all that they start. `iconv` drops what is malformed and tells nothing of it, so its output is not compared.
With --write the results go to bench/results.
"""

import argparse
import filecmp
import os
import random
import resource
import shutil
import subprocess
import sys
import tempfile
import time

HERE = os.path.dirname(os.path.abspath(__file__))
sys.path.insert(0, HERE)

import programs

TOP = os.path.abspath(os.path.join(HERE, ".."))
RECODE = os.path.join(TOP, "crates", "recode_cli", "out", "recode_cli")
INDEXES = os.path.join(TOP, "indexes")
HEAD = ["Conversion", "parts", "wall, s", "processor, s", "of it joining, s", "wall to one `recode`", "processor to one `recode`"]
HEAD += ["as one `recode`"]

WORDS = "ログ 2026-11-28 日本語 テスト かな 漢字 request served in 12 ms".split(" ")

# The library, in as many parts at once; the log is what it tells. It prints how much processor time joining took: what the
# thread that joins does for each block, but for what one conversion does as well, the writing of the output, and the reading
# and telling of losses.
LIBRARY = """
import sys, time, jillapun
from jillapun._parts import _Parts
from jillapun._results import Losses
source, output, log, parts = sys.argv[1:]
spent = {"joining": 0.0, "both": 0.0}

def timed(name, call):
    def timed_call(*words):
        start = time.thread_time()
        try:
            return call(*words)
        finally:
            spent[name] += time.thread_time() - start
    return timed_call

class Timed:
    def __init__(self, made):
        self.writelines = timed("both", made.writelines)

join = timed("joining", _Parts.join)
_Parts.join = lambda self, block, made, losses: join(self, block, Timed(made), losses)
Losses.add = timed("both", Losses.add)
with open(log, "w") as lines:
    told = lambda fault: lines.write("%s\\n" % (fault,))
    jillapun.convert_file(source, output, "shift_jis", "utf-8", threads=int(parts), on_loss=told)
print(spent["joining"] - spent["both"])
"""


def fill(path, megabytes):
    """Writes the input: a block of lines of 4 MB, again and again."""
    chance, lines, size = random.Random(20), [], 0
    while size < 4_000_000:
        line = " ".join(chance.choice(WORDS) for _ in range(12)).encode("shift_jis")
        lines.append(line + b"\xff" * (chance.random() < 0.02) + b"\n")
        size += len(lines[-1])
    with open(path, "wb") as made:
        for _ in range(max(1, megabytes * 1_000_000 // size)):
            made.writelines(lines)


def clocked(words, **options):
    """How long a command takes, and how much processor time, with what it starts."""
    before, start = resource.getrusage(resource.RUSAGE_CHILDREN), time.monotonic()
    subprocess.run(words, check=False, **options)
    wall, after = time.monotonic() - start, resource.getrusage(resource.RUSAGE_CHILDREN)
    return wall, after.ru_utime + after.ru_stime - before.ru_utime - before.ru_stime


def by_recode(path, output, log):
    words = [RECODE, "--indexes", INDEXES, "--from", "shift_jis", "--to", "utf-8"]
    with open(path, "rb") as given, open(output, "wb") as made, open(log, "wb") as told:
        return clocked(words, stdin=given, stdout=made, stderr=told)


def by_library(path, output, log, parts):
    """How long it takes, and what joining takes; with one part nothing is joined."""
    environment = dict(os.environ, PYTHONPATH=os.path.join(TOP, "python"))
    with tempfile.TemporaryFile("w+") as said:
        took = clocked([sys.executable, "-c", LIBRARY, path, output, log, str(parts)], env=environment, stdout=said)
        said.seek(0)
        return took, float(said.read())


def by_iconv(path, output, parts):
    iconv = "iconv -c -f SHIFT_JIS -t UTF-8"
    words = ["parallel", "--pipe-part", "-a", path, "--block", "-1", "-k", "-j", str(parts), iconv]
    with open(output, "wb") as made:
        return clocked(words if parts > 1 else [*iconv.split(" "), path], stdout=made, stderr=subprocess.DEVNULL)


def rows(given, folder):
    """A row for each conversion, with those of one `recode` before it."""
    path, output, log, made, told = (os.path.join(folder, name) for name in ("given", "output", "log", "made", "told"))
    fill(path, given.megabytes)
    one = by_recode(path, output, log)

    def row(name, parts, took, same, joining=None):
        print("%s, %d: %.1f s, %.1f s of processor time, %s" % (name, parts, *took, same), flush=True)
        ratios = ["%.2f" % (ours / whole) for ours, whole in zip(took, one)]
        told = "" if joining is None else "%.2f" % joining
        return [name, str(parts), "%.1f" % took[0], "%.1f" % took[1], told, *ratios, same]

    yield row("`recode`", 1, one, "yes")
    for parts in given.parts:
        took, joining = by_library(path, made, told, parts)
        same = filecmp.cmp(output, made, shallow=False) and filecmp.cmp(log, told, shallow=False)
        yield row("`convert_file` of Python", parts, took, "yes" if same else "NO", joining if parts > 1 else None)
    for parts in given.parts if shutil.which("parallel") else [1]:
        yield row("`iconv -c`" + " under GNU parallel" * (parts > 1), parts, by_iconv(path, made, parts), "not compared")


def main():
    parser = argparse.ArgumentParser(description=__doc__, formatter_class=argparse.RawDescriptionHelpFormatter)
    parser.add_argument("--megabytes", type=int, default=4000)
    parser.add_argument("--parts", type=lambda words: list(map(int, words.split(","))), default=[1, 2, 4])
    parser.add_argument("--folder", help="where the input and the outputs are put for the time of the measurement")
    parser.add_argument("--write", action="store_true")
    given = parser.parse_args()
    given.rounds, given.linear = 1, False
    about = programs.machine(given)
    print(about, flush=True)
    with tempfile.TemporaryDirectory(dir=given.folder) as folder:
        found = list(rows(given, folder))
    if given.write:
        what = 'Shift_JIS to UTF-8 with a malformed byte in one line of fifty, each conversion once. "to one `recode`"'
        programs.record("parts", what + " divides times: below 1 is faster. " + about, HEAD, found)


if __name__ == "__main__":
    sys.exit(main())
