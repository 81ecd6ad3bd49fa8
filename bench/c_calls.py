#!/usr/bin/env python3
"""Measures calls of the C library that use a small part of a long input, beside encoding_rs: see bench/README.md.

    python3 bench/c_calls.py [--rounds N] [--write]

It wants the library built (`make c`), cargo, and the crate encoding_rs of Debian (librust-encoding-rs-dev). What counts is
processor time of the thread. Rounds of the sides take turns, and a ratio is the median of the ratios of one turn, with its
quartiles. encoding_rs is handed a `&str`, and tests nothing; in a second column its caller has bytes, as the library's has, and
calls `std::str::from_utf8` on them once. With --write the results go to bench/results.
"""

import argparse
import os
import shutil
import subprocess
import sys
import tempfile

HERE = os.path.dirname(os.path.abspath(__file__))
sys.path.insert(0, HERE)

import programs

TOP = os.path.abspath(os.path.join(HERE, ".."))
# The kinds of rows: the name of the result, and its columns. The program divides times: below 1 ours is faster.
TABLES = {
    "call": ("c_calls", ["A call", "ns", "encoding_rs, ns", "time to encoding_rs"]),
    "whole": ("c_texts", ["1 MiB", "ms", "encoding_rs, ms", "time to encoding_rs", "from bytes, ms", "time to that from bytes"]),
}


def main():
    parser = argparse.ArgumentParser(description=__doc__, formatter_class=argparse.RawDescriptionHelpFormatter)
    parser.add_argument("--rounds", type=int, default=15)
    parser.add_argument("--library", default=os.path.join(TOP, "out", "c"))
    parser.add_argument("--write", action="store_true")
    given = parser.parse_args()
    given.linear, given.megabytes = False, 1
    about = programs.machine(given)
    print(about, flush=True)
    with tempfile.TemporaryDirectory() as work:
        folder = os.path.join(work, "calls")
        shutil.copytree(os.path.join(HERE, "calls"), folder)
        environment = dict(os.environ, LIBRARY=os.path.abspath(given.library))
        subprocess.run(["cargo", "build", "--release", "--offline", "--quiet"], cwd=folder, env=environment, check=True)
        program = os.path.join(folder, "target", "release", "calls")
        said = subprocess.run([program, str(given.rounds), os.path.join(TOP, "indexes")], stdout=subprocess.PIPE, text=True, check=True).stdout
    rows = {kind: [] for kind in TABLES}
    for line in said.splitlines():
        kind, *cells = line.split("\t")
        rows[kind].append(cells + [""] * (len(TABLES[kind][1]) - len(cells)))
        print(" | ".join(cells))
    if given.write:
        what = "Calls of the library for C that take a part of their input, beside %s; times, below 1 ours is faster."
        for kind, (name, head) in TABLES.items():
            programs.record(name, what % programs.versions("encoding_rs") + " " + about, head, rows[kind])


if __name__ == "__main__":
    sys.exit(main())
