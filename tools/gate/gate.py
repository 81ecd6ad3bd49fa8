#!/usr/bin/env python3
"""The merge gate: `rt ci`, and then what it cannot do with the programs that it has proved and built.

    python3 tools/gate/gate.py

The programs run by a table of command lines (`command_lines.py`), on random inputs (`fuzz.py`), on a text that Python
converts, too (`sample.py`), with memory refused (`refused_memory.py`), with hostile index texts (`hostile_indexes.py`)
and on hostile streams (`hostile_streams.py`), and `recode-places` on the logs of runs (`places.py`). The library for C is
built, loaded and called (`c_interface.py`). What is stored is compared with what plain programs say (`stored.py`), and
what the definitions give with what such a program gives (`compare_definitions.py`). The codec and the encoding of
docs/examples are compiled, each added to a copy, and not proved (`example.py`). The crate for Rust is tested over the library
that was built (`rust_crate.py`).
Each of these steps counts as one more in the last line. Two of them run at a time, since the machine of the gate has
two processors; the last is alone. The status is 0 if nothing failed.
"""

import concurrent.futures
import concurrent.futures.process
import contextlib
import io
import os
import re
import subprocess
import sys

sys.dont_write_bytecode = True

from steps import TOP

import c_interface
import command_lines
import compare_definitions
import example
import fuzz
import hostile_indexes
import hostile_streams
import places
import refused_memory
import rust_crate
import sample
import stored


STEPS = [
    ("command lines", command_lines.faults),
    ("random inputs", fuzz.faults),
    ("stored output of test_index_files", stored.index_file_faults),
    ("a text in Shift_JIS", sample.faults),
    ("verdicts of single characters", stored.verdict_faults),
    ("refused memory", refused_memory.faults),
    ("hostile index texts", hostile_indexes.faults),
    ("hostile streams", hostile_streams.faults),
    ("places", places.faults),
    ("library for C", c_interface.faults),
    ("definitions", compare_definitions.faults),
    ("examples of a codec and an encoding", example.faults),
]
# What wants the library that a step has built.
LAST = ("crate for Rust", rust_crate.faults)


def ci():
    """Runs `rt ci`, whose last line is kept back: its status, that line, and how many edits of `must-fail/` show nothing.

    `rt ci` passes an edit that cannot be applied or compiled, and one that is refused only because a proof names what the
    edit took away.
    """
    last, empty = "", 0
    ran = subprocess.Popen(["rt", "ci"], cwd=TOP, stdout=subprocess.PIPE, text=True, errors="replace")
    for line in ran.stdout:
        empty += bool(re.search(r"must-fail .*(: BAD EDIT|\(only because a proof file)", line))
        print(last, end="", flush=True)
        last = line
    return ran.wait(), last, empty


def tried(faults):
    """What a step says, and what it found wrong. An exception is a fault."""
    said = io.StringIO()
    with contextlib.redirect_stdout(said):
        try:
            wrong = list(faults())
        except Exception as fault:
            wrong = ["%s: %s" % (type(fault).__name__, fault)]
    return said.getvalue(), wrong


def tried_all():
    """Each step by its name, in their order, with what it says and what it found wrong."""
    with concurrent.futures.ProcessPoolExecutor(2) as pool:
        runs = [(name, pool.submit(tried, faults)) for name, faults in STEPS]
        for name, run in runs:
            try:
                yield name, *run.result()
            except concurrent.futures.process.BrokenProcessPool as fault:
                yield name, "", [str(fault)]
    name, faults = LAST
    yield name, *tried(faults)


def main():
    status, last, empty = ci()
    counts = re.fullmatch(r"(\d+) passed, (\d+) failed\n", last)
    if not counts:
        print(last, end="")
        return status or 1
    passed, failed = int(counts[1]), int(counts[2]) + empty
    if empty:
        print("FAILED: %d edits of must-fail/ show nothing" % empty, flush=True)
    for name, said, wrong in tried_all():
        print("== %s\n%s" % (name, said), end="", flush=True)
        for line in wrong:
            print("WRONG", line, flush=True)
        if wrong:
            print("FAILED: " + name, flush=True)
            failed += 1
        else:
            passed += 1
    print("%d passed, %d failed" % (passed, failed), flush=True)
    return status or (1 if failed else 0)


if __name__ == "__main__":
    sys.exit(main())
