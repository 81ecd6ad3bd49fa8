#!/usr/bin/env python3
"""Compares what is stored, and what the program `test_recode_cases` prints, with what plain programs say of the same index
texts, so that no expected output was made from our own.

    python3 tools/gate/stored.py

- The stored output of `test_index_files`: `sequences.py` and `characters.py`, after its first 34 lines, which have
  entries taken from standards and code pages by hand.
- What a run reports of each character as a text of its own, of every one of the basic plane and of some above it, in the
  encodings that have folds and in some that have none: `characters.py` (`make verdicts` has every character).
"""

import itertools
import os
import subprocess
import sys

sys.dont_write_bytecode = True

from steps import TOP, main

import characters
import sequences

INDEXES = os.path.join(TOP, "indexes")
VERDICTS = os.path.join(TOP, "crates/test_recode_cases/out/test_recode_cases")

# The lines of `test_index_files` that were written by hand, one for each kind of index.
KINDS = 34

# The encodings whose verdicts are compared, and which characters above the basic plane: those that it divides.
JUDGED = ["GBK", "gb18030", "Big5", "EUC-JP", "ISO-2022-JP", "Shift_JIS", "EUC-KR", "windows-1252", "UTF-8"]
STEP = 4096


def read(path):
    with open(os.path.join(TOP, path), encoding="utf-8") as file:
        return file.read()


def difference(what, found, wanted):
    """The first line in which two texts differ, as a list of one fault or none."""
    for number, (ours, other) in enumerate(itertools.zip_longest(found, wanted), 1):
        if ours != other:
            return ["%s, line %d: %r and not %r" % (what, number, ours, other)]
    return []


def index_file_faults():
    stored = read("crates/test_index_files/stdout").splitlines()
    wanted = [*stored[:KINDS], *sequences.lines(INDEXES), *characters.lines(INDEXES, False)]
    return difference("crates/test_index_files/stdout", stored, wanted)


def verdict_faults():
    if not os.path.isfile(VERDICTS):
        return ["%s was not built" % os.path.relpath(VERDICTS, TOP)]
    words = [VERDICTS, str(STEP), *JUDGED]
    ran = subprocess.run(words, cwd=INDEXES, capture_output=True, text=True, timeout=600, check=False)
    if ran.returncode:
        return ["test_recode_cases: status %d, %s" % (ran.returncode, ran.stderr)]
    return difference("test_recode_cases", ran.stdout.splitlines(), characters.verdicts(INDEXES, STEP, JUDGED))


if __name__ == "__main__":
    sys.exit(main([*verdict_faults(), *index_file_faults()]))
