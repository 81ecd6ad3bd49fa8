#!/usr/bin/env python3
"""Runs `rt` in a crate, unless the last run succeeded on the same files and what it made is still there.

    python3 tools/release/fresh.py CRATE OUTPUT rt WORDS..

`rt` alone finds that nothing has changed in a minute of processor time, and this in a second. It compares a checksum of the
sources of the crate and of those below it, of the kit, and of OUTPUT, a file in the crate's `out/`. The checksum of the last
run stands in `out/fresh` at the top, so `make clean` forgets it.
"""

import hashlib
import os
import shutil
import subprocess
import sys

TOP = os.path.abspath(os.path.join(os.path.dirname(os.path.abspath(__file__)), "..", ".."))
CRATES = os.path.join(TOP, "crates")
KEPT = os.path.join(TOP, "out", "fresh")
# What of a crate is read when it is proved and built.
READ = ("src", "specs", "proofs")


def below(crate):
    """A crate of crates.txt, and all crates of the repository that it stands on."""
    with open(os.path.join(TOP, "crates.txt"), encoding="utf-8") as file:
        lines = [line.split(":") for line in file if ":" in line and not line.startswith("#")]
    named = {left.split()[0]: right.split() for left, right in lines}
    found, left = set(), [crate]
    while left:
        crate = left.pop()
        if crate in named and crate not in found:
            found.add(crate)
            left += named[crate]
    return sorted(found)


def files(paths):
    """The files at some paths and below them."""
    for path in paths:
        if os.path.isfile(path):
            yield path
        for place, _, names in sorted(os.walk(path)):
            yield from (os.path.join(place, name) for name in sorted(names))


def checksum(paths):
    """A checksum of the names and the contents of files, and of the kit."""
    rt, whole = shutil.which("rt"), hashlib.sha256()
    identity = os.path.join(os.path.dirname(os.path.realpath(rt)), "..", "KIT-ID") if rt else ""
    for path in (identity, *files(paths)):
        whole.update(("\0%s\0" % os.path.relpath(path, TOP)).encode())
        if os.path.isfile(path):
            with open(path, "rb") as file:
                whole.update(hashlib.file_digest(file, "sha256").digest())
    return whole.hexdigest()


class Made:
    """What a run makes of a crate: output files, from the sources of crates and from other files. It is made before the run,
    so that a source that changes meanwhile is found changed."""

    def __init__(self, crate, outputs, others=()):
        self.kept, self.outputs = os.path.join(KEPT, crate), outputs
        sources = [os.path.join(CRATES, name, part) for name in below(crate) for part in READ]
        self.sources = checksum([os.path.join(TOP, "crates.txt"), *sources, *others])

    def is_fresh(self):
        """Whether nothing has changed since the last run that succeeded."""
        if not all(map(os.path.isfile, [self.kept, *self.outputs])):
            return False
        with open(self.kept, encoding="ascii") as file:
            return file.read().split() == [self.sources, checksum(self.outputs)]

    def keep(self):
        """Says that the run succeeded, with the outputs that are there."""
        os.makedirs(KEPT, exist_ok=True)
        with open(self.kept, "w", encoding="ascii") as file:
            file.write("%s\n%s\n" % (self.sources, checksum(self.outputs)))


def main():
    crate, output, *words = sys.argv[1:]
    made = Made(crate, [os.path.join(CRATES, crate, "out", output)])
    if made.is_fresh():
        return 0
    ran = subprocess.run(words, cwd=os.path.join(CRATES, crate), stdout=subprocess.DEVNULL, check=False)
    if ran.returncode == 0:
        made.keep()
    return ran.returncode


if __name__ == "__main__":
    sys.exit(main())
