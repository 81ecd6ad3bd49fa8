#!/usr/bin/env python3
"""Measures the crate for Rust beside Debian's encoding_rs: see bench/README.md.

    python3 bench/rust_crates.py [--rounds N] [--write]
    python3 bench/rust_crates.py --compare

It wants the library built (`make c`), cargo, and the crate encoding_rs of Debian (librust-encoding-rs-dev), which is built
twice: as it is by default, and with the feature `fast-legacy-encode`. Each work is done by both crates of a program in
turns. With --write the results go to bench/results. With --compare nothing is timed: what both give of many inputs and
texts must be equal, but for what bench/README.md lists; half a minute, and the status is 1 if something else differs.
"""

import argparse
import os
import shutil
import subprocess
import sys
import tempfile

HERE = os.path.dirname(os.path.abspath(__file__))
sys.path.insert(0, HERE)

import programs

TOP = os.path.abspath(os.path.join(HERE, ".."))
FOLDER = os.path.join(HERE, "crates")
BUILDS = {"encoding_rs": [], "encoding_rs, fast": ["--features", "fast"]}
# The rows of a kind: the name of the result, and what its numbers are.
TABLES = {
    "long": ("rust_long", "inputs of 16 MB: MB of source a second of processor time"),
    "short": ("rust_short", "texts of 20 bytes: nanoseconds of processor time a call"),
}


def copy(work):
    """A copy of the program, which names the crate by its place in this repository."""
    folder = shutil.copytree(FOLDER, os.path.join(work, "crates"))
    words = os.path.join(folder, "Cargo.toml")
    with open(words, encoding="utf-8") as file:
        text = file.read().replace("../..", TOP)
    with open(words, "w", encoding="utf-8") as file:
        file.write(text)
    return folder


def built(build, work):
    """The program, built."""
    environment = dict(os.environ, CARGO_TARGET_DIR=os.path.join(work, "target"))
    subprocess.run(["cargo", "build", "--release", "--offline", "--quiet", *build], cwd=work, env=environment, check=True)
    return os.path.join(work, "target", "release", "crates")


def rows(build, rounds, work):
    """The rows that a build prints, by kind, encoding and work: ours, theirs, and the ratio with its quartiles."""
    said = subprocess.run([built(build, work), str(rounds)], stdout=subprocess.PIPE, text=True, check=True).stdout
    for line in said.splitlines():
        kind, label, what, ours, theirs, ratio, low, high = line.split("\t")
        yield (kind, label, what), (ours, theirs, "%s (%s to %s)" % (ratio, low, high))


def main():
    parser = argparse.ArgumentParser(description=__doc__, formatter_class=argparse.RawDescriptionHelpFormatter)
    parser.add_argument("--rounds", type=int, default=9)
    parser.add_argument("--write", action="store_true")
    parser.add_argument("--compare", action="store_true")
    given = parser.parse_args()
    if given.compare:
        with tempfile.TemporaryDirectory() as work:
            return subprocess.run([built([], copy(work)), "--compare"], check=False).returncode
    given.linear, given.megabytes = False, 16
    about = programs.machine(given)
    print(about, flush=True)
    found = {}
    for name, build in BUILDS.items():
        with tempfile.TemporaryDirectory() as work:
            found[name] = dict(rows(build, given.rounds, copy(work)))
    for kind, (name, unit) in TABLES.items():
        head = ["encoding", "work", "ours"] + [cell for build in BUILDS for cell in (build, "to " + build)]
        cells = []
        for key, (ours, _, _) in found["encoding_rs"].items():
            if key[0] == kind:
                cells.append([key[1], key[2], ours] + [cell for build in BUILDS for cell in found[build][key][1:]])
        print(programs.table(head, cells), flush=True)
        if given.write:
            what = 'The crate for Rust beside %s, %s; "to" says how many times as fast ours is, with quartiles. '
            programs.record(name, what % (programs.versions("encoding_rs"), unit) + about, head, cells)


if __name__ == "__main__":
    sys.exit(main())
