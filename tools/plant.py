#!/usr/bin/env python3
"""Wrong bodies made by machine, which the contracts must refuse: `make plant`, or `make plant CRATE=encoding_mem`.

    python3 tools/plant.py [--minutes N] [CRATE ..]

Runs `rt plant` in each library of crates.txt, or in these crates, for N minutes each at most (10 if left out). The status
is 1 if a wrong body is proved, or a public function has no clause, and tools/known_gaps.txt does not list it.
"""

import argparse
import os
import re
import subprocess
import sys

TOP = os.path.abspath(os.path.join(os.path.dirname(os.path.abspath(__file__)), ".."))
GAPS = os.path.join(TOP, "tools", "known_gaps.txt")

# What `rt plant` prints of a gap: its kind, file, line and function, and the body that was proved.
GAP = re.compile(r"(?:proves|no-ensures) +(src/\S+\.rt):\d+ (.+?)(?:\(\)|: \{.*)")


def libraries():
    """The libraries of crates.txt, lowest first."""
    with open(os.path.join(TOP, "crates.txt"), encoding="utf-8") as file:
        names = [line.split(":")[0].split()[0] for line in file if ":" in line and not line.startswith("#")]
    roots = {name: os.path.join(TOP, "crates", name, "src", "lib.rt") for name in names}
    return [name for name in names if os.path.isfile(roots[name]) and not name.startswith("test_")]


def known_gaps():
    """The gaps that are listed, each as crate, file and function."""
    with open(GAPS, encoding="utf-8") as file:
        lines = [line.partition(": ")[0].split(maxsplit=2) for line in file if line.strip() and not line.startswith("#")]
    return {tuple(line) for line in lines}


def gaps_of(crate, minutes):
    """Each gap of a crate that `rt plant` finds: its file, its function and the whole line. `None` if it does not end well."""
    words = ["rt", "plant", "--minutes", str(minutes), "--max", "100000"]
    ran = subprocess.run(words, cwd=os.path.join(TOP, "crates", crate), stdout=subprocess.PIPE, text=True, check=False)
    print(ran.stdout, end="", flush=True)
    if ran.returncode:
        return None
    return [(*found.groups(), found.string) for found in map(GAP.match, ran.stdout.split("\n")) if found]


def main():
    parser = argparse.ArgumentParser(description="Tries wrong bodies that rt plant makes.")
    parser.add_argument("--minutes", type=int, default=10, help="for each crate, 10 if left out")
    parser.add_argument("crates", nargs="*", metavar="CRATE")
    given = parser.parse_args()
    known, status = known_gaps(), 0
    for crate in given.crates or libraries():
        print("== %s" % crate, flush=True)
        found = gaps_of(crate, given.minutes)
        if found is None:
            print("FAILED: rt plant in %s" % crate)
            status = 1
        for file, function, line in found or ():
            if (crate, file, function) not in known:
                print("FAILED: %s, which tools/known_gaps.txt does not list: %s" % (crate, line))
                status = 1
    return status


if __name__ == "__main__":
    sys.exit(main())
