#!/usr/bin/env python3
"""The drawing of the crates in docs/ARCHITECTURE.md, from crates.txt: `make generate`.

    python3 tools/pages/crates.py

An arrow goes from a crate to one that it stands on, unless it gets there through another. Crates of tests and of the kit are
left out.
"""

import os
import sys

from definitions import TOP, read
from usage import put

PAGE = os.path.join(TOP, "docs", "ARCHITECTURE.md")


def crates():
    """Each crate that is no test, with those that it stands on."""
    lines = (line for line in read(os.path.join(TOP, "crates.txt")).split("\n") if line and not line.startswith(("#", "test_")))
    rows = [line.partition(":") for line in lines]
    names = {head.split()[0] for head, _, _ in rows}
    return {head.split()[0]: [name for name in rest.split() if name in names] for head, _, rest in rows}


def all_below(crate, below):
    """The crates that it stands on, and those that these stand on."""
    found = set()
    for name in below[crate]:
        found |= {name} | all_below(name, below)
    return found


def drawing():
    below = crates()
    yield "```mermaid"
    yield "graph TD"
    for crate, names in below.items():
        through = set().union(*(all_below(name, below) for name in names))
        direct = [name for name in names if name not in through]
        yield "    %s --> %s" % (crate, " & ".join(direct)) if direct else "    " + crate
    yield "```"


def page():
    """What the page has, and what it should have."""
    text = read(PAGE)
    return text, put(text, [("crates", list(drawing()))], "<!-- %s -->\n", "<!-- end of %s -->\n")


def faults():
    """What `make lint` asks for."""
    has, should = page()
    if has != should:
        yield "docs/ARCHITECTURE.md does not draw the crates of crates.txt: make generate"


def main():
    text = page()[1]
    with open(PAGE, "w", encoding="utf-8") as file:
        file.write(text)


if __name__ == "__main__":
    sys.exit(main())
