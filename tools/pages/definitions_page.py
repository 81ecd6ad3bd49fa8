#!/usr/bin/env python3
"""The files of definitions, `out/docs/definitions.md`, each with what it says of itself: `make generate`.

    python3 tools/pages/definitions_page.py

`specs/` itself is what a reader of the theorems reads; `specs/calls/` is what calls and layers promise one another.
"""

import os
import re
import sys

from definitions import CRATES, TOP, read

PAGE = os.path.join(TOP, "out", "docs", "definitions.md")

# The crates in the order to read them in, each with what its definitions are of.
PARTS = [
    ("encoding_mem", "Pieces, texts, and what is written for them"),
    ("encoding_tables", "Indexes, and the encodings of one byte, UTF-16 and replacement"),
    ("encoding_codecs", "The encodings of two and more bytes"),
    ("encoding_labels", "Labels"),
    ("encoding_front", "Encodings and byte order marks"),
    ("encoding_index", "Index texts"),
    ("recode_log", "Devices, and lines of the log"),
    ("recode", "Jobs, runs and the program"),
    ("recode_places", "Places of what a log names"),
    ("recode_parts", "Parts that are joined"),
    ("recode_places_report", "What is printed of places"),
    ("recode_words", "The command line's words"),
    ("recode_system", "The program on its system"),
    ("jillapun_c", "What crosses to C"),
    ("test_examples", "What callers say of their calls"),
]  # fmt: skip

HEAD = """# Definitions

What the contracts speak of, and so what has to be read to trust a claim: the files of `specs/` in each crate, below in the order to read them in. What [the theorem](../../docs/THEOREM.md) stands on is picked out of them in [theorem.md](theorem.md). Each file opens with a paragraph that says what it defines, and with the section of the standard that it follows. Worked rows stand in `specs/examples/`, most of them under the name of their file; they and the theorems in `specs/laws/` and `proofs/` are proved and need not be read.

From the standard library come scalars, the bytes of a text in UTF-8 (RFC 3629) and its units in UTF-16 (Unicode).
"""

CALLS = """## What calls and layers promise one another

`specs/calls/` of each crate: how much room is enough, where a call stops, what is pending between two calls. A caller reads what the contract of its call cites; a reader of the theorem needs none of them.
"""


def modules(crate, folder):
    """The files of a folder of definitions, in the order in which its list has them."""
    index = os.path.join(CRATES, crate, "specs", (folder + ".antt") if folder else "Lib.antt")
    names = re.findall(r"^pub mod (\w+)", read(index), re.M) if os.path.isfile(index) else []
    paths = ("crates/%s/specs/%s%s.antt" % (crate, folder + "/" if folder else "", name) for name in names)
    return [path for path in paths if not path.endswith(("/laws.antt", "/examples.antt", "/calls.antt"))]


def row(path):
    """A file, and its first paragraph."""
    head = re.match(r"(?:--.*\n)*", read(os.path.join(TOP, path))).group()
    said = " ".join(line[2:].strip() for line in head.splitlines())
    return "| [%s](../../%s) | %s |" % (os.path.basename(path)[:-5], path, said.replace("|", "\\|"))


def table(crate, about, folder):
    paths = modules(crate, folder)
    if paths:
        mark = "###" if folder else "##"
        yield from ["%s %s (`%s`)" % (mark, about, crate), "", "| File | What it defines |", "|---|---|"]
        yield from [row(path) for path in paths] + [""]


def page():
    lines = [HEAD]
    for crate, about in PARTS:
        lines += table(crate, about, "")
    lines.append(CALLS)
    for crate, about in PARTS:
        lines += table(crate, about, "calls")
    return re.sub(r"\n{3,}", "\n\n", "\n".join(lines)).rstrip("\n") + "\n"


def main():
    os.makedirs(os.path.dirname(PAGE), exist_ok=True)
    with open(PAGE, "w", encoding="utf-8") as file:
        file.write(page())


if __name__ == "__main__":
    sys.exit(main())
