#!/usr/bin/env python3
"""The definitions that docs/THEOREM.md stands on, `out/docs/theorem.md`, with their sources: `make generate`.

    python3 tools/pages/theorem.py

Names are followed from the clauses of the theorem through the imports of each file, and the standard library is left out.
`make lint` calls `faults`: the page names something that is not there, or the theorem stands on a file of `specs/calls/`.
"""

import os
import re
import sys

import reference
from definitions import CRATES, TOP, WORD, closure, definitions, read

PAGE = os.path.join(TOP, "docs", "THEOREM.md")
LIST = os.path.join(TOP, "out", "docs", "theorem.md")

# The function whose contract is the theorem, and its clauses that are; and the laws that the page has beside it.
FUNCTION = "run_on"
CLAUSES = ("completes", "fails", "decided", "failures", "calls", "order")
LAWS = (
    "statuses_say_what_was_done", "what_each_fault_leaves", "trace_of_input", "answers_without_faults",
    "faithful_output_reads_back",
)  # fmt: skip

# What the definitions of each crate are about, in the order to read them in.
GROUPS = [
    ("recode", "The run and the job"),
    ("recode_log", "Devices and lines of the log"),
    ("encoding_front", "Encodings and byte order marks"),
    ("encoding_mem", "Pieces, texts and what is written for them"),
    ("encoding_tables", "Indexes, and the encodings of one byte, UTF-16 and replacement"),
    ("encoding_codecs", "The encodings of two and more bytes"),
    ("recode_words", "Arguments"),
    ("encoding_index", "Index texts"),
    ("encoding_labels", "Labels"),
]  # fmt: skip

# A name of a definition, a function or a type, as the page has it in code.
NAME = re.compile(r"`(?:\w+::)*([a-z]+(?:_[a-z0-9]+)+|(?:[A-Z][a-z0-9]+){2,})(?: [^`]*)?`")


def clause(crate, function, name, kind="ensures"):
    """A clause of a public function, or all of them of one kind if there is no name, as lines of its source."""
    item = None
    for found in reference.library(crate)[1]:
        for part in [found] + found.members:
            path = found.path if part is found else "%s::%s" % (found.name, part.name)
            if path == function or path.endswith("::" + function):
                item = part
    taken, depth = [], 0
    for line in reference.dedent(item.code):
        text = line.strip()
        if depth or re.match(r"%s %s" % (kind, name + r" \{" if name else ""), text):
            taken.append(text)
            depth += text.count("{") - text.count("}")
    return taken


def stands_on(lines):
    """The definitions that clauses stand on, each with how far it is from them."""
    found, imports = definitions([crate for crate, _ in GROUPS])
    return closure([word for line in lines for word in WORD.findall(line)], found, imports)[0]


def clauses():
    """The clauses of the theorem."""
    return [line for name in CLAUSES for line in clause("recode", FUNCTION, name)]


def beside():
    """The premises of the theorem, what `convert_on` adds, and the laws beside it."""
    lines = clause("recode", FUNCTION, None, "requires") + clause("recode", FUNCTION, "work") + clause("recode", "convert_on", None)
    return lines + [line for law in LAWS for line in clause("recode", law, None)]


def listed(seen):
    """The definitions by crate and file, the nearest to the clauses first."""
    yield from ["# What the theorem stands on", "", "%d definitions." % len(seen), ""]
    for crate, about in GROUPS:
        here = [definition for definition in seen if definition.crate == crate]
        yield from ["## %s (`%s`)" % (about, crate), ""]
        near = {path: min(seen[d] for d in here if d.path == path) for path in {d.path for d in here}}
        for path in sorted(near, key=lambda path: (near[path], path)):
            yield from ["[%s](../../%s)" % (os.path.basename(path), path), ""]
            for definition in sorted((d for d in here if d.path == path), key=lambda d: d.line):
                yield from ["    -- " + line for line in definition.comment] + ["    " + line for line in definition.source] + [""]


def words():
    """The words of the sources, of which the page may have those in code."""
    for crate in os.listdir(CRATES):
        for place, _, files in os.walk(os.path.join(CRATES, crate)):
            for name in files:
                if name.endswith((".rt", ".antt")) and "/out" not in place:
                    yield from re.findall(r"\w+", read(os.path.join(place, name)))


def faults():
    known = {*words(), *os.listdir(CRATES)}
    for name in NAME.findall(read(PAGE)):
        if name not in known:
            yield "docs/THEOREM.md names %s, which is not there" % name
    for path in sorted({definition.path for definition in stands_on(clauses()) if "/calls/" in definition.path}):
        yield "the theorem stands on %s, which is no part of what it means" % path


def main():
    os.makedirs(os.path.dirname(LIST), exist_ok=True)
    with open(LIST, "w", encoding="utf-8") as file:
        file.write("\n".join(listed(stands_on(clauses() + beside()))))


if __name__ == "__main__":
    sys.exit(main())
