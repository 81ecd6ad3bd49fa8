#!/usr/bin/env python3
"""What the merge gate does not look at, in seconds: `make lint`.

    python3 tools/lint.py

- A public name of `specs/` has one definition in the whole repository, since the prover names its goals by them.
- No function has more than 13 clauses, and no contract more than 30 lines.
- Each definition of `specs/` has a line of its own above it. None has a name of the standard library's, and a function
  of the code that has the name of one cites it in its contract.
- What `make generate` writes is of these sources: docs/reference, the drawing of
  docs/ARCHITECTURE.md, include/jillapun.h, and the parts of the man pages that say what the help and the header say.
- Each root file begins its code with the tactic that proofs are found by, and no handle is allowed.
- Each public item of a library has a doc comment. No public contract cites a word that stands among theorems
  (`specs/laws/`).
- Each source file but a crate's root begins with a line that says what it is for (`//!`).
- No function is proved by hand but those that `HAND_PROOFS` names: such a proof could choose a history of devices.
- The crate for Rust declares the library as the header does (tools/gate/rust_crate.py).
- The patches of docs/examples apply, and count the labels that there are then.
- Each file of tools/ that a text names is there, and tools/README.md names each.
- What the documents link is there.
"""

import collections
import os
import re
import shutil
import subprocess
import sys

sys.dont_write_bytecode = True

TOP = os.path.abspath(os.path.join(os.path.dirname(os.path.abspath(__file__)), ".."))
sys.path += [os.path.join(TOP, "tools", folder) for folder in ("pages", "gate", "release")]

import c_header
import c_manual
import crates
import definitions
import definitions_page
import documents
import python_manual
import reference
import rust_crate
import theorem
import usage

CRATES = os.path.join(TOP, "crates")

# The functions that are proved by hand: they make a history, or handles for C.
HAND_PROOFS = [
    "jillapun_c/proofs/tables_handle/TablesHandle/closed",
    "jillapun_c/proofs/tables_handle/TablesHandle/copied",
    "jillapun_c/proofs/tables_handle/TablesHandle/get",
    "jillapun_c/proofs/tables_handle/TablesHandle/of",
    "recode_log/proofs/history/History/and",
    "recode_log/proofs/history/History/and_failed",
    "recode_log/proofs/history/History/and_flush",
    "recode_log/proofs/history/History/new",
    "recode_log/proofs/journal/Journal/and_log",
    "recode_log/proofs/journal/Journal/and_reader",
    "recode_log/proofs/journal/Journal/and_writer",
    "recode_log/proofs/journal/Journal/new",
]

# Of the contract of a function.
MOST_CLAUSES = 13
MOST_LINES = 30

FUNCTION = re.compile(r'^ *(?:pub(?:\(\w+\))? )?(?:unsafe )?(?:extern "C" )?fn (\w+)')
CLAUSE = re.compile(r"^ *(?:requires|ensures)\b")

# A public definition of a file of `specs/`: a record, a function or an abbreviation, with its type.
DEFINITION = re.compile(r"^(?:abbrev |unfoldable |irrelevant )*pub (?:(?:record|data|abbrev|unfoldable) )*([^\s:({]+)")


def read(path):
    with open(path, encoding="utf-8") as file:
        return file.read()


def files(folder, ending):
    """The files with an ending in each crate's folder of that name and in the folders below it."""
    for crate in sorted(os.listdir(CRATES)):
        yield from files_of(crate, folder, ending)


def files_of(crate, folder, ending):
    """Those of one crate."""
    for place, folders, names in os.walk(os.path.join(CRATES, crate, folder)):
        folders.sort()
        for name in sorted(names):
            if name.endswith(ending):
                yield os.path.relpath(os.path.join(place, name), TOP)


def double_names():
    places = collections.defaultdict(list)
    for path in files("specs", ".antt"):
        for number, line in enumerate(read(os.path.join(TOP, path)).split("\n"), 1):
            found = DEFINITION.match(line)
            if found and found.group(1) not in ("mod", "use"):
                places[found.group(1)].append("%s:%d" % (path, number))
    for name, found in sorted(places.items()):
        if len(found) > 1:
            yield "%s is defined %d times: %s" % (name, len(found), ", ".join(found))


def contracts_of(text):
    """Each function of a source file, with the text of its clauses. They end where the body begins, or at a semicolon."""
    name, clauses, depth = None, [], 0
    for line in text.split("\n"):
        function = FUNCTION.match(line)
        if function and depth == 0:
            name, clauses = function.group(1), []
        is_clause = name is not None and (depth > 0 or CLAUSE.match(line))
        if is_clause:
            clauses.append(line)
            depth += line.count("{") - line.count("}")
        if name and depth == 0 and (line.endswith(";") or not is_clause and line.endswith(("{", "{}"))):
            yield name, "\n".join(clauses)
            name = None


def contracts():
    """Each function that has a contract: its place and name, how many clauses it has, and on how many lines they stand."""
    for path in files("src", ".rt"):
        for name, clauses in contracts_of(read(os.path.join(TOP, path))):
            if clauses:
                lines = clauses.split("\n")
                yield "%s: %s" % (path, name), len([line for line in lines if CLAUSE.match(line)]), len(lines)


def long_contracts():
    for place, clauses, lines in contracts():
        if clauses > MOST_CLAUSES:
            yield "%s has %d clauses; %d are allowed" % (place, clauses, MOST_CLAUSES)
        if lines > MOST_LINES:
            yield "%s has a contract of %d lines; %d are allowed" % (place, lines, MOST_LINES)


def hand_proofs():
    for path in files("proofs", "Proof.antt"):
        if os.path.basename(path) == "Proof.antt":
            place = os.path.relpath(os.path.dirname(path), "crates")
            if place not in HAND_PROOFS:
                yield "%s proves a function by hand, which HAND_PROOFS of tools/lint.py does not name" % path


def definitions_of_specs():
    """The definitions of `specs/`: theorems and worked rows are none."""
    found, _ = definitions.definitions([crate for crate, _ in definitions_page.PARTS])
    return [definition for definition in found.values() if definition.source[0].startswith(definitions.DEFINES)]


def unlisted_crates():
    """Each crate that has definitions has its part in `definitions_page.PARTS`, which the checks below look at."""
    listed = {crate for crate, _ in definitions_page.PARTS}
    for crate in sorted(os.listdir(CRATES)):
        if os.path.isdir(os.path.join(CRATES, crate, "specs")) and crate not in listed and not crate.endswith("_tests"):
            yield "tools/pages/definitions_page.py does not name %s, which has definitions" % crate


def undescribed():
    """Each definition has a line of its own above it."""
    for definition in definitions_of_specs():
        if not definition.comment:
            yield "%s:%d: %s has no line above it" % (definition.path, definition.line, definition.name)


def names_of_the_kit():
    """The public definitions of the kit's standard library, by their names."""
    kit = os.path.join(os.path.dirname(os.path.realpath(shutil.which("rt") or "rt")), "..", "rattle")
    for part in sorted(os.listdir(kit)) if os.path.isdir(kit) else ():
        if part == "core" or part.startswith("std"):
            for place, _, names in os.walk(os.path.join(kit, part, "specs")):
                for name in names:
                    if name.endswith(".antt"):
                        lines = map(DEFINITION.match, read(os.path.join(place, name)).split("\n"))
                        yield from (line.group(1) for line in lines if line)


def taken_names():
    """No definition takes a name of the standard library's: a reader would not know which of the two is meant."""
    taken = set(names_of_the_kit())
    if not taken:
        yield "the kit's standard library was not found beside `rt`, so names can't be compared with its names"
    for definition in definitions_of_specs():
        if definition.name in taken:
            yield "%s:%d: %s is a name of the standard library's" % (definition.path, definition.line, definition.name)


def shared_names():
    """A function of the code that has the name of a definition says so: its contract cites the definition. One without a
    contract is left out, as is the implementation of a trait's function: the trait has its contract."""
    words = {definition.name for definition in definitions_of_specs() if "/laws/" not in definition.path}
    for crate, _ in definitions_page.PARTS:
        for path in files_of(crate, "src", ".rt"):
            for name, clauses in contracts_of(read(os.path.join(TOP, path))):
                cited = re.sub(r"\b(requires|ensures) \w+ \{", r"\1 {", clauses)
                if name in words and clauses and not re.search(r"(?<![\w-])%s(?![\w-])" % name, cited):
                    yield "%s: %s has the name of a definition that its contract does not cite" % (path, name)


def roots():
    if read(os.path.join(TOP, "HANDLES")) != "Handles allowed: none.\n":
        yield "HANDLES is not the line 'Handles allowed: none.'"
    for name in ("lib.rt", "main.rt"):
        for path in files("src", name):
            if "#![tactic(auto)]\n" not in read(os.path.join(TOP, path)):
                yield "%s has no line #![tactic(auto)]" % path


def first_lines():
    """A crate's root has a page there, of which this says nothing."""
    for path in files("src", ".rt"):
        is_root = os.path.basename(path) in ("lib.rt", "main.rt")
        if not is_root and not re.match("//! [A-Z`0-9]", read(os.path.join(TOP, path))):
            yield "%s does not begin with a line //! that says what it is for" % path


# The labels of a row of tools/encodings.toml.
ENCODING_LABELS = re.compile(r'^ *\{ name = .* labels = "([^"]*)" \},$', re.M)
TOOL = re.compile(r"(?<![\w/])(?:\.\./)*tools/([\w/]+\.(?:py|toml|md))")


def tools():
    """The files that a text names, and those that tools/README.md names, by their names alone."""
    words = ["git", "ls-files", "-z"]
    tracked = subprocess.run(words, cwd=TOP, capture_output=True, text=True, check=True).stdout.split("\0")
    for path in tracked:
        if not path or os.path.islink(os.path.join(TOP, path)):
            continue
        with open(os.path.join(TOP, path), encoding="utf-8", errors="replace") as file:
            for name in sorted(set(TOOL.findall(file.read()))):
                if not os.path.isfile(os.path.join(TOP, "tools", name)):
                    yield "%s names tools/%s, which is not there" % (path, name)
    here = {os.path.basename(path) for path in tracked if path.startswith("tools/")} - {"README.md"}
    named = set(re.findall(r"`(\w+\.\w+)`", read(os.path.join(TOP, "tools", "README.md"))))
    for name in sorted(here - named):
        yield "tools/README.md has no line for %s" % name


def example():
    """The patches of docs/examples apply, and the one that adds an encoding counts the labels that there are then."""
    for name in sorted(os.listdir(os.path.join(TOP, "docs", "examples"))):
        if not name.endswith(".patch"):
            continue
        path = os.path.join("docs", "examples", name)
        if subprocess.run(["git", "apply", "--check", path], cwd=TOP, capture_output=True, check=False).returncode:
            yield "%s does not apply" % path
        added = ENCODING_LABELS.findall("\n".join(re.findall(r"^\+(.*)", read(os.path.join(TOP, path)), re.M)))
        if added:
            rows = added + ENCODING_LABELS.findall(read(os.path.join(TOP, "tools", "encodings.toml")))
            count = sum(len(row.split()) for row in rows)
            if "\n+length-labels : length labels ≡ %d\n" % count not in read(os.path.join(TOP, path)):
                yield "%s does not count %d labels" % (path, count)


CHECKS = (
    double_names,
    long_contracts,
    unlisted_crates,
    undescribed,
    taken_names,
    shared_names,
    hand_proofs,
    roots,
    first_lines,
    usage.faults,
    documents.faults,
    tools,
    example,
    reference.faults,
    reference.hidden_words,
    theorem.faults,
    crates.faults,
    c_header.faults,
    c_manual.faults,
    rust_crate.header_faults,
    python_manual.faults,
)


def main():
    faults = [fault for check in CHECKS for fault in check()]
    for fault in faults:
        print(fault)
    return 1 if faults else 0


if __name__ == "__main__":
    sys.exit(main())
