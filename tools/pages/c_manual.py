#!/usr/bin/env python3
"""The parts of the library's man page, man/jillapun.3, that say what the header says: `make generate`.

    python3 tools/pages/c_manual.py

Rules, constants, types and functions come from what `c_header.py` reads, and the example from docs/examples/c. Each part
stands between two comments of the page. `make lint` calls `faults`.
"""

import os
import re
import sys

import c_header
import usage

MAN = "man/jillapun.3"
EXAMPLE = "docs/examples/c/decode.c"
# The page for its users, and the program that it begins with.
GUIDE, FIRST = "docs/C.md", "docs/examples/c/first.c"


def roff(text):
    """A line of text, with what stands between backquotes in bold. No line begins with a request."""
    text = re.sub(r"`([^`]*)`", r"\\fB\1\\fR", usage.roff(text))
    return "\\&" + text if text.startswith((".", "'")) else text


def verbatim(lines):
    """Lines as they are."""
    return [".nf", *(("\\&" if line.startswith((".", "'")) else "") + usage.roff(line) for line in lines), ".fi"]


def said(lines):
    """A doc comment: its paragraphs, the items of its lists, and its examples, which are indented."""
    text, had_item = [], False
    for paragraph in c_header.paragraphs(lines):
        words, is_item = " ".join(line.strip() for line in paragraph), paragraph[0].startswith("- ")
        if paragraph[0].startswith("    "):
            text += verbatim(paragraph)
        elif is_item:
            text += [".RS"] * (not had_item) + ['.IP "\\(bu" 2', roff(words[2:])]
        else:
            text += [".RE", ".IP"] * had_item + ([roff(words)] if words else [".sp"] * (not had_item))
        had_item = is_item
    return text + [".RE"] * had_item


def rules():
    """The rules of the header's head, each paragraph by itself."""
    lines = [line[3:] for line in c_header.HEAD.split("\n")[1:-1]]
    paragraphs = "\n".join(lines).split("\n\n")[2:]
    return [line for paragraph in paragraphs for line in (".PP", roff(" ".join(paragraph.split())))]


def constant_groups():
    """The groups of constants: what each is of, and each name with what it means."""
    lines = c_header.read(c_header.CONSTANTS).split("\n")
    for index, line in enumerate(lines):
        if line.startswith("// "):
            yield [".SS " + roff(line[3:].rstrip("."))]
        found = c_header.CONSTANT.fullmatch(line)
        if found:
            value = "SIZE_MAX" if found[3] == "usize::MAX" else found[3]
            yield [".TP", ".BR JILLAPUN_%s \" (%s)\"" % (found[1], value), *said(c_header.above(lines, index)[0])]


def constants():
    lines = [line for group in constant_groups() for line in group]
    first, last = c_header.encoding_rows()[0][0], c_header.encoding_rows()[-1][0]
    lines += [".SS Encodings", "Each encoding has a number, and a constant for it:"]
    return lines + [".BR JILLAPUN_%s \" (0) to \" JILLAPUN_%s ." % (first, last)]


def types(header):
    """The structs, as they are declared."""
    for struct, lines in header.declared:
        yield from [".SS " + struct.name, *said(struct.said), ".PP"]
        yield from verbatim(strip_comments(lines))
        for doc, name, _ in struct.fields:
            if doc:
                yield from [".TP", ".B " + name, *said(doc)]


def strip_comments(lines):
    """The lines of a declaration without its doc comments."""
    text = re.sub(r"^ */\*\*.*?\*/\n", "", "\n".join(lines) + "\n", flags=re.S | re.M)
    return text.rstrip("\n").split("\n")


def functions(header):
    """The functions, each with what is said of it, in the sections of the header."""
    for module in header.modules:
        if module.exports:
            title = " ".join(c_header.first_paragraph(module.about)).split(":")[0].split(". ")[0].rstrip(".")
            yield ".SS " + roff(title)
        for doc, name, parameters, result in module.exports:
            lines = strip_comments(header.export(doc, name, parameters, result))
            yield from [".TP", ".B " + usage.roff(" ".join(line.strip() for line in lines)), *said(doc)]


def example():
    return verbatim(c_header.read(os.path.join(c_header.TOP, EXAMPLE)).rstrip("\n").split("\n"))


def parts():
    header = c_header.Header()
    header.text()
    version = c_header.VERSION.search(c_header.read(c_header.VERSION_SOURCE))[1]
    yield "title", ['.TH JILLAPUN 3 "" "jillapun %s" "Library Functions Manual"' % version]
    yield "rules", rules()
    yield "types", [*types(header)]
    yield "functions", [*functions(header)]
    yield "constants", constants()
    yield "example", example()


def page():
    """The page as it is, and as it should be."""
    text = usage.read(MAN)
    return text, usage.put(text, parts(), '.\\" %s\n', '.\\" end of %s\n')


def faults():
    """What `make lint` asks for."""
    has, should = page()
    if has != should:
        yield "%s does not say what the header says: make generate" % MAN
    program = "".join("    " + line if line.strip() else line for line in usage.read(FIRST).splitlines(keepends=True))
    if program not in usage.read(GUIDE):
        yield "%s does not have %s" % (GUIDE, FIRST)


def main():
    has, should = page()
    if has != should:
        with open(os.path.join(c_header.TOP, MAN), "w", encoding="utf-8") as file:
            file.write(should)
        print("wrote", MAN)
    return 0


if __name__ == "__main__":
    sys.exit(main())
