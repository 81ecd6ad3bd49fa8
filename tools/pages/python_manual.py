#!/usr/bin/env python3
"""The version of the Python package, and the parts of the man page man/jillapun.1 that say what `--help` of the package's
command says: `make generate`.

    python3 tools/pages/python_manual.py

The version is that of the programs. The parts come from the parsers in python/jillapun/_words.py, which need no library.
Each stands between two comments of the page. `make lint` calls `faults`.
"""

import importlib
import os
import re
import sys
import types

import usage

MAN = "man/jillapun.1"
PACKAGE = os.path.join(usage.TOP, "python", "jillapun")
VERSION = "python/jillapun/_version.py"


def words():
    """The module of the parsers, in a package that loads no library."""
    package = sys.modules["jillapun"] = types.ModuleType("jillapun")
    package.__path__ = [PACKAGE]
    return importlib.import_module("jillapun._words")


def taken(action):
    """An option with the words that it takes, each with its font: `B` as it stands, `I` what stands for another."""
    yield "B", action.option_strings[-1]
    if action.choices:
        for number, choice in enumerate(action.choices):
            yield from [("R", " | " if number else " "), ("B", choice)]
    elif action.metavar:
        yield from [("R", " "), ("I", action.metavar)]


def sentence(text):
    return usage.roff(text[0].upper() + text[1:] + ".")


def fonts(parts):
    return "".join("\\f%s%s" % (font, usage.roff(word)) for font, word in parts) + "\\fR"


def synopsis_of(parser, command):
    """A call, with all its options."""
    yield from [".B " + parser.prog, *command]
    for action in parser._actions:
        if not action.option_strings:
            yield '.IR %s " ..."' % action.metavar
        elif action.dest not in ("help", "version"):
            yield fonts(taken(action)) if action.required else "[%s]" % fonts(taken(action))


def options(parser):
    """An item for each option."""
    for action in parser._actions:
        if action.dest == "help":
            yield from [".TP", '.BR \\-h ", " \\-\\-help', "Print help."]
        elif action.option_strings:
            default = ", %s by default" % action.default if action.choices else ""
            yield from [".TP", fonts(taken(action)), sentence(action.help + default)]


def paragraphs(parser):
    """What the help says behind the options, but for the statuses, and these."""
    texts = parser.epilog.strip("\n").split("\n\n")
    return texts[:-1], texts[-1]


def notes(parser):
    return [line for text in paragraphs(parser)[0] for line in (".PP", usage.roff(" ".join(text.split())))]


def statuses(parser):
    """What the statuses are of, and an item for each, if they are a list."""
    head, *rows = re.split(r"\n  (?=\d  )", paragraphs(parser)[1])
    lines = [usage.roff(" ".join(head.split()))]
    for status, text in (row.split("  ", 1) for row in rows):
        lines += [".TP", ".B " + status, sentence(" ".join(text.split()))]
    return lines


def version():
    return usage.VERSION.search(usage.read(usage.SOURCE))[1]


def parts():
    parsers = words()
    convert, places = parsers.convert_parser(), parsers.places_parser()
    which, labels = parsers.which_parser(), parsers.labels_parser()
    yield "title", ['.TH JILLAPUN 1 "" "jillapun %s" "User Commands"' % version()]
    lines = [*synopsis_of(convert, [".RB [ convert ]"])]
    for parser in (places, which, labels):
        lines += [".br", *synopsis_of(parser, [])]
    yield "synopsis", [*lines, ".br", ".B jillapun \\-\\-version"]
    yield "description", notes(convert)
    yield "options", [*options(convert)]
    yield "statuses", statuses(convert)
    for name, parser in ("places", places), ("which", which):
        yield name, [usage.roff(parser.description), *notes(parser), *options(parser), ".PP", *statuses(parser)]


def pages():
    """Each file with what it has, and with what it should have."""
    text = usage.read(MAN)
    yield MAN, text, usage.put(text, parts(), '.\\" %s\n', '.\\" end of %s\n')
    text = usage.read(VERSION)
    yield VERSION, text, re.sub('(__version__ = ").*"', r'\g<1>%s"' % version(), text)


def faults():
    """What `make lint` asks for."""
    for path, has, should in pages():
        if has != should:
            yield "%s does not say what the help or the programs say: make generate" % path


def main():
    for path, has, should in pages():
        if has != should:
            with open(os.path.join(usage.TOP, path), "w", encoding="utf-8") as file:
                file.write(should)
            print("wrote", path)
    return 0


if __name__ == "__main__":
    sys.exit(main())
