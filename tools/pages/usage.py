#!/usr/bin/env python3
"""The parts of the man pages that say what `--help` and `--version` of a program say: `make generate`.

    python3 tools/pages/usage.py

The text of the help stands in crates/recode_words/src/command.rt, and that of `recode-places` in
crates/recode_places_cli/src/command.rt, and nowhere else. What is made of it stands between two comments of the man page,
`NAME` and `end of NAME`: the version, the options, names of encodings, the log, the statuses and their messages, the index
files. `make lint` compares them.
"""

import os
import re
import sys

TOP = os.path.abspath(os.path.join(os.path.dirname(os.path.abspath(__file__)), "..", ".."))
SOURCE = "crates/recode_words/src/command.rt"
PLACES_SOURCE = "crates/recode_places_cli/src/command.rt"
MAN = "man/recode.1"
PLACES_MAN = "man/recode-places.1"

# An option that is made by a call, with its value if it has a default, the name of the value and the help.
OPTION = re.compile(r'(required_option|default_option|flag)\(\s*alloc,((?:\s*"[^"]*",?)+)\s*\)')
# The words that an option takes, if its help has them after a colon.
CHOICES = re.compile(r": ((?:\w+, )*\w+ or \w+)")
# The options that clap makes, and what they ask for.
OWN_OF_CLAP = ("-h", "--help", "-V", "--version"), "Print help, or the version"
VERSION = re.compile(r'const VERSION: &str = "([^"]*)"')
FLAG = re.compile(r'Arg::new\(alloc, "list"\).*?\.help\("([^"]*)"\)', re.S)


class Usage:
    """What the help of a program says: the options, and the paragraphs and lists after them."""

    def __init__(self, program, version, source):
        self.program, self.version = program, version
        self.options = [self.option(*found) for found in OPTION.findall(source)]
        self.options += [("--list", "", "", found) for found in FLAG.findall(source)]
        text = re.search(r'const AFTER_HELP: &str =\s*"((?:[^"\\]|\\.)*)";', source).group(1).replace('\\"', '"')
        self.notes, self.lists = {}, {}
        for part in text.split("\n\n"):
            title, _, rest = part.partition(":")
            if "\n  " in rest:
                self.lists[title] = self.rows(rest)
            else:
                self.notes[title] = " ".join(rest.split())

    @staticmethod
    def option(kind, words):
        words = re.findall(r'"([^"]*)"', words)
        if kind == "flag":
            return "--" + words[0], "", "", words[1]
        value = words.pop(1) if kind == "default_option" else ""
        return "--" + words[0], words[1], value, words[2]

    def rows(self, text):
        """The rows of a list, a word and what it says, and what is said after the last of them."""
        head, *lines = text.split("\n")
        rows, behind = [], []
        for line in lines:
            begins = re.fullmatch(r"  (\S+(?: \S+)*)  +(.*)", line)
            if begins and not line.startswith("   "):
                rows.append([begins.group(1), begins.group(2)])
            elif line.startswith("   "):
                rows[-1][1] += " " + line.strip()
            else:
                behind.append(line)
        return rows, " ".join(behind)

    def list_of(self, word):
        """The list whose title has the word, without what is said after it."""
        return next((rows for title, (rows, _) in self.lists.items() if word in title), [])

    def labels(self, name):
        """What is said of labels: at `--from` what one is, at `--to` which encodings are written as another."""
        of_from, _, of_to = self.notes.get("Labels", "").rstrip(".").rpartition(". ")
        return {"--from": of_from, "--to": of_to}.get(name, "")

    def names(self):
        """What is said of names, as a paragraph."""
        text = self.notes["Names"]
        return text[0].upper() + text[1:]

    def behind(self, word):
        return next(behind for title, (_, behind) in self.lists.items() if word in title)


def roff(text):
    return text.replace("\\", "\\\\").replace("-", "\\-")


def man_item(words, text):
    """An item of the man page."""
    return [".TP", words, roff(text[0].upper() + text[1:] + ".")]


def man_synopsis(usage):
    yield ".B " + roff(usage.program)
    for name, value, default, text in usage.options:
        choices = CHOICES.search(text)
        if not default:
            yield from ['.BI %s " %s"' % (roff(name), value)] * bool(value)
            yield from [".RB [ %s ]" % roff(name)] * (not value and name != "--list")
        elif choices:
            yield from (".RB [ " + roff(name), ".BR %s ]" % " | ".join(re.split(", | or ", choices.group(1))))
        else:
            yield from (".RB [ " + roff(name), ".IR %s ]" % value)
    if usage.program == "recode":
        yield from (".br", ".B recode", ".RB { \\-\\-help | \\-\\-version | \\-\\-list }")
    else:
        yield from (".I INPUT", ".br", ".B " + roff(usage.program), ".RB { \\-\\-help | \\-\\-version }")


def man_title(usage):
    return ['.TH %s 1 "" "%s %s" "User Commands"' % (usage.program.upper(), usage.program, usage.version)]


def man_options(usage):
    lines = []
    for name, value, default, text in usage.options:
        said = text + " (default: %s)" % default * bool(default) + "."
        for word, meaning in usage.list_of("(" + name + ")"):
            said += " %s: %s." % (word, meaning)
        if usage.labels(name):
            said += " " + usage.labels(name) + "."
        lines += [".TP", ('.BI %s " %s"' if value else ".B %s%s") % (roff(name), value), roff(said)]
    words, said = OWN_OF_CLAP
    return lines + [".TP", ".BR " + ' ", " '.join(map(roff, words)), roff(said + ".")]


def man_list(usage, title):
    return [line for word, said in usage.list_of(title) for line in man_item(".B " + roff(word), said)]


def man_statuses(usage):
    return man_list(usage, "Exit status") + [".PP", roff(usage.behind("Exit status"))]


def man_parts(usage):
    yield "title", man_title(usage)
    yield "synopsis", [*man_synopsis(usage)]
    yield "options", man_options(usage)
    lines = []
    for word, said in usage.list_of("Log"):
        word, _, rest = word.partition(" ")
        lines += man_item('.BI %s " %s"' % (word, rest), said)
    yield "log", lines + [".PP", roff(usage.behind("Log"))]
    yield "statuses", man_statuses(usage)
    yield "messages", man_list(usage, "Message") + [".PP", roff(usage.behind("Message"))]
    yield "names", [roff(usage.names())]
    files = usage.notes["Index files"]
    yield "files", [roff(files[0].upper() + files[1:])]


def places_parts(usage):
    yield "title", man_title(usage)
    yield "synopsis", [*man_synopsis(usage)]
    yield "use", [roff(usage.notes["Use"])]
    yield "options", man_options(usage)
    yield "output", man_list(usage, "Output") + [".PP", roff(usage.behind("Output"))]
    yield "losses", man_list(usage, "Kinds of loss")
    log = usage.notes["Log"]
    yield "log", [roff(log[0].upper() + log[1:])]
    yield "statuses", man_statuses(usage)
    yield "messages", man_list(usage, "Message")


def put(text, parts, begin, end):
    """The text with each part between its two comments."""
    for name, lines in parts:
        head, tail = begin % name, end % name
        if text.count(head) != 1 or text.count(tail) != 1:
            raise ValueError("%r and %r do not stand once each" % (head, tail))
        before, rest = text.split(head)
        text = before + head + "\n".join(lines) + "\n" + tail + rest.split(tail)[1]
    return text


def read(path):
    with open(os.path.join(TOP, path), encoding="utf-8") as file:
        return file.read()


def pages():
    """Each page with what it has, and with what it should have."""
    version = VERSION.search(read(SOURCE)).group(1)
    usage = Usage("recode", version, read(SOURCE))
    places = Usage("recode-places", version, read(PLACES_SOURCE))
    for path, parts in ((MAN, man_parts(usage)), (PLACES_MAN, places_parts(places))):
        text = read(path)
        yield path, text, put(text, parts, '.\\" %s\n', '.\\" end of %s\n')


def faults():
    """What `make lint` asks for."""
    for path, has, should in pages():
        if has != should:
            yield "%s does not say what the help says: make generate" % path


def main():
    for path, has, should in pages():
        if has != should:
            with open(os.path.join(TOP, path), "w", encoding="utf-8") as file:
                file.write(should)
            print("wrote", path)
    return 0


if __name__ == "__main__":
    sys.exit(main())
