"""What `make lint` asks of the documents that people read: that each link leads to a file, and to a heading of it."""

import os
import re

from definitions import TOP, read

LINK = re.compile(r"\[[^\]]*\]\(([^)\s]+)\)")
HEADING = re.compile(r"^#+ (.*)$", re.M)


def documents():
    """The documents, from the top folder."""
    pages = ["docs/" + name for name in sorted(os.listdir(os.path.join(TOP, "docs"))) if name.endswith(".md")]
    others = ["README.md", "CONTRIBUTING.md", "docs/reference/README.md", "tools/README.md", "bench/README.md", "bench/functions.md"]
    return others + pages


def without_code(text):
    text = re.sub(r"^```.*?^```$", "", text, flags=re.S | re.M)
    return "\n".join(line for line in text.split("\n") if not line.startswith("    "))


def anchors(text):
    """The anchors of a page's headings."""
    return {re.sub(r"[^\w -]", "", found.lower()).strip().replace(" ", "-") for found in HEADING.findall(text)}


def link_faults(path, text):
    for link in LINK.findall(without_code(text)):
        target, _, anchor = link.partition("#")
        if "://" in link:
            continue
        place = os.path.normpath(os.path.join(TOP, os.path.dirname(path), target)) if target else os.path.join(TOP, path)
        if not os.path.exists(place):
            yield "%s links %s, which is not there" % (path, link)
        elif anchor and place.endswith(".md") and anchor not in anchors(read(place)):
            yield "%s links %s, which has no such heading" % (path, link)


def faults():
    for path in documents():
        yield from link_faults(path, read(os.path.join(TOP, path)))
