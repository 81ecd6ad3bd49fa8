"""The commands beside the conversion: `which`, `places` and `labels`."""

import argparse
import os
from typing import Callable, Dict, Hashable, Iterable, List, Optional

from ._indexes import Indexes, default_folder, name, name_of
from ._labels import LABELS
from ._names import shown
from ._places import places_in
from ._results import IndexesMissing, JillapunError, UnknownLabel
from ._terminal import Terminal, Unsaid, complain, is_heard, unheard
from ._which import NAMES, Reading, Which, which
from ._words import labels_parser, places_parser, which_parser

# How many columns of a line are shown.
_WIDTH = 64

# How many lines are shown, and of how many encodings, unless the command line says so.
_LINES, _MOST = 3, 24

# Text in another encoding is hardly ever valid in one of these.
_MULTI_BYTE = ["ISO-2022-JP", "Shift_JIS", "EUC-JP", "EUC-KR", "GBK", "Big5"]


def refused_label(words: argparse.Namespace) -> Optional[str]:
    """Why a label of the command line is refused, if one is."""
    for option, label in ("--from", words.source), ("--to", words.target):
        try:
            name(label)
        except UnknownLabel as fault:
            return '%s: unknown label %s; "jillapun labels" lists all' % (option, fault)
    return None


def reason_of(fault: Exception, path: str, folder: Optional[str]) -> str:
    """What a failure says, with the name of the file where it is another, or with the folder of the index texts."""
    if isinstance(fault, IndexesMissing):
        return "%s; --indexes names the folder of the index texts, now %s" % (fault, folder or default_folder())
    if not isinstance(fault, OSError) or not fault.strerror:
        return str(fault) or type(fault).__name__
    name = fault.filename2 or fault.filename
    return fault.strerror if name in (None, path) else "%s: %s" % (name, fault.strerror)


def _for_each(paths: List[str], tell: Callable[[str, Terminal, Optional[Indexes]], int], folder: Optional[str]) -> int:
    """The highest status of a file."""
    try:
        indexes = Indexes(folder) if folder else None
    except (OSError, JillapunError) as fault:
        complain(reason_of(fault, "", folder))
        return 3
    if not is_heard():
        return 4
    terminal, status = Terminal(len(paths)), 0
    try:
        for path in paths:
            terminal.show(path)
            try:
                status = max(status, tell(path, terminal, indexes))
            except (OSError, MemoryError, JillapunError) as fault:
                terminal.clear()
                complain("%s: %s" % (path, reason_of(fault, path, folder)))
                status = max(status, 3 if isinstance(fault, IndexesMissing) else 4)
            terminal.done += 1
    except Unsaid as fault:
        return unheard(fault)
    finally:
        terminal.clear()
    return status


def _cut(line: str) -> str:
    return shown(line if len(line) <= _WIDTH else line[: _WIDTH - 1] + "…")


def _by_readings(found: Which, most: int, lines: int) -> Iterable[str]:
    """The lines on a file, but for the first."""
    if found.mark:
        yield "begins with a byte order mark of %s" % found.mark
    yield "malformed  encodings"
    for reading in found.readings:
        yield "%9d  %s" % (reading.bad, ", ".join(reading.encodings))
    first: List[Reading] = found.readings[:most]
    names = [one.encodings[0] + (", …" if len(one.encodings) > 1 else "") for one in first]
    for number in range(lines if first else 0):
        rows = [(label, one.lines[number]) for label, one in zip(names, first) if number < len(one.lines)]
        if rows and any(line for _, line in rows):
            yield "line %d:" % (found.line + number)
            width = max(map(len, names))
            yield from ("  %s  %s" % (label.ljust(width), _cut(line)) for label, line in rows)


def _summary(found: Which) -> str:
    """What a file is, as far as its bytes say."""
    bad = {name: one.bad for one in found.readings for name in one.encodings}
    utf_8 = next(one for one in found.readings if "UTF-8" in one.encodings)
    if not found.read:
        return "empty"
    if found.mark:
        count = bad[found.mark]
        return found.mark + " (byte order mark)" + (" (malformed sequences: %d)" % count if count else "")
    if any("\0" in line for line in utf_8.lines):
        return "has NUL bytes: UTF-16 without a byte order mark, or no text"
    if "windows-1252" in utf_8.encodings:
        return "ASCII" if "ISO-2022-JP" in utf_8.encodings or bad["ISO-2022-JP"] else "ISO-2022-JP, or ASCII with escapes"
    if not utf_8.bad:
        return "UTF-8"
    valid = [name for name in NAMES if not bad[name] and name not in ("replacement", "x-user-defined")]
    first = [name for name in _MULTI_BYTE if name in valid] or valid[:1]
    if "windows-1252" in valid and first == valid[:1]:
        first = ["windows-1252"]
    others = len(valid) - len(first)
    return "not UTF-8; valid in %s" % ", ".join(first) + (" and %d other encodings" % others if others else "")


def tell_which(arguments: List[str]) -> int:
    """What each file is, or how each encoding reads it."""
    words = which_parser().parse_args(arguments)
    is_long = words.all or words.lines is not None or words.most is not None
    lines = _LINES if words.lines is None else words.lines
    most = _MOST if words.most is None else words.most

    def tell(path: str, terminal: Terminal, indexes: Optional[Indexes]) -> int:
        size = os.path.getsize(path) or 1
        progress = lambda read: terminal.show(path, min(read / size, 1))  # noqa: E731
        found = which(path, lines=lines, indexes=indexes, progress=progress)
        head = "%s: %s" % (shown(path), "%d bytes" % found.read if is_long else _summary(found))
        rows = _by_readings(found, most, lines) if is_long else ()
        terminal.tell("".join(line + "\n" for line in [head, *rows]))
        return 0

    return _for_each(words.files, tell, words.indexes)


def tell_places(arguments: List[str]) -> int:
    """What would be lost in files, and where."""
    words = places_parser().parse_args(arguments)
    refused = refused_label(words)
    if refused:
        complain(refused)
        return 2

    def tell(path: str, terminal: Terminal, indexes: Optional[Indexes]) -> int:
        status, label = 0, shown(path)
        with open(path, "rb") as file:
            for place in places_in(file, words.source, words.target, mark=words.mark, indexes=indexes):
                terminal.tell("%s:%d:%d: %s\n" % (label, place.line, place.column, place))
                status = 1
        return status

    return _for_each(words.files, tell, words.indexes)


def tell_labels(arguments: List[str]) -> int:
    """The encodings, each with its labels."""
    labels_parser().parse_args(arguments)
    if not is_heard():
        return 4
    labels: Dict[Hashable, List[str]] = {name_of(number): [] for number in range(40)}
    for label, encoding in LABELS.items():
        labels[encoding].append(label)
    try:
        Terminal(0).tell("".join("%s: %s\n" % (encoding, " ".join(has)) for encoding, has in labels.items()))
    except Unsaid as fault:
        return unheard(fault)
    return 0


COMMANDS: Dict[str, Callable[[List[str]], int]] = {"which": tell_which, "places": tell_places, "labels": tell_labels}
