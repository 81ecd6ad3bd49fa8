"""Converts files: python3 -m jillapun --from LABEL --to LABEL --into FOLDER FILES…; and the other commands."""

import argparse
import contextlib
import os
import signal
import sys
from typing import BinaryIO, Dict, Hashable, List, NoReturn, Optional, cast

import jillapun

from . import _commands as commands
from . import _library as c
from ._files import convert_with, write_with
from ._names import shown
from ._parts import Job
from ._results import Losses
from ._terminal import Output, Terminal, Unsaid, complain, is_heard, unheard
from ._words import convert_parser

# The words of a loss, by its kind.
WORDS = {c.BAD: "bad", c.LOST: "lost"}


def words_of(arguments: List[str]) -> argparse.Namespace:
    parser = convert_parser()
    words = parser.parse_args(arguments)
    if words.into == "":
        parser.error("argument --into: no folder is named")
    if words.backup is not None and (not words.backup or os.path.basename(words.backup) != words.backup):
        parser.error("argument --backup: %r is no suffix of a name" % words.backup)
    if words.into and words.in_place:
        parser.error("argument --into: not allowed with argument --in-place")
    words.in_place = not words.into and (words.in_place or words.backup is not None)
    return words


class Lines(Losses):
    """The losses of a file, each a line."""

    def __init__(self, name: str, terminal: Terminal):
        super().__init__()
        self.name, self.terminal = shown(name), terminal

    def add(self, records: bytes, offset: int = 0, index: int = 0) -> None:
        super().add(records, offset, index)
        name, before, rows = self.name, {c.BAD: offset, c.LOST: index}, c.LOSS.iter_unpack(records)
        lines = [f"{name}: {WORDS[kind]} {before[kind] + place} {number}\n" for place, number, kind in rows]
        self.terminal.tell("".join(lines))

    def end(self, done: jillapun.ConvertedFile) -> None:
        if not (done.faithful or done.bad or done.lost):
            self.terminal.tell("%s: %s\n" % (self.name, done.summary))


def identity(path: str) -> Hashable:
    """What two paths have in common if they lead to one file, or to one place of a file that is to be made."""
    try:
        status = os.stat(path)
        return status.st_dev, status.st_ino
    except OSError:
        path = os.path.realpath(path)
    with contextlib.suppress(OSError):
        folder = os.stat(os.path.dirname(path))
        return folder.st_dev, folder.st_ino, os.path.basename(path)
    return path


def target_of(words: argparse.Namespace, path: str) -> Optional[str]:
    """Where the output of a file is put; nowhere if it is written to standard output."""
    return os.path.join(words.into, os.path.basename(path)) if words.into else path if words.in_place else None


def is_standard_output(path: str) -> bool:
    """Whether a regular file is standard output, so that a conversion would read what it writes."""
    try:
        output = os.fstat(sys.stdout.fileno())
        return os.path.isfile(path) and os.path.samestat(output, os.stat(path))
    except (AttributeError, OSError, ValueError):
        return False


def clash_of(words: argparse.Namespace) -> Optional[str]:
    """Why the files can't be converted in one run: the output of one would replace another, or its output."""
    if not (words.into or words.in_place):
        if len(words.files) > 1:
            remedy = "--into FOLDER writes the outputs there, and --in-place replaces the files"
            return "%d files and one standard output: %s" % (len(words.files), remedy)
        path = words.files[0]
        return "%s is standard output, too" % path if is_standard_output(path) else None
    outputs: Dict[Hashable, str] = {}
    for path in words.files:
        target = cast(str, target_of(words, path))
        if words.into and identity(target) == identity(path):
            return "%s would replace %s itself: --in-place, without --into, asks for that" % (target, path)
        other = outputs.get(identity(target))
        if other is not None:
            form = "%s and %s would both become %s" if words.into else "%s and %s are one file"
            return form % ((other, path, target) if words.into else (other, path))
        outputs[identity(target)] = path
    for path in words.files:
        other = outputs.get(identity(path), path)
        if other != path:
            return "%s would replace %s, which is to be converted too" % (other, path)
    return None


def converted(
    words: argparse.Namespace, path: str, target: Optional[str], indexes: Optional[jillapun.Indexes], terminal: Terminal
) -> jillapun.ConvertedFile:
    job = Job(words.source, words.target, words.mark, words.unmappable, c.NO_LIMIT, indexes)
    size, lines = 1, Lines(path, terminal)
    with contextlib.suppress(OSError):
        size = os.path.getsize(path) or 1

    def progress(read: int) -> None:
        terminal.show(path, min(read / size, 1))

    if target is None:
        output = cast(BinaryIO, Output())
        return write_with(lines, path, output, job, threads=words.threads, progress=progress)
    return convert_with(
        lines, path, target, job, in_place=words.in_place, lossy=words.lossy, force=words.force, backup=words.backup,
        threads=words.threads, progress=progress,
    )  # fmt: skip


def one_status(
    words: argparse.Namespace,
    path: str,
    indexes: Optional[jillapun.Indexes],
    terminal: Terminal,
    written: Dict[Hashable, str],
) -> int:
    """Converts a file, and says what was lost: 0 if nothing was, 1 if something was, or if the file stays as it was, 3
    if an index is missing, and 4 if it failed."""
    target = target_of(words, path)
    terminal.show(path)
    try:
        other = written.get(identity(target)) if target else None
        if other is not None:
            # Only where names are one that were two before: where the case of letters does not matter.
            raise jillapun.JillapunError("it would replace %s, which %s has become" % (target, other))
        done = converted(words, path, target, indexes, terminal)
        if target:
            written[identity(target)] = path
    except jillapun.NotReplaced as fault:
        remedy = "--lossy replaces it all the same, and --backup SUFFIX keeps the original"
        terminal.clear()
        complain("%s: left as it was (%s): %s" % (path, fault.done.summary, remedy))
        return 1
    except jillapun.AlreadyUtf8:
        terminal.clear()
        complain("%s: left as it was (it is UTF-8 already, and would be encoded twice): --force converts it" % path)
        return 1
    except (OSError, MemoryError, jillapun.JillapunError) as fault:
        terminal.clear()
        complain("%s: %s" % (path, commands.reason_of(fault, path, words.indexes)))
        return 3 if isinstance(fault, jillapun.IndexesMissing) else 4
    terminal.clear()
    return 0 if done.faithful else 1


def tell_interrupted(words: argparse.Namespace, done: List[str]) -> None:
    """Says which files are converted."""
    if not (words.into or words.in_place):
        complain("interrupted: the output is not complete")
        return
    rest = "the others are as they were" if words.in_place else "the others have no output"
    complain("interrupted: %d of %d files are converted, %s" % (len(done), len(words.files), rest))
    for path in done:
        complain("converted: %s" % path)


def convert_all(words: argparse.Namespace, indexes: Optional[jillapun.Indexes]) -> int:
    """The highest status of a file."""
    terminal, status = Terminal(len(words.files), target_of(words, "") is None), 0
    written: Dict[Hashable, str] = {}
    path = ""
    was: Optional[Hashable] = None
    try:
        for path in words.files:
            was = identity(target_of(words, path) or path)
            status = max(status, one_status(words, path, indexes, terminal, written))
            was = None
            terminal.done += 1
    except Unsaid as fault:
        return unheard(fault)
    except (KeyboardInterrupt, SystemExit):
        terminal.clear()
        done = list(written.values())
        # It can come between the replacement of a file and the line above that remembers it.
        if was is not None and path not in done and identity(target_of(words, path) or path) != was:
            done.append(path)
        tell_interrupted(words, done)
        raise
    finally:
        terminal.clear()
    return status


def main(arguments: Optional[List[str]] = None) -> int:
    """The status of the command that the first word names, and of a conversion if it names none."""
    given = sys.argv[1:] if arguments is None else arguments
    if given and given[0] in commands.COMMANDS:
        return commands.COMMANDS[given[0]](given[1:])
    return convert(given[1:] if given[:1] == ["convert"] else given)


def convert(arguments: List[str]) -> int:
    """The highest status of a file; 2 if a label is unknown or files would replace one another, 3 if the indexes are
    not there, and 4 if nothing can be printed or written."""
    words = words_of(arguments)
    refused = commands.refused_label(words) or clash_of(words)
    if refused:
        complain(refused)
        return 2
    try:
        indexes = jillapun.Indexes(words.indexes) if words.indexes else None
    except (OSError, jillapun.JillapunError) as fault:
        complain(commands.reason_of(fault, "", words.indexes))
        return 3
    if not is_heard(target_of(words, "") is None):
        return 4
    if words.into and not os.path.isdir(words.into):
        try:
            os.mkdir(words.into)
        except OSError as fault:
            complain("%s: the folder can't be made: %s" % (words.into, fault.strerror))
            return 4
    return convert_all(words, indexes)


def program() -> int:
    """`main`, of which an interruption and a request to end leave no part of a file."""

    ends = signal.SIGHUP, signal.SIGTERM

    def end(number: int, _: object) -> NoReturn:
        # One is enough: another would interrupt what removes a file.
        for each in ends:
            signal.signal(each, signal.SIG_IGN)
        sys.exit(128 + number)

    for number in ends:
        if signal.getsignal(number) == signal.SIG_DFL:
            signal.signal(number, end)
    try:
        return main()
    except KeyboardInterrupt:
        return 128 + signal.SIGINT


if __name__ == "__main__":
    sys.exit(program())
