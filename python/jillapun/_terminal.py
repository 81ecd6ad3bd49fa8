"""What the command line prints: lines of standard output, complaints, and how far it is."""

import argparse
import contextlib
import io
import sys
from typing import Iterable, NoReturn

from ._names import shown


class Unsaid(Exception):
    """Standard output takes no more: what is lost can't be printed."""


def complain(words: str) -> None:
    """Writes a line to standard error, if it takes one: the status says what is wrong, too."""
    if sys.stderr is not None:
        with contextlib.suppress(OSError):
            print(shown(words), file=sys.stderr, flush=True)


class Parser(argparse.ArgumentParser):
    """A parser that shows the words it refuses."""

    def error(self, message: str) -> NoReturn:
        super().error(shown(message))


class Terminal:
    """What is printed as files are read: lines on standard output, or on standard error if standard output is taken, and,
    in the last line of a terminal, which file is read, and how far."""

    def __init__(self, count: int, is_taken: bool = False):
        self.count, self.done, self.line, self.is_taken = count, 0, "", is_taken
        self.is_shown = sys.stderr is not None and sys.stderr.isatty() and not (is_taken and sys.stdout.isatty())

    def show(self, name: str, part: float = 0) -> None:
        """The file, and which part of it is read."""
        line = "%d of %d: %s (%d%%)" % (self.done + 1, self.count, shown(name), 100 * part)
        if self.is_shown and line != self.line:
            self._write(line)

    def clear(self) -> None:
        if self.line:
            self._write("")

    def _write(self, line: str) -> None:
        """Writes a line over the last one, if the terminal is still there."""
        with contextlib.suppress(OSError):
            sys.stderr.write("\r\x1b[K" + line)
            sys.stderr.flush()
        self.line = line

    def tell(self, lines: str) -> None:
        """Writes lines at once, so that what is lost is printed before a file is replaced."""
        self.clear()
        stream, name = (sys.stderr, "standard error") if self.is_taken else (sys.stdout, "standard output")
        try:
            stream.write(lines)
            stream.flush()
        except OSError as fault:
            raise Unsaid("%s: %s" % (name, fault.strerror)) from fault


class Output:
    """Standard output, to which the bytes of a conversion are written."""

    def write(self, data: bytes) -> None:
        self.writelines([data])

    def writelines(self, parts: Iterable[bytes]) -> None:
        try:
            sys.stdout.buffer.writelines(parts)
            sys.stdout.buffer.flush()
        except OSError as fault:
            raise Unsaid("standard output: %s" % fault.strerror) from fault


def is_heard(is_taken: bool = False) -> bool:
    """Whether there is a standard output, which then takes names of all characters; and a standard error, if standard
    output is taken."""
    if sys.stdout is None:
        complain("standard output is closed")
        return False
    if is_taken and sys.stderr is None:
        return False
    if isinstance(sys.stdout, io.TextIOWrapper):
        sys.stdout.reconfigure(errors="backslashreplace")
    return True


def unheard(fault: Unsaid) -> int:
    """Complains that standard output takes no more, and returns the status for it."""
    complain(str(fault))
    with contextlib.suppress(OSError):
        sys.stdout.close()
    return 4
