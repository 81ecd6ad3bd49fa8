"""Where in a text something is lost, by line and column."""

from typing import BinaryIO, Iterator, List, NamedTuple, Optional, Union

from . import _coders as coders
from . import _library as c
from ._indexes import Indexes, handle_of, name_of, number_of, output_name
from ._names import is_shown_by_number
from ._results import Lost
from ._rooms import rooms
from ._steps import chunk_of
from ._streams import Encoder

# A malformed sequence may begin so many bytes before those of the call that finds it.
_BEHIND = 8

class Place(NamedTuple):
    """A place where something is lost."""

    line: int
    """The line, from 1 on; a line ends at a line feed."""
    column: int
    """Which character of the line it is, from 1 on; a malformed sequence counts as one."""
    what: Union[bytes, str]
    """The bytes of a malformed sequence, or the character that has no bytes."""
    encoding: str
    """The name of the encoding that has no such sequence, or no bytes for it."""

    def __str__(self) -> str:
        if isinstance(self.what, bytes):
            held = "byte" + "s" * (len(self.what) > 1) + "".join(" %02X" % byte for byte in self.what)
            return "%s in no character of %s" % (held, self.encoding)
        named = "" if is_shown_by_number(self.what) else " " + self.what
        return "U+%04X%s has no bytes in %s" % (ord(self.what), named, self.encoding)


class _Text:
    """A text part by part: where it is, and which of its characters have no bytes."""

    def __init__(self, target: str, indexes: Optional[Indexes]):
        self.line, self.column, self._count = 1, 1, 0
        self._lost: List[Lost] = []
        self._name = output_name(target)
        self._encoder = Encoder(target, indexes=indexes, on_loss=self._lost.append)

    def places(self, part: str) -> Iterator[Place]:
        """The places of the characters without bytes in the next part."""
        self._encoder.encode(part)
        at, first = 0, self._count
        for lost in self._lost:
            self._go(part, at, lost.index - first)
            at = lost.index - first
            yield Place(self.line, self.column, part[at], self._name)
        self._lost.clear()
        self._go(part, at, len(part))
        self._count += len(part)

    def _go(self, part: str, start: int, end: int) -> None:
        feed = part.rfind("\n", start, end)
        self.line += part.count("\n", start, end)
        self.column = end - feed if feed >= 0 else self.column + end - start


def _held(before: bytes, data: bytes, end: int, length: int) -> bytes:
    """So many bytes up to a place in a chunk, which may begin before it."""
    start = end - length
    if start < 0:
        start, data = start + len(before), before + data[:_BEHIND]
    return data[start : start + length]


def places_in(
    file: BinaryIO, source: str, target: str, *, mark: str = "sniff", indexes: Optional[Indexes] = None
) -> Iterator[Place]:
    """The places in a file, of which a chunk is in memory, in the order of the text."""
    text, progress, room = _Text(target, indexes), coders.Progress(), rooms.take()
    handle = coders.new_decoder(handle_of(indexes), number_of(source), c.MARKS[mark])
    before, data = b"", b"\0"
    try:
        while data:
            data = chunk_of(file)
            start, at, outcome = c.address_of(data), 0, coders.OUTPUT_FULL
            while outcome != coders.INPUT_EMPTY:
                words = handle, start + at, len(data) - at, *room.words[:2], not data, progress
                coders.checked(coders.decode_stopping(*words))
                outcome, at = progress.outcome, at + progress.read
                yield from text.places(room.bytes[: progress.written].decode())
                if outcome == coders.MALFORMED:
                    held = _held(before, data, at - progress.malformed_after, progress.malformed_length)
                    yield Place(text.line, text.column, held, name_of(coders.encoding_in_force(handle)))
                    text.column += 1
            before = (before + data)[-_BEHIND:]
    finally:
        rooms.give(room)
