"""What an input is in each encoding: no guess, but facts."""

import builtins
import hashlib
import io
import os
import re
from typing import Any, BinaryIO, Callable, Dict, List, NamedTuple, Optional, Tuple, Union, cast

from . import _library as c
from ._indexes import Indexes, PathLike, name_of
from ._results import Losses
from ._steps import Conversion, chunk_of
from ._streams import Decoder

_UTF_8 = "utf-8"

NAMES = [name_of(number) for number in range(40)]
"""The encodings, by their numbers."""

# It is malformed once, however much there is: the count says nothing.
_LAST = "replacement"

# How many bytes of the input are read once more for the lines that are shown, and how many before the byte that they are
# shown for, where its line is long.
_SAMPLE, _BEFORE = 1 << 12, 1 << 8

# The byte order marks.
_MARKS = {b"\xef\xbb\xbf": _UTF_8.upper(), b"\xff\xfe": "UTF-16LE", b"\xfe\xff": "UTF-16BE"}

# What most encodings read as another character, or none.
_TELLS = re.compile(rb"[^\t\n\r -~]")


class Reading(NamedTuple):
    """An input as one encoding reads it, or several that read it alike."""

    encodings: List[str]
    """The names of these encodings."""
    bad: int
    """How many sequences of the input are malformed in them."""
    lines: List[str]
    """Some lines of the text: those from the first on that is not all printable ASCII, or the first of all."""


class Which(NamedTuple):
    """An input as each of the 40 encodings reads it."""

    read: int
    """How many bytes it has."""
    line: int
    """The number of the first line that is shown, from 1 on, by line feeds."""
    readings: List[Reading]
    """What the encodings read, by the count of malformed sequences; replacement, which reads nothing, is the last."""
    mark: Optional[str]
    """The encoding whose byte order mark the input begins with."""


class _Sample:
    """The bytes of the lines that are shown: from the first line on in which a byte is not printable ASCII."""

    def __init__(self) -> None:
        self.at, self.line, self.data, self.head = 0, 1, b"", b""
        self._is_found, self._first = False, b""

    def add(self, data: bytes) -> None:
        """Takes the next bytes of the input."""
        self.head += data[: 3 - len(self.head)]
        if self._is_found:
            self.data += data[: _SAMPLE - len(self.data)]
            return
        self._first += data[: _SAMPLE - len(self._first)]
        whole = self.data + data
        found = _TELLS.search(whole)
        end = found.start() if found else len(whole)
        start = max(whole.rfind(b"\n", 0, end) + 1, end - _BEFORE)
        self.at, self.line = self.at + start, self.line + whole.count(b"\n", 0, start)
        self._is_found, self.data = found is not None, whole[start : start + _SAMPLE]

    def end(self) -> None:
        """Takes the first lines, if no byte was found."""
        if not self._is_found:
            self.at, self.line, self.data = 0, 1, self._first

    def lines(self, name: str, count: int, size: int, indexes: Optional[Indexes]) -> List[str]:
        """So many lines as this encoding reads them, of an input of so many bytes."""
        # A unit of UTF-16 begins at an even place.
        start = self.at % 2 if name.startswith("UTF-16") else 0
        decoder = Decoder(name, mark="keep" if self.at else "remove", indexes=indexes)
        text = decoder.decode(self.data[start:], self.at + len(self.data) == size)
        return [line.rstrip("\r") for line in text.removesuffix("\n").split("\n")[:count]]


def _put_all(file: BinaryIO, takes: List[Callable[[bytes], object]], progress: Optional[Callable[[int], object]]) -> int:
    """Hands a file on, chunk by chunk, the last of which is empty, and returns how many bytes it has."""
    read, data = 0, b"\0"
    while data:
        data = chunk_of(file)
        for take in takes:
            take(data)
        read += len(data)
        if progress:
            progress(read)
    return read


class _Reader:
    """An encoding that reads an input: how much of it is malformed, and a digest of its text."""

    def __init__(self, name: str, indexes: Optional[Indexes]):
        self.name, self.losses, self.text = name, Losses(), hashlib.blake2b(digest_size=16)
        self._conversion = Conversion(name, _UTF_8, "remove", "decimal", c.NO_LIMIT, indexes)

    def take(self, data: bytes) -> None:
        self.text.update(self._conversion.put(data, not data, self.losses))


def which(
    source: Union[bytes, PathLike, BinaryIO],
    *,
    lines: int = 3,
    indexes: Optional[Indexes] = None,
    progress: Optional[Callable[[int], object]] = None,
) -> Which:
    """Reports how each of the 40 encodings reads an input: bytes, a path or a binary file, of which only a chunk is in memory.
    `progress` is called after each chunk with the number of bytes read so far.

    Encodings that decode the input to the same text with the same number of malformed sequences are one `Reading`. A
    count of 0 does not prove that the text was written in an encoding: in windows-1252 and others any bytes are text.

    >>> found = which("é 日本".encode())
    >>> [reading.encodings for reading in found.readings if reading.lines == ["é 日本"]]
    [['UTF-8']]
    >>> found.readings[0]
    Reading(encodings=['gb18030', 'GBK'], bad=0, lines=['茅 鏃ユ湰'])
    """
    if isinstance(source, (str, os.PathLike)):
        with builtins.open(source, "rb") as opened:
            return which(opened, lines=lines, indexes=indexes, progress=progress)
    file = cast(BinaryIO, source if hasattr(source, "read") else io.BytesIO(c.bytes_of(source)))
    readers, sample = [_Reader(name, indexes) for name in NAMES], _Sample()
    read = _put_all(file, [sample.add, *(reader.take for reader in readers)], progress)
    sample.end()
    alike: Dict[Tuple[Any, ...], List[str]] = {}
    for reader in readers:
        key = reader.name == _LAST and read > 0, reader.losses.bad, reader.text.digest()
        alike.setdefault(key, []).append(reader.name)
    groups = sorted(alike.items(), key=lambda group: group[0][:2])
    readings = [Reading(names, key[1], sample.lines(names[0], lines, read, indexes)) for key, names in groups]
    mark = next((name for mark, name in _MARKS.items() if sample.head.startswith(mark)), None)
    return Which(read, sample.line, readings, mark)
