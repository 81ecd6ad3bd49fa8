"""Streams: decoders, encoders and converters, chunk by chunk, and files of text over them."""

import builtins
import io
import sys
from typing import Any, BinaryIO, Callable, Dict, List, Literal, Optional, Union, cast, overload

from . import _library as c
from ._indexes import Indexes, PathLike
from ._results import Bad, ConvertedPart, Losses, Lost, Report, Stopped
from ._steps import Conversion, chunk_of

_UTF_8 = "utf-8"


class Decoder:
    """Decodes a stream chunk by chunk, however it is split. Calls of several threads wait for one another.

    Malformed sequences are counted and passed to `on_loss`, each a `Bad` with its offset from the start of the stream.
    The first `keep_losses` are kept. If `on_loss` raises, so does `decode`, and the stream has ended.
    """

    def __init__(
        self,
        encoding: str,
        *,
        mark: c.Mark = "remove",
        indexes: Optional[Indexes] = None,
        on_loss: Optional[Callable[[Bad], object]] = None,
        keep_losses: int = 0,
    ):
        self._losses = Losses(keep_losses, on_loss)
        self._conversion = Conversion(encoding, _UTF_8, mark, "decimal", c.NO_LIMIT, indexes)

    @property
    def bad(self) -> int:
        """How many sequences were malformed so far."""
        return self._losses.bad

    @property
    def kept_losses(self) -> List[Bad]:
        """The first of them."""
        return list(self._losses.kept)

    def decode(self, data: bytes, last: bool = False) -> str:
        """Decodes the next bytes; an incomplete sequence waits for more. `last` ends the stream."""
        return self._conversion.put(c.bytes_of(data), last, self._losses).decode()


class Encoder:
    """Encodes a text chunk by chunk. Calls of several threads wait for one another.

    Unmappable characters are counted and passed to `on_loss`, each a `Lost` with the number of characters before it.
    The first `keep_losses` are kept. If `on_loss` raises, so does `encode`, and the text has ended.
    """

    def __init__(
        self,
        encoding: str,
        *,
        unmappable: c.Unmappable = "decimal",
        indexes: Optional[Indexes] = None,
        on_loss: Optional[Callable[[Lost], object]] = None,
        keep_losses: int = 0,
    ):
        self._losses = Losses(keep_losses, on_loss)
        self._conversion = Conversion(_UTF_8, encoding, "keep", unmappable, c.NO_LIMIT, indexes)

    @property
    def lost(self) -> int:
        """How many characters were unmappable so far."""
        return self._losses.lost

    @property
    def kept_losses(self) -> List[Lost]:
        """The first of them."""
        return list(self._losses.kept)

    @property
    def faithful(self) -> Optional[bool]:
        """Whether the bytes, read again, are the text; `None` before the end of the text."""
        report = self._conversion.report
        return report.faithful if report else None

    def encode(self, text: str, last: bool = False) -> bytes:
        """Encodes the next characters. `last` ends the text. An unmappable character is written as a reference; with
        "stop" it raises `Stopped`, which has the output before it."""
        return self._conversion.put(str.encode(text), last, self._losses)


class Converter:
    """Converts a stream from one encoding to another chunk by chunk, however it is split: the outputs together are that
    of `convert` for the whole input. Calls of several threads wait for one another.

    `mark`, `unmappable` and `limit` are as for `convert`.

    >>> converter = Converter("shift_jis", "utf-8")
    >>> converter.convert(b"A\\x83")
    ConvertedPart(output=b'A', losses=[])
    >>> converter.convert(b"\\x6e\\xff", last=True)
    ConvertedPart(output=b'\\xe3\\x83\\x8f\\xef\\xbf\\xbd', losses=[Bad(offset=3, length=1)])
    >>> converter.report
    Report(read=4, bad=1, lost=0, faithful=False, characters=3)
    """

    def __init__(
        self,
        source: str,
        target: str,
        *,
        mark: c.Mark = "sniff",
        unmappable: c.Unmappable = "decimal",
        limit: Optional[int] = None,
        indexes: Optional[Indexes] = None,
    ):
        self._conversion = Conversion(source, target, mark, unmappable, c.limit_of(limit), indexes)

    @property
    def report(self) -> Optional[Report]:
        """The counts and the verdict; `None` before the last bytes are converted."""
        return self._conversion.report

    def convert(self, data: bytes, last: bool = False) -> ConvertedPart:
        """Converts the next bytes, and returns the output and the losses in it; an incomplete sequence waits for more.
        `last` ends the stream. Raises `TooLong` if the stream has more than `limit` bytes, without the output of this
        call, and `Stopped`, which has the output and the losses of this call."""
        losses = Losses(keep=sys.maxsize)
        return ConvertedPart(self._conversion.put(c.bytes_of(data), last, losses), losses.kept)


class Reader(io.TextIOBase):
    """Reads text from a binary file. Line ends are not translated, and a line ends at a line feed. Malformed sequences are
    counted, passed on and kept as by `Decoder`, ahead of the text that was returned."""

    def __init__(
        self,
        file: BinaryIO,
        encoding: str,
        *,
        mark: c.Mark = "sniff",
        indexes: Optional[Indexes] = None,
        on_loss: Optional[Callable[[Bad], object]] = None,
        keep_losses: int = 0,
    ):
        self._decoder = Decoder(encoding, mark=mark, indexes=indexes, on_loss=on_loss, keep_losses=keep_losses)
        self._file = file
        self._text, self._at, self._is_ended = "", 0, False

    @property
    def bad(self) -> int:
        """How many sequences were malformed in the bytes that were read so far, ahead of the text that was returned."""
        return self._decoder.bad

    @property
    def kept_losses(self) -> List[Bad]:
        """The first of them."""
        return self._decoder.kept_losses

    def readable(self) -> bool:
        return True

    def _is_left(self) -> bool:
        """Whether there is more, which is then at hand."""
        while self._at == len(self._text) and not self._is_ended:
            data = chunk_of(self._file)
            self._text, self._at = self._decoder.decode(data, not data), 0
            self._is_ended = not data
        return self._at < len(self._text)

    def _take(self, end: int) -> str:
        text, self._at = self._text[self._at : end], end
        return text

    def read(self, size: Optional[int] = -1) -> str:
        """Reads `size` characters, or fewer at the end; all that is left if `size` is negative or `None`."""
        left = sys.maxsize if size is None or size < 0 else size
        parts: List[str] = []
        while left and self._is_left():
            parts.append(self._take(min(self._at + left, len(self._text))))
            left -= len(parts[-1])
        return "".join(parts)

    def readline(self, size: Optional[int] = -1) -> str:  # type: ignore[override]
        """Reads the next line with its line feed, or at most `size` characters of it; an empty string at the end."""
        left = sys.maxsize if size is None or size < 0 else size
        parts: List[str] = []
        while left and self._is_left():
            end = self._text.find("\n", self._at) + 1 or len(self._text)
            parts.append(self._take(min(self._at + left, end)))
            left -= len(parts[-1])
            if parts[-1].endswith("\n"):
                break
        return "".join(parts)

    def close(self) -> None:
        # Python closes what could not be made, too: that has no file.
        if not self.closed and hasattr(self, "_file"):
            self._file.close()
        super().close()


class Writer(io.TextIOBase):
    """Writes text to a binary file. Line ends are not translated. Close the file to end the text: only then some encodings
    write their last bytes. Unmappable characters are counted, passed on and kept as by `Encoder`."""

    def __init__(
        self,
        file: BinaryIO,
        encoding: str,
        *,
        unmappable: c.Unmappable = "decimal",
        indexes: Optional[Indexes] = None,
        on_loss: Optional[Callable[[Lost], object]] = None,
        keep_losses: int = 0,
    ):
        self._encoder = Encoder(
            encoding, unmappable=unmappable, indexes=indexes, on_loss=on_loss, keep_losses=keep_losses
        )
        # A raw file may take less than it is handed.
        self._file: Any = io.BufferedWriter(cast(Any, file)) if isinstance(file, io.RawIOBase) else file

    @property
    def lost(self) -> int:
        """How many characters were unmappable so far."""
        return self._encoder.lost

    @property
    def kept_losses(self) -> List[Lost]:
        """The first of them."""
        return self._encoder.kept_losses

    @property
    def faithful(self) -> Optional[bool]:
        """Whether the bytes, read again, are the text; `None` before the file is closed."""
        return self._encoder.faithful

    def writable(self) -> bool:
        return True

    def write(self, text: str) -> int:
        """Writes the text, and returns how many characters it has. If `Stopped` is raised, the text before its character
        was written."""
        try:
            self._file.write(self._encoder.encode(text))
        except Stopped as stop:
            self._file.write(stop.output)
            raise
        return len(text)

    def flush(self) -> None:
        if not self._file.closed:
            self._file.flush()

    def close(self) -> None:
        """Ends the text, unless an exception did, and closes the file."""
        if self.closed or not hasattr(self, "_file"):
            return
        try:
            if not self._encoder._conversion.is_over:
                self._file.write(self._encoder.encode("", last=True))
        finally:
            self._file.close()
            super().close()


@overload
def open(
    path: PathLike,
    mode: Literal["r"] = "r",
    *,
    encoding: str,
    mark: c.Mark = "sniff",
    unmappable: c.Unmappable = "decimal",
    indexes: Optional[Indexes] = None,
    on_loss: Optional[Callable[[Bad], object]] = None,
    keep_losses: int = 0,
) -> Reader:
    ...


@overload
def open(
    path: PathLike,
    mode: Literal["w", "a", "x"],
    *,
    encoding: str,
    mark: c.Mark = "sniff",
    unmappable: c.Unmappable = "decimal",
    indexes: Optional[Indexes] = None,
    on_loss: Optional[Callable[[Lost], object]] = None,
    keep_losses: int = 0,
) -> Writer:
    ...


def open(
    path: PathLike,
    mode: str = "r",
    *,
    encoding: str,
    mark: c.Mark = "sniff",
    unmappable: c.Unmappable = "decimal",
    indexes: Optional[Indexes] = None,
    on_loss: Optional[Callable[[Any], object]] = None,
    keep_losses: int = 0,
) -> Union[Reader, Writer]:
    """Opens a text file in an encoding: a `Reader` for mode `"r"`, a `Writer` for `"w"`, `"a"` and `"x"`."""
    if mode not in ("r", "w", "a", "x"):
        raise ValueError("mode %r is none of r, w, a and x" % mode)
    if mode != "r":
        # Words that are refused leave a file as it was.
        Encoder(encoding, unmappable=unmappable, indexes=indexes)
    file = cast(BinaryIO, builtins.open(path, mode + "b"))
    told: Dict[str, Any] = {"indexes": indexes, "on_loss": on_loss, "keep_losses": keep_losses}
    try:
        if mode == "r":
            return Reader(file, encoding, mark=mark, **told)
        return Writer(file, encoding, unmappable=unmappable, **told)
    except BaseException:
        file.close()
        raise
