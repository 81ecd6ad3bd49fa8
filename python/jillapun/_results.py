"""What calls return, and what they raise."""

from typing import Any, Callable, Iterator, List, NamedTuple, Optional, Tuple, Union

from . import _library as c


class Bad(NamedTuple):
    """A malformed sequence of the input."""

    offset: int
    """How many bytes of the input precede it."""
    length: int
    """How many bytes it has, 1 to 4."""

    def __str__(self) -> str:
        return "bad %d %d" % self


class Lost(NamedTuple):
    """An unmappable character: the output encoding does not have it."""

    index: int  # type: ignore[assignment]
    """How many characters of the text precede it."""
    character: str
    """The character, or U+FFFD where ISO-2022-JP refuses a control."""

    def __str__(self) -> str:
        return "lost %d %d" % (self.index, ord(self.character))


Loss = Union[Bad, Lost]


class Decoded(NamedTuple):
    """What `decode` returns."""

    text: str
    """The text, with U+FFFD for each malformed sequence."""
    losses: List[Bad]
    """The malformed sequences, in their order."""


class Encoded(NamedTuple):
    """What `encode` returns."""

    data: bytes
    """The bytes, with a reference, as `&#26085;`, for each character that has none."""
    losses: List[Lost]
    """The unmappable characters, in their order."""
    faithful: bool
    """Whether the bytes, read again, are the text."""


class DecodedKept(NamedTuple):
    """What `decode` returns with `keep_losses`: the losses are counted, and the first are kept."""

    text: str
    """The text, with U+FFFD for each malformed sequence."""
    kept_losses: List[Bad]
    """The first malformed sequences, as many as the call was asked to keep."""
    bad: int
    """How many sequences were malformed."""


class EncodedKept(NamedTuple):
    """What `encode` returns with `keep_losses`: the losses are counted, and the first are kept."""

    data: bytes
    """The bytes, with a reference, as `&#26085;`, for each character that has none."""
    kept_losses: List[Lost]
    """The first unmappable characters, as many as the call was asked to keep."""
    lost: int
    """How many characters are unmappable."""
    faithful: bool
    """Whether the bytes, read again, are the text."""


class Converted(NamedTuple):
    """What `convert` returns."""

    output: bytes
    """The bytes in the output encoding."""
    losses: List[Loss]
    """What was malformed, and which characters have no bytes, in their order."""
    faithful: bool
    """Whether nothing was malformed, and the output, read again, is the text of the input. It can be false where
    `losses` is empty: some encodings write a character as bytes that read back as another."""


class ConvertedPart(NamedTuple):
    """What a call of a `Converter` returns."""

    output: bytes
    """The output for the input so far, without what earlier calls returned; an incomplete character waits for more."""
    losses: List[Loss]
    """What was malformed, and which characters have no bytes, in their order. Offsets and indexes count from the start
    of the stream."""


class Report(NamedTuple):
    """The counts and the verdict of a whole conversion. `Report()` is that of an empty input."""

    read: int = 0
    """How many bytes were read."""
    bad: int = 0
    """How many sequences of the input were malformed."""
    lost: int = 0
    """How many characters are unmappable."""
    faithful: bool = True
    """Whether nothing was malformed, and the output, read again, is the text of the input. It can be false where both
    counts are 0: some encodings write a character as bytes that read back as another."""
    characters: int = 0
    """How many characters the text has, with U+FFFD for each malformed sequence, without a byte order mark that was
    removed."""

    @property
    def summary(self) -> str:
        """What was lost, in words."""
        if self.faithful:
            return "nothing was lost"
        counts = "malformed sequences: %d, characters without bytes: %d" % (self.bad, self.lost)
        return counts if self.bad or self.lost else "some characters do not read back"


class ConvertedFile(NamedTuple):
    """What `convert_file` returns: the members of a `Report`, and the losses that were kept."""

    read: int
    bad: int
    lost: int
    faithful: bool
    kept_losses: List[Loss]
    """The first losses, in their order: as many as the call was asked to keep."""
    characters: int

    @property
    def summary(self) -> str:
        """What was lost, in words."""
        return Report(*self[:4], self.characters).summary


class JillapunError(Exception):
    """A call could not do its work."""


class UnknownLabel(JillapunError, LookupError):
    """No encoding has this label."""

    def __init__(self, label: str, nearest: Optional[str] = None):
        super().__init__(label if nearest is None else "%s (the nearest label is %s)" % (label, nearest))


class IndexesMissing(JillapunError):
    """An index that an encoding needs is missing, or an index file is faulty."""


class TooLong(JillapunError):
    """The input has more bytes than the limit."""


class Stopped(JillapunError):
    """With `unmappable="stop"`: a character is unmappable."""

    def __init__(self, lost: Lost, output: bytes = b"", losses: List[Loss] = []):
        super().__init__("no bytes for U+%04X, the character at index %d" % (ord(lost.character), lost.index))
        self.lost = lost
        """The character."""
        self.output = output
        """The output before it; of a stream, that of the last call; of `convert_file`, empty."""
        self.losses = list(losses)
        """The losses up to and including it: of a `Converter`, those of the last call; of other streams and of files,
        those that were kept, and it."""

    def __reduce__(self) -> Tuple[Any, ...]:
        return type(self), (self.lost, self.output, self.losses), self.__dict__


class NotReplaced(JillapunError):
    """Converting the file in place would lose something. It stays as it was."""

    def __init__(self, done: ConvertedFile):
        remedy = "lossy=True replaces it all the same, and backup=SUFFIX keeps the original"
        super().__init__("left as it was (%s): %s" % (done.summary, remedy))
        self.done = done
        """What is reported of the conversion."""

    def __reduce__(self) -> Tuple[Any, ...]:
        return type(self), (self.done,), self.__dict__


def losses_in(records: bytes, offset: int = 0, index: int = 0) -> Iterator[Loss]:
    """The losses that stand in records of the library, made one by one: most are forgotten at once. The records count
    from so many bytes and so many characters."""
    for place, number, kind in c.LOSS.iter_unpack(records):
        yield Bad(offset + place, number) if kind == c.BAD else Lost(index + place, chr(number))


class Losses:
    """What a stream has lost so far: how much, and the first of it. Each loss is handed on as it comes."""

    def __init__(self, keep: int = 0, on_loss: Optional[Callable[[Any], object]] = None):
        self.bad = self.lost = 0
        self.kept: List[Any] = []
        self._keep, self._on_loss = keep, on_loss

    def add(self, records: bytes, offset: int = 0, index: int = 0) -> None:
        """Takes the next losses. Their records count from so many bytes and so many characters."""
        kinds = records[c.KIND :: c.LOSS.size]
        bad = kinds.count(c.BAD)
        self.bad += bad
        self.lost += len(kinds) - bad
        self.kept += losses_in(records[: max(self._keep - len(self.kept), 0) * c.LOSS.size], offset, index)
        if self._on_loss:
            for loss in losses_in(records, offset, index):
                self._on_loss(loss)

    def end(self, done: ConvertedFile) -> None:
        """Is called once a file is converted, before its output is put in its place."""

    def up_to(self, last: Lost) -> List[Loss]:
        """What was kept, and the last loss, if it was not."""
        return [*self.kept, *([last] if self.bad + self.lost > len(self.kept) else [])]


def refuse(status: int) -> None:
    """Raises what a status says that is neither `OK`, `LOSSY` nor `STOPPED`."""
    if status == c.NOT_READY:
        raise IndexesMissing("an index that the encoding needs is not loaded: pass indexes=Indexes(FOLDER)")
    if status == c.NO_MEMORY:
        raise MemoryError
    if status == c.TOO_LONG:
        raise TooLong("the input has more bytes than the limit")
    if status == c.UNKNOWN:
        raise UnknownLabel("no such encoding")
    raise JillapunError("status %d" % status)
