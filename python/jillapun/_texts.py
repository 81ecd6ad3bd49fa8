"""Whole texts and inputs in memory."""

import sys
from typing import List, Optional, Tuple, Union, cast, overload

from . import _library as c
from ._bare import LENGTHS, NO_LIMIT, SHORT, convert_all, converting, decode_short, decoding, encode_short, encoding_to
from ._indexes import LONGEST, Indexes, plain
from ._results import (
    Converted,
    Decoded,
    DecodedKept,
    Encoded,
    EncodedKept,
    Loss,
    Losses,
    Lost,
    Report,
    Stopped,
    losses_in,
    refuse,
)
from ._rooms import rooms
from ._steps import Conversion

_UTF_8 = "utf-8"

# How long an input is of which all text has room: in UTF-8 a byte gives three at most.
_ALL_ROOM = 1 << 16

# The statuses with which a conversion has an output.
_DONE = (c.OK, c.LOSSY, c.STOPPED)

_take, _give = rooms.free.pop, rooms.free.append

# This makes a named tuple in half the time.
_new = tuple.__new__


def _run(
    data: bytes, source: str, target: str, mark: str, unmappable: str, limit: int, indexes: Optional[Indexes]
) -> Tuple[bytes, List[Loss], bool]:
    """The output, the losses, and whether nothing was lost. If the input is short and all has room, one call does it,
    which takes less time than steps."""
    if len(data) <= _ALL_ROOM:
        given = source if len(source) <= LONGEST else plain(source)
        wanted = target if len(target) <= LONGEST else plain(target)
        words = converting(given, wanted, mark, unmappable, indexes)
        most = NO_LIMIT if limit == c.NO_LIMIT else c.Long(limit)
        length = LENGTHS[len(data)] if len(data) <= SHORT else c.Size(len(data))
        room = rooms.take()
        status = convert_all(*words, most, data, length, *room.whole)
        is_done = status in _DONE
        if is_done:
            output = room.bytes[: room.report.written]
            losses = list(losses_in(room.losses[: room.report.losses * c.LOSS.size])) if status else []
        _give(room)
        if status == c.STOPPED:
            raise Stopped(cast(Lost, losses[-1]), output, losses)
        if is_done:
            return output, losses, status == c.OK
    conversion, told = Conversion(source, target, mark, unmappable, limit, indexes), Losses(keep=sys.maxsize)
    if len(data) > limit:
        refuse(c.TOO_LONG)
    output = conversion.put(data, True, told)
    return output, told.kept, cast(Report, conversion.report).faithful


@overload
def decode(
    data: bytes, encoding: str, *, mark: c.Mark = "remove", indexes: Optional[Indexes] = None, keep_losses: None = None
) -> Decoded:
    ...


@overload
def decode(
    data: bytes, encoding: str, *, mark: c.Mark = "remove", indexes: Optional[Indexes] = None, keep_losses: int
) -> DecodedKept:
    ...


def decode(
    data: bytes,
    encoding: str,
    *,
    mark: c.Mark = "remove",
    indexes: Optional[Indexes] = None,
    keep_losses: Optional[int] = None,
) -> Union[Decoded, DecodedKept]:
    """Decodes bytes, and reports each malformed sequence.

    A malformed sequence becomes U+FFFD in the text; `losses` has its offset and length. `mark` is for a byte order mark
    at the start: "remove" removes that of the encoding, "sniff" lets one of UTF-8 or UTF-16 decide the encoding, "keep"
    treats it as text.

    The list can take 110 bytes for each byte of the input. With `keep_losses` the losses are counted, and only that many
    are kept, the first: use it for input from strangers.

    >>> decode(b"A\\x83\\x6e\\xff", "shift_jis")
    Decoded(text='Aハ�', losses=[Bad(offset=3, length=1)])
    >>> decode(b"\\xff\\xff\\xff", "utf-8", keep_losses=1)
    DecodedKept(text='���', kept_losses=[Bad(offset=0, length=1)], bad=3)
    """
    label = encoding if len(encoding) <= LONGEST else plain(encoding)
    at, is_open, number, at_mark = decoding(label, mark, indexes)
    given = data if type(data) is bytes else c.bytes_of(data)
    if keep_losses is not None:
        told = Losses(keep_losses)
        output = Conversion(encoding, _UTF_8, mark, "decimal", c.NO_LIMIT, indexes).put(given, True, told)
        return DecodedKept(output.decode(), told.kept, told.bad)
    if len(given) <= SHORT:
        # What follows is written for speed: most texts are short and lose nothing.
        try:
            room = _take()
        except IndexError:
            room = rooms.take()
        place, size, told, decoded, made = room.decoding
        if not decode_short(at, is_open, number, at_mark, given, LENGTHS[len(given)], place, size, told):
            text = made[: decoded.written].decode()
            _give(room)
            return _new(Decoded, (text, []))
        _give(room)
    output, losses, _ = _run(given, encoding, _UTF_8, mark, "decimal", c.NO_LIMIT, indexes)
    return Decoded(output.decode(), losses)  # type: ignore[arg-type]


@overload
def encode(
    text: str,
    encoding: str,
    *,
    unmappable: c.Unmappable = "decimal",
    indexes: Optional[Indexes] = None,
    keep_losses: None = None,
) -> Encoded:
    ...


@overload
def encode(
    text: str,
    encoding: str,
    *,
    unmappable: c.Unmappable = "decimal",
    indexes: Optional[Indexes] = None,
    keep_losses: int,
) -> EncodedKept:
    ...


def encode(
    text: str,
    encoding: str,
    *,
    unmappable: c.Unmappable = "decimal",
    indexes: Optional[Indexes] = None,
    keep_losses: Optional[int] = None,
) -> Union[Encoded, EncodedKept]:
    """Encodes a text, and reports each unmappable character and whether the bytes decode to the text again.

    An unmappable character is written as a numeric character reference, "decimal" or "hexadecimal"; with "stop" it
    raises `Stopped`. A lone surrogate raises `UnicodeEncodeError`. `keep_losses` is as for `decode`.

    >>> encode("é 日", "windows-1252")
    Encoded(data=b'\\xe9 &#26085;', losses=[Lost(index=2, character='日')], faithful=False)
    """
    label = encoding if len(encoding) <= LONGEST else plain(encoding)
    at, is_open, number, folded = encoding_to(label, unmappable, indexes)
    given = str.encode(text)
    if keep_losses is not None:
        told, conversion = Losses(keep_losses), Conversion(_UTF_8, encoding, "keep", unmappable, c.NO_LIMIT, indexes)
        output = conversion.put(given, True, told)
        return EncodedKept(output, told.kept, told.lost, cast(Report, conversion.report).faithful)
    if len(given) <= SHORT and not (folded and folded(text)):
        try:
            room = _take()
        except IndexError:
            room = rooms.take()
        place, size, told, written, made = room.encoding
        if not encode_short(at, is_open, number, given, LENGTHS[len(given)], place, size, told):
            data = made[: written.value]
            _give(room)
            return _new(Encoded, (data, [], True))
        _give(room)
    return _new(Encoded, _run(given, _UTF_8, encoding, "keep", unmappable, c.NO_LIMIT, indexes))


def convert(
    data: bytes,
    source: str,
    target: str,
    *,
    mark: c.Mark = "sniff",
    unmappable: c.Unmappable = "decimal",
    limit: Optional[int] = None,
    indexes: Optional[Indexes] = None,
) -> Converted:
    """Converts bytes from one encoding to another, and reports exactly what was lost.

    `mark` and `unmappable` are as for `decode` and `encode`. Raises `UnknownLabel`, `IndexesMissing`, `TooLong` if the
    input has more than `limit` bytes, and `Stopped`.

    >>> convert(b"caf\\xe9", "windows-1252", "utf-8")
    Converted(output=b'caf\\xc3\\xa9', losses=[], faithful=True)
    """
    most, given = c.limit_of(limit), c.bytes_of(data)
    return _new(Converted, _run(given, source, target, mark, unmappable, most, indexes))
