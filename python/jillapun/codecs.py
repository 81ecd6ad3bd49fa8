"""The encodings as codecs of Python, under the standard's names and labels after `web-`.

    >>> import jillapun.codecs
    >>> b"A\\x83\\x6e".decode("web-shift_jis")
    'Aハ'
    >>> b"A\\xff".decode("web-shift_jis", "backslashreplace")
    'A\\\\xff'

Importing this module registers them, as `jillapun.register()` does. Then `open(path, encoding="web-gb18030")`, `csv`,
`pandas` and everything else that takes the name of an encoding can use them, with Python's error handlers. Each process
has to register them, also each worker of a cluster.

- A byte order mark of the encoding itself is skipped at the start of an input, as by `jillapun.decode`; none is written.
- Each malformed sequence of the Encoding Standard is one error, and so is each unmappable character. An input that ends
  within a character is malformed, also in the readers of `codecs.open`, where Python's own codecs are silent.
- All error handlers work but `surrogatepass`, which knows only Python's own codecs.
- UTF-16BE, UTF-16LE and replacement only decode, since the standard has no encoders for them. Encoding is a `LookupError`.
- `tell`, `seek`, `getstate` and `setstate` work: the state is the few undecided bytes, and the mode of ISO-2022-JP.
- The end of a text in ISO-2022-JP has to be marked, as with Python's own codec: pass `final=True` in the last call of an
  incremental encoder. `str.encode`, `codecs.iterencode` and `jillapun.open` do this, Python's `open` does not: unless
  the text ends with a line feed, its last escape is missing. Therefore text that is appended (`a`) or written after a
  `seek` begins with an escape; if the text before it was ended, the second of these two escapes is malformed. Do not
  write into the middle of a text (`r+`).
"""

import codecs
import ctypes
import operator
from functools import lru_cache
from typing import Any, Dict, List, Optional, Tuple, Type, Union

from . import _coders as coders
from . import _library as c
from ._indexes import handle_of, number_of
from ._labels import LABELS
from ._python_names import label_of, nearest_to
from ._results import UnknownLabel

__all__ = ["search"]

# Room for the output of one call, in bytes.
_ROOM = 1 << 16

# No decoder leaves more bytes undecided; it is the limit of Python's own, too.
_UNDECIDED = 8

# An input or a text so short is tried by one call first.
_SHORT = 1 << 10

# Characters of a text for each call, and after a loss: each call checks that all of them are UTF-8.
_BLOCK, _SMALL = 1 << 14, 1 << 8


class _Room:
    """Room for the output of calls."""

    def __init__(self) -> None:
        self.at = ctypes.create_string_buffer(_ROOM)
        self.bytes, self.decoded, self.written = memoryview(self.at), c.Decoded(), c.Size()

    def text(self, size: int) -> str:
        return str(self.bytes[:size], "utf-8")

    def data(self, size: int) -> bytes:
        return bytes(self.bytes[:size])


# Rooms that are in no use: to make one takes longer than to decode a short input. A list's `pop` and `append` are atomic.
_rooms: List[_Room] = []


def _room() -> _Room:
    try:
        return _rooms.pop()
    except IndexError:
        return _Room()


def _handled(errors: str, error: UnicodeError, size: int) -> Tuple[Union[str, bytes], int]:
    """What the handler of this name has in place of a loss, and where in the object, of this size, it goes on."""
    result = codecs.lookup_error(errors)(error)
    kinds = (str,) if isinstance(error, UnicodeDecodeError) else (str, bytes)
    if not (
        isinstance(result, tuple) and len(result) == 2 and isinstance(result[0], kinds) and isinstance(result[1], int)
    ):
        raise TypeError("the handler %r must return what stands in place of the loss, and a position" % errors)
    position = result[1] + size if result[1] < 0 else result[1]
    if not 0 <= position <= size:
        raise IndexError("position %d from error handler out of bounds" % result[1])
    # Not of a class derived from `str`, whose methods could be others.
    return str.__str__(result[0]) if isinstance(result[0], str) else result[0], position


class Coding:
    """An encoding as Python's codecs need it: decoded and encoded by parts, each from a state on.

    A state is a number, `start` at the start of a stream. A decoder decides as many bytes of a part as it can; pass the
    others again, before those that follow. A state and the undecided bytes are all that a stream needs, so no decoder is
    kept between two calls.
    """

    # For each state the bytes that bring a new decoder into it, and the text that brings a new encoder into it. What
    # these give is left out.
    begins: Tuple[bytes, ...] = (b"",)
    begin_texts: Tuple[str, ...] = ("",)
    # The state of a decoder at the start. After it the state is 0 wherever it can be: the number that `tell` returns is the
    # offset plus 2**64 times the state.
    start = 0
    # Whether an encoder is in one of several modes.
    has_modes = False

    def __init__(self, name: str, number: int):
        self.name, self.number = name, number
        self._has_encoder = c.library.jillapun_output_encoding(number) == number

    def mark(self, state: int) -> int:
        """What becomes of a byte order mark at the start of a part."""
        return c.MARKS["keep"]

    def state_after(self, state: int, data: bytes) -> int:
        """The state in which a decoder is that has read these bytes, and, with modes, an encoder that has written them."""
        return 0

    def held(self, data: bytes) -> int:
        """How many bytes at the end of these are not decided, although no character waits: what follows may make them a
        malformed sequence."""
        return 0

    def joined(self, data: bytes) -> bytes:
        """The bytes of a new stream, as they stand behind others of which nothing is known."""
        return data

    def decode_part(self, data: bytes, errors: str, state: int, final: bool = True) -> Tuple[str, int, int]:
        """The text of the bytes that are decided, how many these are, and the state after them."""
        if len(data) <= _SHORT and not self.begins[state]:
            text = self._short_text(data, errors, state, final)
            if text is not None:
                end = len(data) - (0 if final else self.held(data))
                return text, end, self.state_after(state, data[:end])
        return _Decoding(self, data, errors, state).run(final)

    def _short_text(self, data: bytes, errors: str, state: int, final: bool) -> Optional[str]:
        """The text, or nothing if there is a malformed sequence, or an undecided one, that the caller has to see."""
        room = _room()
        words = self.number, self.mark(state), data, len(data), room.at, _ROOM, room.decoded
        status = coders.decode_whole(handle_of(None), *words)
        is_enough = status == c.OK or (status == c.LOSSY and final and errors == "replace")
        text = room.text(room.decoded.written) if is_enough else None
        _rooms.append(room)
        return text

    def encode_part(self, text: str, errors: str, state: int = 0, final: bool = True) -> Tuple[bytes, int]:
        """The bytes of a text, and the state after them. Raises `LookupError` if the encoding has no encoder."""
        text = str.__str__(text)
        if text and not self._has_encoder:
            raise LookupError("the Encoding Standard has no encoder of %s" % self.name)
        if len(text) <= _SHORT and (not self.has_modes or final and not state):
            data = self._short_data(text, errors)
            if data is not None:
                return data, 0
        return _Encoding(self, text, errors, state).run(final)

    def _short_data(self, text: str, errors: str) -> Optional[bytes]:
        """The bytes of a whole text, or nothing if it has a character without bytes that the caller has to see."""
        try:
            given = str.encode(text)
        except UnicodeEncodeError:
            return None
        room = _room()
        status = coders.encode_whole(handle_of(None), self.number, given, len(given), room.at, _ROOM, room.written)
        is_enough = status == c.OK or (status == c.LOSSY and errors == "xmlcharrefreplace" and not self.has_modes)
        data = room.data(room.written.value) if is_enough else None
        _rooms.append(room)
        return data


class _Marked(Coding):
    """UTF-8 and UTF-16, of which a mark is left out at the start of a stream."""

    begins = (b"", b"")
    start = 1

    def mark(self, state: int) -> int:
        return c.MARKS["remove" if state else "keep"]

    def state_after(self, state: int, data: bytes) -> int:
        return 0 if data else state


class _Replacement(Coding):
    """The encoding "replacement", which is malformed once, however much there is."""

    begins = (b"!", b"")
    start = 1

    def state_after(self, state: int, data: bytes) -> int:
        return 0 if data else state


# The escape sequences of ISO-2022-JP, and the modes that they begin.
_ASCII, _ROMAN, _KATAKANA, _JIS = range(4)
_ESCAPES = {b"\x1b(B": _ASCII, b"\x1b(J": _ROMAN, b"\x1b(I": _KATAKANA, b"\x1b$@": _JIS, b"\x1b$B": _JIS}


class _Iso2022Jp(Coding):
    """ISO-2022-JP, whose states are its modes. The last whole escape sequence says which it is: each 1B begins one,
    wherever it stands. Another escape sequence behind one makes it malformed."""

    begins = (b"", b"\x1b(Ja", b"\x1b(I!", b"\x1b$B!!")
    begin_texts = ("", "\xa5", "", "\u3000")
    has_modes = True

    def joined(self, data: bytes) -> bytes:
        """They begin in ASCII: an escape says so, if they do not begin with one."""
        return data if data.startswith(b"\x1b") else b"\x1b(B" + data

    def state_after(self, state: int, data: bytes) -> int:
        place, mode = max((data.rfind(escape), mode) for escape, mode in _ESCAPES.items())
        return mode if place >= 0 else state

    def held(self, data: bytes) -> int:
        return 3 if data[-3:] in _ESCAPES else 0


class _Decoding:
    """A part that is decoded, with a handler of Python's for what is malformed."""

    def __init__(self, coding: Coding, data: bytes, errors: str, state: int):
        self._coding, self._data, self._errors, self._state = coding, data, errors, state
        # The decoder began at `_base`, and has read what stands before `_at`.
        self._start, self._base, self._at = c.address_of(data), 0, 0
        self._parts: List[str] = []
        self._room, self._progress = _room(), coders.Progress()
        self._open()

    def _open(self) -> None:
        """A decoder in the state, which reads on from where this is."""
        coding = self._coding
        self._handle = coders.new_decoder(handle_of(None), coding.number, coding.mark(self._state))
        begin = coding.begins[self._state]
        if begin:
            self._call(coders.decode_stopping, c.address_of(begin), len(begin), False)

    def _call(self, call: Any, at: int, size: int, last: bool) -> int:
        coders.checked(call(self._handle, at, size, self._room.at, _ROOM, last, self._progress))
        return int(self._progress.outcome)

    def _step(self, call: Any, last: bool) -> int:
        """Decodes on, and returns how the call ended."""
        outcome = self._call(call, self._start + self._at, len(self._data) - self._at, last)
        self._at += self._progress.read
        self._parts.append(self._room.text(self._progress.written))
        return outcome

    def run(self, final: bool) -> Tuple[str, int, int]:
        try:
            call = coders.decode_replacing if self._errors == "replace" else coders.decode_stopping
            outcome = self._step(call, final)
            while outcome != coders.INPUT_EMPTY:
                if outcome == coders.MALFORMED:
                    self._replace()
                outcome = self._step(call, final)
            end = len(self._data) - (0 if final else self._undecided())
        finally:
            _rooms.append(self._room)
        return "".join(self._parts), end, self._state_at(end)

    def _state_at(self, end: int) -> int:
        return self._coding.state_after(self._state, self._data[self._base : end])

    def _replace(self) -> None:
        """Asks the handler what stands in place of a malformed sequence, and where to go on."""
        end = self._at - self._progress.malformed_after
        error = UnicodeDecodeError(
            self._coding.name, self._data, end - self._progress.malformed_length, end, "malformed sequence"
        )
        text, position = _handled(self._errors, error, len(self._data))
        self._parts.append(text)  # type: ignore[arg-type]
        if position != end:
            self._state = self._state_at(end)
            self._base = self._at = position
            self._open()

    def _undecided(self) -> int:
        """The number of undecided bytes at the end, which are malformed if the input ends here."""
        size = 0
        if self._step(coders.decode_stopping, True) == coders.MALFORMED:
            size = self._progress.malformed_length + self._progress.malformed_after
        return size + self._coding.held(self._data[self._base : len(self._data) - size])


class _Encoding:
    """A part that is encoded, with a handler of Python's for characters without bytes."""

    def __init__(self, coding: Coding, text: str, errors: str, state: int):
        self._coding, self._text, self._errors, self._state = coding, text, errors, state
        # The library writes the references of `xmlcharrefreplace` itself, but for controls that ISO-2022-JP refuses.
        is_replacing = errors == "xmlcharrefreplace" and not coding.has_modes
        self._call = coders.encode_replacing if is_replacing else coders.encode_stopping
        self._parts: List[bytes] = []
        self._room, self._progress = _room(), coders.EncoderProgress()
        self._handle = coders.new_encoder(handle_of(None), coding.number)
        begin = coding.begin_texts[state]
        if begin:
            self._put(begin.encode())
            self._parts.clear()

    def run(self, final: bool) -> Tuple[bytes, int]:
        try:
            at, size = 0, _BLOCK
            while at < len(self._text):
                block = self._text[at : at + size]
                error = self._put_block(at, block)
                at, size = (self._replace(error), _SMALL) if error else (at + len(block), min(2 * size, _BLOCK))
            self._put(b"", final)
        finally:
            _rooms.append(self._room)
        return b"".join(self._parts), self._state

    def _put_block(self, at: int, block: str) -> Optional[UnicodeEncodeError]:
        """Encodes what stands at a place of the text, and returns the first loss in it, before which it stops."""
        error = None
        try:
            data = block.encode()
        except UnicodeEncodeError as found:
            error = self._error_at(at + found.start, at + found.end, "surrogates not allowed")
            data = block[: found.start].encode()
        read, is_lost = self._put(data)
        if is_lost:
            end = at + len(data[:read].decode())
            return self._error_at(end - 1, end, "no bytes for this character")
        return error

    def _put(self, data: bytes, last: bool = False) -> Tuple[int, bool]:
        """Encodes a text in UTF-8 up to the first character without bytes. Returns how many bytes were read, and whether
        the last character of these is one."""
        start, at, room, progress = c.address_of(data), 0, self._room, self._progress
        outcome = coders.OUTPUT_FULL
        while outcome == coders.OUTPUT_FULL:
            words = self._handle, start + at, len(data) - at, room.at, _ROOM, last, progress
            coders.checked(self._call(*words))
            at, outcome = at + progress.read, progress.outcome
            self._parts.append(room.data(progress.written))
            if self._coding.has_modes:
                self._state = self._coding.state_after(self._state, self._parts[-1])
        return at, outcome == coders.UNMAPPABLE

    def _error_at(self, start: int, end: int, reason: str) -> UnicodeEncodeError:
        return UnicodeEncodeError(self._coding.name, self._text, start, end, reason)

    def _replace(self, error: UnicodeEncodeError) -> int:
        """Writes what the handler has in place of a loss, and returns where it goes on."""
        replacement, position = _handled(self._errors, error, len(self._text))
        if isinstance(replacement, bytes):
            self._parts.append(replacement)
        elif replacement.isascii() and not self._coding.has_modes:
            self._parts.append(replacement.encode())
        elif self._put_block(0, replacement):
            raise error
        return position


def _state_of(coding: Coding, state: Any, count: int) -> int:
    """Returns a state, if it is below `count`. Raises `TypeError` or `UnicodeError` otherwise, as Python's codecs do."""
    number = operator.index(state)
    if not 0 <= number < count:
        raise UnicodeError("%s has no state %d" % (coding.name, number))
    return number


class _IncrementalDecoder(codecs.IncrementalDecoder):
    coding: Coding

    def __init__(self, errors: str = "strict"):
        super().__init__(errors)
        self._undecided, self._state = b"", self.coding.start

    def decode(self, input: Any, final: bool = False) -> str:
        data = self._undecided + c.bytes_of(input)
        text, end, self._state = self.coding.decode_part(data, self.errors, self._state, final)
        self._undecided = data[end:]
        return text

    def reset(self) -> None:
        self._undecided, self._state = b"", self.coding.start

    def getstate(self) -> Tuple[bytes, int]:
        return self._undecided, self._state

    def setstate(self, state: Tuple[bytes, int]) -> None:
        """Takes what `getstate` returned."""
        if not isinstance(state, tuple) or len(state) != 2:
            raise TypeError("a state of %s is bytes and a number" % self.coding.name)
        number, data = _state_of(self.coding, state[1], len(self.coding.begins)), c.bytes_of(state[0])
        if len(data) > _UNDECIDED:
            raise UnicodeError("no decoder of %s leaves %d bytes undecided" % (self.coding.name, len(data)))
        self._undecided, self._state = data, number


class _IncrementalEncoder(codecs.IncrementalEncoder):
    coding: Coding

    def __init__(self, errors: str = "strict"):
        super().__init__(errors)
        self._state, self._is_known = 0, True

    def encode(self, input: str, final: bool = False) -> bytes:
        data, self._state = self.coding.encode_part(input, self.errors, self._state, final)
        if data and not self._is_known:
            data, self._is_known = self.coding.joined(data), True
        return data

    def reset(self) -> None:
        self._state, self._is_known = 0, True

    def getstate(self) -> int:
        return self._state + 1 if self._is_known else 0

    def setstate(self, state: int) -> None:  # type: ignore[override]
        """Takes what `getstate` returned, or 0: the text goes on somewhere in a file, as `open` says before it appends."""
        number = _state_of(self.coding, state, len(self.coding.begin_texts) + 1)
        if number > 1 and not self.coding.begin_texts[number - 1]:
            raise UnicodeError("no encoder of %s has the state %d" % (self.coding.name, number))
        self._state, self._is_known = max(number - 1, 0), number > 0


class _StreamReader(codecs.StreamReader):
    coding: Coding

    def __init__(self, stream: Any, errors: str = "strict"):
        super().__init__(stream, errors)
        self._left, self._state = 0, self.coding.start

    def read(self, size: Optional[int] = -1, chars: Optional[int] = -1, firstline: bool = False) -> str:
        """Reads as every reader does. `None` means everything, as with files."""
        return super().read(-1 if size is None else size, -1 if chars is None else chars, firstline)

    def decode(self, input: Any, errors: str = "strict") -> Tuple[str, int]:
        """The text of what was left before and what was read. If nothing was read the input has ended, and what is left
        is malformed."""
        data = c.bytes_of(input)
        is_end = 0 < self._left == len(data)
        text, end, self._state = self.coding.decode_part(data, errors, self._state, is_end)
        self._left = len(data) - end
        return text, end

    def reset(self) -> None:
        super().reset()
        self._left, self._state = 0, self.coding.start


class _StreamWriter(codecs.StreamWriter):
    coding: Coding

    def __init__(self, stream: Any, errors: str = "strict"):
        super().__init__(stream, errors)
        self._state = 0

    def encode(self, input: str, errors: str = "strict") -> Tuple[bytes, int]:
        data, self._state = self.coding.encode_part(input, errors, self._state, False)
        return data, len(input)

    def reset(self) -> None:
        """Writes what is still open."""
        data, self._state = self.coding.encode_part("", self.errors, self._state)
        if data:
            self.stream.write(data)


def info_of(coding: Coding) -> codecs.CodecInfo:
    """All that Python asks of a codec."""

    def made(kind: Type[Any]) -> Any:
        return type(kind.__name__.lstrip("_"), (kind,), {"coding": coding, "__module__": __name__})

    def encode(input: str, errors: str = "strict") -> Tuple[bytes, int]:
        return coding.encode_part(input, errors)[0], len(input)

    def decode(input: Any, errors: str = "strict") -> Tuple[str, int]:
        text, end, _ = coding.decode_part(c.bytes_of(input), errors, coding.start)
        return text, end

    return codecs.CodecInfo(
        encode,
        decode,
        made(_StreamReader),
        made(_StreamWriter),
        made(_IncrementalEncoder),
        made(_IncrementalDecoder),
        coding.name,
    )


_KINDS: Dict[str, Type[Coding]] = {"replacement": _Replacement, "ISO-2022-JP": _Iso2022Jp}


def coding_of(name: str, keeps_mark: bool = False) -> Coding:
    """The encoding of this name; one that keeps a mark takes it for text."""
    has_mark = name.startswith("UTF-") and not keeps_mark
    return _KINDS.get(name, _Marked if has_mark else Coding)("web-" + name.lower(), number_of(name))


@lru_cache(maxsize=None)
def _web_info(name: str) -> codecs.CodecInfo:
    return info_of(coding_of(name))


def search(name: str) -> Optional[codecs.CodecInfo]:
    """The codec of a name that begins with `web-`, or nothing: what `codecs.register` asks for. Raises `UnknownLabel` for a
    name of Python's that is no label, if there is a near one."""
    begin, label = name[:4], name[4:]
    if begin != "web_":
        return None
    meant = label_of(label)
    if meant is not None:
        return _web_info(LABELS[meant])
    nearest = nearest_to(label)
    if nearest is not None:
        raise UnknownLabel("web-" + label, "web-" + nearest)
    return None


codecs.register(search)
