"""The interface of the package `webencodings` 0.5, over this library.

html5lib, tinycss2 and packages that use them run over it, if it replaces that package before they are imported:

    import sys, jillapun.webencodings
    sys.modules["webencodings"] = jillapun.webencodings

Labels and malformed sequences are those of today's Encoding Standard: `hz-gb-2312` and `iso-2022-kr` are labels of
replacement, 14 more labels are known, and `\\x81` in windows-1252 is U+0081, not an error. Text is encoded to UTF-16 by
Python's own codecs, since the standard has no encoder for it.

>>> decode(b"\\x83\\x6e", "shift_jis")
('ハ', <Encoding shift_jis>)
"""

import codecs
from functools import lru_cache
from typing import Any, Callable, Iterable, Iterator, Optional, Tuple, Union, cast

from ._labels import LABELS as _NAMES
from .codecs import coding_of, info_of

__all__ = [
    "LABELS",
    "UTF8",
    "VERSION",
    "Encoding",
    "IncrementalDecoder",
    "IncrementalEncoder",
    "ascii_lower",
    "decode",
    "encode",
    "iter_decode",
    "iter_encode",
    "lookup",
]

# The version of the interface.
VERSION = "0.5.1"

LABELS = {label: name.lower() for label, name in _NAMES.items()}
"""Each label with the name of its encoding, in small letters."""

_SMALL = {letter: letter + 32 for letter in range(ord("A"), ord("Z") + 1)}


def ascii_lower(string: str) -> str:
    """The text with small letters for A to Z alone: so the standard compares labels, and CSS its names."""
    return string.lower() if string.isascii() else string.translate(_SMALL)


class Encoding:
    """An encoding of the standard."""

    def __init__(self, name: str, codec_info: codecs.CodecInfo):
        self.name = name
        """Its name, in small letters."""
        self.codec_info = codec_info
        """What decodes and encodes, as `codecs.lookup` has it. A byte order mark is text to it."""

    def __repr__(self) -> str:
        return "<Encoding %s>" % self.name


@lru_cache(maxsize=None)
def _encoding(name: str) -> Encoding:
    info = info_of(coding_of(name, keeps_mark=True))
    if name.startswith("UTF-16"):
        python = codecs.lookup(name.replace("UTF-16", "utf-16-"))
        info = codecs.CodecInfo(
            python.encode,
            info.decode,
            info.streamreader,
            python.streamwriter,
            python.incrementalencoder,
            info.incrementaldecoder,
            info.name,
        )
    return Encoding(name.lower(), info)


def lookup(label: str) -> Optional[Encoding]:
    """The encoding that has this label, or None ("get an encoding", section 4.2 of the standard)."""
    name = _NAMES.get(ascii_lower(label.strip("\t\n\f\r ")))
    return _encoding(name) if name else None


UTF8 = _encoding("UTF-8")

_MARKS = {b"\xef\xbb\xbf": UTF8, b"\xff\xfe": _encoding("UTF-16LE"), b"\xfe\xff": _encoding("UTF-16BE")}
_LONGEST_MARK = 3


def _encoding_of(encoding: Union[Encoding, str]) -> Encoding:
    found = encoding if isinstance(encoding, Encoding) else lookup(encoding)
    if found is None:
        raise LookupError("Unknown encoding label: %r" % encoding)
    return found


def _sniffed(data: bytes) -> Tuple[Optional[Encoding], bytes]:
    """The encoding of the mark at the start, or None, and what follows the mark."""
    for mark, encoding in _MARKS.items():
        if data.startswith(mark):
            return encoding, data[len(mark) :]
    return None, data


def decode(input: bytes, fallback_encoding: Union[Encoding, str], errors: str = "replace") -> Tuple[str, Encoding]:
    """The text of an input, and the encoding that it was in: that of its byte order mark, or else the fallback. Raises
    `LookupError` for a label that no encoding has."""
    fallback = _encoding_of(fallback_encoding)
    marked, rest = _sniffed(input)
    encoding = marked or fallback
    return encoding.codec_info.decode(rest, errors)[0], encoding


def encode(input: str, encoding: Union[Encoding, str] = UTF8, errors: str = "strict") -> bytes:
    """The bytes of a text. Raises `LookupError` for a label that no encoding has."""
    return _encoding_of(encoding).codec_info.encode(input, errors)[0]


class IncrementalDecoder:
    """Decodes an input part by part, as `decode` does a whole one."""

    def __init__(self, fallback_encoding: Union[Encoding, str], errors: str = "replace"):
        self._fallback, self._errors, self._start = _encoding_of(fallback_encoding), errors, b""
        self._decode: Optional[Callable[[bytes, bool], str]] = None
        self.encoding: Optional[Encoding] = None
        """The encoding of the input; None as long as a byte order mark may still come."""

    def decode(self, input: bytes, final: bool = False) -> str:
        """The text of the next part; `final` says that it is the last."""
        if self._decode:
            return self._decode(input, final)
        self._start += input
        marked, rest = _sniffed(self._start)
        if not (marked or final) and len(rest) < _LONGEST_MARK:
            return ""
        self.encoding = marked or self._fallback
        self._decode = self.encoding.codec_info.incrementaldecoder(self._errors).decode
        return self._decode(rest, final)


class IncrementalEncoder:
    """Encodes a text part by part."""

    def __init__(self, encoding: Union[Encoding, str] = UTF8, errors: str = "strict"):
        self._encode: Callable[[str, bool], bytes] = _encoding_of(encoding).codec_info.incrementalencoder(errors).encode

    def encode(self, input: str, final: bool = False) -> bytes:
        """The bytes of the next part; `final` says that it is the last."""
        return self._encode(input, final)


def _outputs(call: Callable[[Any, bool], Any], begun: Any, parts: Iterable[Any], empty: Any) -> Iterator[Any]:
    """What was begun, and what a call makes of each further part and of the end, but for what is empty."""
    if begun:
        yield begun
    for part in parts:
        output = call(part, False)
        if output:
            yield output
    output = call(empty, True)
    if output:
        yield output


def iter_decode(
    input: Iterable[bytes], fallback_encoding: Union[Encoding, str], errors: str = "replace"
) -> Tuple[Iterator[str], Encoding]:
    """The text of the parts of an input, as an iterator that reads them as it goes, and the encoding, for which only the
    first are read."""
    decoder, parts, begun = IncrementalDecoder(fallback_encoding, errors), iter(input), ""
    for part in parts:
        begun = decoder.decode(part)
        if decoder.encoding:
            break
    else:
        begun = decoder.decode(b"", final=True)
    return _outputs(decoder.decode, begun, parts, b""), cast(Encoding, decoder.encoding)


def iter_encode(input: Iterable[str], encoding: Union[Encoding, str] = UTF8, errors: str = "strict") -> Iterator[bytes]:
    """The bytes of the parts of a text, as an iterator that reads them as it goes."""
    return _outputs(IncrementalEncoder(encoding, errors).encode, b"", input, "")
