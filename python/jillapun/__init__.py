"""Converts between bytes and text in the encodings of the Encoding Standard, and reports exactly what was lost.

    >>> import jillapun
    >>> jillapun.decode(b"A\\x83\\x6e\\xff", "shift_jis")
    Decoded(text='Aハ�', losses=[Bad(offset=3, length=1)])
    >>> jillapun.convert("a¥b".encode(), "utf-8", "shift_jis")
    Converted(output=b'a\\\\b', losses=[], faithful=False)

The second call has no losses in its list and is not faithful: the yen sign is written as a byte that reads back as a
backslash. The package calls the shared library `libjillapun.so`, and otherwise needs only Python's standard library.

- `decode`, `encode`, `convert`: texts and bytes in memory.
- `convert_file`: a file into another, or in place.
- `open`, `Reader`, `Writer`: text files. `Decoder`, `Encoder`, `Converter`: streams, chunk by chunk.
- `register`: codecs for Python's own `open`, `bytes.decode` and everything else that takes the name of an encoding.
- `which`: how each encoding reads an input, without a guess.
- `Indexes`: indexes other than those in the library, from a folder. `name`, `output_name`: labels.
- `part_encoding`: whether an input can be converted in parts, and from which encoding. `join_losses`, `join_reports`:
  the losses and reports of the parts as those of the whole.

An unknown label raises `UnknownLabel`, which is a `LookupError`. Calls of several threads run in parallel: Python's lock
is released while the library works, except in `decode` and `encode` of at most 1 KiB.
"""

from ._files import AlreadyUtf8, convert_file
from ._indexes import Indexes, default_folder, name, output_name, part_encoding
from ._joins import join_losses, join_reports
from ._results import (
    Bad,
    Converted,
    ConvertedFile,
    ConvertedPart,
    Decoded,
    DecodedKept,
    Encoded,
    EncodedKept,
    IndexesMissing,
    JillapunError,
    Lost,
    NotReplaced,
    Report,
    Stopped,
    TooLong,
    UnknownLabel,
)
from ._streams import Converter, Decoder, Encoder, Reader, Writer, open
from ._texts import convert, decode, encode
from ._version import __version__
from ._which import Reading, Which, which


def register() -> None:
    """Registers each encoding as a codec of Python, under its labels after `web-`: `open(path, encoding="web-shift_jis")`.
    See `jillapun.codecs`."""
    from . import codecs  # noqa: F401


__all__ = [
    "AlreadyUtf8",
    "Bad",
    "Converted",
    "ConvertedFile",
    "ConvertedPart",
    "Converter",
    "Decoded",
    "DecodedKept",
    "Decoder",
    "Encoded",
    "EncodedKept",
    "Encoder",
    "Indexes",
    "IndexesMissing",
    "JillapunError",
    "Lost",
    "NotReplaced",
    "Reader",
    "Reading",
    "Report",
    "Stopped",
    "TooLong",
    "UnknownLabel",
    "Which",
    "Writer",
    "__version__",
    "convert",
    "convert_file",
    "decode",
    "default_folder",
    "encode",
    "join_losses",
    "join_reports",
    "name",
    "open",
    "output_name",
    "part_encoding",
    "register",
    "which",
]
