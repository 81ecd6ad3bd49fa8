"""The calls for whole texts, with as little around them as Python allows.

To convert an argument to the type that a call declares takes Python as long as the call. So these calls declare none, and
are handed what has its type already: bytes, structures, references, numbers with their type, and numbers of a byte, which
are an `int` in C, too.
"""

import ctypes
import re
from functools import lru_cache
from typing import Any, Optional, Tuple

from . import _library as c
from ._indexes import Indexes, handle_of, indexes_of, name_of, number_of

# An input or a text so short, in bytes, is first tried by a call that makes no list of what is lost.
SHORT = 1 << 10

# The length of each, with its type.
LENGTHS: Any = [c.Size.from_param(length) for length in range(SHORT + 1)]

NO_LIMIT: Any = c.Long.from_param(c.NO_LIMIT)


def _export(library: ctypes.CDLL, name: str) -> Any:
    """An export that returns a status, with no parameter declared."""
    call = library[name]
    call.restype = c.Byte
    return call


# Of a short text Python's lock is kept: to let it go and take it back takes as long as the text.
_locked = ctypes.PyDLL(c.library._name, handle=c.library._handle)
decode_short, encode_short = _export(_locked, "jillapun_decode"), _export(_locked, "jillapun_encode")
convert_all = _export(c.library, "jillapun_convert")

# The characters that an encoding writes as bytes that read back as another, by the standard's indexes. `encode_short` does
# not report them, but `convert_all` does.
FOLDED = {
    "Shift_JIS": "\xa5\u203e\u2212",
    "EUC-JP": "\xa5\u203e\u2212",
    "ISO-2022-JP": "\u2212\uff61-\uff9f",
    "gb18030": "\ue78d-\ue796\ue81e\ue826\ue82b\ue82c\ue832\ue843\ue854\ue864",
    "GBK": "\ue78d-\ue796\ue81e\ue826\ue82b\ue82c\ue832\ue843\ue854\ue864",
}


def _tables(indexes: Optional[Indexes]) -> Tuple[Any, bool]:
    """A handle of tables as the two words that it is. By the calling convention of x86-64, for which the library is, they
    go into the registers that the handle would go into, and to hand over a structure takes Python a tenth of a call."""
    handle = handle_of(indexes)
    return ctypes.c_void_p.from_param(handle.at), handle.is_open


@lru_cache(maxsize=1 << 8)
def decoding(encoding: str, mark: str, indexes: Optional[Indexes]) -> Tuple[Any, ...]:
    """The first arguments of `decode_short`."""
    number, at_mark = number_of(encoding), c.MARKS[mark]
    return (*_tables(indexes), number, at_mark)


@lru_cache(maxsize=1 << 8)
def encoding_to(encoding: str, unmappable: str, indexes: Optional[Indexes]) -> Tuple[Any, ...]:
    """The first arguments of `encode_short`, and what finds a character that it does not report, if there is one. By
    other indexes than the standard's each text may have one."""
    number, _ = number_of(encoding), c.POLICIES[unmappable]
    folded = FOLDED.get(name_of(number))
    if folded is not None:
        folded = "[%s]" % folded if indexes_of(indexes).have_standard_folds else ""
    return (*_tables(indexes), number, None if folded is None else re.compile(folded).search)


@lru_cache(maxsize=1 << 8)
def converting(source: str, target: str, mark: str, unmappable: str, indexes: Optional[Indexes]) -> Tuple[Any, ...]:
    """The first arguments of `convert_all`."""
    words = number_of(source), number_of(target), c.MARKS[mark], c.POLICIES[unmappable]
    return (*_tables(indexes), *words)
