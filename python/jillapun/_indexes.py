"""Labels of encodings, and the indexes that they need."""

import ctypes
import hashlib
import os
from functools import lru_cache
from pathlib import Path
from typing import Dict, Mapping, Optional, Union

from . import _library as c
from ._python_names import label_of, nearest_to
from ._results import IndexesMissing, UnknownLabel

PathLike = Union[str, "os.PathLike[str]"]

# The index texts that decide which characters the encodings with folds write as others, and the SHA-256 of them in a row,
# as the Encoding Standard has them.
FOLDING = ("jis0208", "jis0212", "iso-2022-jp-katakana", "gb18030", "gb18030-ranges")
FOLDING_SHA256 = "af0916d563269263f7f339a6d151e4e3d0c3af456d140f6eb067059034f2aabb"


# No label has more characters, without white space. A longer one is made plain before it is the key of a cache, since white
# space around it could fill any amount of memory.
LONGEST = 32


def plain(label: str) -> str:
    """A label as the standard compares it: without white space around it, A to Z as small letters."""
    word = label.strip("\t\n\f\r ")
    return word.lower() if word.isascii() else word


def number_of(label: str) -> int:
    """The number of the encoding that has this label, or this name in Python."""
    return _number_of(plain(label))


@lru_cache(maxsize=1 << 10)
def _number_of(label: str) -> int:
    word = label.encode("utf-8", "replace")
    number: int = c.library.jillapun_for_label(word, len(word))
    if number != c.NO_ENCODING:
        return number
    python = label.replace("-", "_").replace(":", "_")
    meant = label_of(python)
    if meant is None:
        raise UnknownLabel(label, nearest_to(python))
    return _number_of(meant)


@lru_cache(maxsize=None)
def name_of(number: int) -> str:
    room = ctypes.create_string_buffer(32)
    length = c.library.jillapun_name(number, room, 32)
    return room.raw[:length].decode("ascii")


def name(label: str) -> str:
    """Returns the Encoding Standard's name of the encoding with this label: `Shift_JIS` for `sjis`. White space around the
    label and the case of letters do not matter. A Python name is accepted if it is a label but for `_` in place of `-`,
    or if Python's codec has the same two-byte index, as `cp932` has. Raises `UnknownLabel`."""
    return name_of(number_of(label))


def output_name(label: str) -> str:
    """Returns the name of the encoding that is used for output if this one is asked for: UTF-8 for UTF-16 and replacement,
    the encoding itself for all others."""
    return name_of(c.library.jillapun_output_encoding(number_of(label)))


def part_encoding(head: bytes, source: str, target: str, *, mark: c.Mark = "sniff") -> Optional[str]:
    """Returns the name of the encoding to convert each part of an input but the first from, with `mark="keep"`; `None` if
    the input cannot be cut. Cut it after bytes below 30 (hexadecimal), such as a line feed, and convert the first part
    as you would the whole. `head` is the beginning of the input: three bytes or more, or all of it. `join_losses` and
    `join_reports` join the losses and reports of the parts."""
    begin = c.bytes_of(head)
    words = number_of(source), number_of(target), c.MARKS[mark], begin, len(begin)
    number: int = c.streams().jillapun_part_encoding(*words)
    return None if number == c.NO_ENCODING else name_of(number)


def default_folder() -> Optional[Path]:
    """Returns the folder of index files that the environment variable JILLAPUN_INDEXES names, or `None`: then those in the
    library are used."""
    named = os.environ.get("JILLAPUN_INDEXES")
    return Path(named) if named else None


def _texts_in(folder: Path) -> Dict[str, bytes]:
    texts = {path.name: path.read_bytes() for path in sorted(folder.glob("index-*.txt"))}
    if not texts:
        raise IndexesMissing("%s: no index-*.txt in it" % folder)
    return texts


class Indexes:
    """Indexes of encodings, from a folder of index texts or from texts in memory.

    They are loaded once and never freed: make one object, and pass it to each call. Without one, a call uses the indexes
    of `default_folder()` or those in the library. Threads can share one.
    """

    def __init__(self, folder: Optional[PathLike] = None, *, texts: Optional[Mapping[str, bytes]] = None):
        """Loads the files `index-*.txt` of a folder, or `texts` with those names. Raises `IndexesMissing`, which names the
        faulty file, and the line if there is one."""
        if texts is None:
            place = Path(folder) if folder is not None else default_folder()
            texts = _texts_in(place) if place is not None else c.index_texts()
        self.handle = _loaded(texts)
        folding = b"".join(texts.get("index-%s.txt" % kind, b"") for kind in FOLDING)
        # Whether characters are written as others where the standard's indexes have it so.
        self.have_standard_folds = hashlib.sha256(folding).hexdigest() == FOLDING_SHA256


def _loaded(texts: Mapping[str, bytes]) -> c.Tables:
    names = list(texts)
    rows = [c.IndexFile(c.Bytes.of(name.encode()), c.Bytes.of(c.bytes_of(text))) for name, text in texts.items()]
    files = (c.IndexFile * max(len(rows), 1))(*rows)
    handle, fault = c.Tables(), c.IndexFault()
    status = c.library.jillapun_tables_new(files, len(rows), ctypes.byref(handle), ctypes.byref(fault))
    if status == c.NO_MEMORY:
        raise MemoryError
    if status == c.UNKNOWN:
        raise IndexesMissing("%s: no such index" % names[fault.file])
    if status != c.OK:
        place = "line %d is faulty" % fault.line if fault.line else "no line alone is faulty"
        raise IndexesMissing("%s: %s" % (names[fault.file], place))
    return handle


_defaults: Dict[str, Indexes] = {}


def indexes_of(indexes: Optional[Indexes]) -> Indexes:
    """These indexes, or the default ones, which are loaded when they are first wanted.

    No lock is held meanwhile: a handler of a signal, a `__del__` or a forked child would wait for it for ever. So two
    threads may each load them, and both then have those that were ready first."""
    if indexes is not None:
        return indexes
    return _defaults.get("default") or _defaults.setdefault("default", Indexes())


def handle_of(indexes: Optional[Indexes]) -> c.Tables:
    """The handle of these indexes, or of the default ones."""
    return indexes_of(indexes).handle
