"""The shared library: its types, its calls and its numbers, as `include/jillapun.h` has them."""

import ctypes
import os
import struct
from functools import lru_cache
from pathlib import Path
from typing import Any, Dict, Literal, Optional

Size = ctypes.c_size_t
Byte = ctypes.c_uint8
Long = ctypes.c_uint64

# Statuses.
OK, LOSSY, UNKNOWN, NOT_READY, BAD_INDEX, NO_MEMORY, CLOSED, IN_USE, FINISHED, NOT_UTF8, ROOM = range(11)
GOES_ON, STOPPED, TOO_LONG, NOT_WELL_FORMED = range(11, 15)

# Kinds of losses.
BAD, LOST = range(2)

Mark = Literal["sniff", "remove", "keep"]
Unmappable = Literal["decimal", "hexadecimal", "stop"]


class Words(Dict[str, int]):
    """The values of a parameter, each with its number. Any other raises `ValueError`."""

    def __init__(self, parameter: str, *values: str):
        super().__init__((value, number) for number, value in enumerate(values))
        self._parameter = parameter

    def __missing__(self, value: object) -> int:
        *others, last = map(repr, self)
        raise ValueError("%s=%r: use %s or %s" % (self._parameter, value, ", ".join(others), last))


MARKS = Words("mark", "sniff", "remove", "keep")
POLICIES = Words("unmappable", "decimal", "hexadecimal", "stop")

NO_ENCODING = 255
NO_LIMIT = 2**64 - 1


class Bytes(ctypes.Structure):
    """Bytes that are lent for a call."""

    _fields_ = [("at", ctypes.c_char_p), ("len", Size)]

    @classmethod
    def of(cls, data: bytes) -> "Bytes":
        return cls(data, len(data))


class IndexFile(ctypes.Structure):
    _fields_ = [("name", Bytes), ("text", Bytes)]


# The same record, as many of them are read at once: addresses, each with its length.
_INDEX_FILE = struct.Struct("4Q")


class IndexFault(ctypes.Structure):
    _fields_ = [("file", Size), ("line", Size)]


class Tables(ctypes.Structure):
    """Loaded tables: of these a copy is as good."""

    _fields_ = [("at", ctypes.c_void_p), ("is_open", ctypes.c_bool)]


class Converter(ctypes.Structure):
    """A conversion by steps: there is nothing to free. What it keeps is the library's own; `include/jillapun.h` says how
    many bytes that is."""

    _fields_ = [("tables", Tables), ("words", Long * 153)]


class Loss(ctypes.Structure):
    _fields_ = [("place", Long), ("number", ctypes.c_uint32), ("kind", Byte)]


# The same record, as many of them are read at once, and where its kind stands.
LOSS, KIND = struct.Struct("QIB0Q"), Loss.kind.offset


class Report(ctypes.Structure):
    _fields_ = [
        ("read", Long),
        ("bad", Long),
        ("lost", Long),
        ("characters", Long),
        ("written", Long),
        ("losses", Long),
        ("index", Long),
        ("scalar", ctypes.c_uint32),
    ]


class Decoded(ctypes.Structure):
    _fields_ = [("written", Size), ("mark_len", Size), ("encoding", Byte), ("is_own", ctypes.c_bool)]


class ConverterProgress(ctypes.Structure):
    _fields_ = [("read", Size), ("written", Size), ("losses", Size), ("wants_room", ctypes.c_bool)]


# The name that the system finds the library by. It has the number of the interface.
SONAME = "libjillapun.so.0"

# The features of x86-64-v2, for which the library is built, as Linux names them.
FEATURES = {"cx16", "lahf_lm", "pni", "popcnt", "sse4_1", "sse4_2", "ssse3"}
CPUINFO = "/proc/cpuinfo"


def _missing() -> str:
    """The features that this processor lacks; none if the system does not list them."""
    try:
        with open(CPUINFO, encoding="ascii", errors="replace") as file:
            flags = next((line for line in file if line.startswith("flags")), None)
    except OSError:
        flags = None
    return " ".join(sorted(FEATURES.difference(flags.split()))) if flags else ""


def _place() -> str:
    """Where the library is: beside this package, as a wheel has it; where JILLAPUN_LIBRARY says; in the repository or the
    unpacked archive that this package stands in; or where the system finds it."""
    here = Path(__file__).resolve().parent
    own, named = here / "libjillapun.so", os.environ.get("JILLAPUN_LIBRARY")
    if named and not own.is_file():
        return named
    near = own, *(here.parent.parent / folder / "libjillapun.so" for folder in ("out/c", "lib"))
    return next((str(path) for path in near if path.is_file()), SONAME)


def _loaded() -> ctypes.CDLL:
    missing = _missing()
    if missing:
        raise ImportError("jillapun needs a processor of x86-64-v2, and this one lacks %s" % missing)
    try:
        return ctypes.CDLL(_place())
    except OSError as fault:
        raise ImportError("%s; JILLAPUN_LIBRARY can name another libjillapun.so" % fault) from fault


library = _loaded()


def _declare(name: str, result: Optional[type], *parameters: type) -> None:
    call = getattr(library, name)
    call.restype = result
    call.argtypes = list(parameters)


_LENT = (ctypes.c_char_p, Size)
_ROOM = (ctypes.c_void_p, Size)
_CONVERTER = ctypes.POINTER(Converter)
_REPORT = ctypes.POINTER(Report)

_declare("jillapun_for_label", Byte, *_LENT)
_declare("jillapun_name", Size, Byte, *_ROOM)
_declare("jillapun_output_encoding", Byte, Byte)
_declare(
    "jillapun_tables_new", Byte, ctypes.POINTER(IndexFile), Size, ctypes.POINTER(Tables), ctypes.POINTER(IndexFault)
)
_declare("jillapun_convert", Byte, Tables, Byte, Byte, Byte, Byte, Long, *_LENT, *_ROOM, *_ROOM, _REPORT)


@lru_cache(maxsize=None)
def streams() -> ctypes.CDLL:
    """The library, with the calls of conversions by steps declared, those of parts, and the one that finds a mark."""
    told = (ctypes.POINTER(ConverterProgress), _REPORT)
    _declare("jillapun_converter_new", Byte, Tables, Byte, Byte, Byte, Byte, Long, _CONVERTER)
    _declare("jillapun_converter_step", Byte, _CONVERTER, *_ROOM, ctypes.c_bool, *_ROOM, *_ROOM, *told)
    _declare("jillapun_for_bom", Byte, *_LENT, ctypes.POINTER(Size))
    _declare("jillapun_part_encoding", Byte, Byte, Byte, Byte, *_LENT)
    _declare("jillapun_join_loss", ctypes.c_bool, _REPORT, ctypes.POINTER(Loss))
    _declare("jillapun_join_reports", ctypes.c_bool, _REPORT, _REPORT)
    return library


def index_texts() -> Dict[str, bytes]:
    """The index texts that are part of the library, by the names of their files."""
    try:
        count = Size.in_dll(library, "jillapun_index_files_len").value
        rows = (ctypes.c_char * (count * _INDEX_FILE.size)).in_dll(library, "jillapun_index_files")
    except ValueError:
        return {}
    parts = (ctypes.string_at(at, size) for row in _INDEX_FILE.iter_unpack(rows.raw) for at, size in (row[:2], row[2:]))
    return {name.decode("ascii"): text for name, text in zip(parts, parts)}


def bytes_of(data: Any) -> bytes:
    """The bytes of an object that has some, as `bytearray` and `memoryview`; a number or a text has none."""
    return data if type(data) is bytes else bytes(memoryview(data))


def limit_of(limit: Optional[int]) -> int:
    """A limit as the library has it. Raises `ValueError` for a number below 0."""
    if limit is None:
        return NO_LIMIT
    if limit < 0:
        raise ValueError("limit=%d: it must not be negative" % limit)
    return min(limit, NO_LIMIT)


def address_of(data: bytes) -> int:
    """Where the bytes stand, as long as they are kept: a call may be handed what follows a place in them."""
    return ctypes.cast(ctypes.c_char_p(data), ctypes.c_void_p).value or 0
