"""Calls with what only C can pass: NULL for no elements, a handle after a refusal, and a handle with any content. For
`c_interface.py`, which runs this in a process of its own, so a call that reads or writes where it must not ends that process.
"""

import ctypes
import mmap
import random
import re

import c_header
from c_streams import NUMBERS, Streams

SEED, ROUNDS = 100, 40
PAGE = mmap.PAGESIZE
# Encodings whose decoders keep something between calls: pending bytes, or the mode of ISO-2022-JP.
NAMES = ("UTF-8", "UTF-16LE", "gb18030", "Shift_JIS", "EUC-JP", "ISO-2022-JP", "windows-1252")
BYTES = b"\xef\xbb\xbfA\x1b$B0l\x83\x6e\xff\xfe\x81\x30\x89" * 40


class Guarded:
    """Memory that ends where a page without access begins."""

    def __init__(self, size):
        self.size, self.pages = size, -(-size // PAGE) + 1
        self.map = mmap.mmap(-1, self.pages * PAGE)
        start = ctypes.addressof(ctypes.c_char.from_buffer(self.map))
        last = start + (self.pages - 1) * PAGE
        if ctypes.CDLL(None, use_errno=True).mprotect(ctypes.c_void_p(last), PAGE, 0):
            raise OSError(ctypes.get_errno(), "mprotect")
        self.at = last - size

    def holding(self, value):
        """A copy of a struct, at the end of this memory."""
        copy = type(value).from_address(self.at)
        ctypes.memmove(self.at, ctypes.byref(value), self.size)
        return copy


def members(struct, before=()):
    """The members of a struct, and of the structs in it: each the way to it, and its type."""
    for name, kind in struct._fields_:
        if hasattr(kind, "_fields_"):
            yield from members(kind, (*before, name))
        else:
            yield (*before, name), kind


def owner(value, way):
    """The struct that has the member at the end of a way."""
    for name in way[:-1]:
        value = getattr(value, name)
    return value


def values(struct):
    """The values of all members: lists as tuples, and of an address whether it is one."""
    for way, kind in members(type(struct)):
        value = getattr(owner(struct, way), way[-1])
        yield way, tuple(value) if issubclass(kind, ctypes.Array) else bool(value) if kind is ctypes.c_void_p else value


class Handles:
    """The calls over tables with all indexes."""

    def __init__(self, library):
        self.library, self.random = library, random.Random(SEED)
        self.streams, self.wrong = Streams(library), []
        self.tables, self.numbers = self.streams.tables, self.streams.numbers
        self.names = {number: name for name, number in self.numbers.items()}
        self.room = Guarded(64)

    def made(self, kind, name="UTF-8", to="windows-1252"):
        """A handle that holds a new decoder, encoder or converter."""
        handle = self.library.struct(kind)()
        number, other, sniff = self.numbers[name], self.numbers[to], NUMBERS["SNIFF"]
        if kind == "DecoderHandle":
            status = self.library.jillapun_decoder_new(self.tables, number, sniff, handle)
        elif kind == "EncoderHandle":
            status = self.library.jillapun_encoder_new(self.tables, number, handle)
        else:
            words = (number, other, sniff, NUMBERS["DECIMAL"], 2**40)
            status = self.library.jillapun_converter_new(self.tables, *words, handle)
        if status != NUMBERS["OK"]:
            self.wrong.append("%s of %s: status %d" % (kind, name, status))
        return handle

    def refused(self):
        """What a call leaves that makes nothing, in a handle that held something."""
        none, wrong, utf8 = self.library.struct("TablesHandle")(), len(self.numbers), self.numbers["UTF-8"]
        gbk, sniff = self.numbers["GBK"], NUMBERS["SNIFF"]
        for status, tables, number in (("UNKNOWN", self.tables, wrong), ("NOT_READY", none, gbk)):
            for kind, call, words in (
                ("DecoderHandle", "jillapun_decoder_new", (number, sniff)),
                ("EncoderHandle", "jillapun_encoder_new", (number,)),
                ("ConverterHandle", "jillapun_converter_new", (utf8, number, sniff, NUMBERS["DECIMAL"], 9)),
            ):
                handle = self.made(kind)
                got = getattr(self.library, call)(tables, *words, handle)
                left = [way for way, value in values(handle) if any(value if isinstance(value, tuple) else [value])]
                if got != NUMBERS[status] or left:
                    self.wrong.append("%s that is refused: status %d, and it leaves %s" % (call, got, left))

    def used(self, handle):
        """Calls on a handle, whatever it holds. What they write has its length checked, and nothing else."""
        name, dst = type(handle).__name__, (ctypes.c_uint8 * self.room.size).from_address(self.room.at)
        if name == "DecoderHandle":
            progress, length = self.library.struct("Progress")(), ctypes.c_size_t()
            for last in (False, True):
                self.library.jillapun_decoder_max_utf8_length(handle, 9, length)
                self.library.jillapun_decoder_latin1_byte_compatible_up_to(handle, BYTES, length)
                self.library.jillapun_decoder_decode_to_utf8(handle, BYTES, dst, last, progress)
                self.within(name, progress.written, len(dst))
        elif name == "EncoderHandle":
            progress = self.library.struct("EncoderProgress")()
            for last in (False, True):
                self.library.jillapun_encoder_encode_from_utf8(handle, "aé日".encode(), dst, last, progress)
                self.within(name, progress.written, len(dst))
        else:
            progress, report = self.library.struct("ConverterProgress")(), self.library.struct("Report")()
            losses = (self.library.struct("Loss") * 4)()
            for last in (False, True):
                self.library.jillapun_converter_step(handle, BYTES, last, dst, losses, progress, report)
                self.within(name, progress.written, len(dst))
                self.within(name, progress.losses, len(losses))

    def within(self, name, written, most):
        if written > most:
            self.wrong.append("%s: %d written into %d" % (name, written, most))

    def contents(self):
        """Handles over good tables with other contents than a call left: each member by itself, and all at random."""
        count = 0
        for kind in ("DecoderHandle", "EncoderHandle", "ConverterHandle"):
            place = Guarded(ctypes.sizeof(self.library.struct(kind)))
            for name in NAMES:
                for change in self.changes(kind):
                    handle = place.holding(self.made(kind, name))
                    change(handle)
                    self.used(handle)
                    count += 1
        print("handles: %d with other contents than a call left" % count)

    def changes(self, kind):
        """What is done to a handle: each returned function does one thing to it."""
        ways = [(way, it) for way, it in members(self.library.struct(kind)) if way[0] != "private_tables"]
        for way, it in ways:
            if not issubclass(it, ctypes.Array):
                most = 1 if it is ctypes.c_bool else 2 ** (8 * ctypes.sizeof(it)) - 1
                for value in {0, 1, 2, 3, 4, 6, 7, 32, 33, 255, 1024, 1025, 2**16, most}:
                    if value <= most:
                        yield lambda handle, way=way, value=value: self.set(handle, [(way, value)])
        for _ in range(ROUNDS):
            yield lambda handle: self.set(handle, [(way, self.any_of(it)) for way, it in ways])

    def any_of(self, it):
        """A value of a type at random."""
        if issubclass(it, ctypes.Array):
            return it(*(self.any_of(it._type_) for _ in range(it._length_)))
        if it is ctypes.c_bool:
            return self.random.choice((False, True))
        return self.random.getrandbits(self.random.choice((1, 2, 4, 8 * ctypes.sizeof(it))))

    @staticmethod
    def set(handle, found):
        for way, value in found:
            setattr(owner(handle, way), way[-1], value)

    def nulls(self):
        """Each export with no elements, at an address and at NULL: what it returns and writes is the same."""
        count = 0
        for module in c_header.Header().modules:
            for _, name, parameters, _ in module.exports:
                named = [(it, self.kind(kind)) for it, kind in c_header.parts(parameters) if kind != "Global"]
                if not any(kind.endswith("]") for _, kind in named):
                    continue
                is_of_one = any(it in ("encoding", "from") or kind.endswith("Handle") for it, kind in named)
                for encoding in self.names if is_of_one else (0,):
                    here, null = (self.empty(name, named, encoding, at) for at in (True, False))
                    count += 1
                    if here != null:
                        self.wrong.append("%s: %s at NULL, and not %s" % (name, null, here))
        print("NULL: %d calls with no elements" % count)

    @staticmethod
    def kind(it):
        return re.sub(r"<'\w+>", "", it)

    def empty(self, name, named, encoding, at):
        """What an export returns and leaves if it is handed no elements."""
        given, kept = [], []
        for it, kind in named:
            if kind.endswith("]"):
                given += [ctypes.c_void_p(ctypes.addressof(SOMEWHERE) if at else 0), ctypes.c_size_t(0)]
            elif kind.startswith("&"):
                kept.append(self.referred(kind.removeprefix("&").removeprefix("mut "), encoding))
                given.append(ctypes.byref(kept[-1]))
            elif kind == "TablesHandle":
                given.append(self.tables)
            else:
                value = encoding if it in ("encoding", "from", "to") else 1
                given.append(self.library.kind(kind)(value))
        returned = self.library.exports[name][0](*given)
        return returned, [list(values(it)) if hasattr(it, "_fields_") else it.value for it in kept]

    def referred(self, kind, encoding):
        """What a reference is to: a handle holds a stream, and all else is zeroed."""
        if kind in ("DecoderHandle", "EncoderHandle", "ConverterHandle"):
            return self.made(kind, self.names[encoding])
        return self.library.kind(kind)()


SOMEWHERE = (ctypes.c_uint64 * 4)()


def faults(library):
    """What is wrong with calls on such handles, and at NULL."""
    handles = Handles(library)
    handles.refused()
    handles.contents()
    handles.nulls()
    return handles.wrong
