"""Calls of the exports of `encoding_mem`, beside Python's own codecs and plain programs, for `c_interface.py`."""

import ctypes
import random
import unicodedata

from c_loaded import units

SEED, ROUNDS = 2026, 600
REFUSED = 2**64 - 1
LATIN1, LEFT_TO_RIGHT, BIDI = 0, 1, 2
# What room holds before a call, to see what it leaves alone.
BYTE, UNIT = 0xEE, 0xEEEE

# The blocks of characters from right to left, as the header has them.
RANGES = [(0x590, 0x8FF), (0x200F, 0x200F), (0x202B, 0x202B), (0x202E, 0x202E), (0x2067, 0x2067), (0xFB1D, 0xFDFF),
          (0xFE70, 0xFEFE), (0x10800, 0x10FFF), (0x1E800, 0x1EFFF)]  # fmt: skip
LEADS = {0xD802, 0xD803, 0xD83A, 0xD83B}
# The Unicode classes and controls that are written from right to left.
FROM_RIGHT = {"R", "AL", "RLE", "RLO", "RLI"}


def is_bidi(point):
    return any(first <= point <= last for first, last in RANGES)


def is_bidi_unit(unit):
    return is_bidi(unit) or unit in LEADS


def le(numbers):
    return b"".join(number.to_bytes(2, "little") for number in numbers)


def of_le(data):
    return [int.from_bytes(data[at : at + 2], "little") for at in range(0, len(data), 2)]


def valid_len(data, codec):
    """How much of some bytes a codec of Python reads before the first fault."""
    try:
        data.decode(codec)
        return len(data)
    except UnicodeDecodeError as fault:
        return fault.start


def text_of(numbers):
    """The text of units, with U+FFFD for each surrogate in no pair."""
    return le(numbers).decode("utf-16-le", "replace")


def first_where(items, test):
    return next((at for at, item in enumerate(items) if test(item)), len(items))


class Checks:
    """The calls, and what of them was wrong."""

    def __init__(self, library, seed):
        self.library, self.random, self.wrong = library, random.Random(seed), []

    def same(self, name, given, got, want):
        if got != want:
            self.wrong.append("%s of %r: %r and not %r" % (name, given, got, want))

    def some_bytes(self):
        """Bytes: ASCII, Latin1, text of all planes, and text with a byte changed."""
        longest = self.random.choice((0, 1, 3, 20, 70, 200))
        limit = self.random.choice((0x80, 0x100, 0x590, 0xD800, 0x110000))
        points = [self.random.randrange(limit) if self.random.random() < 0.5 else self.random.randrange(0x80)
                  for _ in range(self.random.randint(0, longest))]  # fmt: skip
        data = bytearray("".join(chr(p) for p in points if not 0xD800 <= p < 0xE000).encode())
        if data and self.random.random() < 0.4:
            data[self.random.randrange(len(data))] = self.random.randrange(256)
        if self.random.random() < 0.2:
            del data[self.random.randint(0, len(data)) :]
        return bytes(data)

    def some_units(self):
        """Units: those of a text, some of them changed, also to surrogates."""
        numbers = of_le(self.some_bytes().decode("utf-8", "replace").encode("utf-16-le"))
        for at in range(len(numbers)):
            if self.random.random() < 0.05:
                numbers[at] = self.random.choice((self.random.randrange(0x10000), self.random.randrange(0xD800, 0xE000)))
        return numbers

    def into_bytes(self, name, source, want, least, old=None):
        """A call that writes bytes: what is wanted at the start, and nothing after it; with too little room, nothing at all, and
        it returns the least that is enough."""
        room = bytearray(old if old is not None else [BYTE] * (least + self.random.randint(0, 9)))
        before = bytes(room)
        got = getattr(self.library, name)(source, room)
        self.same(name, source, (got, bytes(room)), (len(want), want + self.after(name, before[len(want) :])))
        if least:
            short = bytearray([BYTE] * (least - 1))
            got = getattr(self.library, name)(source, short)
            self.same(name + " with too little room", source, (got, set(short)), (least, {BYTE} if least > 1 else set()))

    @staticmethod
    def after(name, rest):
        """What stands after what was written: into a text, up to three bytes that go on with a character become 00."""
        if name.endswith(("_str", "_str_partial")):
            count = first_where(rest[:3], lambda byte: not 0x80 <= byte < 0xC0)
            return bytes(count) + rest[count:]
        return rest

    def into_units(self, name, source, want, least, result=None):
        """A call that writes units."""
        size = least + self.random.randint(0, 9)
        room = units([UNIT] * size)
        got = getattr(self.library, name)(source, (room, size))
        wanted = want + [UNIT] * (size - len(want))
        self.same(name, source, (got, list(room)[:size]), (len(want) if result is None else result, wanted))
        if least:
            got = getattr(self.library, name)(source, (room, least - 1))
            self.same(name + " with too little room", source, (got, list(room)[:size]), (least, wanted))

    def of_bytes(self):
        data, call = self.some_bytes(), self.library
        valid = valid_len(data, "utf-8")
        text = data[:valid].decode()
        is_text, is_latin1 = valid == len(data), valid == len(data) and all(ord(c) < 0x100 for c in text)
        bidi = not is_text or any(is_bidi(ord(c)) for c in text)
        self.same("is_ascii", data, call.jillapun_mem_is_ascii(data), data.isascii())
        self.same("utf8_valid_up_to", data, call.jillapun_utf8_valid_up_to(data), valid)
        self.same("ascii_valid_up_to", data, call.jillapun_ascii_valid_up_to(data), valid_len(data, "ascii"))
        escape = first_where(data, lambda byte: byte >= 0x80 or byte in b"\x0e\x0f\x1b")
        self.same("iso_2022_jp", data, call.jillapun_iso_2022_jp_ascii_valid_up_to(data), escape)
        latin1 = first_where(text, lambda c: ord(c) >= 0x100)
        for name in ("utf8", "str"):
            up_to = len(text[:latin1].encode())
            self.same(name + "_latin1_up_to", data, getattr(call, "jillapun_mem_%s_latin1_up_to" % name)(data), up_to)
            self.same("is_latin1", data, getattr(call, "jillapun_mem_is_%s_latin1" % name)(data), is_latin1)
            self.same("is_bidi", data, getattr(call, "jillapun_mem_is_%s_bidi" % name)(data), bidi)
            got = getattr(call, "jillapun_mem_check_%s_for_latin1_and_bidi" % name)(data)
            self.same("check", data, got, LATIN1 if is_latin1 else BIDI if bidi else LEFT_TO_RIGHT)
        self.conversions_of_bytes(data, text, is_text, is_latin1)

    def conversions_of_bytes(self, data, text, is_text, is_latin1):
        replaced = of_le(data.decode("utf-8", "replace").encode("utf-16-le"))
        self.into_units("jillapun_mem_convert_utf8_to_utf16", data, replaced, len(data) + 1)
        result = None if is_text else REFUSED
        for name in ("convert_utf8_to_utf16_without_replacement", "convert_str_to_utf16"):
            self.into_units("jillapun_mem_" + name, data, of_le(text.encode("utf-16-le")), len(data), result)
        self.into_units("jillapun_mem_convert_latin1_to_utf16", data, list(data), len(data))
        ascii_part = data[: valid_len(data, "ascii")]
        self.into_units("jillapun_mem_copy_ascii_to_basic_latin", data, list(ascii_part), len(data))
        self.into_bytes("jillapun_mem_copy_ascii_to_ascii", data, ascii_part, len(data))
        in_utf8 = data.decode("latin-1").encode()
        self.into_bytes("jillapun_mem_convert_latin1_to_utf8", data, in_utf8, 2 * len(data))
        self.into_bytes("jillapun_mem_convert_latin1_to_str", data, in_utf8, 2 * len(data), self.text_of_length(2 * len(data)))
        self.into_no_text("latin1", data, in_utf8, 2 * len(data))
        if is_latin1:
            self.into_bytes("jillapun_mem_convert_utf8_to_latin1_lossy", data, text.encode("latin-1"), len(data))
        else:
            room = bytearray([BYTE] * len(data))
            got = self.library.jillapun_mem_convert_utf8_to_latin1_lossy(data, room)
            self.same("not Latin1", data, (got, set(room)), (REFUSED, {BYTE}))
        self.partial_of_bytes(data, text)

    def text_of_length(self, least):
        """A text of at least so many bytes."""
        return "".join(self.random.choice("aé日\U0001f4a9") for _ in range(least)).encode()

    def of_units(self):
        numbers, call = self.some_units(), self.library
        given = (units(numbers), len(numbers))
        text, valid = text_of(numbers), valid_len(le(numbers), "utf-16-le") // 2
        is_latin1, bidi = all(u < 0x100 for u in numbers), any(map(is_bidi_unit, numbers))
        self.same("is_basic_latin", numbers, call.jillapun_mem_is_basic_latin(given), all(u < 0x80 for u in numbers))
        self.same("is_utf16_latin1", numbers, call.jillapun_mem_is_utf16_latin1(given), is_latin1)
        self.same("is_utf16_bidi", numbers, call.jillapun_mem_is_utf16_bidi(given), bidi)
        got = call.jillapun_mem_check_utf16_for_latin1_and_bidi(given)
        self.same("check_utf16", numbers, got, LATIN1 if is_latin1 else BIDI if bidi else LEFT_TO_RIGHT)
        self.same("utf16_valid_up_to", numbers, call.jillapun_mem_utf16_valid_up_to(given), valid)
        size = 3 * len(numbers)
        for name in ("utf8", "str"):
            old = self.text_of_length(size) if name == "str" else None
            self.into_bytes("jillapun_mem_convert_utf16_to_" + name, given, text.encode(), size, old)
        self.into_no_text("utf16", given, text.encode(), size)
        low = bytes(u & 0xFF for u in numbers)
        self.into_bytes("jillapun_mem_convert_utf16_to_latin1_lossy", given, low, len(numbers))
        ascii_part = bytes(numbers[: first_where(numbers, lambda u: u >= 0x80)])
        self.into_bytes("jillapun_mem_copy_basic_latin_to_ascii", given, ascii_part, len(numbers))
        self.partial_of_units(numbers, given)
        call.jillapun_mem_ensure_utf16_validity(given)
        self.same("ensure_utf16_validity", numbers, list(given[0])[: len(numbers)], of_le(text.encode("utf-16-le")))

    def partial(self, name, source, room, want):
        """A call of the longest prefix that fits: what was read, and what was written."""
        read, written = ctypes.c_size_t(77), ctypes.c_size_t(77)
        got = getattr(self.library, "jillapun_mem_" + name)(source, room, read, written)
        self.same(name, source, (got, read.value, written.value), (None, *want))

    def partial_of_bytes(self, data, text):
        size = self.random.randint(0, len(data) + 2)
        # Characters of the text, as long as their units fit.
        characters = 0
        while characters < len(text) and len(text[: characters + 1].encode("utf-16-le")) <= 2 * size:
            characters += 1
        room, want = units([UNIT] * size), of_le(text[:characters].encode("utf-16-le"))
        read = len(text[:characters].encode())
        self.partial("convert_utf8_to_utf16_up_to_invalid", data, (room, size), (read, len(want)))
        self.same("up to invalid", data, list(room)[:size], want + [UNIT] * (size - len(want)))
        length = 0
        while length < len(data) and len(data[: length + 1].decode("latin-1").encode()) <= size:
            length += 1
        want, room = data[:length].decode("latin-1").encode(), bytearray([BYTE] * size)
        self.partial("convert_latin1_to_utf8_partial", data, room, (length, len(want)))
        self.same("Latin1 that fits", data, bytes(room), want + bytes([BYTE] * (size - len(want))))
        self.partial_into_text("convert_latin1_to_str_partial", data, lambda room: self.latin1_that_fits(data, room))

    @staticmethod
    def latin1_that_fits(data, room):
        length = 0
        while length < len(data) and len(data[: length + 1].decode("latin-1").encode()) <= room:
            length += 1
        return length, data[:length].decode("latin-1").encode()

    @staticmethod
    def units_that_fit(numbers, room):
        best = 0, b""
        for length in range(1, len(numbers) + 1):
            is_split = 0xD800 <= numbers[length - 1] < 0xDC00 and 0xDC00 <= (numbers + [0])[length] < 0xE000
            written = text_of(numbers[:length]).encode()
            if not is_split and len(written) <= room:
                best = length, written
        return best

    def partial_of_units(self, numbers, given):
        size = self.random.randint(0, 3 * len(numbers) + 2)
        length, want = self.units_that_fit(numbers, size)
        room = bytearray([BYTE] * size)
        self.partial("convert_utf16_to_utf8_partial", given, room, (length, len(want)))
        self.same("units that fit", numbers, bytes(room), want + bytes([BYTE] * (size - len(want))))
        self.partial_into_text("convert_utf16_to_str_partial", given, lambda room: self.units_that_fit(numbers, room))

    def partial_into_text(self, name, source, what_fits):
        """The same into a text, which stays one; and into bytes that are none."""
        for old in (self.text_of_length(self.random.randint(0, 9)), self.no_text(self.random.randint(0, 9))):
            room, (length, want) = bytearray(old), what_fits(len(old))
            self.partial(name, source, room, (length, len(want)))
            self.same(name, (source, old), bytes(room), want + self.after(name, old[len(want) :]))
            if valid_len(old, "utf-8") == len(old):
                self.same(name + " leaves a text", (source, old), valid_len(bytes(room), "utf-8"), len(room))

    def no_text(self, length):
        """So many bytes, many of them such as go on with a character."""
        return bytes(self.random.choice((0x61, 0x80, 0xBF, 0xF0, 0xFF)) for _ in range(length))

    def into_no_text(self, source, given, want, least):
        """Room that is no text before a call: what follows the text that is written is as after one."""
        name = "jillapun_mem_convert_%s_to_str" % source
        self.into_bytes(name, given, want, least, self.no_text(least + self.random.randint(0, 9)))

    def characters(self):
        """Each number up to the last character, and some after it."""
        call = self.library.jillapun_mem_is_char_bidi
        for point in [*range(0x110000), 0x110000, 0xFFFFFFFF]:
            if call(point) != is_bidi(point):
                self.wrong.append("is_char_bidi of %X" % point)
            if point < 0x110000 and unicodedata.bidirectional(chr(point)) in FROM_RIGHT and not is_bidi(point):
                self.wrong.append("%X is from right to left" % point)
        for unit in range(0x10000):
            self.same("unit", unit, self.library.jillapun_mem_is_utf16_code_unit_bidi(unit), is_bidi_unit(unit))


def faults(library):
    """What is wrong with the exports of `encoding_mem`."""
    checks = Checks(library, SEED)
    for _ in range(ROUNDS):
        checks.of_bytes()
        checks.of_units()
    checks.characters()
    print("mem: %d texts in bytes, and as many in units, by %d exports" % (ROUNDS, len([it for it in library.exports if "_mem_" in it]) + 3))
    return checks.wrong
