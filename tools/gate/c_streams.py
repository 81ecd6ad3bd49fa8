"""Calls of the exports for labels, tables, streams and conversions, beside plain programs, for `c_interface.py`.

Inputs are random, as `fuzz.py` makes them, in all 40 encodings, cut at random places and with random room. What must come of
them is worked out by `standard.py` and `plain_recode.py`, which follow the steps of the Encoding Standard.
"""

import ctypes
import os
import random
import re

from steps import TOP

import fuzz
import plain_recode
import standard
from c_header import CONSTANT, CONSTANTS, read
from c_loaded import units
from plain_recode import Job
from standard import UNMAPPABLE

SEED, ROUNDS = 2026, 600
INDEXES = os.path.join(TOP, "indexes")

# The numbers of `status.rt`, by their names.
NUMBERS = {found[1]: found[3] for found in map(CONSTANT.fullmatch, read(CONSTANTS).split("\n")) if found}
NUMBERS = {name: 2**64 - 1 if value == "usize::MAX" else int(value) for name, value in NUMBERS.items()}
MARKS = {"sniff": NUMBERS["SNIFF"], "remove": NUMBERS["REMOVE"], "keep": NUMBERS["KEEP"]}
POLICIES = {"decimal": NUMBERS["DECIMAL"], "hexadecimal": NUMBERS["HEXADECIMAL"], "stop": NUMBERS["STOP"]}

NO_LIMIT = 2**64 - 1
# Encodings of which no byte is a character.
UNTOLD = ("UTF-16BE", "UTF-16LE", "replacement")
# Those in which a character may have more than one byte.
MULTIBYTE = ("UTF-8", "GBK", "gb18030", "Big5", "EUC-JP", "ISO-2022-JP", "Shift_JIS", "EUC-KR")
# No stream takes more calls.
MOST_CALLS = 100000


def is_zero(value):
    """Whether all members of a struct are 0. What lies between them may be anything."""
    if isinstance(value, ctypes.Structure):
        return all(is_zero(getattr(value, member)) for member, *_ in value._fields_)
    return not any(map(bool, value)) if isinstance(value, ctypes.Array) else not value


class Wrong(Exception):
    """A call that returned what it must not."""


def by_number(name):
    """What names are ordered by: the numbers in them count as numbers."""
    return [int(part) if part.isdigit() else part for part in re.split(r"(\d+)", name.lower())]


def text_of(points):
    return "".join(map(chr, points))


def length_in(told):
    """How long the output is of which a call for a whole input, or for a whole text, reports."""
    return told.value if isinstance(told, ctypes.c_size_t) else told.written


def encoded(encoder, points):
    """The bytes of a text without what has none, and with decimal references for it; and each lost character."""
    plain, replaced, lost = bytearray(), bytearray(), []
    for index, point in enumerate(points):
        for item in encoder.handle(point):
            if item < UNMAPPABLE:
                plain.append(item)
                replaced.append(item)
            else:
                lost.append((index, item - UNMAPPABLE))
                replaced += b"&#%d;" % (item - UNMAPPABLE)
    end = bytes(encoder.finish())
    return bytes(plain) + end, bytes(replaced) + end, lost


# The byte order marks, with the encodings that they name, and the indexes that some encodings need.
BOMS = [("UTF-8", b"\xef\xbb\xbf"), ("UTF-16BE", b"\xfe\xff"), ("UTF-16LE", b"\xff\xfe")]
NEEDS = {
    "UTF-8": (),
    "windows-1252": ("windows-1252",),
    "Shift_JIS": ("jis0208",),
    "EUC-JP": ("jis0208", "jis0212"),
    "ISO-2022-JP": ("jis0208", "iso-2022-jp-katakana"),
    "gb18030": ("gb18030", "gb18030-ranges"),
    "replacement": (),
}


class Streams:
    """The calls over tables with all indexes."""

    def __init__(self, library):
        self.library, self.random = library, random.Random(SEED)
        self.encodings = standard.encodings(INDEXES)
        self.inputs = fuzz.Inputs(self.encodings)
        self.wrong, self.tables = [], self.loaded()
        self.numbers = {name: library.jillapun_for_label(name.encode()) for name in self.encodings}

    def same(self, name, given, got, want):
        if got != want:
            self.wrong.append("%s of %r: %r and not %r" % (name, given, got, want))

    def must(self, name, status, want="OK"):
        if status != NUMBERS[want]:
            raise Wrong("%s: status %d and not %s" % (name, status, want))

    def files(self, texts):
        """Index files, as a call takes them, from their names and their texts, which must live as long."""
        files = (self.library.struct("IndexFile") * max(len(texts), 1))()
        for file, (name, text) in zip(files, texts):
            self.library.fill(file.name, name)
            self.library.fill(file.text, text)
        return files

    def loaded(self):
        """Tables with all indexes. Files that are not taken leave none, and the fault names the first."""
        names = sorted(name for name in os.listdir(INDEXES) if name.startswith("index-"))
        good = [(name.encode(), read_bytes(os.path.join(INDEXES, name))) for name in names]
        tables, fault = self.library.struct("TablesHandle")(), self.library.struct("IndexFault")()
        lines = good[1][1].split(b"\n")
        row = next(at for at, line in enumerate(lines) if line and not line.startswith(b"#"))
        faulty = b"\n".join([*lines[:row], b"0\tno number", *lines[row:]])
        for name, text, status, line in ((b"index-none.txt", b"", "UNKNOWN", 0), (good[1][0], faulty, "BAD_INDEX", row + 1)):
            files = [good[0], (name, text), *good[2:]]
            self.must("tables_new", self.library.jillapun_tables_new(self.files(files), tables, fault), status)
            self.same("fault", name, (fault.file, fault.line), (1, line))
            is_ready = self.library.jillapun_tables_is_ready(tables, 0)
            self.must("is_ready", is_ready, "NOT_READY")
        self.must("tables_new", self.library.jillapun_tables_new(self.files(good), tables, fault))
        for number in range(len(self.encodings)):
            self.must("is_ready", self.library.jillapun_tables_is_ready(tables, number))
        return tables

    def labels(self):
        """Each name is a label of its encoding, and the numbers are those of the order of the names."""
        for number, name in enumerate(sorted(self.encodings, key=by_number)):
            room = bytearray(40)
            length = self.library.jillapun_name(number, room)
            self.same("name", number, bytes(room[:length]), name.encode())
            self.same("for_label", name, self.numbers[name], number)
            output = self.library.jillapun_output_encoding(number)
            self.same("output_encoding", name, output, self.numbers[self.encodings[name].output])
            self.kind(name, number)
        self.same("for_label", "?", self.library.jillapun_for_label(b"?"), NUMBERS["NO_ENCODING"])
        none = self.library.jillapun_for_label_no_replacement(b"iso-2022-kr")
        self.same("for_label_no_replacement", "iso-2022-kr", none, NUMBERS["NO_ENCODING"])
        self.same("name", 40, self.library.jillapun_name(40, bytearray(40)), NUMBERS["REFUSED"])
        self.same("name in no room", 40, self.library.jillapun_name(self.numbers["GBK"], bytearray(2)), 3)
        length = ctypes.c_size_t()
        for name, mark in (*BOMS, (None, b"\xef\xbb"), (None, b"")):
            number = self.library.jillapun_for_bom(mark + b"a" if name else mark, length)
            want = (self.numbers[name], len(mark)) if name else (NUMBERS["NO_ENCODING"], 0)
            self.same("for_bom", mark, (number, length.value), want)

    def kind(self, name, number):
        """What is told of an encoding as a whole."""
        call, replaces = self.library, name == "replacement"
        found = call.jillapun_for_label_no_replacement(name.encode())
        self.same("for_label_no_replacement", name, found, NUMBERS["NO_ENCODING"] if replaces else number)
        self.same("is_single_byte", name, call.jillapun_is_single_byte(number), name not in (*UNTOLD, *MULTIBYTE))
        is_compatible = name not in (*UNTOLD, "ISO-2022-JP")
        self.same("is_ascii_compatible", name, call.jillapun_is_ascii_compatible(number), is_compatible)
        can_encode = name in (*UNTOLD, "UTF-8")
        self.same("can_encode_everything", name, call.jillapun_can_encode_everything(number), can_encode)

    def needs(self):
        """The files that encodings need, one after the other."""
        for name, files in NEEDS.items():
            for place, file in enumerate((*files, None)):
                room = bytearray(40)
                length = self.library.jillapun_needs(self.numbers[name], place, room)
                got = bytes(room[:length]).decode()
                self.same("needs", (name, place), got, "index-%s.txt" % file if file else "")

    def latin1(self):
        """How far a new decoder says that bytes are Latin1: they are so if each alone is the character of its number, and, where
        a character may have more bytes, if it is ASCII."""
        call, found = self.library.jillapun_decoder_latin1_byte_compatible_up_to, ctypes.c_size_t()
        for name, number in self.numbers.items():
            most = 256 if name in standard.SINGLE_BYTE else 128
            alone = [standard.pieces(self.encodings[name].decoder(), bytes([byte])) for byte in range(most)]
            own = [byte for byte, pieces in enumerate(alone) if list(pieces) == [(0, 1, (byte,))]]
            for mark in MARKS:
                handle = self.library.struct("DecoderHandle")()
                self.must("decoder_new", self.library.jillapun_decoder_new(self.tables, number, MARKS[mark], handle))
                is_known = name not in UNTOLD and (mark == "keep" or (mark == "remove" and name != "UTF-8"))
                for _ in range(20):
                    data = bytes(self.random.choices(own or [0], k=self.random.randint(0, 9))) + self.random.randbytes(3)
                    length = next((at for at, byte in enumerate(data) if byte not in own), len(data))
                    wanted, before = length if is_known else NUMBERS["REFUSED"], bytes(handle)
                    self.same("latin1", (name, mark, data), self.told_length("latin1", call(handle, data, found), found), wanted)
                    self.same("a query writes", (name, mark, data), bytes(handle), before)
        self.must("latin1 of no decoder", call(self.library.struct("DecoderHandle")(), b"a", found), "CLOSED")

    def decoded(self, call, job, parts, to_units):
        """A stream by a decoder of its own: its text, its malformed sequences, and whether a call reported some."""
        handle = self.used_decoder() if self.random.random() < 0.5 else self.library.struct("DecoderHandle")()
        new = self.library.jillapun_decoder_new(self.tables, self.numbers[job.source], MARKS[job.mark], handle)
        self.must("decoder_new", new)
        text, losses, had_errors, before = bytearray(), [], False, 0
        progress, most = self.library.struct("Progress")(), self.random.choice((4, 7, 40, 5000))
        for number, part in enumerate(parts):
            last = number == len(parts) - 1
            for _ in range(MOST_CALLS):
                size = self.random.randint(4, most)
                room = (units([0] * size), size) if to_units else bytearray(self.some_text(size))
                self.must(call, getattr(self.library, call)(handle, part, room, last, progress))
                part, before = part[progress.read :], before + progress.read
                written = room[0][: progress.written] if to_units else room[: progress.written]
                if "to_str" in call and self.valid_len(room) != size:
                    raise Wrong("%s leaves no text" % call)
                text += b"".join(unit.to_bytes(2, "little") for unit in written) if to_units else written
                had_errors |= progress.had_errors
                if progress.outcome == NUMBERS["INPUT_EMPTY"]:
                    break
                if progress.outcome == NUMBERS["MALFORMED"]:
                    length = progress.malformed_length
                    losses.append((before - progress.malformed_after - length, length))
                    text += "\ufffd".encode("utf-16-le" if to_units else "utf-8")
            else:
                raise Wrong("%s does not end" % call)
        self.must("after the end", getattr(self.library, call)(handle, b"", room, True, progress), "FINISHED")
        closed = self.library.struct("DecoderHandle")()
        self.must("no decoder", getattr(self.library, call)(closed, b"", room, True, progress), "CLOSED")
        return text.decode("utf-16-le" if to_units else "utf-8"), losses, had_errors

    def used_decoder(self):
        """A decoder of another stream, which has read a part of a character, and may be at its end: one may be made in its
        place."""
        handle, progress = self.library.struct("DecoderHandle")(), self.library.struct("Progress")()
        number = self.numbers[self.random.choice(sorted(self.numbers))]
        self.must("decoder_new", self.library.jillapun_decoder_new(self.tables, number, MARKS["keep"], handle))
        last = self.random.random() < 0.5
        self.must("to_utf8", self.library.jillapun_decoder_decode_to_utf8(handle, b"\x1b$B\x81", bytearray(40), last, progress))
        return handle

    def some_text(self, size):
        """A text of so many bytes."""
        text = "".join(self.random.choice("aé日\U0001f4a9") for _ in range(min(size, 99))).encode()[:size]
        text = text[: self.valid_len(text)]
        return text + b"." * (size - len(text))

    def decoders(self, job, data, parts):
        """The six calls of a decoder, and the three for a whole input."""
        found, pieces = plain_recode.pieces(self.encodings, job, data)
        text = text_of(point for _, _, points in pieces for point in ((0xFFFD,) if points is None else points))
        losses = [(start, end - start) for start, end, points in pieces if points is None]
        for to_units, name in ((False, "utf8"), (False, "str"), (True, "utf16")):
            call = "jillapun_decoder_decode_to_" + name
            self.same(call, (job, data, parts), self.decoded(call, job, parts, to_units), (text, [], bool(losses)))
            call += "_without_replacement"
            self.same(call, (job, data, parts), self.decoded(call, job, parts, to_units)[:2], (text, losses))
        words = self.numbers[job.source], MARKS[job.mark]
        for call in ("jillapun_decode", "jillapun_decode_to_str"):
            self.in_one_call(call, words, data, text.encode(), bool(losses))
        mark = plain_recode.found_in(job, data)[1]
        self.reported(words, data, text.encode(), (mark, self.numbers[found], text.encode() == data[mark:]), bool(losses))
        self.over_a_text(words, data, text.encode())
        self.queried(job, data, text)
        if not losses:
            self.queried_without_losses(job, data, text)

    def some_calls(self, call, handle, progress, data, last, count, least):
        """What so many calls write, with room for so many bytes at least, and how much they read; fewer, if one reads all."""
        output, read = bytearray(), 0
        for _ in range(count):
            room = bytearray(self.random.randint(least, 40))
            self.must(call, getattr(self.library, call)(handle, data[read:], room, last, progress))
            output, read = output + room[: progress.written], read + progress.read
            if progress.outcome == NUMBERS["INPUT_EMPTY"]:
                break
        return bytes(output), read

    def copied(self, call, handle, progress, data, cut, least, wanted):
        """A stream whose handle is copied to another address after some calls: both go on with the rest, each by itself, and
        the one that is at its end first is wiped before the other goes on."""
        begin, read = self.some_calls(call, handle, progress, data[:cut], False, self.random.randint(0, 9), least)
        handles = [handle, type(handle).from_buffer_copy(handle)]
        self.random.shuffle(handles)
        for one in handles:
            rest, _ = self.some_calls(call, one, progress, data[read:], True, MOST_CALLS, least)
            self.same("%s, copied after %d" % (call, read), data, (progress.outcome, begin + rest), (NUMBERS["INPUT_EMPTY"], wanted))
            ctypes.memset(ctypes.addressof(one), 0xFF, ctypes.sizeof(one))

    def copied_decoder(self, job, data):
        """A decoder that is copied in the middle of its stream, wherever that is cut."""
        pieces = plain_recode.pieces(self.encodings, job, data)[1]
        text = text_of(point for _, _, points in pieces for point in ((0xFFFD,) if points is None else points)).encode()
        for call in ("jillapun_decoder_decode_to_utf8", "jillapun_decoder_decode_to_str"):
            handle, progress = self.library.struct("DecoderHandle")(), self.library.struct("Progress")()
            new = self.library.jillapun_decoder_new(self.tables, self.numbers[job.source], MARKS[job.mark], handle)
            self.must("decoder_new", new)
            self.copied(call, handle, progress, data, self.random.randint(0, len(data)), 4, text)

    def copied_encoder(self, job, size):
        """An encoder that is copied in the middle of a text, which is cut between characters."""
        points = self.inputs.text(self.random, [job.source, job.target], size)
        replaced = encoded(self.encodings[self.encodings[job.target].output].encoder(), points)[1]
        data, cut = text_of(points).encode(), len(text_of(points[: self.random.randint(0, len(points))]).encode())
        progress = self.library.struct("EncoderProgress")()
        self.copied("jillapun_encoder_encode_from_utf8", self.handle_of(job.target), progress, data, cut, 14, replaced)

    def without_tables(self):
        """A decoder or an encoder is made without tables if its encoding needs no index. If none is made, its handle is empty."""
        new_decoder, new_encoder = self.library.jillapun_decoder_new, self.library.jillapun_encoder_new
        none = self.library.struct("TablesHandle")()
        for name, number in self.numbers.items():
            handle = self.used_decoder()
            needs_none = self.needs_no_index(number)
            self.must("decoder_new of %s" % name, new_decoder(none, number, 0, handle), "OK" if needs_none else "NOT_READY")
            is_ready = self.library.jillapun_tables_is_ready(none, number)
            self.must("is_ready of %s" % name, is_ready, "OK" if needs_none else "NOT_READY")
            self.same("decoder_new", name, is_zero(handle), not needs_none)
            handle, output = self.handle_of("ISO-2022-JP"), self.library.jillapun_output_encoding(number)
            needs_none = self.needs_no_index(output)
            self.must("encoder_new of %s" % name, new_encoder(none, number, handle), "OK" if needs_none else "NOT_READY")
            self.same("encoder_new", name, is_zero(handle), not needs_none)
            self.converted_without_tables(none, number, name)
        for number, mark in ((len(self.numbers), 0), (0, len(MARKS))):
            handle = self.used_decoder()
            self.must("decoder_new", new_decoder(self.tables, number, mark, handle), "UNKNOWN")
            self.same("decoder_new", (number, mark), is_zero(handle), True)
        handle = self.handle_of("Big5")
        self.must("encoder_new", new_encoder(self.tables, len(self.numbers), handle), "UNKNOWN")
        self.same("encoder_new", len(self.numbers), is_zero(handle), True)
        progress, room = self.library.struct("Progress")(), bytearray(40)
        for name, data in (("UTF-8", b"\xef\xbb\xbf\xe6\x97"), ("UTF-16LE", b"\xff\xfe\xe5\x65\x0d"), ("UTF-8", b"\xfe\xff\x65\xe5")):
            handle = self.library.struct("DecoderHandle")()
            self.must("decoder_new", new_decoder(none, self.numbers[name], MARKS["sniff"], handle))
            self.must("to_utf8", self.library.jillapun_decoder_decode_to_utf8(handle, data, room, True, progress))
            wanted = data.decode("utf-16" if data[0] > 0xEF else "utf-8-sig", "replace").encode()
            self.same("without tables", (name, data), bytes(room[: progress.written]), wanted)

    def converted_without_tables(self, none, number, name):
        """So is a conversion, if neither of its encodings needs one."""
        words = none, number, self.numbers["UTF-8"], MARKS["keep"], POLICIES["decimal"], NO_LIMIT
        wanted = "OK" if self.needs_no_index(number) else "NOT_READY"
        room, losses, report = bytearray(9), (self.library.struct("Loss") * 1)(), self.library.struct("Report")()
        self.must("convert from %s" % name, self.library.jillapun_convert(*words, b"", room, losses, report), wanted)
        handle = self.library.struct("ConverterHandle")()
        self.must("converter_new from %s" % name, self.library.jillapun_converter_new(*words, handle), wanted)
        self.same("converter_new", name, is_zero(handle), wanted != "OK")

    def needs_no_index(self, number):
        return self.library.jillapun_needs(number, 0, bytearray(40)) == 0

    def tables_for(self, numbers):
        """Tables for a conversion: often none, if its encodings, the first two of these numbers, need no index."""
        output = self.library.jillapun_output_encoding(numbers[1])
        can_do_without = self.needs_no_index(numbers[0]) and self.needs_no_index(output)
        return self.library.struct("TablesHandle")() if can_do_without and self.random.random() < 0.5 else self.tables

    def told_length(self, call, status, length):
        """A length that a call tells beside its status."""
        self.must(call, status)
        return length.value

    def asked_room(self, call, handle, size):
        """What the query for room tells of so many bytes or units."""
        length = ctypes.c_size_t()
        return self.told_length(call, getattr(self.library, call)(handle, size, length), length)

    def queried(self, job, data, text):
        """A whole stream in one call, in the room that its query asks for."""
        progress = self.library.struct("Progress")()
        for name, codec in (("utf8", "utf-8"), ("utf16", "utf-16-le")):
            handle = self.library.struct("DecoderHandle")()
            new = self.library.jillapun_decoder_new(self.tables, self.numbers[job.source], MARKS[job.mark], handle)
            self.must("decoder_new", new)
            self.same("encoding", job, self.library.jillapun_decoder_encoding(handle), self.numbers[job.source])
            size = self.asked_room("jillapun_decoder_max_%s_length" % name, handle, len(data))
            room = bytearray(size) if name == "utf8" else (units([0] * size), size)
            call = "jillapun_decoder_decode_to_" + name
            self.must(call, getattr(self.library, call)(handle, data, room, True, progress))
            written = room[: progress.written] if name == "utf8" else bytes(room[0])[: 2 * progress.written]
            self.same(call, (job, data), (progress.outcome, written.decode(codec)), (NUMBERS["INPUT_EMPTY"], text))

    def queried_without_losses(self, job, data, text):
        """A whole stream that has no malformed sequence, up to the first, in the room that the query for that asks for."""
        handle, progress = self.library.struct("DecoderHandle")(), self.library.struct("Progress")()
        new = self.library.jillapun_decoder_new(self.tables, self.numbers[job.source], MARKS[job.mark], handle)
        self.must("decoder_new", new)
        room = bytearray(self.asked_room("jillapun_decoder_max_utf8_length_without_replacement", handle, len(data)))
        call = "jillapun_decoder_decode_to_utf8_without_replacement"
        self.must(call, getattr(self.library, call)(handle, data, room, True, progress))
        written = bytes(room[: progress.written]).decode()
        self.same("room without U+FFFD", (job, data), (progress.outcome, written), (NUMBERS["INPUT_EMPTY"], text))

    def in_one_call(self, call, words, given, output, had):
        """A whole input or text at once: in room that is enough, which stays as it was after the output, and in too little,
        which begins with the first part of the output and stays as it was after that."""
        told, filled = self.report_of(call), b"\x5a" * self.random.choice((0, 1, 5, 4 * len(given) + 12))
        room = bytearray(b"\x5a" * len(output) + filled)
        status = getattr(self.library, call)(self.tables, *words, given, room, told)
        got = status, bytes(room), length_in(told)
        self.same(call, (words, given), got, (NUMBERS["LOSSY" if had else "OK"], output + filled, len(output)))
        if output:
            room = bytearray(b"\x5a" * self.random.choice((len(output) - 1, self.random.randrange(len(output)))))
            status = getattr(self.library, call)(self.tables, *words, given, room, told)
            front = os.path.commonprefix([bytes(room), output])
            got = status, set(room[len(front) :]) <= {0x5A}, length_in(told)
            self.same("too small a room", (call, words, given), got, (NUMBERS["ROOM"], True, len(output)))

    def report_of(self, call):
        """What a call for a whole input, or for a whole text, reports in."""
        return self.library.struct("Decoded")(9, 9, 9, True) if "decode" in call else ctypes.c_size_t(9)

    def reported(self, words, data, output, told, had):
        """What is reported of a whole input, in whatever room: the length of the mark, the encoding, and whether the text is the
        input's own bytes; and the call without U+FFFD, which refuses an input with a malformed sequence."""
        for call in ("jillapun_decode", "jillapun_decode_without_replacement"):
            room, decoded = bytearray(self.random.choice((0, len(output), 4 * len(data) + 12))), self.report_of(call)
            status = getattr(self.library, call)(self.tables, *words, data, room, decoded)
            want = NUMBERS["LOSSY" if had else "OK"] if len(room) >= len(output) else NUMBERS["ROOM"]
            wanted = want, len(output), *told
            if had and call.endswith("replacement"):
                wanted = NUMBERS["NOT_WELL_FORMED"], 0, 0, NUMBERS["NO_ENCODING"], False
            elif want != NUMBERS["ROOM"]:
                self.same(call, (words, data), bytes(room[: len(output)]), output)
            got = status, decoded.written, decoded.mark_len, decoded.encoding, decoded.is_own
            self.same(call, (words, data), got, wanted)

    def over_a_text(self, words, data, output):
        """A whole input at once over a text, which is one after the call."""
        room, told = bytearray(self.some_text(len(output) + self.random.choice((0, 3, 3 * len(data) + 3)))), self.report_of("decode")
        self.library.jillapun_decode_to_str(self.tables, *words, data, room, told)
        got = bytes(room[: told.written]), self.valid_len(room)
        self.same("jillapun_decode_to_str", (words, data), got, (output, len(room)))

    def refused(self):
        """Whole inputs and texts that are not taken: nothing is written."""
        none, ready, utf8 = self.library.struct("TablesHandle")(), self.tables, self.numbers["UTF-8"]
        western = self.numbers["windows-1252"]
        for call, tables, words, given, status in (
            ("jillapun_decode", none, (western, MARKS["keep"]), b"a", "NOT_READY"),
            ("jillapun_decode", ready, (len(self.numbers), MARKS["keep"]), b"a", "UNKNOWN"),
            ("jillapun_decode", ready, (utf8, len(MARKS)), b"a", "UNKNOWN"),
            ("jillapun_decode_to_str", none, (western, MARKS["keep"]), b"a", "NOT_READY"),
            ("jillapun_decode_to_str", ready, (utf8, len(MARKS)), b"a", "UNKNOWN"),
            ("jillapun_decode_without_replacement", none, (western, MARKS["keep"]), b"a", "NOT_READY"),
            ("jillapun_decode_without_replacement", ready, (utf8, len(MARKS)), b"a", "UNKNOWN"),
            ("jillapun_encode", none, (western,), b"a", "NOT_READY"),
            ("jillapun_encode", ready, (len(self.numbers),), b"a", "UNKNOWN"),
            ("jillapun_encode", ready, (utf8,), b"a\xff", "NOT_UTF8"),
        ):
            room, told = bytearray(8), self.report_of(call)
            self.must(call, getattr(self.library, call)(tables, *words, given, room, told), status)
            self.same(call, status, (bytes(room), length_in(told)), (bytes(8), 0))
            if "decode" in call:
                self.same(call, status, (told.mark_len, told.encoding, told.is_own), (0, NUMBERS["NO_ENCODING"], False))

    def whole_without_tables(self):
        """Whole inputs and texts in encodings that need no index, with no tables."""
        none, utf8, user = self.library.struct("TablesHandle")(), self.numbers["UTF-8"], self.numbers["x-user-defined"]
        text = "a\uf780".encode()
        for call, words, given, output in (
            ("jillapun_decode", (user, MARKS["sniff"]), b"a\x80", text),
            ("jillapun_decode", (utf8, MARKS["remove"]), b"\xef\xbb\xbfa", b"a"),
            ("jillapun_decode_to_str", (utf8, MARKS["sniff"]), b"\xff\xfea\x00", b"a"),
            ("jillapun_decode_without_replacement", (utf8, MARKS["sniff"]), b"\xff\xfea\x00", b"a"),
            ("jillapun_encode", (user,), text, b"a\x80"),
            ("jillapun_encode", (utf8,), text, text),
        ):
            for more in (0, 40):
                room, told = bytearray(len(output) + more), self.report_of(call)
                self.must(call, getattr(self.library, call)(none, *words, given, room, told))
                self.same(call, words, (bytes(room), length_in(told)), (output + bytes(more), len(output)))

    def coded(self, call, target, points, of_units):
        """A text by an encoder of its own: its bytes, its lost characters, and whether a call told of some."""
        handle = self.library.struct("EncoderHandle")()
        self.must("encoder_new", self.library.jillapun_encoder_new(self.tables, self.numbers[target], handle))
        progress, output, lost, had, index = self.library.struct("EncoderProgress")(), bytearray(), [], False, 0
        if not of_units:
            room = bytearray(40)
            self.must(call, getattr(self.library, call)(handle, b"\xffa", room, False, progress), "NOT_UTF8")
            self.same(call, "no text", (progress.read, progress.written, bytes(room)), (0, 0, bytes(40)))
        place = self.random.randint(0, len(points))
        most = self.random.choice((14, 60, 5000))
        for part, last in ((points[:place], False), (points[place:], True)):
            text = text_of(part)
            for _ in range(MOST_CALLS):
                room = bytearray(self.random.randint(14, most))
                source = self.source(text, of_units)
                self.must(call, getattr(self.library, call)(handle, source, room, last, progress))
                count = characters(text, progress.read, of_units)
                index, text = index + count, text[count:]
                output += room[: progress.written]
                had |= progress.had_unmappable
                if progress.outcome == NUMBERS["INPUT_EMPTY"]:
                    break
                if progress.outcome == NUMBERS["UNMAPPABLE"]:
                    lost.append((index - 1, progress.scalar))
            else:
                raise Wrong("%s does not end" % call)
        # Then it is as a new one.
        self.must("after the end", getattr(self.library, call)(handle, self.source("", of_units), room, True, progress))
        self.same("after the end", target, (progress.read, progress.written), (0, 0))
        closed = self.library.struct("EncoderHandle")()
        self.must("no encoder", getattr(self.library, call)(closed, self.source("", of_units), room, True, progress), "CLOSED")
        return bytes(output), lost, had

    @staticmethod
    def source(text, of_units):
        if not of_units:
            return text.encode()
        data = text.encode("utf-16-le")
        return units([int.from_bytes(data[at : at + 2], "little") for at in range(0, len(data), 2)]), len(data) // 2

    def encoders(self, job, size):
        """The four calls of an encoder, and the call for a whole text."""
        points = self.inputs.text(self.random, [job.source, job.target], size)
        output = self.encodings[job.target].output
        plain, replaced, lost = encoded(self.encodings[output].encoder(), points)
        self.in_one_call("jillapun_encode", (self.numbers[job.target],), text_of(points).encode(), replaced, bool(lost))
        for of_units, name in ((False, "utf8"), (True, "utf16")):
            call = "jillapun_encoder_encode_from_" + name
            self.same(call, (job, points), self.coded(call, job.target, points, of_units), (replaced, [], bool(lost)))
            call += "_without_replacement"
            self.same(call, (job, points), self.coded(call, job.target, points, of_units)[:2], (plain, lost))
            if not of_units:
                self.malformed(job, points)
            if not lost:
                self.asked(call, "jillapun_encoder_max_length_from_%s_without_replacement" % name, job, points, of_units, plain)
                call = "jillapun_encoder_encode_from_" + name
                self.asked(call, "jillapun_encoder_max_length_from_%s_if_no_unmappables" % name, job, points, of_units, plain)

    def malformed(self, job, points):
        """A text in UTF-8, cut or changed at some place, by calls with room for 0 to 20 bytes: what is before the first
        malformed sequence is encoded, and the call that begins there takes nothing."""
        text, output = text_of(points).encode(), self.encodings[job.target].output
        place = self.random.randint(0, len(text))
        broken = text[:place] + self.random.choice((b"", b"\x80", b"\xff", b"\xed\xa0\x80", b"\xf0\x9f\x92")) + text[place + 1 :]
        broken = self.random.choice((broken, text[:place]))
        valid = self.valid_len(broken)
        plain, replaced, _ = encoded(self.encodings[output].encoder(), [ord(c) for c in broken[:valid].decode()])
        for name, want in (("", replaced), ("_without_replacement", plain)):
            call, progress, handle = "jillapun_encoder_encode_from_utf8" + name, self.library.struct("EncoderProgress")(), self.handle_of(job.target)
            rest, made, last = broken, bytearray(), self.random.random() < 0.5
            for _ in range(MOST_CALLS):
                room = bytearray(b"\x5a" * self.random.randint(0, 20))
                status = getattr(self.library, call)(handle, rest, room, last, progress)
                if status != NUMBERS["OK"]:
                    break
                rest = rest[progress.read :]
                made += room[: progress.written]
                self.same("after the output", (call, broken), set(room[progress.written :]) <= {0x5A}, True)
                if progress.outcome == NUMBERS["INPUT_EMPTY"]:
                    break
            else:
                raise Wrong("%s does not end" % call)
            told = status, len(broken) - len(rest), progress.outcome
            if valid == len(broken):
                self.same(call, (job, broken), told, (NUMBERS["OK"], valid, NUMBERS["INPUT_EMPTY"]))
            else:
                self.same(call, (job, broken), told, (NUMBERS["NOT_UTF8"], valid, 0))
                self.same("at a malformed sequence", broken, (progress.read, progress.written, set(room) <= {0x5A}), (0, 0, True))
            # The end of the stream: a last escape, if it was not written yet.
            room = bytearray(14)
            self.must(call, getattr(self.library, call)(handle, b"", room, True, progress))
            self.same(call, (job, broken), bytes(made + room[: progress.written]), want)

    def handle_of(self, target):
        """An encoder of a new stream."""
        handle = self.library.struct("EncoderHandle")()
        self.must("encoder_new", self.library.jillapun_encoder_new(self.tables, self.numbers[target], handle))
        return handle

    @staticmethod
    def valid_len(data):
        """How much of some bytes Python reads as UTF-8 before the first malformed byte."""
        try:
            data.decode()
            return len(data)
        except UnicodeDecodeError as error:
            return error.start

    def asked(self, call, query, job, points, of_units, plain):
        """A text without a lost character in one call, in the room that a query asks for; and what else an encoder tells."""
        handle, progress = self.library.struct("EncoderHandle")(), self.library.struct("EncoderProgress")()
        self.must("encoder_new", self.library.jillapun_encoder_new(self.tables, self.numbers[job.target], handle))
        number = self.library.jillapun_encoder_encoding(handle)
        self.same("encoder_encoding", job.target, number, self.numbers[self.encodings[job.target].output])
        source = self.source(text_of(points), of_units)
        room = bytearray(self.asked_room(query, handle, source[1] if of_units else len(source)))
        self.must(call, getattr(self.library, call)(handle, source, room, True, progress))
        self.same(query, (job, points), (progress.outcome, bytes(room[: progress.written])), (NUMBERS["INPUT_EMPTY"], plain))
        self.same("after the end", job.target, self.library.jillapun_encoder_has_pending_state(handle), False)

    def pending(self):
        """The set in force of ISO-2022-JP, up to the end of the text."""
        handle, progress = self.library.struct("EncoderHandle")(), self.library.struct("EncoderProgress")()
        self.must("encoder_new", self.library.jillapun_encoder_new(self.tables, self.numbers["ISO-2022-JP"], handle))
        for text, last, is_pending in (("a", False, False), ("\u3042", False, True), ("b", False, False), ("\u3042", True, False)):
            self.library.jillapun_encoder_encode_from_utf8(handle, text.encode(), bytearray(40), last, progress)
            self.same("pending", text, self.library.jillapun_encoder_has_pending_state(handle), is_pending)

    def conversions(self, job, data):
        """An input from memory to memory, in one call and by steps."""
        self.given = data
        run = plain_recode.Run(self.encodings, job, data)
        wanted = "STOPPED" if run.stop else "OK" if run.is_faithful else "LOSSY"
        numbers = self.numbers[job.source], self.numbers[job.target], MARKS[job.mark], POLICIES[job.policy]
        self.in_memory(job, data, run, wanted, numbers)
        self.by_steps(job, data, run, wanted, numbers)
        if data and not run.stop:
            self.past_the_limit(job, data, run, numbers)

    def steps(self, numbers, limit, parts):
        """A conversion by steps, with little room in some calls: the last status, the output, the losses and the report."""
        new, step, loss = self.library.jillapun_converter_new, self.library.jillapun_converter_step, self.library.struct("Loss")
        handle, report = self.library.struct("ConverterHandle")(), self.library.struct("Report")()
        self.must("converter_new", new(self.tables_for(numbers), *numbers, limit, handle))
        progress, most, losses = self.library.struct("ConverterProgress")(), self.random.choice((1, 9, 5000)), []
        # The end comes with the last bytes, or after them.
        output, parts = bytearray(), [*parts, b""] if not parts or self.random.random() < 0.5 else [*parts]
        for _ in range(MOST_CALLS):
            room, filled = bytearray(b"\x5a" * self.random.randint(0, most)), (loss * self.random.randint(0, 2))()
            last = len(parts) == 1
            if self.random.random() < 0.2:
                handle = moved(handle)
            status = step(handle, parts[0], last, room, filled, progress, report)
            within = progress.read <= len(parts[0]), progress.written <= len(room), progress.losses <= len(filled)
            self.same("told within", (numbers, parts), within, (True, True, True))
            parts[0] = parts[0][progress.read :]
            output += room[: progress.written]
            losses += [(it.kind, it.place, it.number) for it in filled[: progress.losses]]
            self.same("after the output", (numbers, parts), set(room[progress.written :]) <= {0x5A}, True)
            if status != NUMBERS["GOES_ON"]:
                break
            if not parts[0] and not last and self.random.random() < 0.9:
                del parts[0]
        else:
            raise Wrong("a conversion by steps does not end")
        got = status, bytes(output), losses, told_in(report)
        self.must("after the end", step(handle, b"a", True, room, filled, progress, report), "FINISHED")
        none = self.library.struct("ConverterHandle")()
        self.must("without a converter", step(none, b"a", True, room, filled, progress, report), "CLOSED")
        return got

    def by_steps(self, job, data, run, wanted, numbers):
        """An input by steps, cut at random places."""
        parts = fuzz.cut(self.random, data)
        told = self.told(run)
        got = self.steps(numbers, NO_LIMIT, parts)
        self.same("steps", (job, data, parts), got, (NUMBERS[wanted], bytes(run.output), losses_of(run), told))

    def past_the_limit(self, job, data, run, numbers):
        """An input that is longer than the limit: what comes is a part of the output."""
        status, output, losses, told = self.steps(numbers, self.random.randint(0, len(data) - 1), fuzz.cut(self.random, data))
        self.same("steps", (job, data), (status, told), (NUMBERS["TOO_LONG"], (0, 0, 0, 0, 0, 0)))
        is_part = bytes(run.output).startswith(output) and losses_of(run)[: len(losses)] == losses
        self.same("a part of the output", (job, data, output, losses), is_part, True)

    def told(self, run):
        """What has to be reported: counts if the run ended, else the character that stopped it."""
        return (0, 0, 0, 0, *run.stop) if run.stop else (len(self.given), run.bad, run.lost, len(run.text), 0, 0)

    def in_memory(self, job, data, run, wanted, numbers):
        losses = losses_of(run)
        room = bytearray(len(run.output) + self.random.randint(0, 5))
        records = (self.library.struct("Loss") * (len(losses) + 1))()
        report = self.library.struct("Report")()
        status = self.library.jillapun_convert(self.tables_for(numbers), *numbers, NO_LIMIT, data, room, records, report)
        self.same("convert", (job, data), status, NUMBERS[wanted])
        got = [(it.kind, it.place, it.number) for it in records[: report.losses]]
        self.same("output", (job, data), bytes(room[: report.written]), bytes(run.output))
        self.same("losses", (job, data), got, losses)
        self.same("report", (job, data), told_in(report), self.told(run))
        if run.output:
            room = bytearray(b"\x5a" * self.random.randrange(len(run.output)))
            status = self.library.jillapun_convert(self.tables_for(numbers), *numbers, NO_LIMIT, data, room, records, report)
            front = os.path.commonprefix([bytes(room), bytes(run.output)])
            got = status, report.written, report.losses, set(room[len(front) :]) <= {0x5A}
            self.same("too small a room", (job, data), got, (NUMBERS["ROOM"], len(run.output), len(losses), True))
        if losses:
            few, room = (self.library.struct("Loss") * self.random.randrange(len(losses)))(), bytearray(len(run.output))
            status = self.library.jillapun_convert(self.tables_for(numbers), *numbers, NO_LIMIT, data, room, few, report)
            got = [(it.kind, it.place, it.number) for it in few]
            front = os.path.commonprefix([got, losses])
            wanted = NUMBERS["ROOM"], len(run.output), len(losses), [(0, 0, 0)] * (len(got) - len(front))
            self.same("too few records", (job, data), (status, report.written, report.losses, got[len(front) :]), wanted)


def moved(handle):
    """A handle at another address; where it stood is wiped."""
    copy = type(handle).from_buffer_copy(handle)
    ctypes.memset(ctypes.addressof(handle), 0xFF, ctypes.sizeof(handle))
    return copy


def told_in(report):
    """What a report says of a conversion."""
    return report.read, report.bad, report.lost, report.characters, report.index, report.scalar


def losses_of(run):
    """The records that the log of a run stands for."""
    entries = [line.split() for line in run.log.decode().split("\n")[:-1]]
    kinds = {"bad": NUMBERS["BAD"], "lost": NUMBERS["LOST"]}
    return [(kinds[kind], int(place), int(number)) for kind, place, number in entries]


def characters(text, read, of_units):
    """How many characters of a text so many of its bytes or units are."""
    count = 0
    while read > 0:
        read -= len(text[count].encode("utf-16-le")) // 2 if of_units else len(text[count].encode())
        count += 1
    return count


def read_bytes(path):
    with open(path, "rb") as file:
        return file.read()


def faults(library):
    """What is wrong with the exports for streams and conversions."""
    streams = Streams(library)
    streams.labels()
    streams.needs()
    streams.pending()
    streams.refused()
    streams.whole_without_tables()
    streams.latin1()
    streams.without_tables()
    for _ in range(ROUNDS):
        job = fuzz.job_of(streams.random, fuzz.WEIGHTED)
        data = streams.inputs.data(streams.random, job, streams.random.choice((5, 40, 300)))
        parts = fuzz.cut(streams.random, data) or [b""]
        try:
            streams.decoders(job, data, parts)
            streams.encoders(job, streams.random.choice((3, 20, 150)))
            streams.copied_decoder(job, data)
            streams.copied_encoder(job, streams.random.choice((3, 20, 150)))
            streams.conversions(job, data)
        except Wrong as fault:
            streams.wrong.append("%s: %s" % (job, fault))
    print("streams: %d random inputs, by labels, decoders, encoders, whole calls and conversions" % ROUNDS)
    return streams.wrong
