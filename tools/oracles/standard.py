"""The algorithms of the Encoding Standard, as it writes them: a plain program beside the proved codecs.

A decoder reads a byte and a state at a time, an encoder a character; both look up the index texts, which are read
here (5). The numbers behind a class are those of its sections. This shares nothing with the definitions of this
repository, but for one choice: an escape of ISO-2022-JP that another follows at once is malformed itself; the
standard returns the other as an error. It needs Python 3.11.
"""

import bisect
import os
import tomllib

UNMAPPABLE = 0x1000000  # plus the character
END_OF_QUEUE = None


def index(folder, name):
    """Pointer and code point of each row, in their order."""
    rows = []
    with open(f"{folder}/index-{name}.txt", encoding="utf-8-sig") as text:
        for line in text:
            if line.strip() and not line.startswith("#"):
                parts = line.split()
                rows.append((int(parts[0]), int(parts[1], 16)))
    return rows


class Index:
    def __init__(self, rows):
        self.point = dict(rows)
        self.pointers = {}
        for pointer, point in rows:
            self.pointers.setdefault(point, []).append(pointer)

    def code_point(self, pointer):
        return self.point.get(pointer)

    def first(self, point, keep=lambda pointer: True):
        """The first pointer for a code point, of those that are kept."""
        return next((p for p in self.pointers.get(point, []) if keep(p)), None)

    def last(self, point, keep):
        return next((p for p in reversed(self.pointers.get(point, [])) if keep(p)), None)


class Tables:
    def __init__(self, folder):
        self.big5 = Index(index(folder, "big5"))
        self.euc_kr = Index(index(folder, "euc-kr"))
        self.jis0208 = Index(index(folder, "jis0208"))
        self.jis0212 = Index(index(folder, "jis0212"))
        self.gb18030 = Index(index(folder, "gb18030"))
        self.ranges = index(folder, "gb18030-ranges")
        self.offsets, self.points = zip(*self.ranges)
        self.katakana = Index(index(folder, "iso-2022-jp-katakana"))

    # 5, "index gb18030 ranges code point"
    def ranges_code_point(self, pointer):
        if 39419 < pointer < 189000 or pointer > 1237575:
            return None
        if pointer == 7457:
            return 0xE7C7
        offset, point = self.ranges[bisect.bisect_right(self.offsets, pointer) - 1]
        return point + pointer - offset

    # 5, "index gb18030 ranges pointer"
    def ranges_pointer(self, point):
        if point == 0xE7C7:
            return 7457
        offset, start = self.ranges[bisect.bisect_right(self.points, point) - 1]
        return offset + point - start


class Stream:
    """A list of bytes from which is read, and to which may be restored."""

    def __init__(self, data):
        self.data = list(data)
        self.place = 0

    def read(self):
        byte = self.data[self.place] if self.place < len(self.data) else END_OF_QUEUE
        self.place += 1
        return byte

    def restore(self, *items):
        self.place -= len(items)


def pieces(decoder, data):
    """Where each piece of the bytes begins and ends, and its characters, or None if it is malformed.

    A malformed sequence is what was read since the last result, less what was restored.
    """
    stream, start, escape = Stream(data), 0, None
    while True:
        result = decoder.step(stream)
        if result == "continue":
            continue
        end = min(stream.place, len(stream.data))
        if escape:
            yield *escape, None if result == "escape again" else ()
            escape = None
        if result == "finished":
            if start < len(data):  # what replacement leaves
                yield start, len(data), ()
            return
        if result in ("escape", "escape again"):
            escape = start, end
        else:
            yield start, end, None if result == "error" else result
        start = end


def decode(decoder, data):
    """The characters of each text between two malformed sequences, with the length of that which ends it (or None)."""
    texts, text = [], []
    for start, end, characters in pieces(decoder, data):
        if characters is None:
            texts.append((text, end - start))
            text = []
        else:
            text += characters
    texts.append((text, None))
    return texts


class Big5Decoder:  # 11.1.1
    def __init__(self, tables):
        self.tables, self.lead = tables, 0

    def step(self, stream):
        byte = stream.read()
        if byte is END_OF_QUEUE and self.lead != 0:
            self.lead = 0
            return "error"
        if byte is END_OF_QUEUE:
            return "finished"
        if self.lead != 0:
            lead, pointer, self.lead = self.lead, None, 0
            offset = 0x40 if byte < 0x7F else 0x62
            if 0x40 <= byte <= 0x7E or 0xA1 <= byte <= 0xFE:
                pointer = (lead - 0x81) * 157 + (byte - offset)
            pairs = {1133: (0xCA, 0x304), 1135: (0xCA, 0x30C), 1164: (0xEA, 0x304), 1166: (0xEA, 0x30C)}
            if pointer in pairs:
                return pairs[pointer]
            point = None if pointer is None else self.tables.big5.code_point(pointer)
            if point is not None:
                return (point,)
            if byte < 0x80:
                stream.restore(byte)
            return "error"
        if byte < 0x80:
            return (byte,)
        if 0x81 <= byte <= 0xFE:
            self.lead = byte
            return "continue"
        return "error"


class EucKrDecoder:  # 13.1.1
    def __init__(self, tables):
        self.tables, self.lead = tables, 0

    def step(self, stream):
        byte = stream.read()
        if byte is END_OF_QUEUE and self.lead != 0:
            self.lead = 0
            return "error"
        if byte is END_OF_QUEUE:
            return "finished"
        if self.lead != 0:
            lead, pointer, self.lead = self.lead, None, 0
            if 0x41 <= byte <= 0xFE:
                pointer = (lead - 0x81) * 190 + (byte - 0x41)
            point = None if pointer is None else self.tables.euc_kr.code_point(pointer)
            if point is not None:
                return (point,)
            if byte < 0x80:
                stream.restore(byte)
            return "error"
        if byte < 0x80:
            return (byte,)
        if 0x81 <= byte <= 0xFE:
            self.lead = byte
            return "continue"
        return "error"


class ShiftJisDecoder:  # 12.3.1
    def __init__(self, tables):
        self.tables, self.lead = tables, 0

    def step(self, stream):
        byte = stream.read()
        if byte is END_OF_QUEUE and self.lead != 0:
            self.lead = 0
            return "error"
        if byte is END_OF_QUEUE:
            return "finished"
        if self.lead != 0:
            lead, pointer, self.lead = self.lead, None, 0
            offset = 0x40 if byte < 0x7F else 0x41
            lead_offset = 0x81 if lead < 0xA0 else 0xC1
            if 0x40 <= byte <= 0x7E or 0x80 <= byte <= 0xFC:
                pointer = (lead - lead_offset) * 188 + byte - offset
            if pointer is not None and 8836 <= pointer <= 10715:
                return (0xE000 - 8836 + pointer,)
            point = None if pointer is None else self.tables.jis0208.code_point(pointer)
            if point is not None:
                return (point,)
            if byte < 0x80:
                stream.restore(byte)
            return "error"
        if byte < 0x80 or byte == 0x80:
            return (byte,)
        if 0xA1 <= byte <= 0xDF:
            return (0xFF61 - 0xA1 + byte,)
        if 0x81 <= byte <= 0x9F or 0xE0 <= byte <= 0xFC:
            self.lead = byte
            return "continue"
        return "error"


class EucJpDecoder:  # 12.1.1
    def __init__(self, tables):
        self.tables, self.lead, self.jis0212 = tables, 0, False

    def step(self, stream):
        byte = stream.read()
        if byte is END_OF_QUEUE and self.lead != 0:
            self.lead = 0
            return "error"
        if byte is END_OF_QUEUE:
            return "finished"
        if self.lead == 0x8E and 0xA1 <= byte <= 0xDF:
            self.lead = 0
            return (0xFF61 - 0xA1 + byte,)
        if self.lead == 0x8F and 0xA1 <= byte <= 0xFE:
            self.jis0212, self.lead = True, byte
            return "continue"
        if self.lead != 0:
            lead, self.lead = self.lead, 0
            point = None
            if 0xA1 <= lead <= 0xFE and 0xA1 <= byte <= 0xFE:
                table = self.tables.jis0212 if self.jis0212 else self.tables.jis0208
                point = table.code_point((lead - 0xA1) * 94 + byte - 0xA1)
            self.jis0212 = False
            if point is not None:
                return (point,)
            if byte < 0x80:
                stream.restore(byte)
            return "error"
        if byte < 0x80:
            return (byte,)
        if byte in (0x8E, 0x8F) or 0xA1 <= byte <= 0xFE:
            self.lead = byte
            return "continue"
        return "error"


class Gb18030Decoder:  # 10.2.1
    def __init__(self, tables):
        self.tables = tables
        self.first = self.second = self.third = 0

    def step(self, stream):
        byte = stream.read()
        if byte is END_OF_QUEUE and (self.first, self.second, self.third) == (0, 0, 0):
            return "finished"
        if byte is END_OF_QUEUE:
            self.first = self.second = self.third = 0
            return "error"
        if self.third != 0:
            if not 0x30 <= byte <= 0x39:
                stream.restore(self.second, self.third, byte)
                self.first = self.second = self.third = 0
                return "error"
            pointer = (
                (self.first - 0x81) * 12600
                + (self.second - 0x30) * 1260
                + (self.third - 0x81) * 10
                + byte
                - 0x30
            )
            point = self.tables.ranges_code_point(pointer)
            self.first = self.second = self.third = 0
            return "error" if point is None else (point,)
        if self.second != 0:
            if 0x81 <= byte <= 0xFE:
                self.third = byte
                return "continue"
            stream.restore(self.second, byte)
            self.first = self.second = 0
            return "error"
        if self.first != 0:
            if 0x30 <= byte <= 0x39:
                self.second = byte
                return "continue"
            lead, pointer, self.first = self.first, None, 0
            offset = 0x40 if byte < 0x7F else 0x41
            if 0x40 <= byte <= 0x7E or 0x80 <= byte <= 0xFE:
                pointer = (lead - 0x81) * 190 + (byte - offset)
            point = None if pointer is None else self.tables.gb18030.code_point(pointer)
            if point is not None:
                return (point,)
            if byte < 0x80:
                stream.restore(byte)
            return "error"
        if byte < 0x80:
            return (byte,)
        if byte == 0x80:
            return (0x20AC,)
        if 0x81 <= byte <= 0xFE:
            self.first = byte
            return "continue"
        return "error"


class Iso2022JpDecoder:  # 12.2.1
    def __init__(self, tables):
        self.tables = tables
        self.state = self.output_state = "ASCII"
        self.lead, self.output = 0, False

    def step(self, stream):
        byte = stream.read()
        if self.state in ("ASCII", "Roman", "katakana"):
            if byte == 0x1B:
                self.state = "escape start"
                return "continue"
            if byte is END_OF_QUEUE:
                return "finished"
            self.output = False
            if self.state == "katakana":
                return (0xFF61 - 0x21 + byte,) if 0x21 <= byte <= 0x5F else "error"
            if byte >= 0x80 or byte in (0x0E, 0x0F):
                return "error"
            if self.state == "Roman" and byte in (0x5C, 0x7E):
                return (0xA5,) if byte == 0x5C else (0x203E,)
            return (byte,)
        if self.state == "lead byte":
            if byte == 0x1B:
                self.state = "escape start"
                return "continue"
            if byte is END_OF_QUEUE:
                return "finished"
            self.output = False
            if 0x21 <= byte <= 0x7E:
                self.lead, self.state = byte, "trail byte"
                return "continue"
            return "error"
        if self.state == "trail byte":
            self.state = "lead byte"
            if byte == 0x1B:  # read again as a lead byte it leads to "escape start", where the standard goes
                stream.restore(byte)
                return "error"
            if byte is END_OF_QUEUE:
                stream.restore(byte)
                return "error"
            if 0x21 <= byte <= 0x7E:
                point = self.tables.jis0208.code_point((self.lead - 0x21) * 94 + byte - 0x21)
                return "error" if point is None else (point,)
            return "error"
        if self.state == "escape start":
            if byte in (0x24, 0x28):
                self.lead, self.state = byte, "escape"
                return "continue"
            stream.restore(byte)
            self.output, self.state = False, self.output_state
            return "error"
        lead, self.lead, state = self.lead, 0, None
        if (lead, byte) == (0x28, 0x42):
            state = "ASCII"
        if (lead, byte) == (0x28, 0x4A):
            state = "Roman"
        if (lead, byte) == (0x28, 0x49):
            state = "katakana"
        if lead == 0x24 and byte in (0x40, 0x42):
            state = "lead byte"
        if state is not None:
            self.state = self.output_state = state
            output, self.output = self.output, True
            return "escape again" if output else "escape"
        stream.restore(lead, byte)
        self.output, self.state = False, self.output_state
        return "error"


class SingleByteDecoder:  # 9.1
    def __init__(self, table):
        self.table = table

    def step(self, stream):
        byte = stream.read()
        if byte is END_OF_QUEUE:
            return "finished"
        if byte < 0x80:
            return (byte,)
        point = self.table.code_point(byte - 0x80)
        return "error" if point is None else (point,)


class Utf8Decoder:  # 8.1.1
    def __init__(self, _):
        self.point = self.seen = self.needed = 0
        self.lower, self.upper = 0x80, 0xBF

    def step(self, stream):
        byte = stream.read()
        if byte is END_OF_QUEUE and self.needed != 0:
            self.needed = 0
            return "error"
        if byte is END_OF_QUEUE:
            return "finished"
        if self.needed == 0:
            if byte < 0x80:
                return (byte,)
            if 0xC2 <= byte <= 0xDF:
                self.needed, self.point = 1, byte & 0x1F
            elif 0xE0 <= byte <= 0xEF:
                if byte == 0xE0:
                    self.lower = 0xA0
                if byte == 0xED:
                    self.upper = 0x9F
                self.needed, self.point = 2, byte & 0xF
            elif 0xF0 <= byte <= 0xF4:
                if byte == 0xF0:
                    self.lower = 0x90
                if byte == 0xF4:
                    self.upper = 0x8F
                self.needed, self.point = 3, byte & 0x7
            else:
                return "error"
            return "continue"
        if not self.lower <= byte <= self.upper:
            self.point = self.needed = self.seen = 0
            self.lower, self.upper = 0x80, 0xBF
            stream.restore(byte)
            return "error"
        self.lower, self.upper = 0x80, 0xBF
        self.point = self.point << 6 | byte & 0x3F
        self.seen += 1
        if self.seen != self.needed:
            return "continue"
        point, self.point, self.needed, self.seen = self.point, 0, 0, 0
        return (point,)


class Utf16Decoder:  # 14.2.1
    def __init__(self, is_big_endian):
        self.lead = self.surrogate = None
        self.is_big_endian = is_big_endian

    def step(self, stream):
        byte = stream.read()
        if byte is END_OF_QUEUE and (self.lead is not None or self.surrogate is not None):
            self.lead = self.surrogate = None
            return "error"
        if byte is END_OF_QUEUE:
            return "finished"
        if self.lead is None:
            self.lead = byte
            return "continue"
        unit = (self.lead << 8) + byte if self.is_big_endian else (byte << 8) + self.lead
        self.lead = None
        if self.surrogate is not None:
            surrogate, self.surrogate = self.surrogate, None
            if 0xDC00 <= unit <= 0xDFFF:
                return (0x10000 + ((surrogate - 0xD800) << 10) + (unit - 0xDC00),)
            stream.restore(0, 0)
            return "error"
        if 0xD800 <= unit <= 0xDBFF:
            self.surrogate = unit
            return "continue"
        return "error" if 0xDC00 <= unit <= 0xDFFF else (unit,)


class ReplacementDecoder:  # 14.1.1
    def __init__(self, _):
        self.is_returned = False

    def step(self, stream):
        byte = stream.read()
        if byte is END_OF_QUEUE or self.is_returned:
            return "finished"
        self.is_returned = True
        return "error"


class UserDefinedDecoder:  # 14.5.1
    def __init__(self, _):
        pass

    def step(self, stream):
        byte = stream.read()
        if byte is END_OF_QUEUE:
            return "finished"
        return (byte,) if byte < 0x80 else (0xF780 + byte - 0x80,)


def forms(encoder, text):
    """Each character with its bytes, or UNMAPPABLE and the number that is reported, an escape before it; and at the end
    None, with what is written there."""
    for point in text:
        yield point, encoder.handle(point)
    end = encoder.finish()
    if end:
        yield None, end


def encode(encoder, text):
    """The bytes, with each character that has none as UNMAPPABLE and its number."""
    items = []
    for point in text:
        items += encoder.handle(point)
    return items + encoder.finish()


class Encoder:
    def __init__(self, tables):
        self.tables = tables

    def finish(self):
        return []


class Big5Encoder(Encoder):  # 11.1.2, and 5, "index Big5 pointer"
    def handle(self, point):
        if point < 0x80:
            return [point]
        written = lambda pointer: pointer >= (0xA1 - 0x81) * 157
        table = self.tables.big5
        if point in (0x2550, 0x255E, 0x2561, 0x256A, 0x5341, 0x5345):
            pointer = table.last(point, written)
        else:
            pointer = table.first(point, written)
        if pointer is None:
            return [UNMAPPABLE + point]
        trail = pointer % 157
        return [pointer // 157 + 0x81, trail + (0x40 if trail < 0x3F else 0x62)]


class EucKrEncoder(Encoder):  # 13.1.2
    def handle(self, point):
        if point < 0x80:
            return [point]
        pointer = self.tables.euc_kr.first(point)
        if pointer is None:
            return [UNMAPPABLE + point]
        return [pointer // 190 + 0x81, pointer % 190 + 0x41]


class ShiftJisEncoder(Encoder):  # 12.3.2, and 5, "index Shift_JIS pointer"
    def handle(self, point):
        if point < 0x80 or point == 0x80:
            return [point]
        if point == 0xA5:
            return [0x5C]
        if point == 0x203E:
            return [0x7E]
        if 0xFF61 <= point <= 0xFF9F:
            return [point - 0xFF61 + 0xA1]
        looked_up = 0xFF0D if point == 0x2212 else point
        pointer = self.tables.jis0208.first(looked_up, lambda p: not 8272 <= p <= 8835)
        if pointer is None:
            return [UNMAPPABLE + point]
        lead, trail = divmod(pointer, 188)
        return [lead + (0x81 if lead < 0x1F else 0xC1), trail + (0x40 if trail < 0x3F else 0x41)]


class EucJpEncoder(Encoder):  # 12.1.2
    def handle(self, point):
        if point < 0x80:
            return [point]
        if point == 0xA5:
            return [0x5C]
        if point == 0x203E:
            return [0x7E]
        if 0xFF61 <= point <= 0xFF9F:
            return [0x8E, point - 0xFF61 + 0xA1]
        looked_up = 0xFF0D if point == 0x2212 else point
        pointer = self.tables.jis0208.first(looked_up)
        if pointer is None:
            return [UNMAPPABLE + point]
        return [pointer // 94 + 0xA1, pointer % 94 + 0xA1]


# 10.2.2, step 5
GB18030_SIDE = {
    0xE78D: (0xA6, 0xD9),
    0xE78E: (0xA6, 0xDA),
    0xE78F: (0xA6, 0xDB),
    0xE790: (0xA6, 0xDC),
    0xE791: (0xA6, 0xDD),
    0xE792: (0xA6, 0xDE),
    0xE793: (0xA6, 0xDF),
    0xE794: (0xA6, 0xEC),
    0xE795: (0xA6, 0xED),
    0xE796: (0xA6, 0xF3),
    0xE81E: (0xFE, 0x59),
    0xE826: (0xFE, 0x61),
    0xE82B: (0xFE, 0x66),
    0xE82C: (0xFE, 0x67),
    0xE832: (0xFE, 0x6D),
    0xE843: (0xFE, 0x7E),
    0xE854: (0xFE, 0x90),
    0xE864: (0xFE, 0xA0),
}


class Gb18030Encoder(Encoder):  # 10.2.2
    gbk = False

    def handle(self, point):
        if point < 0x80:
            return [point]
        if point == 0xE5E5:
            return [UNMAPPABLE + point]
        if self.gbk and point == 0x20AC:
            return [0x80]
        if point in GB18030_SIDE:
            return list(GB18030_SIDE[point])
        pointer = self.tables.gb18030.first(point)
        if pointer is not None:
            lead, trail = divmod(pointer, 190)
            return [lead + 0x81, trail + (0x40 if trail < 0x3F else 0x41)]
        if self.gbk:
            return [UNMAPPABLE + point]
        pointer = self.tables.ranges_pointer(point)
        first, pointer = divmod(pointer, 12600)
        second, pointer = divmod(pointer, 1260)
        third, fourth = divmod(pointer, 10)
        return [first + 0x81, second + 0x30, third + 0x81, fourth + 0x30]


class GbkEncoder(Gb18030Encoder):  # 10.1.2
    gbk = True


class Iso2022JpEncoder(Encoder):  # 12.2.2
    def __init__(self, tables):
        super().__init__(tables)
        self.state = "ASCII"

    def finish(self):
        if self.state == "ASCII":
            return []
        self.state = "ASCII"
        return [0x1B, 0x28, 0x42]

    def handle(self, point):
        if self.state in ("ASCII", "Roman") and point in (0x0E, 0x0F, 0x1B):
            return [UNMAPPABLE + 0xFFFD]
        if self.state == "ASCII" and point < 0x80:
            return [point]
        if self.state == "Roman":
            if point < 0x80 and point not in (0x5C, 0x7E):
                return [point]
            if point == 0xA5:
                return [0x5C]
            if point == 0x203E:
                return [0x7E]
        if point < 0x80 and self.state != "ASCII":
            self.state = "ASCII"
            return [0x1B, 0x28, 0x42] + self.handle(point)
        if point in (0xA5, 0x203E) and self.state != "Roman":
            self.state = "Roman"
            return [0x1B, 0x28, 0x4A] + self.handle(point)
        looked_up = 0xFF0D if point == 0x2212 else point
        if 0xFF61 <= looked_up <= 0xFF9F:
            looked_up = self.tables.katakana.code_point(looked_up - 0xFF61)
        pointer = self.tables.jis0208.first(looked_up)
        if pointer is None:
            if self.state == "jis0208":
                self.state = "ASCII"
                return [0x1B, 0x28, 0x42] + self.handle(point)
            return [UNMAPPABLE + point]
        if self.state != "jis0208":
            self.state = "jis0208"
            return [0x1B, 0x24, 0x42] + self.handle(point)
        return [pointer // 94 + 0x21, pointer % 94 + 0x21]


class SingleByteEncoder(Encoder):  # 9.2
    def handle(self, point):
        if point < 0x80:
            return [point]
        pointer = self.tables.first(point)
        return [UNMAPPABLE + point] if pointer is None else [pointer + 0x80]


class Utf8Encoder(Encoder):  # 8.1.2
    def handle(self, point):
        if point < 0x80:
            return [point]
        if point < 0x800:
            count, offset = 1, 0xC0
        elif point < 0x10000:
            count, offset = 2, 0xE0
        else:
            count, offset = 3, 0xF0
        out = [(point >> 6 * count) + offset]
        while count > 0:
            out.append(0x80 | point >> 6 * (count - 1) & 0x3F)
            count -= 1
        return out


class UserDefinedEncoder(Encoder):  # 14.5.2
    def handle(self, point):
        if point < 0x80:
            return [point]
        if 0xF780 <= point <= 0xF7FF:
            return [point - 0xF780 + 0x80]
        return [UNMAPPABLE + point]


# 4.2, "Name", with the index of each single-byte encoding (9).
with open(os.path.join(os.path.dirname(os.path.abspath(__file__)), "..", "encodings.toml"), "rb") as file:
    SINGLE_BYTE = {
        row["name"]: row["indexes"][0] for row in tomllib.load(file)["encodings"] if row["codec"] == "SingleByte"
    }


# 4.2, "Name", with the decoder and the encoder. UTF-16 and replacement are written as UTF-8 (4.3, "get an output
# encoding").
CODECS = {
    "UTF-8": (Utf8Decoder, Utf8Encoder),
    **{name: (SingleByteDecoder, SingleByteEncoder) for name in SINGLE_BYTE},
    "GBK": (Gb18030Decoder, GbkEncoder),
    "gb18030": (Gb18030Decoder, Gb18030Encoder),
    "Big5": (Big5Decoder, Big5Encoder),
    "EUC-JP": (EucJpDecoder, EucJpEncoder),
    "ISO-2022-JP": (Iso2022JpDecoder, Iso2022JpEncoder),
    "Shift_JIS": (ShiftJisDecoder, ShiftJisEncoder),
    "EUC-KR": (EucKrDecoder, EucKrEncoder),
    "replacement": (ReplacementDecoder, Utf8Encoder),
    "UTF-16BE": (Utf16Decoder, Utf8Encoder),
    "UTF-16LE": (Utf16Decoder, Utf8Encoder),
    "x-user-defined": (UserDefinedDecoder, UserDefinedEncoder),
}


class Encoding:
    """An encoding by its name, over the index texts of a folder."""

    def __init__(self, folder, name, tables):
        self.name = name
        self.new_decoder, self.new_encoder = CODECS[name]
        self.output = "UTF-8" if self.new_encoder is Utf8Encoder else name
        if name in SINGLE_BYTE:
            self.tables = Index(index(folder, SINGLE_BYTE[name]))
        elif name.startswith("UTF-16"):
            self.tables = name == "UTF-16BE"
        else:
            self.tables = tables

    def decoder(self):
        return self.new_decoder(self.tables)

    def encoder(self):
        return self.new_encoder(self.tables)


def encodings(folder):
    """The forty encodings by their names."""
    tables = Tables(folder)
    return {name: Encoding(folder, name, tables) for name in CODECS}
