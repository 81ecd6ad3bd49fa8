#!/usr/bin/env python3
"""What the program `test_index_files` must print of the forty encodings by name.

    cd crates/test_index_files
    python3 ../../tools/oracles/characters.py data | diff - <(sed -n '/ reads: /,$p' stdout)

With the word `all` after the folder, it is what the program must print with this word, by which it writes every
character in every encoding (`make characters`).

With the word `names` it prints the names. With `verdicts`, a number and names it prints what the program
`test_recode_cases` must print with these (`make verdicts`): of the characters, in the planes from 1 on of those that
the number divides, whether each is kept, folded or lost as a text of its own.

Of each encoding: what it reads in short streams of bytes, among which are the bytes of every character of its
indexes; and what it writes for each character, and how that is read again. The codecs are those of `standard.py`.
"""

import itertools
import multiprocessing
import re
import sys

sys.dont_write_bytecode = True

import standard
from standard import UNMAPPABLE

ALL = range(256)
ONE, TWO = [(ALL,)], [(ALL,), (ALL, ALL)]


def behind(front, *ranges):
    return (*([byte] for byte in front), *ranges)


FOUR = (range(0x81, 0xFF), range(0x30, 0x3A), range(0x81, 0xFF), range(0x30, 0x3A))
JIS = [(ALL,), behind(b"\x1b(I", ALL), behind(b"\x1b(J", ALL), behind(b"\x1b$B", ALL, ALL)]

# The streams that are read in an encoding, unless they are those of one byte.
STREAMS = {
    "GBK": TWO + [FOUR],
    "gb18030": TWO + [FOUR],
    "Big5": TWO,
    "EUC-JP": TWO + [behind(b"\x8f", ALL, ALL)],
    "ISO-2022-JP": JIS,
    "Shift_JIS": TWO,
    "EUC-KR": TWO,
    "UTF-16BE": TWO[1:],
    "UTF-16LE": TWO[1:],
}


def is_written(name, point, is_all):
    """Of the planes from 1 on every 64th character is written, but all of plane 2, which no other index has, in Big5. With
    the word `all` every character is."""
    if 0xD800 <= point <= 0xDFFF:
        return False
    if is_all or point < 0x10000 or point % 64 == 0:
        return True
    return name == "Big5" and point >> 16 == 2


class Digest:
    """FNV-1a over bytes, with FF FF FF FF after each item."""

    def __init__(self):
        self.hash = 0x811C9DC5

    def add(self, item):
        digest = self.hash
        for byte in item + b"\xff\xff\xff\xff":
            digest = (digest ^ byte) * 0x01000193 & 0xFFFFFFFF
        self.hash = digest


def read(encoding, data):
    """The text as UTF-8, with U+FFFD for each malformed sequence, and whether there was one."""
    texts = standard.decode(encoding.decoder(), data)
    out = []
    for text, error in texts:
        out += text if error is None else [*text, 0xFFFD]
    return "".join(map(chr, out)).encode("utf-8"), len(texts) > 1


def reads(encoding):
    whole, bad, digest = 0, 0, Digest()
    for ranges in STREAMS.get(encoding.name, ONE):
        for data in itertools.product(*ranges):
            text, had_errors = read(encoding, bytes(data))
            digest.add(text)
            whole += not had_errors
            bad += had_errors
    return f"{whole} whole, {bad} with a bad piece, {digest.hash:08x}"


def writes(encoding, output, is_all):
    lost, folded, written, again = 0, 0, Digest(), Digest()
    for point in range(0x110000):
        if not is_written(encoding.name, point, is_all):
            continue
        items = standard.encode(encoding.encoder(), [point])
        out = b"".join(
            bytes([item]) if item < 0x100 else f"&#{item - UNMAPPABLE};".encode() for item in items
        )
        written.add(out)
        if any(item >= UNMAPPABLE for item in items):
            lost += 1
            continue
        text, _ = read(output, out)
        again.add(text)
        folded += text != chr(point).encode("utf-8")
    return f"{lost} lost, {folded} folded, {written.hash:08x}, read again {again.hash:08x}"


def verdict(encoding, output, point):
    """What is reported of a text of one character. Lost: it has no bytes. Folded: what is written for it has a malformed
    sequence, or is read as another text."""
    items = standard.encode(encoding.encoder(), [point])
    if any(item >= UNMAPPABLE for item in items):
        return "lost"
    texts = standard.decode(output.decoder(), bytes(items))
    return "kept" if texts == [([point], None)] else "folded"


def verdicts(folder, step, names):
    """A line for each span of characters of which one thing is reported."""
    encodings = standard.encodings(folder)
    points = (*range(0xD800), *range(0xE000, 0x10000), *range(0x10000, 0x110000, step))
    for name in names:
        encoding, output = encodings[name], encodings[encodings[name].output]
        for word, span in itertools.groupby(points, lambda point: verdict(encoding, output, point)):
            first = last = next(span)
            for last in span:
                pass
            yield f"{name} {first:04X} {last:04X} {word}"


def part(task):
    """What is reported of an encoding in one of the two lines."""
    folder, name, is_all = task
    encodings = standard.encodings(folder)
    encoding = encodings[name]
    return reads(encoding) if is_all is None else writes(encoding, encodings[encoding.output], is_all)


def natural(name):
    """A key by which names stand in the order of the alphabet, and numbers in them by their value."""
    return [int(part) if part.isdigit() else part for part in re.split("([0-9]+)", name.upper())]


def lines(folder, is_all):
    """The lines that are printed. GBK reads what gb18030 does (10.1.1)."""
    readers = [name for name in standard.CODECS if name != "GBK"]
    slow_first = sorted(readers, key=lambda name: name not in STREAMS)
    tasks = [(folder, name, None) for name in slow_first] + [(folder, name, is_all) for name in standard.CODECS]
    with multiprocessing.Pool() as pool:
        told = dict(zip(tasks, pool.map(part, tasks, 1)))
    for name in sorted(standard.CODECS, key=natural):
        reader = "gb18030" if name == "GBK" else name
        yield f"{name} reads: {told[folder, reader, None]}"
        yield f"{name} writes: {told[folder, name, is_all]}"


def main(folder, words):
    if words == ["names"]:
        print(*standard.CODECS, sep="\n")
    elif words[:1] == ["verdicts"]:
        for line in verdicts(folder, int(words[1]), words[2:]):
            print(line, flush=True)
    else:
        print(*lines(folder, words == ["all"]), sep="\n")


if __name__ == "__main__":
    main(sys.argv[1], sys.argv[2:])
