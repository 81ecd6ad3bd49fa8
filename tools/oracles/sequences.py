#!/usr/bin/env python3
"""What the program `test_index_files` must print of every sequence of two bytes.

    cd crates/test_index_files
    python3 ../../tools/oracles/sequences.py data | diff - <(sed '1,34d;/ reads: /,$d' stdout)

The codecs are those of `standard.py`. After `--python` it compares the characters of pairs with the codecs of Python,
and prints what differs.
"""

import sys

sys.dont_write_bytecode = True

import standard
from standard import UNMAPPABLE, decode, encode

BAD = 0x110000  # plus the length of the malformed sequence
END = 0xFFFFFFFF

CASES = [
    ("big5", b"", "Big5"),
    ("euc-kr", b"", "EUC-KR"),
    ("shift_jis", b"", "Shift_JIS"),
    ("euc-jp", b"", "EUC-JP"),
    ("euc-jp 8F", b"\x8f", "EUC-JP"),
    ("gb18030", b"", "gb18030"),
    ("gb18030 81 35", b"\x81\x35", "gb18030"),
    ("gb18030 90 30", b"\x90\x30", "gb18030"),
    ("gbk", b"", "GBK"),
    ("iso-2022-jp 1B 24 42", b"\x1b$B", "ISO-2022-JP"),
    ("iso-2022-jp 1B 28 4A", b"\x1b(J", "ISO-2022-JP"),
]


def fnv1a(items):
    digest = 0x811C9DC5
    for item in items:
        for byte in item.to_bytes(4, "little"):
            digest = (digest ^ byte) * 0x01000193 & 0xFFFFFFFF
    return digest


def units(text):
    for point in text:
        if point < 0x10000:
            yield point
        else:
            yield 0xD800 + (point - 0x10000 >> 10)
            yield 0xDC00 + (point & 0x3FF)


def sequence(encoding, data):
    """What is read, what is written, and whether the whole is read, and is written with its own bytes."""
    read, written = [], []
    texts = decode(encoding.decoder(), data)
    for text, error in texts:
        read += units(text)
        out = encode(encoding.encoder(), text)
        written += out
        if error is not None:
            read.append(BAD + error)
    whole = len(texts) == 1
    kept = whole and all(item < 0x100 for item in out) and bytes(out).startswith(data)
    return read, written, whole, kept


def digest_lines(what, digests):
    for lead in range(0, 256, 16):
        yield " ".join([what, f"{lead:02X}", *(f"{digest:08x}" for digest in digests[lead : lead + 16])])


def lines(folder):
    """The lines that are printed."""
    encodings = standard.encodings(folder)
    for name, front, encoding in CASES:
        all_read, all_written, wholes, kepts, bad, unmappable = [], [], 0, 0, 0, 0
        for lead in range(256):
            lead_read, lead_written = [], []
            for second in range(256):
                read, written, whole, kept = sequence(encodings[encoding], front + bytes((lead, second)))
                wholes += whole
                kepts += kept
                bad += sum(BAD < item for item in read)
                unmappable += sum(UNMAPPABLE <= item for item in written)
                lead_read += read + [END]
                lead_written += written + [END]
            all_read.append(fnv1a(lead_read))
            all_written.append(fnv1a(lead_written))
        yield f"{name}: {wholes} whole, {kepts} kept, {bad} bad, {unmappable} unmappable"
        yield from digest_lines("read", all_read)
        yield from digest_lines("written", all_written)


def compare(folder):
    """The characters of the pairs by the codecs of Python, if a pair is one character."""
    encodings = standard.encodings(folder)
    for name, codec in [
        ("Big5", "big5hkscs"),
        ("EUC-KR", "cp949"),
        ("Shift_JIS", "cp932"),
        ("EUC-JP", "euc_jp"),
        ("gb18030", "gb18030"),
    ]:
        same, apart, only_here, only_there = 0, [], 0, 0
        for lead in range(0x81, 0xFF):
            for second in range(256):
                data = bytes((lead, second))
                texts = decode(encodings[name].decoder(), data)
                here = "".join(map(chr, texts[0][0])) if len(texts) == 1 else None
                try:
                    there = data.decode(codec)
                except UnicodeDecodeError:
                    there = None
                if here == there:
                    same += 1
                elif here is None:
                    only_there += 1
                elif there is None:
                    only_here += 1
                else:
                    apart.append(f"{data.hex()} {here!a} {there!a}")
        print(f"{name}, {codec}: {same} the same, {only_here} only here, {only_there} only there, {len(apart)} apart")
        for line in apart:
            print("   ", line)


if __name__ == "__main__":
    if sys.argv[1] == "--python":
        compare(sys.argv[2])
    else:
        print(*lines(sys.argv[1]), sep="\n")
