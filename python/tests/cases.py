"""The lines of cases of `crates/test_encoding_cases` and `crates/test_recode_cases`, as their `data/README.md` has them."""

import os
import re
import sys
from typing import Dict, Iterator, List, NamedTuple, Optional, Tuple

TOP = os.path.abspath(os.path.join(os.path.dirname(os.path.abspath(__file__)), "../.."))

# The package of this copy, whatever is installed.
sys.path.insert(0, os.path.join(TOP, "python"))

# The index texts by the words of lines; all others are named as their files.
FILES = {"katakana": "index-iso-2022-jp-katakana.txt"}

KINDS = [name for name in sorted(os.listdir(os.path.join(TOP, "indexes"))) if name.startswith("index-")]

Texts = Dict[str, bytes]


def file_of(word: str) -> str:
    return FILES.get(word, "index-%s.txt" % word)


def text_of(rows: List[str]) -> bytes:
    """The index text of words as `5287=5341`, `0-127=80`, `5-9*0` and `0-98/2*0`."""
    lines = []
    for row in rows:
        pointers, sign, entry = re.fullmatch(r"([\d/-]+)([=*])([0-9A-Fa-f]+)", row).groups()
        places, _, step = pointers.partition("/")
        first, _, last = places.partition("-")
        for count, place in enumerate(range(int(first), int(last or first) + 1, int(step or 1))):
            lines.append("%d\t0x%04X\n" % (place, int(entry, 16) + (count if sign == "=" else 0)))
    return "".join(lines).encode()


def lines_in(crate: str) -> Iterator[Tuple[str, str, Texts]]:
    """Where each line of a crate's cases stands, its words, and the indexes that are there."""
    folder = os.path.join(TOP, "crates", crate, "data")
    for name in sorted(os.listdir(folder)):
        if not name.endswith(".txt"):
            continue
        texts: Texts = {}
        with open(os.path.join(folder, name), encoding="utf-8", newline="\n") as file:
            for number, line in enumerate(file, 1):
                words = line.rstrip("\n").strip()
                if not words or words.startswith("#"):
                    continue
                kind, _, rest = words.partition(" ")
                if kind == "tables":
                    texts = {}
                elif kind in ("index", "rows", "text"):
                    index, *rows = rest.split()
                    texts = {**texts, file_of(index): text_of(rows)}
                elif kind == "ranges":
                    texts = {**texts, "index-gb18030-ranges.txt": text_of(rest.split())}
                else:
                    yield "%s:%d" % (name, number), words, texts


class Conversion(NamedTuple):
    source: str
    target: str
    marks: Tuple[str, ...]
    policy: str
    data: bytes
    output: bytes
    log: List[str]
    verdict: str


_CONVERSION = re.compile(r"(\S+) -> (\S+?)((?: [a-z]+)*): (.*?) ?=> ?(.*)")


def bytes_of(words: str) -> bytes:
    """Pairs of digits, `61*80` for 80 times the same, and ASCII in quotes."""
    data = b""
    for quoted, pairs, count in re.findall(r'"([^"]*)"|((?:[0-9A-Fa-f]{2})+)(?:\*(\d+))?', words):
        data += quoted.encode() if not pairs else bytes.fromhex(pairs) * int(count or 1)
    return data


def conversion_of(words: str) -> Optional[Conversion]:
    """A conversion of `test_recode_cases`, or nothing where the line is of another kind."""
    found = _CONVERSION.fullmatch(words)
    if not found or " | " not in " " + found[5]:
        return None
    options, (output, *told) = found[3].split(), [part.strip() for part in (" " + found[5]).split(" |")]
    if not told or told[-1].split()[0] not in ("faithful", "lossy", "stopped"):
        return None
    policy = next((word for word in options if word in ("hexadecimal", "stop")), "decimal")
    marks = tuple(word for word in options if word in ("sniff", "remove", "keep")) or ("sniff", "remove", "keep")
    log = [line for line in told[:-1] if line.split()[0] in ("bad", "lost")]
    return Conversion(found[1], found[2], marks, policy, bytes_of(found[4]), bytes_of(output), log, told[-1])


class Stream(NamedTuple):
    encoding: str
    mark: str
    data: bytes
    text: str
    losses: List[Tuple[int, int]]


def stream_of(words: str) -> Optional[Stream]:
    """A stream of `test_encoding_cases`: `decode big5 41=41 A1=!`, or `stream sniff utf-8 as utf-8: EFBBBF= 61=61`."""
    decoded = re.fullmatch(r"decode (\S+)((?: [0-9A-F]+=\S*)*)", words)
    marked = re.fullmatch(r"stream (sniff|remove|keep) (\S+) as \S+:((?: [0-9A-F]+=\S*)*)", words)
    if not (decoded or marked):
        return None
    mark, encoding, pieces = ("keep", decoded[1], decoded[2]) if decoded else (marked[1], marked[2], marked[3])
    data, text, losses = b"", "", []
    for piece in pieces.split():
        part, _, characters = piece.partition("=")
        if characters == "!":
            losses.append((len(data), len(part) // 2))
            text += "\ufffd"
        else:
            text += "".join(chr(int(point, 16)) for point in characters.split("+") if point)
        data += bytes.fromhex(part)
    return Stream(encoding, mark, data, text, losses)


class Text(NamedTuple):
    encoding: str
    text: str
    data: bytes
    losses: List[Tuple[int, str]]


def text_case_of(words: str) -> Optional[Text]:
    """A text of `test_encoding_cases`: `encode gbk 41=41 20AC=80 1F4A9=!`."""
    found = re.fullmatch(r"encode (\S+)((?: \S*=\S*)*)", words)
    if not found:
        return None
    text, data, losses = "", b"", []
    for piece in found[2].split():
        point, _, form = piece.partition("=")
        part, sign, reported = form.partition("!")
        data += bytes.fromhex(part)
        if sign:
            scalar = int(reported or point, 16)
            losses.append((len(text), chr(scalar)))
            data += b"&#%d;" % scalar
        text += chr(int(point, 16)) if point else ""
    return Text(found[1], text, data, losses)
