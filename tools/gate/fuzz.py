#!/usr/bin/env python3
"""Converts random inputs by the program and by the libraries, and compares what comes of them with `plain_recode.py`.

    python3 tools/gate/fuzz.py seconds 60
    python3 tools/gate/fuzz.py seed 7

A round has a seed, from which all of it is made. By the program `recode`: an input that is cut into reads at random, and
whose encodings, mark, policy, pivot and limit are random; status, output and log are compared. By the libraries: short
streams and texts as lines of cases, which `test_encoding_cases` and `test_recode_cases` convert at every cut, by every call and
with buffers of all sizes (`data/README.md` of each). The programs are those that `rt ci` or `rt run` has left in `out/`.
A difference is printed with its seed, and of the program with the shortest input that was found to have it.
"""

import fcntl
import itertools
import os
import random
import re
import subprocess
import sys
import tempfile
import time

sys.dont_write_bytecode = True

from steps import TOP

import plain_recode
import standard
from plain_recode import MARKS, Job, Run

INDEXES = os.path.join(TOP, "indexes")
PROGRAMS = {
    name: os.path.join(TOP, "crates", name, "out", name) for name in ("recode_cli", "test_encoding_cases", "test_recode_cases")
}

# The seeds of the gate: those whose runs of the program it has, and those whose lines of cases.
RUN_SEEDS, LINE_SEEDS = range(20), range(20)

# What a round has: runs of the program, streams, texts and conversions.
RUNS, STREAMS, TEXTS, CONVERSIONS = 100, 24, 24, 12

# The most that the program reads at once.
READ = 4096

# Bytes at the edges of ranges, and what begins or ends something.
EDGES = bytes.fromhex(
    "00 0E 0F 1B 21 24 26 28 29 2A 30 39 3B 40 41 42 49 4A 5A 5B 5C 5D 5E 5F 60 7E 7F 80 81 8E 8F 9F A0 A1 B0 BB BF C2 D8 DC"
    "DF E0 ED EF F0 F4 FC FD FE FF"
)
FRAGMENTS = [
    *(b"\x1b(B", b"\x1b(J", b"\x1b(I", b"\x1b$B", b"\x1b$@", b"\x1b$", b"\x1b("),
    *(b"\x810\x810", b"\x84\x31\xa4\x37", b"\xfe\x59", b"\x8f\xa1", b"\x88b"),
    *(b"\xe3\x83", b"\xed\xa0\x80", b"\xf0\x9f\x92", b"\xd8\x00", b"\x00\xd8", b"\xdc\x00"),
    *(mark for mark, _ in MARKS),
]

# Characters that encodings write as others, in a form of their own, or not at all, and those at the edges of ranges.
SPECIAL = [
    *(0x0E, 0x0F, 0x1B, 0x5C, 0x7E, 0x80, 0xA5, 0x203E, 0x2212, 0xFF0D, 0xFF61, 0xFF9F, 0x20AC, 0x2550, 0x5341),
    *(0xE000, 0xE5E5, 0xE757, 0xE78D, 0xE7C7, 0xE81E, 0xF780, 0xF7FF, 0x1F4A9),
    *(0x7FF, 0x800, 0xD7FF, 0xFEFF, 0xFFFD, 0xFFFE, 0xFFFF, 0x10000, 0x10FFFF),
]

# The indexes that a line of a case names, by the names of their files.
CASE_INDEXES = {
    "big5": "big5",
    "euc-kr": "euc-kr",
    "gb18030": "gb18030",
    "gb18030-ranges": "gb18030-ranges",
    "jis0208": "jis0208",
    "jis0212": "jis0212",
    "iso-2022-jp-katakana": "katakana",
    "ibm866": "ibm866",
    "windows-1252": "windows-1252",
    "windows-1253": "windows-1253",
    "windows-1257": "windows-1257",
}

# The encodings that they are enough for.
CASE_ENCODINGS = [
    name
    for name in standard.CODECS
    if standard.SINGLE_BYTE.get(name, "big5") in CASE_INDEXES
]


class Inputs:
    """Random characters, texts and bytes."""

    def __init__(self, encodings):
        self.encodings = encodings
        self.pools = {name: self.pool(encoding) for name, encoding in encodings.items()}

    def pool(self, encoding):
        """The characters of the indexes of an encoding."""
        tables = encoding.tables
        if isinstance(tables, standard.Index):
            return list(tables.pointers)
        index = {
            "Big5": "big5",
            "EUC-KR": "euc_kr",
            "GBK": "gb18030",
            "gb18030": "gb18030",
            "EUC-JP": "jis0212",
            "Shift_JIS": "jis0208",
            "ISO-2022-JP": "jis0208",
        }.get(encoding.name)
        return list(getattr(tables, index).pointers) if index else [*range(0xA0, 0x250), *range(0xF780, 0xF800)]

    def character(self, random, names):
        kind = random.randrange(10)
        if kind < 3:
            return random.randrange(0x20, 0x7F)
        if kind < 8:
            return random.choice(self.pools[random.choice(names)])
        if kind == 8:
            return random.choice(SPECIAL)
        point = random.randrange(0x110000 - 0x800)
        return point if point < 0xD800 else point + 0x800

    def text(self, random, names, size):
        return [self.character(random, names) for _ in range(size)]

    def encoded(self, name, text):
        """The text in an encoding, without the characters that it has no bytes for."""
        if name.startswith("UTF-16"):
            return "".join(map(chr, text)).encode("utf-16-be" if name == "UTF-16BE" else "utf-16-le")
        return bytes(item for item in standard.encode(self.encodings[name].encoder(), text) if item < 0x100)

    def changed(self, random, data):
        """The bytes with a few of them replaced, left out, put in or repeated."""
        data = bytearray(data)
        for _ in range(random.randrange(4)):
            place, kind = random.randrange(len(data) + 1), random.randrange(5)
            if kind == 0:
                data[place : place + 1] = bytes([random.randrange(256)])
            elif kind == 1:
                del data[place : place + random.randrange(1, 4)]
            elif kind == 2:
                data[place:place] = random.choice(FRAGMENTS)
            elif kind == 3:
                data[place:place] = bytes(random.choices(EDGES, k=random.randrange(1, 4)))
            else:
                data[place:place] = data[place : place + random.randrange(9)]
        return bytes(data)

    def part(self, random, job, size):
        kind = random.randrange(8)
        if kind == 0:
            return random.randbytes(size)
        if kind == 1:
            return bytes(random.choices(EDGES, k=size))
        if kind == 2:
            return b"".join(random.choices(FRAGMENTS, k=size // 3 + 1))
        text = self.text(random, [job.source, job.source, job.target], size // 2 + 1)
        return self.changed(random, self.encoded(job.source, text))

    def kept(self, random, job, size):
        """A text that both encodings have bytes for."""
        names = [job.source, self.encodings[job.target].output]
        points = self.text(random, names, size)
        for name in names:
            encoder = self.encodings[name].new_encoder
            tables = self.encodings[name].tables
            points = [point for point in points if standard.encode(encoder(tables), [point])[-1] < 0x100]
        return points

    def data(self, random, job, size):
        """An input: whole text that is kept, or one made of parts, often with a mark or the start of one."""
        if random.randrange(3) == 0:
            return self.encoded(job.source, self.kept(random, job, size // 2))
        mark = random.choice(MARKS)[0] if random.randrange(4) == 0 else b""
        data = mark[: random.randrange(1, 4)]
        while len(data) < size:
            data += self.part(random, job, min(size - len(data), random.choice((4, 16, 64, 512))))
        return data[:size] if random.randrange(3) else data


def job_of(random, names):
    source = random.choice(names)
    target = source if random.randrange(8) == 0 else random.choice(names)
    policy = random.choice(("decimal", "decimal", "hexadecimal", "stop"))
    return Job(source, target, random.choice(("sniff", "remove", "keep")), policy)


# Runs of the program.

# The encodings, those of more than a byte a character more often than the others.
WEIGHTED = [*standard.CODECS, *3 * [name for name in standard.CODECS if name not in standard.SINGLE_BYTE]]


def size_of(random):
    """Some bytes, some hundreds, or as many as fill the buffers once or twice."""
    kind = random.randrange(20)
    if kind < 12:
        return random.randrange(40)
    if kind < 18:
        return random.randrange(600)
    return READ * random.randrange(1, 3) + random.randrange(-8, 9)


def cut(random, data):
    """The reads: at most a buffer each, cut at some places, or everywhere."""
    kind = random.randrange(4)
    if kind == 0:
        places = range(1, len(data)) if len(data) < 200 else []
    elif kind == 1:
        places = []
    else:
        places = sorted(random.sample(range(len(data) + 1), min(len(data), random.randrange(1, 8))))
    reads, last = [], 0
    for place in (*places, len(data)):
        reads += [data[start : min(start + READ, place)] for start in range(last, place, READ)]
        last = place
    return reads


def ended_in(words, reads):
    """Status, standard output and standard error of the program, whose reads are these: a pipe of packets has one for
    each."""
    read, write = os.pipe2(os.O_DIRECT | os.O_CLOEXEC)
    fcntl.fcntl(write, fcntl.F_SETPIPE_SZ, 1 << 20)
    with tempfile.TemporaryFile() as out, tempfile.TemporaryFile() as log:
        ran = subprocess.Popen([PROGRAMS["recode_cli"], *words], stdin=read, stdout=out, stderr=log)
        os.close(read)
        try:
            for part in reads:
                os.write(write, part)
        except BrokenPipeError:
            pass
        os.close(write)
        status = ran.wait(timeout=60)
        out.seek(0)
        log.seek(0)
        return status, out.read(), log.read()


def is_cut_short(run, ended, reads, limit):
    """Whether a run ended as one does whose input passes the limit: what it wrote are the beginnings of the output and the
    log, and in them is all that ends three bytes before the end of the reads below the limit."""
    status, out, log = ended
    message = b"recode: input too long\n"
    total = max(total for total in itertools.accumulate(map(len, reads), initial=0) if total <= limit)
    least = max(((out, log) for end, out, log in run.progress if end + 3 <= total), default=(0, 0))
    lines = log.removesuffix(message)
    return (
        status == 4
        and log.endswith(message)
        and run.output.startswith(out)
        and run.log.startswith(lines)
        and least[0] <= len(out)
        and least[1] <= len(lines)
    )


class ProgramCase:
    """A run of the program."""

    def __init__(self, random, inputs):
        self.encodings = inputs.encodings
        self.job = job_of(random, WEIGHTED)
        data = inputs.data(random, self.job, size_of(random))
        self.reads = cut(random, data)
        self.pivot = random.choice(("utf8", "utf16"))
        is_limited = self.job.policy != "stop" and random.randrange(4) == 0
        self.limit = random.randrange(len(data) + 3) if is_limited else None

    def words(self):
        job = self.job
        words = ["--from", job.source, "--to", job.target, "--indexes", INDEXES, "--mark", job.mark]
        words += ["--unmappable", job.policy, "--pivot", self.pivot]
        return words + (["--limit", str(self.limit)] if self.limit is not None else [])

    def difference(self, reads):
        """What differs if these are the reads, or nothing."""
        data = b"".join(reads)
        run = Run(self.encodings, self.job, data)
        ended = ended_in(self.words(), reads)
        if self.limit is not None and len(data) > self.limit:
            return None if is_cut_short(run, ended, reads, self.limit) else (ended, "a part of", run.ended())
        return None if ended == run.ended() else (ended, "and not", run.ended())

    def shortest(self):
        """The least reads that were found to differ, each time with a read or half of one or a byte left out."""
        reads, tries, is_shorter = self.reads, 0, True
        while is_shorter and tries < 400:
            is_shorter = False
            for fewer in shorter(reads):
                tries += 1
                if self.difference(fewer):
                    reads, is_shorter = fewer, True
                    break
        return reads


def shorter(reads):
    for place, part in enumerate(reads):
        before, after = reads[:place], reads[place + 1 :]
        yield before + after
        if len(part) > 2:
            half = len(part) // 2
            yield before + [part[:half]] + after
            yield before + [part[half:]] + after
        if 1 < len(part) < 40:
            for byte in range(len(part)):
                yield before + [part[:byte] + part[byte + 1 :]] + after


def program_faults(random, inputs):
    for number in range(RUNS):
        case = ProgramCase(random, inputs)
        if case.difference(case.reads):
            reads = case.shortest()
            ended, how, wanted = case.difference(reads)
            shown = " ".join(part.hex() for part in reads)
            yield f"run {number}: recode {' '.join(case.words())}: reads {shown}: {ended} {how} {wanted}"


# Lines of cases, which programs over the libraries convert.


def pieces_of(parts, data):
    words = []
    for start, end, characters in parts:
        text = "!" if characters is None else "+".join(f"{point:X}" for point in characters)
        words.append(f"{data[start:end].hex().upper()}={text}")
    return " ".join(words)


def stream_line(random, inputs):
    job = job_of(random, CASE_ENCODINGS)
    data = inputs.data(random, job, random.randrange(10))
    found, parts = plain_recode.pieces(inputs.encodings, job, data)
    if any(characters and plain_recode.REPLACEMENT_CHARACTER in characters for _, _, characters in parts):
        return "# U+FFFD is no text here"
    if random.randrange(2):
        return f"stream {job.mark} {job.source} as {found}: {pieces_of(parts, data)}"
    parts = standard.pieces(inputs.encodings[job.source].decoder(), data)
    return f"decode {job.source} {pieces_of(parts, data)}"


def text_line(random, inputs):
    name = random.choice([name for name in CASE_ENCODINGS if inputs.encodings[name].output == name])
    words = []
    for point, form in standard.forms(inputs.encodings[name].encoder(), inputs.text(random, [name], random.randrange(8))):
        word = "=" if point is None else f"{point:X}="
        for item in form:
            lost = item - standard.UNMAPPABLE
            word += f"{item:02X}" if lost < 0 else "!" if lost == point else f"!{lost:X}"
        words.append(word)
    return f"encode {name} {' '.join(words)}"


def conversion_line(random, inputs):
    job = job_of(random, CASE_ENCODINGS)
    data = inputs.data(random, job, random.randrange(9))
    run = Run(inputs.encodings, job, data)
    words = [job.source, "->", job.target, job.mark]
    words += [] if job.policy == "decimal" else [job.policy]
    words += ["rooms"] if random.randrange(3) == 0 else []
    words += ["calls"] if (job.mark, job.policy) == ("sniff", "decimal") else []
    ending = "stopped %d %d" % run.stop if run.stop else "faithful" if run.is_faithful else "lossy"
    told = [bytes(run.output).hex(), *run.log.decode().splitlines(), f"found {run.found}", ending]
    return f"{' '.join(words)}: {data.hex()} => {' | '.join(told)}"


def index_lines(ranges):
    """The whole indexes. The rows of the ranges have a word of their own, or that of an index."""
    yield "tables"
    for file, name in CASE_INDEXES.items():
        rows = " ".join(f"{pointer}={point:04X}" for pointer, point in standard.index(INDEXES, file))
        yield f"{ranges if name == 'gb18030-ranges' else 'index ' + name} {rows}"


def files_of(program):
    """The files that a program of cases reads, as its stored output names them."""
    with open(os.path.join(TOP, "crates", program, "stdout"), encoding="utf-8") as file:
        return [line.partition(":")[0] for line in file]


def line_faults(program, given, lines, front):
    """What a program says of these lines, after those of the front, in that one of the files that it reads."""
    files = files_of(program)
    place = files.index(given)
    count = sum(not line.startswith("#") for line in lines)
    with tempfile.TemporaryDirectory() as folder:
        for name in files:
            with open(os.path.join(folder, name), "w", encoding="utf-8") as file:
                file.write("\n".join((*front, *lines)) if name == given else "")
        ran = subprocess.run([PROGRAMS[program]], cwd=folder, capture_output=True, text=True, timeout=600, check=False)
    said = ran.stdout.splitlines()
    for line in said[: -len(files)]:
        number = re.match(r"\S+:(\d+): ", line)
        yield f"{program}: {lines[int(number[1]) - 1 - len(front)] if number else ''}: {line}"
    counts = [rf"{re.escape(name)}: (\d+) cases, \d+ conversions, 0 differences" for name in files]
    found = [re.fullmatch(*pair) for pair in zip(counts, said[-len(files) :])]
    if ran.returncode or not all(found) or int(found[place][1]) != count:
        yield f"{program}: status {ran.returncode}, {said[-len(files):][place:][:1]} of {count} lines {ran.stderr}"


def library_faults(random, inputs, fronts):
    lines = [stream_line(random, inputs) for _ in range(STREAMS)] + [text_line(random, inputs) for _ in range(TEXTS)]
    yield from line_faults("test_encoding_cases", "utf-8.txt", lines, fronts[0])
    lines = [conversion_line(random, inputs) for _ in range(CONVERSIONS)]
    yield from line_faults("test_recode_cases", "worked.txt", lines, fronts[1])


def not_built(names):
    return ["%s was not built" % os.path.relpath(PROGRAMS[name], TOP) for name in names if not os.path.isfile(PROGRAMS[name])]


def front_lines():
    """The lines with the whole indexes, for each of the programs of cases."""
    return [*index_lines("ranges")], [*index_lines("index gb18030-ranges")]


def of_seed(seed, wrong):
    return (f"seed {seed}: {fault}" for fault in wrong)


def round_faults(seeds):
    """What differs in the rounds of these seeds, whose two halves are each made from the seed alone."""
    missing = not_built(PROGRAMS)
    if missing:
        yield from missing
        return
    inputs, fronts = Inputs(standard.encodings(INDEXES)), front_lines()
    for seed in seeds:
        yield from of_seed(seed, program_faults(random.Random(seed), inputs))
        yield from of_seed(seed, library_faults(random.Random(seed), inputs, fronts))


def faults():
    """What differs in the rounds of the gate."""
    missing = not_built(PROGRAMS)
    if missing:
        return missing
    inputs, fronts = Inputs(standard.encodings(INDEXES)), front_lines()
    wrong = [fault for seed in RUN_SEEDS for fault in of_seed(seed, program_faults(random.Random(seed), inputs))]
    for seed in LINE_SEEDS:
        wrong += of_seed(seed, library_faults(random.Random(seed), inputs, fronts))
    lines = len(LINE_SEEDS) * (STREAMS + TEXTS + CONVERSIONS)
    print("%d random runs, %d random lines of cases" % (len(RUN_SEEDS) * RUNS, lines))
    return wrong


def seeds_until(end):
    while time.monotonic() < end:
        yield random.randrange(10**9)


def main(kind, number):
    seeds = [int(number)] if kind == "seed" else seeds_until(time.monotonic() + float(number))
    count = 0
    for fault in round_faults(seeds):
        print("WRONG", fault, flush=True)
        count += 1
    print(count, "differences")
    return 1 if count else 0


if __name__ == "__main__":
    sys.exit(main(*sys.argv[1:]))
