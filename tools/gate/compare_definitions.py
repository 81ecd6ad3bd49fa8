#!/usr/bin/env python3
"""Runs the definitions of docs/THEOREM.md beside a plain program: `make definitions`.

    python3 tools/gate/compare_definitions.py [--all] [SEED]

The definitions are what is trusted to say what the standards say. Here they run, by `run_definitions.py`, and each value is
compared with what `standard.py` gives, which follows the steps of the Encoding Standard byte by byte, or `plain_recode.py`,
which has a whole input at once; over the index texts of `indexes`. Compared are

- the pieces of inputs in each of the 40 encodings: of every input of one byte, of a sample of those of two (with `--all` of
  every one), and of longer ones at random, made of the bytes at which the encodings' cases part;
- what is written for scalars in each output encoding, from each set in force: of a sample (with `--all` of every scalar);
- whole jobs at random: output, log, how the two are interleaved, verdict and counts;
- the records of the theorem of a whole run, `Completes` and `ReportsFewCalls`: they must hold of the outcome that the plain
  program gives, and of none that is wrong in one place;
- all clauses of the theorem, on outcomes that were worked by hand, right and wrong ones (`outcomes.py`).

What differs is printed, and the status is then 1.
"""

import argparse
import concurrent.futures
import functools
import os
import random
import re
import sys
import time

sys.dont_write_bytecode = True
sys.setrecursionlimit(100_000)

from steps import TOP

import theorem
import outcomes
import plain_recode
import run_definitions
import standard
from definitions import WORD, read
from run_definitions import Entries, Made, Record

INDEXES = os.path.join(TOP, "indexes")
LIMIT = 2**48
POLICIES = {"decimal": "Decimal", "hexadecimal": "Hexadecimal", "stop": "Stop"}
SETS = {"ASCII": "Ascii", "Roman": "Roman", "jis0208": "Jis"}

# The numbers at which the plain program parts its cases, each with its neighbours: among them are the bytes and the scalars
# at which a wrong number in a definition shows.
PLAIN_NUMBERS = re.findall(r"\b(?:0x[0-9A-Fa-f]+|[0-9]+)\b", read(os.path.join(TOP, "tools", "oracles", "standard.py")))
EDGES = sorted({abs(int(number, 0) + step) for number in PLAIN_NUMBERS for step in (-1, 0, 1)})
BYTES = [number for number in EDGES if number < 0x100]
ESCAPES = (b"\x1b(B", b"\x1b(J", b"\x1b(I", b"\x1b$@", b"\x1b$B")


def some(value):
    return Made("Some", value)


class Page:
    """The definitions of the page, with the standard's indexes and encodings in their words."""

    def __init__(self):
        names = ("completes", "fails", "failures", "calls", "order", "work")
        clauses = [line for name in names for line in theorem.clause("recode", theorem.FUNCTION, name)]
        words = [word for line in clauses for word in WORD.findall(line)]
        places = read(os.path.join(TOP, "crates", "encoding_labels", "src", "places.rt"))
        constants = {name: int(place) for name, place in re.findall(r"pub const (\w+): usize = (\d+);", places)}
        self.definitions = run_definitions.Definitions(words, [crate for crate, _ in theorem.GROUPS], constants)
        self.run = self.definitions.run
        self.lists = self.lists_of_indexes()
        self.encodings = {}
        for maker in self.definitions.makers["Encoding"]:
            row = self.run("encoding_row", Made(maker))
            self.encodings["".join(map(chr, row[1]))] = Made(maker)

    def lists_of_indexes(self):
        """The list of each kind of index, which has the entry at each pointer or 0, and the rows of the ranges."""
        flats = {}
        files = {re.sub(r"\W", "", name[6:-4]).lower(): name[6:-4] for name in os.listdir(INDEXES) if name.endswith(".txt")}
        for kind in self.definitions.makers["IndexKind"]:
            rows = standard.index(INDEXES, files[kind.replace("_", "").lower()])
            if kind == "Gb18030Ranges":
                ranges = tuple(rows)
                continue
            entries = [0] * (rows[-1][0] + 1)
            for pointer, scalar in rows:
                entries[pointer] = scalar
            flats[Made(kind)] = some(Entries(entries))
        return Record(flats=lambda kind: flats.get(kind, Made("None")), rows=some(ranges))

    def pieces(self, name, data):
        """The pieces of an input: of each its length and its text, or none if it is malformed."""
        pieces = self.run("pieces_of", self.lists, self.encodings[name], tuple(data))
        return joined((piece.parts[0], piece.parts[1] if piece.maker == "well_formed" else None) for piece in pieces)

    def job(self, job, limit=LIMIT):
        """A job of the plain program in the words of the page."""
        return Record(
            from_=self.encodings[job.source],
            to=self.encodings[job.target],
            mark=Made(job.mark.capitalize()),
            policy=Made(POLICIES[job.policy]),
            limit=limit,
            tables=Record(now=self.lists),
        )


def joined(pieces):
    """Pieces in a row without text as one: how many there are, the plain program does not say."""
    found = []
    for length, text in pieces:
        if text == () and found and found[-1][1] == ():
            found[-1] = (found[-1][0] + length, ())
        else:
            found.append((length, text))
    return found


class Comparison:
    """What was compared, and what differed."""

    def __init__(self, page):
        self.page, self.plain, self.count, self.faults = page, standard.encodings(INDEXES), 0, []

    def compare(self, what, found, wanted):
        self.count += 1
        if found != wanted:
            self.faults.append("%s: the definitions give %r, the plain program %r" % (what, found, wanted))

    def pieces(self, name, data):
        decoder = self.plain[name].decoder()
        wanted = joined((end - start, text) for start, end, text in standard.pieces(decoder, bytes(data)))
        self.compare("%s of %s" % (name, bytes(data).hex(" ")), self.page.pieces(name, data), wanted)

    def short_inputs(self, name, chance):
        """Inputs of one byte, and those of two with a chance."""
        for first in range(256):
            self.pieces(name, (first,))
            for second in range(256):
                if self.part == 1 or chance.random() < self.part:
                    self.pieces(name, (first, second))

    def long_inputs(self, name, chance, count):
        for _ in range(count):
            self.pieces(name, bytes_at_random(chance))

    def scalar(self, name, coding, scalar):
        """What is written for a scalar, from each set that can be in force."""
        for state in SETS if name == "ISO-2022-JP" else ("ASCII",):
            encoder = self.plain[name].encoder()
            encoder.state = state
            wanted = tuple(encoder.handle(scalar))
            before = Made(SETS[state])
            after = coding.set(before)(scalar)
            form = coding.form(scalar)
            written = form.parts[0] if form.maker == "Mapped" else (standard.UNMAPPABLE + form.parts[0],)
            found = coding.escape(before)(after) + written
            self.compare("U+%04X to %s from %s" % (scalar, name, state), found, wanted)

    def scalars(self, name, scalars):
        """Scalars to an output encoding."""
        coding = self.page.run("coding_of", self.page.lists, self.page.encodings[name])
        for scalar in scalars:
            if scalar < 0xD800 or 0xDFFF < scalar < 0x110000:
                self.scalar(name, coding, scalar)

    def jobs(self, chance, count):
        names = list(self.plain)
        for _ in range(count):
            job = plain_recode.Job(
                chance.choice(names), chance.choice(names), chance.choice(("sniff", "remove", "keep")),
                chance.choice(("decimal", "hexadecimal", "stop")),
            )  # fmt: skip
            self.job(job, chance.choice((b"", b"\xef\xbb\xbf", b"\xff\xfe", b"\xfe\xff")) + bytes(bytes_at_random(chance)))

    def job(self, job, data):
        """A whole job: its output, its log, their order, its verdict, and the record of the theorem."""
        what = "%s of %s" % (job, data.hex(" "))
        plain, words, given = plain_recode.Run(self.plain, job, data), self.page.job(job), tuple(data)
        self.compare(what + ": output", bytes(self.page.run("output_of", words, given)), bytes(plain.output))
        self.compare(what + ": log", bytes(self.page.run("log_of", words, given)), bytes(plain.log))
        self.compare(what + ": verdict", self.page.run("Faithful", words, given), plain.is_faithful)
        self.compare(what + ": stop", self.page.run("RunsThrough", words, given), not plain.stop)
        written = [(0, 0)]
        for item in self.page.run("tagged", self.page.run("trace", words, given)):
            output, log = written[-1]
            written.append((output + 1, log) if item.maker == "Out" else (output, log + 1))
        reached = [place[1:] in written for place in plain.progress]
        self.compare(what + ": order", reached, [True] * len(reached))
        if not plain.stop:
            self.outcomes(what, job, given, plain)

    def outcomes(self, what, job, data, plain):
        """The right outcome, and each that is wrong in one place."""
        right = {
            "last": (), "output": tuple(plain.output), "log": tuple(plain.log), "read": len(data), "bad": plain.bad,
            "lost": plain.lost, "calls": self.page.run("fewest_calls", len(data), plain.bad, plain.lost),
            "encoding": plain.found, "faithful": plain.is_faithful, "limit": len(data),
        }  # fmt: skip
        self.compare(what + ": its right outcome", self.completes(job, data, right), True)
        wrong = {"last": [(0x41,)], "read": [len(data) + 1], "bad": [plain.bad + 1], "lost": [plain.lost + 1]}
        wrong |= {"faithful": [not plain.is_faithful], "calls": [right["calls"] - 1, 37 * len(data) + 10]}
        wrong["encoding"] = ["UTF-8" if plain.found != "UTF-8" else "Big5"]
        for device in ("output", "log"):
            wrong[device] = [right[device] + (0x0A,)] + ([right[device][:-1], (0xFF,) + right[device][1:]] if right[device] else [])
            wrong[device] = [taken for taken in wrong[device] if taken != right[device]]
        if data:
            wrong["limit"] = [len(data) - 1]
        for place, values in wrong.items():
            for value in values:
                said = "%s: with %s %r" % (what, place, value)
                self.compare(said, self.completes(job, data, {**right, place: value}), False)

    def completes(self, job, data, outcome):
        """Whether an outcome of a run meets the theorem: what calls of the reader gave, and those of the writers took."""
        reads, no_order = ((0x21,),), Made("None")
        before = Record(reads=reads, written=Record(output=(0x21,), log=(), order=no_order))
        written = Record(output=(0x21,) + outcome["output"], log=outcome["log"], order=no_order)
        after = Record(reads=reads + ((data,) if data else ()) + (outcome["last"],), written=written)
        report = Record(**{name: outcome[name] for name in ("read", "bad", "lost", "calls", "faithful")})
        report.encoding = self.page.encodings[outcome["encoding"]]
        words = self.page.job(job, outcome["limit"])
        is_whole = self.page.run("Completes", before, after, words, report)
        return is_whole and self.page.run("ReportsFewCalls", report)


def bytes_at_random(chance):
    """Some bytes: most of those at which cases part, some escapes of ISO-2022-JP, and some whatever they are."""
    found = []
    for _ in range(chance.randrange(13)):
        kind = chance.random()
        found += chance.choice(ESCAPES) if kind < 0.15 else [chance.choice(BYTES) if kind < 0.85 else chance.randrange(256)]
    return tuple(found)


def outputs(found):
    return [name for name, encoding in found.plain.items() if encoding.output == name]


def sampled(seed):
    """A sample of what can be compared, from a seed."""
    chance, found = random.Random(seed), Comparison(Page())
    found.part = 0.002
    for name in found.plain:
        found.short_inputs(name, chance)
    for name in found.plain:
        found.long_inputs(name, chance, 50)
    for name in outputs(found):
        found.scalars(name, sorted({*range(0x100), *EDGES, *(chance.randrange(0x10000) for _ in range(200))}))
    found.jobs(chance, 300)
    return found


@functools.cache
def page():
    return Page()


def compared(task):
    """A part of all: how much was compared, and what differed."""
    kind, name, value = task
    found, chance = Comparison(page()), random.Random(str(task))
    found.part = 1
    if kind == "scalars":
        found.scalars(name, range(value, value + 0x10000))
    elif kind == "jobs":
        found.jobs(chance, 500)
    else:
        found.short_inputs(name, chance)
        found.long_inputs(name, chance, 2000)
    return found.count, found.faults


def compared_whole(seed):
    """All, on each processor there is: every input of two bytes, every scalar, and longer inputs and jobs at random."""
    found = Comparison(page())
    tasks = [("scalars", name, plane << 16) for name in outputs(found) for plane in range(17)]
    tasks += [("inputs", name, seed) for name in found.plain] + [("jobs", "", seed + turn) for turn in range(40)]
    with concurrent.futures.ProcessPoolExecutor() as pool:
        for count, faults in pool.map(compared, tasks):
            found.count += count
            found.faults += faults
    return found


def faults():
    """For the gate: a sample from a fixed seed."""
    found = sampled(1)
    print("%d values of the definitions beside those of a plain program" % found.count)
    return [*outcomes.faults(found.page), *found.faults][:20]


def main():
    parser = argparse.ArgumentParser(description=__doc__.split("\n")[0])
    parser.add_argument("--all", action="store_true", help="every input of two bytes, and every scalar")
    parser.add_argument("seed", type=int, nargs="?", default=None, help="for what is drawn at random")
    words = parser.parse_args()
    seed = random.randrange(10**6) if words.seed is None else words.seed
    start = time.monotonic()
    found = compared_whole(seed) if words.all else sampled(seed)
    found.faults += outcomes.faults(found.page)
    for fault in found.faults[:50]:
        print(fault)
    print(
        "seed %d: %d values of the definitions compared, %d differ, %d s"
        % (seed, found.count, len(found.faults), time.monotonic() - start)
    )
    return 1 if found.faults else 0


if __name__ == "__main__":
    sys.exit(main())
