"""What a run of `recode` gives, from the whole input at once: a plain program over `standard.py`.

It has no buffer and no cut: the input is taken apart into pieces, their text is encoded, and what was written is read
back and compared with that text.
"""

import collections

import standard
from standard import UNMAPPABLE

# 6, "BOM sniff"
MARKS = [(b"\xef\xbb\xbf", "UTF-8"), (b"\xfe\xff", "UTF-16BE"), (b"\xff\xfe", "UTF-16LE")]

REFERENCES = {"decimal": "&#%d;", "hexadecimal": "&#x%X;"}

REPLACEMENT_CHARACTER = 0xFFFD

# From which encoding to which, by their names; `sniff`, `remove` or `keep`; `decimal`, `hexadecimal` or `stop`.
Job = collections.namedtuple("Job", "source target mark policy")


def found_in(job, data):
    """The encoding that the input turns out to be in, and how long the mark is that is taken."""
    for mark, name in MARKS:
        if data.startswith(mark) and (job.mark == "sniff" or (job.mark == "remove" and name == job.source)):
            return name, len(mark)
    return job.source, 0


def pieces(encodings, job, data):
    """The encoding that the input is in, and its pieces; a mark that is taken is one without characters."""
    name, mark = found_in(job, data)
    parts = [(0, mark, ())] if mark else []
    for start, end, characters in standard.pieces(encodings[name].decoder(), data[mark:]):
        parts.append((mark + start, mark + end, characters))
    return name, parts


class Run:
    """A run: what it writes and logs, and what is reported of it."""

    def __init__(self, encodings, job, data):
        self.policy = job.policy
        self.encoder = encodings[job.target].encoder()
        self.output, self.log, self.text = bytearray(), bytearray(), []
        self.bad = self.lost = 0
        # The character that has no bytes and stops the run: how many stand before it, and its number.
        self.stop = None
        # After each piece: where it ends, and how long output and log are then.
        self.progress = []
        self.found, parts = pieces(encodings, job, data)
        for start, end, characters in parts:
            self.piece(start, end, characters)
            if self.stop:
                self.is_faithful = False
                return
            self.progress.append((end, len(self.output), len(self.log)))
        self.output += bytes(self.encoder.finish())
        output = encodings[encodings[job.target].output]
        reads_back = standard.decode(output.decoder(), self.output) == [(self.text, None)]
        self.is_faithful = self.bad == 0 and self.lost == 0 and reads_back

    def piece(self, start, end, characters):
        if characters is None:
            self.bad += 1
            self.log += b"bad %d %d\n" % (start, end - start)
            characters = (REPLACEMENT_CHARACTER,)
        for point in characters:
            self.character(point)
            if self.stop:
                return

    def character(self, point):
        for item in self.encoder.handle(point):
            if item < UNMAPPABLE:
                self.output.append(item)
                continue
            self.lost += 1
            self.log += b"lost %d %d\n" % (len(self.text), item - UNMAPPABLE)
            if self.policy == "stop":
                self.stop = len(self.text), item - UNMAPPABLE
                return
            self.output += (REFERENCES[self.policy] % (item - UNMAPPABLE)).encode()
        self.text.append(point)

    def ended(self):
        """Status, standard output and standard error of the program."""
        if self.stop:
            return 4, bytes(self.output), bytes(self.log) + b"recode: unmappable %d %d\n" % self.stop
        return 0 if self.is_faithful else 1, bytes(self.output), bytes(self.log)
