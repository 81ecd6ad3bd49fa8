"""Outcomes of runs, worked by hand (`outcomes.txt`), and whether the theorem of a run allows each: `compare_definitions.py`.

An outcome is the calls of the three devices in their order, and the result. It is allowed if the definitions of the
clauses `completes`, `fails`, `failures`, `calls` and `order` hold of it.
"""

import os
import re

import plain_recode
from run_definitions import Made, Record

ROWS = os.path.join(os.path.dirname(os.path.abspath(__file__)), "outcomes.txt")
DEVICES = {"r": "AtReader", "w": "AtWriter", "l": "AtLog"}
ROOM = 4096


def rows():
    """Each row, and whether its outcome is allowed."""
    with open(ROWS, encoding="utf-8") as file:
        for line in file:
            if line.strip() and not line.startswith("#"):
                holds, *row = [part.strip() for part in line.split("|")]
                yield holds == "yes", row


def entry(text):
    """A call: the device, and what it passed."""
    device, passed = text[0], text[1:].strip()
    if passed == "!":
        return Made(DEVICES[device], Made("Failed", ROOM))
    quoted = re.fullmatch(r'"(.*)"', passed)
    data = quoted[1].replace("\\n", "\n").encode() if quoted else bytes.fromhex(passed)
    return Made(DEVICES[device], Made("Passed", ROOM, tuple(data)))


class Ports:
    """What the definitions read of the three devices after some calls."""

    def __init__(self, page, entries):
        self.entries = entries
        self.reader, self.writer, self.log = (self.device(page, maker) for maker in DEVICES.values())
        reads, output, log = (page.run("passed_by", device.recorded.history.calls) for device in (self.reader, self.writer, self.log))
        order = Made("Some", page.run("order_of", entries))
        failures = Record(reader=self.reader.failures, writer=self.writer.failures, log=self.log.failures)
        self.devices = Record(reads=reads, written=Record(output=sum(output, ()), log=sum(log, ()), order=order), failures=failures)

    def device(self, page, maker):
        calls = tuple(entry.parts[0] for entry in self.entries if entry.maker == maker)
        failed = "failed_read" if maker == "AtReader" else "failed_write"
        return Record(recorded=Record(history=Record(calls=calls)), failures=sum(page.run(failed, call) for call in calls))


def result_of(page, job, text):
    """A report, or a fault."""
    word, *numbers = text.split()
    if word != "Ok":
        return Made("Err", Made(word, *map(int, numbers)))
    read, bad, lost, faithful = numbers
    encoding = page.run("source_in", job, ())
    return Made("Ok", Record(read=int(read), bad=int(bad), lost=int(lost), faithful=faithful == "yes", encoding=encoding))


def allows(page, job, after, result):
    """Whether the clauses of a run allow this, of a job and of devices that were not called before."""
    before, said = Ports(page, ()), result.parts[0]
    return (
        page.run("Completes" if result.maker == "Ok" else "Fails", before.devices, after.devices, job, said)
        and page.run("CountsFault", before.devices, after.devices, result)
        and page.run("RunCalls", before, after, ROOM, result)
        and page.run("RunsInOrder", before.entries, after.entries, job)
    )


def faults(page):
    """The rows of which the definitions say something else."""
    for wanted, (job, calls, result) in rows():
        source, target, mark, policy, limit = job.split()
        names = {name.lower(): name for name in page.encodings}
        words = page.job(plain_recode.Job(names[source], names[target], mark, policy), int(limit))
        after = Ports(page, tuple(map(entry, filter(str.strip, re.split(r"; ", calls)))))
        if allows(page, words, after, result_of(page, words, result)) != wanted:
            yield "%s | %s | %s: the definitions do not say %s" % (job, calls, result, "yes" if wanted else "no")
