"""Converts one input on Dask's workers, a block each, and joins what they lose.

    python3 convert_on_dask.py shift_jis utf-8 INPUT FOLDER [ADDRESS]

INPUT is whatever Dask reads: a file, s3://.., hdfs://.. FOLDER, which all workers see, is made, and gets a file for each
block: in the order of their names, these are the output of one conversion of INPUT. Standard output has the log of that.
ADDRESS is that of a scheduler; without it workers are started here.

The status is 0 if nothing was lost, and 1 if something was. Otherwise standard error says why, and the status is 2 if
FOLDER is there already, if a label is unknown or if INPUT can't be cut, and 4 if anything else failed, as a worker: then
FOLDER has only a part of the output.
"""

import os
import sys
import uuid
from typing import Any, Dict, Tuple

import dask
import fsspec
import jillapun
from dask.bytes import read_bytes
from dask.distributed import Client
from dask.utils import parse_bytes

BLOCK = parse_bytes(os.environ.get("BLOCK", "64MiB"))


class Refused(Exception):
    """Why nothing is converted."""


def converted(block: bytes, path: str, words: Dict[str, str]) -> Tuple[Any, Any]:
    """Converts a block on a worker: what it loses, and its report. What is written gets its name once it is whole."""
    converter = jillapun.Converter(**words)
    part = converter.convert(block, last=True)
    folder, name = os.path.split(path)
    with open(os.path.join(folder, ".%s.%s" % (name, uuid.uuid4().hex)), "xb") as made:
        made.write(part.output)
        made.flush()
        os.fsync(made.fileno())
    os.replace(made.name, path)
    return part.losses, converter.report


def head_of(path: str) -> bytes:
    """The first bytes of the input. All up to the first line feed is one block, so there has to be one soon."""
    with fsspec.open(path, "rb") as given:
        head = data = given.read(1 << 16)
        while data and b"\n" not in data:
            if given.tell() > BLOCK:
                raise Refused("%s: no line feed in the first %d bytes, so it can't be cut" % (path, BLOCK))
            data = given.read(1 << 16)
    return head


def main(source: str, target: str, path: str, folder: str, *address: str) -> int:
    source_of_parts = jillapun.part_encoding(head_of(path), source, target)
    if not source_of_parts:
        raise Refused("%s can't be cut: its encoding or the output encoding is not compatible with ASCII" % path)
    try:
        os.makedirs(folder)
    except FileExistsError:
        raise Refused("%s is there already: name a new folder, so that blocks of two runs don't mix" % folder) from None
    first, later = {"source": source, "target": target}, {"source": source_of_parts, "target": target, "mark": "keep"}
    # Without a sample: Dask would look for a line feed in it, four bytes at a time.
    blocks = read_bytes(path, delimiter=b"\n", blocksize=BLOCK, sample=False)[1][0] or [b""]
    made = [os.path.join(folder, "%08d" % number) for number in range(len(blocks))]
    work = [dask.delayed(converted)(block, *rest) for block, *rest in zip(blocks, made, [first] + [later] * len(made))]
    with Client(*address) as client:
        whole = jillapun.Report()
        for future in client.compute(work):
            losses, report = future.result()
            for loss in jillapun.join_losses(whole, losses):
                print(loss)
            whole = jillapun.join_reports(whole, report)
    return int(not whole.faithful)


def program(*words: str) -> int:
    """The status of `main`. Python's own status of an exception is 1, which here says that something was lost."""
    try:
        if not 4 <= len(words) <= 5:
            raise Refused("convert_on_dask.py FROM TO INPUT FOLDER [ADDRESS]")
        return main(*words)
    except (Refused, jillapun.UnknownLabel) as fault:
        print("refused: %s" % fault, file=sys.stderr)
        return 2
    except Exception as fault:
        print("failed: %s: %s" % (type(fault).__name__, fault), file=sys.stderr)
        return 4


if __name__ == "__main__":
    sys.exit(program(*sys.argv[1:]))
