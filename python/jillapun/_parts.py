"""A file that is converted in parts, each by a thread. Together they give what one conversion of the file gives.

It may be cut behind any byte below 30, hexadecimal, if its encoding and the output encoding are compatible with ASCII:
this law is proved (docs/CONTRACTS.md, *Parts*). The cutting and the joining here are only tested.
"""

import io
import os
import re
import stat
from collections import deque
from concurrent.futures import Future, ThreadPoolExecutor
from typing import BinaryIO, Callable, Deque, Iterator, List, NamedTuple, Optional, Tuple, cast

from ._indexes import Indexes, part_encoding
from ._joins import join_reports
from ._results import Losses, Report, Stopped
from ._steps import Conversion

# A part has at least so many bytes, unless it is the last.
PART = 1 << 21

_FIND_CUT = re.compile(b"[\0-/]").search


class Job(NamedTuple):
    """The words of a conversion."""

    source: str
    target: str
    mark: str
    unmappable: str
    limit: int
    indexes: Optional[Indexes]

    def later(self, given: io.BufferedReader) -> Optional["Job"]:
        """The job of the parts of a file after the first; `None` if it can't be cut, or can't be read again. The
        file is at its start, and stays there."""
        if not stat.S_ISREG(os.fstat(given.fileno()).st_mode):
            return None
        head = given.read(3)
        given.seek(0)
        source = part_encoding(head, self.source, self.target, mark=self.mark)
        return self._replace(source=source, mark="keep") if source else None


class _Part:
    """A part of the input, with its conversion."""

    def __init__(self, job: Job, start: int):
        self.start = start
        self.conversion = Conversion(*job._replace(limit=max(job.limit - start, 0)))


class _Block(Losses):
    """The next bytes of a part, of which most have one block: what they give, and what they lose, by its place in the
    part. Or the fault that came instead of bytes."""

    done: "Future[None]"

    def __init__(self, part: _Part, data: Tuple[bytes, bytes], is_last: bool, fault: Optional[OSError] = None):
        super().__init__()
        self.part, self.data, self.is_last, self.fault = part, data, is_last, fault
        self.length = sum(map(len, data))
        self.output: List[bytes] = []
        self.records: List[bytes] = []

    def add(self, records: bytes, offset: int = 0, index: int = 0) -> None:
        self.records.append(records)

    def convert(self, before: "Optional[Future[None]]") -> None:
        """Converts the bytes, after those of the part that stand before them."""
        if before:
            before.exception()
        if self.fault:
            raise self.fault
        data, self.data = self.data, (b"", b"")
        for piece, last in zip(data, (False, self.is_last)):
            self.output.append(self.part.conversion.put(piece, last, self))


class _Parts:
    """The parts of a file: how it is cut, and the report on those that were joined so far."""

    def __init__(self, first: Job, later: Job, given: io.BufferedReader):
        self._first, self._later, self._given = first, later, given
        # The report on the parts that were joined to their ends.
        self.report = Report()

    def blocks(self) -> Iterator[_Block]:
        """The blocks of the file. A part ends behind the first byte after a block that can be cut behind, if it is
        near, and otherwise goes on with the next block."""
        job, start, part = self._first, 0, None
        while True:
            part = part or _Part(job, start)
            try:
                data = self._given.read(PART)
                found = _FIND_CUT(self._given.peek()) if data else None
                block = _Block(part, (data, self._given.read(found.end()) if found else b""), bool(found) or not data)
            except OSError as fault:
                yield _Block(part, (b"", b""), True, fault)
                return
            yield block
            if not data:
                return
            start += block.length
            if block.is_last:
                job, part = self._later, None

    def join(self, block: _Block, made: BinaryIO, losses: Losses) -> None:
        """Hands on what the next block gives and loses, or raises what came in between."""
        fault, part, before = block.done.exception(), block.part, self.report.characters
        for records in block.records:
            losses.add(records, part.start, before)
        if isinstance(fault, Stopped):
            lost = fault.lost._replace(index=before + fault.lost.index)
            raise Stopped(lost, losses=losses.up_to(lost))
        if fault:
            raise fault
        made.writelines(block.output)
        if block.is_last:
            self.report = join_reports(self.report, cast(Report, part.conversion.report))


def _ahead(blocks: Iterator[_Block], pool: ThreadPoolExecutor, count: int) -> Iterator[_Block]:
    """The blocks in their order, each after so many others that follow it are handed to the threads."""
    waiting: Deque[_Block] = deque()
    before: "Optional[Future[None]]" = None
    for block in blocks:
        block.done = pool.submit(block.convert, before)
        before = None if block.is_last else block.done
        waiting.append(block)
        if len(waiting) > count:
            yield waiting.popleft()
    yield from waiting


def put_parts(
    jobs: Tuple[Job, Job],
    losses: Losses,
    given: io.BufferedReader,
    made: BinaryIO,
    threads: int,
    progress: Optional[Callable[[int], object]],
) -> Report:
    """Converts a file to its end, so many parts at a time, and returns the report on it. The jobs are those of the
    first part and of the others."""
    pool, read = ThreadPoolExecutor(threads), 0
    parts = _Parts(*jobs, given)
    try:
        for block in _ahead(parts.blocks(), pool, threads + 1):
            parts.join(block, made, losses)
            read += block.length
            if progress:
                progress(read)
    finally:
        pool.shutdown(cancel_futures=True)
    return parts.report
