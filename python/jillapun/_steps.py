"""Conversions by steps, over which streams and files stand."""

import ctypes
import threading
from typing import BinaryIO, List, Optional, Tuple

from . import _library as c
from ._indexes import Indexes, handle_of, number_of
from ._results import Losses, Lost, Report, Stopped, refuse
from ._rooms import rooms

# How many bytes a file is read by.
CHUNK = 1 << 16


class Conversion:
    """A stream that is converted part by part, wherever it is cut. Calls of several threads wait for one another. If an
    exception cuts a call short, the stream has ended: what the call had made is gone."""

    def __init__(self, source: str, target: str, mark: str, unmappable: str, limit: int, indexes: Optional[Indexes]):
        words = number_of(source), number_of(target), c.MARKS[mark], c.POLICIES[unmappable], limit
        self._converter, self._progress, self._told = c.Converter(), c.ConverterProgress(), c.Report()
        status = c.streams().jillapun_converter_new(handle_of(indexes), *words, ctypes.byref(self._converter))
        if status != c.OK:
            refuse(status)
        self._lent = ctypes.byref(self._progress), ctypes.byref(self._told)
        self._lock, self.is_over = threading.RLock(), False
        self.report: Optional[Report] = None

    def put(self, data: bytes, last: bool, losses: Losses) -> bytes:
        """What these bytes give, and, if they are the last, the end of the input. What they lose goes to `losses`."""
        with self._lock:
            if self.is_over:
                raise ValueError("the stream has ended")
            # A callback may call again: the error is then that the stream has ended.
            self.is_over = True
            status, output = self._steps(data, last, losses)
            self._end(status, output, losses)
            self.is_over = last
            return output

    def _steps(self, data: bytes, last: bool, losses: Losses) -> Tuple[int, bytes]:
        """Converts the bytes: the status of the last step, and what all steps gave."""
        status, at, room, progress = c.GOES_ON, 0, rooms.take(), self._progress
        parts: List[bytes] = []
        while status == c.GOES_ON and (at < len(data) or last or progress.wants_room):
            left = c.address_of(data) + at if at else data
            status = c.library.jillapun_converter_step(
                ctypes.byref(self._converter), left, len(data) - at, last, *room.words, *self._lent
            )
            at += progress.read
            if progress.losses:
                losses.add(room.losses[: progress.losses * c.LOSS.size])
            parts.append(room.bytes[: progress.written])
        rooms.give(room)
        return status, b"".join(parts)

    def _end(self, status: int, output: bytes, losses: Losses) -> None:
        """Keeps the report at the end of the input, or raises what the status says if the conversion ended before."""
        told = self._told
        if status in (c.OK, c.LOSSY):
            self.report = Report(told.read, told.bad, told.lost, status == c.OK, told.characters)
        elif status == c.STOPPED:
            lost = Lost(told.index, chr(told.scalar))
            raise Stopped(lost, output, losses.up_to(lost))
        elif status != c.GOES_ON:
            refuse(status)


def chunk_of(file: BinaryIO) -> bytes:
    """The next bytes of a file; none at its end, and only there."""
    data: Optional[bytes] = file.read(CHUNK)
    if data is None:
        raise BlockingIOError("the file has no bytes yet, and does not wait for them")
    return c.bytes_of(data)
