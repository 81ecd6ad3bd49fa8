"""Room that is lent to the library for a call."""

import ctypes
from typing import Any, List

from . import _library as c


class Room:
    """Room for the output of a call, in bytes, and for its records of losses, with its report. The arguments stand ready
    by which it is lent: to make them takes Python longer than a short text takes the library."""

    def __init__(self, size: int, count: int):
        self.bytes: Any = (ctypes.c_char * size)()
        self.losses: Any = (ctypes.c_char * (count * c.LOSS.size))()
        decoded, written, self.report = c.Decoded(), c.Size(), c.Report()
        # For a call with declared parameters.
        self.words = self.bytes, size, self.losses, count
        # For one with none, and what is to be read after it: two that list no losses, and one that does.
        lent = ctypes.byref(self.bytes), c.Size.from_param(size)
        self.decoding: Any = (*lent, ctypes.byref(decoded), decoded, self.bytes)
        self.encoding: Any = (*lent, ctypes.byref(written), written, self.bytes)
        self.whole: Any = (*lent, ctypes.byref(self.losses), c.Size.from_param(count), ctypes.byref(self.report))


class Rooms:
    """Rooms that are in no use. One is taken for a call, also by a signal's handler or a callback in the middle of another,
    and given back: to make one takes longer than many calls do. There are as many as calls were made at once."""

    def __init__(self, size: int, count: int):
        self._size, self._count = size, count
        # A list's `pop` and `append` are atomic.
        self.free: List[Room] = []

    def take(self) -> Room:
        try:
            return self.free.pop()
        except IndexError:
            return Room(self._size, self._count)

    def give(self, room: Room) -> None:
        self.free.append(room)


# The text of a chunk of a file, three bytes for each of its own, has room at once, and so have thousands of losses.
rooms = Rooms(1 << 18, 1 << 12)
