"""Losses and reports of the parts of an input, joined to those of the whole. The library adds, and its sums are proved;
by the law of parts they are of the whole (docs/CONTRACTS.md, *Parts*)."""

import ctypes
from typing import Iterable, List

from . import _library as c
from ._results import Bad, Loss, Lost, Report


def join_losses(before: Report, losses: Iterable[Loss]) -> List[Loss]:
    """Turns the losses of a part, which count from its start, into losses of the whole input: adds the bytes of the earlier
    parts to the offset of a `Bad`, and their characters to the index of a `Lost`. `before` is the report on all earlier
    parts (`join_reports`), `Report()` for the first part.

    Raises `OverflowError` if a number is negative, or a sum is 2^64 or more; no conversion has such numbers."""
    told, join = _record_of(before), c.streams().jillapun_join_loss
    joined: List[Loss] = []
    for loss in losses:
        record = c.Loss(_count(loss[0]), 0, c.BAD if isinstance(loss, Bad) else c.LOST)
        _check(join(ctypes.byref(told), ctypes.byref(record)))
        place = record.place
        joined.append(Bad(place, loss.length) if isinstance(loss, Bad) else Lost(place, loss.character))
    return joined


def join_reports(before: Report, part: Report) -> Report:
    """Adds the report on a part to that on all earlier parts, `Report()` for the first part. `faithful` is true if it is
    true of both.

    Raises `OverflowError` if a number is negative, or a sum is 2^64 or more; no conversion has such numbers."""
    told = _record_of(before)
    _check(c.streams().jillapun_join_reports(ctypes.byref(told), ctypes.byref(_record_of(part))))
    return Report(told.read, told.bad, told.lost, before.faithful and part.faithful, told.characters)


def _record_of(report: Report) -> c.Report:
    return c.Report(*map(_count, (report.read, report.bad, report.lost, report.characters)))


def _count(number: int) -> int:
    """A number of 64 bits; of a longer one ctypes would hand on the last."""
    _check(0 <= number < 2**64)
    return number


def _check(is_count: bool) -> None:
    if not is_count:
        raise OverflowError("a count below 0, or of 2^64 or more")
