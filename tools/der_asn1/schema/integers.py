"""Integers of ranges as nodes, by the equations of specs/NotationForms.antt of der_types."""
from typing import Optional

from ..meaning.library import WIDTHS
from .nodes import Kind, Table

# the least and the greatest number of an interval, of which one may be missing
Interval = tuple[Optional[int], Optional[int]]


def bits_for(number: int) -> int:
    """How many bits hold the number, of those that the library has types for."""
    return next((it for it in WIDTHS if number < 2**it), WIDTHS[-1])


def from_to(table: Table, least: int, most: int) -> int:
    """An INTEGER from `least` to `most`, in as many bits as hold both."""
    if least < 0:
        return _signed(table, least, most)
    bits = bits_for(most)
    plain = table.add(Kind("Unsigned", (bits,)))
    return plain if least == 0 and most == 2**bits - 1 else table.add(Kind("InRange", (least, most, plain)))


def _signed(table: Table, least: int, most: int) -> int:
    """The same, from a number below zero."""
    bits = bits_for(2 * max(it if it >= 0 else -it - 1 for it in (least, most)) + 1)
    plain = table.add(Kind("Signed", (bits,)))
    if least <= -(2 ** (bits - 1)) and 2 ** (bits - 1) - 1 <= most:
        return plain
    return table.add(Kind("AtMost", (most, table.add(Kind("AtLeast", (least, plain))))))


def in_intervals(table: Table, intervals: list[Interval]) -> int:
    """An INTEGER in several intervals, in ascending order: one without a bound is of any size."""
    low, high = intervals[0][0], intervals[-1][1]
    if low is not None and high is not None:
        found = from_to(table, low, high)
    else:
        found = table.add(Kind("Integer"))
        if low is not None:
            found = table.add(Kind("AtLeast", (low, found)))
        if high is not None:
            found = table.add(Kind("AtMost", (high, found)))
    for (_, end), (start, _) in zip(intervals, intervals[1:]):
        found = table.add(Kind("Outside", (end + 1, start - 1, found)))
    return found
