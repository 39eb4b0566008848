"""Permitted alphabets (X.680, 51.7): the characters that FROM or another string type leaves, by their numbers."""
import re
from typing import Optional

from ..parse import tree
from .intervals import NATURAL, Intervals
from .scopes import Program, Scope
from .values import value_of

_DIGITS = frozenset("0123456789 ")
_LETTERS = frozenset("ABCDEFGHIJKLMNOPQRSTUVWXYZabcdefghijklmnopqrstuvwxyz")
_ASCII = frozenset(map(chr, range(128)))
# the characters that a string may have (X.680, 41.2, 41.4 and table 8), for those that have few
CHARACTERS = {
    "NumericString": _DIGITS,
    "PrintableString": _DIGITS | _LETTERS | frozenset("'()+,-./:=?"),
    "IA5String": _ASCII,
    "VisibleString": frozenset(map(chr, range(32, 127))),
    "ISO646String": frozenset(map(chr, range(32, 127))),
}

_DEPTH = 20
_NUMBER = re.compile(r"\d+")
# how many numbers are in braces: a column and a row of a table (X.680, 41.8), or a group, a plane, a row and a cell (41.7)
_TUPLE, _QUADRUPLE = 2, 4


def set_of_type(name: str) -> Optional[Intervals]:
    """The characters of a string type, or None if a content doesn't say which they are."""
    if name in CHARACTERS:
        return _each(CHARACTERS[name])
    wide = {"BMPString": 0xFFFF, "UniversalString": 0x10FFFF, "UTF8String": 0x10FFFF}
    return Intervals.of((0, 0xD7FF), (0xE000, wide[name])) if name in wide else None


def alphabet_of(program: Program, element: tree.Element, scope: Scope, depth: int = 0) -> Optional[Intervals]:
    """The characters of the values that an element of FROM has, or None if they aren't worked out."""
    if depth > _DEPTH:
        return None
    if isinstance(element, tree.Union_):
        return _all(program, element.parts, scope, depth, Intervals.union)
    if isinstance(element, tree.Intersection):
        return _all(program, element.parts, scope, depth, Intervals.intersection)
    if isinstance(element, tree.Except):
        part = alphabet_of(program, element.part, scope, depth + 1) if element.part else NATURAL
        excluded = alphabet_of(program, element.excluded, scope, depth + 1)
        return part and excluded and part.intersection(excluded.complement())
    if isinstance(element, tree.SingleValue):
        text = _codes(program, element.value, scope)
        return None if text is None else Intervals.of(*((it, it) for it in text))
    if isinstance(element, tree.ValueRange):
        return _range(program, element, scope)
    return None


def _all(program: Program, parts: list, scope: Scope, depth: int, both: object) -> Optional[Intervals]:
    found = [alphabet_of(program, it, scope, depth + 1) for it in parts]
    if None in found:
        return None
    total = found[0]
    for it in found[1:]:
        total = both(total, it)
    return total


def _range(program: Program, element: tree.ValueRange, scope: Scope) -> Optional[Intervals]:
    """The characters from one to another."""
    ends = [_codes(program, it, scope) for it in (element.low, element.high)]
    if any(it is None or len(it) != 1 for it in ends):
        return None
    return Intervals.of((ends[0][0] + element.low_open, ends[1][0] - element.high_open))


def _codes(program: Program, value: Optional[tree.Value], scope: Scope) -> Optional[list[int]]:
    """The numbers of the characters of a text, or of the one that numbers in braces are."""
    if value is None:
        return None
    found, _ = value_of(program, value, scope)
    if isinstance(found, tree.TextValue):
        return [ord(it) for it in found.text]
    if not isinstance(found, tree.BraceValue):
        return None
    numbers = [int(it.text) for it in found.tokens if _NUMBER.fullmatch(it.text)]
    if len(numbers) == _TUPLE:
        return [numbers[0] * 16 + numbers[1]]
    if len(numbers) == _QUADRUPLE:
        group, plane, row, cell = numbers
        return [((group * 256 + plane) * 256 + row) * 256 + cell]
    return None


def _each(characters: frozenset[str]) -> Intervals:
    return Intervals.of(*((ord(it), ord(it)) for it in characters))
