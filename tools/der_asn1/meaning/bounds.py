"""The types of the library for constraints (X.680, 51): integers, sizes, and what needs a type of one's own."""
from dataclasses import replace
from typing import Callable, Optional

from .features import Feature, Note
from .intervals import ALL, INFINITY, NATURAL, Intervals
from .library import Core, Rust, are_bounds, numbers_of, range_types, signed_for, unsigned_for, written
from .library_table import BY_NAME, TYPES, UNIVERSAL_TAGS
from .meaning import Meaning
from .rust_types import of
from .subtypes import Limits
from .terms import Term, sized, value_word

_INTEGER_FIRST = frozenset((UNIVERSAL_TAGS["INTEGER"],))
_SIZED = frozenset((Core.CONTENTS, Core.OCTETS, Core.UTF8, Core.LIST))
# types with `Contents` that have no size in the library
_UNSIZED = frozenset(it.rust for it in TYPES if not it.is_sized)
# The checker doesn't find the impls of types that are nested deeper.
_MOST_GAPS = 3


def whole_number_limits(limits: Limits) -> tuple[Intervals, bool]:
    """The numbers that an INTEGER has, and whether a constraint says something that isn't about numbers."""
    is_more = limits.other or limits.alphabet != NATURAL or limits.size != NATURAL or not limits.contents.is_all()
    return limits.numbers, is_more


def integer(meaning: Callable[[Rust], Meaning], limits: tuple[Intervals, bool]) -> Meaning:
    """The meaning of an INTEGER with these limits, made by `meaning`."""
    numbers, other = limits
    found = BY_NAME["INTEGER"]
    any_size = Rust(of(found.rust), found.core, _INTEGER_FIRST, term=Term(found.term))
    if not numbers.pairs:
        return meaning(any_size).lacking(Feature.NO_VALUES)
    within = _within(numbers, any_size)
    found = meaning(within) if within else meaning(replace(any_size, bounded=True, inner=any_size)).noting(Note.CONSTRAINT)
    return found.noting(Note.CONSTRAINT) if other else found


def _within(numbers: Intervals, any_size: Rust) -> Optional[Rust]:
    """An INTEGER with these numbers: the least width of Rust, or `Integer` without a bound, and the types of the constraints around it.

    None if a bound is none that the type of a constraint may have, or if there are many gaps. The bounds of a type of Rust need no
    type around it.
    """
    low, high = numbers.low, numbers.high
    width = unsigned_for(high) if low >= 0 else signed_for(low, high)
    gaps = [(before[1] + 1, after[0] - 1) for before, after in zip(numbers.pairs, numbers.pairs[1:])]
    is_whole = width is not None and (low, high) == numbers_of(width)
    around = [*([] if is_whole else range_types(low, high)), *(("Outside", *gap) for gap in gaps)]
    if len(gaps) > _MOST_GAPS or not all(map(are_bounds, around)):
        return None
    cores = {"u": Core.UNSIGNED, "i": Core.SIGNED}
    found = Rust(of(width), cores[width[0]], _INTEGER_FIRST, term=any_size.term) if width else any_size
    for name, arguments in map(written, around):
        found = found.constrained(name, *arguments)
    return replace(found, term=_term(numbers))


def _term(numbers: Intervals) -> Term:
    """The term of an INTEGER with these numbers."""
    low, high = numbers.low, numbers.high
    if numbers.is_all():
        return Term("INTEGER")
    if numbers.is_one_range() and INFINITY not in (-low, high) and high >= 0:
        return Term(f"INTEGER-from-to {low} {high}" if low >= 0 else f"INTEGER-from-minus-to {-low} {high}")
    return Term(f"INTEGER-in ({' ∷ '.join([*(_interval(*it) for it in numbers.pairs), '[]'])})")


def _interval(low: float, high: float) -> str:
    """An interval in a term."""
    if low == -INFINITY:
        return f"up-to ({value_word(high)})"
    return f"from-on ({value_word(low)})" if high == INFINITY else f"from-to ({value_word(low)}) ({value_word(high)})"


def bounded(found: Meaning, limits: Limits) -> Meaning:
    """The same meaning with types around it for the size, the characters, and all else that a constraint says."""
    if found.rust is None:
        return found
    if limits.unknown:
        found = found.lacking(Feature.UNKNOWN_BOUND)
    if limits.alphabet != NATURAL:
        found = found.as_(replace(found.rust, bounded=True, inner=found.rust)).noting(Note.ALPHABET)
    if limits.size != NATURAL:
        found = _sized(found, limits.size)
    if limits.other or limits.numbers != ALL or not limits.contents.is_all():
        found = found.as_(replace(found.rust, bounded=True, inner=found.rust)).noting(Note.CONSTRAINT)
    return found


def _sized(found: Meaning, size: Intervals) -> Meaning:
    """`WithSize`, or a type of one's own if the sizes aren't one range or the type has no size in the library."""
    rust = found.rust
    if not size.pairs:
        return found.lacking(Feature.NO_VALUES)
    if rust.core not in _SIZED or rust.text in _UNSIZED or not size.is_one_range() or rust.own or rust.bounded:
        return found.as_(replace(rust, bounded=True, inner=rust)).noting(Note.CONSTRAINT)
    high = "{ usize::MAX }" if size.high == INFINITY else str(size.high)
    around = rust.constrained("WithSize", str(size.low), high)
    return found.as_(replace(around, term=sized(size.low, "MAX" if size.high == INFINITY else size.high, rust.term)))
