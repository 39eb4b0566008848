"""The types of the library, and what may be around each."""
from dataclasses import dataclass, field, replace
from enum import Enum, auto
from typing import Optional, Union

from .intervals import INFINITY
from .rust_types import RustType, of
from .terms import Term, any_content

ANY_FIRST = frozenset(it for it in range(256) if it & 0x1F != 0x1F)

MAX_TAG = 30
LAST_NAMED_TAG = 15
LAST_NAMED_LIST = 7
DEFAULT_UNSIGNED = range(0, 256)
DEFAULT_SIGNED = range(-128, 128)
# how many members a struct may have
MOST_MEMBERS = 32
# how many alternatives `Choice4` has
FOUR = 4
# numbers whose content is one byte (X.690, 8.3 and 8.4), and that are that byte
ONE_BYTE = range(128)
WIDTHS = (8, 16, 32, 64, 128)


class Core(Enum):
    """What a type is underneath, which decides what may be around it."""

    BOOL = auto()
    NULL = auto()
    UNSIGNED = auto()  # u8 to u128
    SIGNED = auto()  # i8 to i128
    CONTENTS = auto()  # with `Contents`
    NUMBER = auto()  # Integer, which has `Contents` and `WholeNumber`
    OCTETS = auto()
    UTF8 = auto()
    CONTAINER = auto()  # a string whose content is the encoding of its `inner`
    OWN = auto()  # a struct round a type without parts
    BYTES = auto()  # TaggedBytes: any content
    LIST = auto()  # with `List`
    SET = auto()  # Asn1Set
    CHOICE = auto()
    ELEMENT = auto()  # AnyElement or Asn1RawDer: any element
    EXPLICIT = auto()
    APPLICATION = auto()
    IMPLICIT = auto()
    RETAGGED = auto()
    UNION = auto()  # one of several types, which the whole element distinguishes


@dataclass(frozen=True)
class Rust:
    """A type of Rust for one of the notation. `firsts` are the bytes that an encoding may begin with; `inner` is what a tag is around.

    `bounded` says that a type of a constraint is around it, or should be: `around` has the name and the bounds of each that is, the nearest
    first. `own` says that its content has a type of one's own, and `is_foreign` that it is under an IMPLICIT tag of another class than context.
    `choices` are the types that a union is one of, and `fallback` is the meaning in its place where the first byte has to be known. `term` is the
    type as a term of der_types.
    """

    type: RustType
    core: Core
    firsts: frozenset
    inner: Optional["Rust"] = None
    bounded: bool = False
    around: tuple = ()
    is_open: bool = False
    own: bool = False
    is_foreign: bool = False
    choices: tuple = field(default=(), compare=False)
    fallback: Optional[object] = field(default=None, compare=False)
    term: Optional[Term] = field(default=None, compare=False)

    @property
    def text(self) -> str:
        """The type as it is written."""
        return str(self.type)

    def constrained(self, name: str, *bounds: Union[RustType, str]) -> "Rust":
        """The same with the type of a constraint around it, and its term."""
        return replace(self, type=of(name, self.type, *bounds), bounded=True, inner=self, around=(*self.around, (name, bounds)))

    def is_constructed(self) -> bool:
        """Whether its encoding is constructed, where it has one tag alone (X.690, 8.14.3)."""
        return all(it & 0x20 for it in self.firsts)


def tagged_bytes(tag: int) -> Rust:
    """Any content under this identifier byte."""
    return Rust(of("TaggedBytes", f"0x{tag:02X}"), Core.BYTES, frozenset((tag,)), term=any_content(tag))


def without_values(tag: int) -> Rust:
    """What begins with this identifier byte, and has no values: a content of no size."""
    return replace(tagged_bytes(tag).constrained("WithSize", "1", "0"), term=Term(f"beyond-depth 0x{tag:02X}"))


def any_element() -> Rust:
    """Any element, as it is: nothing in it is looked at."""
    return Rust(of("Asn1RawDer"), Core.ELEMENT, ANY_FIRST, is_open=True, term=Term("any-element"))


def well_formed_element() -> Rust:
    """Any element that has elements in it at every depth, as each value of an open type is."""
    return Rust(of("AnyElement"), Core.ELEMENT, ANY_FIRST, is_open=True, term=Term("ANY"))


def context_tag(mode: str, inner: RustType, number: int) -> RustType:
    """ExplicitContextTag or ImplicitContextTag, by the short name if there is one."""
    name = f"{mode}ContextTag"
    return of(f"{name}{number}", inner) if number <= LAST_NAMED_TAG else of(name, inner, str(number))


def retagged(inner: RustType, tag: int) -> RustType:
    """`ImplicitList`, by the short name if there is one."""
    number = tag & 0x1F
    if tag & 0xE0 == 0xA0 and number <= LAST_NAMED_LIST:
        return of(f"ImplicitList{number}", inner)
    return of("ImplicitList", inner, f"0x{tag:02X}")


def parts_type(types: list[RustType]) -> RustType:
    """The type of the alternatives of a choice."""
    if not types:
        return of("NoneOf")
    if len(types) >= FOUR:
        return of("Choice4", *types[:FOUR], parts_type(types[FOUR:]))
    return of("OneOf", types[0], parts_type(types[1:]))


def unsigned_for(high: float) -> Optional[str]:
    """The least unsigned type that holds these numbers, or None."""
    return next((f"u{it}" for it in WIDTHS if high < 2**it), None)


def signed_for(low: float, high: float) -> Optional[str]:
    """The least signed type that holds these numbers, or None."""
    return next((f"i{it}" for it in WIDTHS if -(2 ** (it - 1)) <= low and high < 2 ** (it - 1)), None)


def are_bounds(around: tuple) -> bool:
    """Whether the type of a constraint may have these bounds, of which none is beyond a `u64` on its side of zero."""
    return all(abs(it) < 2**64 for it in around[1:])


def bound(number: int) -> RustType:
    """A bound as a type."""
    return of("Plus", str(number)) if number >= 0 else of("Minus", str(-number))


def range_types(low: float, high: float) -> list[tuple]:
    """The types of constraints that a single interval is, with the numbers that are their bounds."""
    if 0 <= low and high != INFINITY:
        return [("InRange", low, high)]
    return [*([("AtLeast", low)] if low != -INFINITY else []), *([("AtMost", high)] if high != INFINITY else [])]


def written(around: tuple) -> tuple:
    """A constraint as the name of its type and the arguments: numbers, or types of bounds, which have a sign."""
    name, *bounds = around
    return name, tuple(str(it) if name in ("InRange", "OtherThan") else bound(it) for it in bounds)


def numbers_of(width: str) -> tuple[int, int]:
    """The least and the greatest number of a type of Rust, as `u8`."""
    bits = int(width[1:])
    return (0, 2**bits - 1) if width[0] == "u" else (-(2 ** (bits - 1)), 2 ** (bits - 1) - 1)
