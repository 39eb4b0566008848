"""The contents of single values of types without parts (X.690, 8.2 to 8.25), and sets of such contents."""
from dataclasses import dataclass
from typing import Optional

from ..parse import tree
from ..parse.tokens import Kind
from .scopes import Program, Scope
from .values import arcs_of, enumerated_numbers, integer_of, value_of

# how many bytes a character has, where it isn't one
_WIDE = {"BMPString": "utf-16-be", "UniversalString": "utf-32-be", "UTF8String": "utf-8"}
_TIMES = frozenset(("UTCTime", "GeneralizedTime", "ObjectDescriptor"))


@dataclass(frozen=True)
class Contents:
    """A set of contents: the listed ones, or all but these."""

    listed: frozenset[bytes] = frozenset()
    is_other: bool = True

    def both(self, more: "Contents") -> "Contents":
        """The contents of both sets."""
        if self.is_other and more.is_other:
            return Contents(self.listed | more.listed)
        if self.is_other or more.is_other:
            within, without = (more, self) if self.is_other else (self, more)
            return Contents(within.listed - without.listed, False)
        return Contents(self.listed & more.listed, False)

    def complement(self) -> "Contents":
        """All other contents."""
        return Contents(self.listed, not self.is_other)

    def either(self, more: "Contents") -> "Contents":
        """The contents of either set."""
        return self.complement().both(more.complement()).complement()

    def has(self, content: bytes) -> bool:
        """Whether a content is in the set."""
        return (content in self.listed) != self.is_other

    def is_all(self) -> bool:
        """Whether it has every content."""
        return self.is_other and not self.listed


ANY_CONTENT = Contents()


def content_of(program: Program, value: tree.Value, scope: Scope, type_: Optional[tree.Type], home: Optional[Scope] = None) -> Optional[bytes]:
    """The content of a value of a type without parts, whose names are of `home`. None if it isn't worked out."""
    name = type_.name if isinstance(type_, tree.SimpleType) else ""
    if name in ("OBJECT IDENTIFIER", "RELATIVE-OID"):
        arcs = arcs_of(program, value, scope)
        return arcs and (identifier_content(arcs) if name == "OBJECT IDENTIFIER" else bytes(byte for it in arcs for byte in _groups(it)))
    if isinstance(type_, tree.EnumeratedType):
        return _item(program, value, scope, type_, home or scope)
    value, scope = value_of(program, value, scope)
    if name == "BOOLEAN":
        return (b"\xff" if value.truth else b"\x00") if isinstance(value, tree.BooleanValue) else None
    if name == "NULL":
        return b"" if isinstance(value, tree.NullValue) else None
    if name == "OCTET STRING":
        return _octets(value.digits, value.width) if isinstance(value, tree.BitsValue) else None
    if isinstance(type_, tree.BitStringType):
        return _bits(program, value, home or scope, type_)
    if name.endswith("String") or name in _TIMES:
        return _text(value, name)
    return None


def identifier_content(arcs: list[int]) -> Optional[bytes]:
    """The content of an object identifier (X.690, 8.19), or None if it has less than two arcs."""
    return bytes(byte for it in [arcs[0] * 40 + arcs[1], *arcs[2:]] for byte in _groups(it)) if len(arcs) > 1 else None


def integer_content(number: int) -> bytes:
    """The content of an INTEGER (X.690, 8.3)."""
    return number.to_bytes((number if number >= 0 else ~number).bit_length() // 8 + 1, "big", signed=True)


def _groups(number: int) -> list[int]:
    """A number in groups of seven bits, each but the last with its highest bit (X.690, 8.19.2)."""
    found = [number & 0x7F]
    while number > 0x7F:
        number >>= 7
        found.insert(0, number & 0x7F | 0x80)
    return found


def _item(program: Program, value: tree.Value, scope: Scope, type_: tree.EnumeratedType, home: Scope) -> Optional[bytes]:
    """The content of an item of an enumeration (X.690, 8.4)."""
    numbers = dict(zip((it.name for it in type_.items), enumerated_numbers(program, type_.items, home)))
    if isinstance(value, tree.NamedValue) and value.name not in numbers:
        value, _ = value_of(program, value, scope)
    number = numbers.get(value.name) if isinstance(value, tree.NamedValue) else None
    return None if number is None else integer_content(number)


def _octets(digits: str, width: int) -> bytes:
    """The bytes of digits, with zeros after the last bit (X.680, 23.4)."""
    bits = "".join(f"{int(it, 16):0{width}b}" for it in digits)
    return bytes(int(bits[it : it + 8].ljust(8, "0"), 2) for it in range(0, len(bits), 8))


def _bits(program: Program, value: tree.Value, home: Scope, type_: tree.BitStringType) -> Optional[bytes]:
    """The content of a BIT STRING (X.690, 8.6), without the zeros at its end if the bits have names (11.2.2)."""
    if isinstance(value, tree.BitsValue):
        bits = "".join(f"{int(it, 16):0{value.width}b}" for it in value.digits)
    elif isinstance(value, tree.BraceValue):
        numbers = [_bit(program, it.text, home, type_) for it in value.tokens if it.kind is Kind.LOWER]
        if None in numbers or not all(it.kind is Kind.LOWER or it.text == "," for it in value.tokens):
            return None
        bits = "".join("1" if it in numbers else "0" for it in range(max(numbers, default=-1) + 1))
    else:
        return None
    bits = bits.rstrip("0") if type_.named else bits
    return bytes([-len(bits) % 8]) + _octets(bits, 1)


def _bit(program: Program, name: str, home: Scope, type_: tree.BitStringType) -> Optional[int]:
    """The number of a named bit."""
    return next((integer_of(program, it.number, home) for it in type_.named if it.name == name), None)


def _text(value: tree.Value, name: str) -> Optional[bytes]:
    """The content of a string (X.690, 8.23). Characters beyond ASCII are known of the types of Unicode alone."""
    if not isinstance(value, tree.TextValue) or name not in _WIDE and not value.text.isascii():
        return None
    return value.text.encode(_WIDE.get(name, "ascii"))
