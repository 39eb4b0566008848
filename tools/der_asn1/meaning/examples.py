"""Which types have a readable value that is found when the program is checked, as `sample_of` of der_types finds one."""
from typing import Mapping

from ..parse.tree import Presence
from .declarations import AliasDeclaration, ChoiceDeclaration, Declaration, EnumDeclaration, ListedDeclaration, StructDeclaration, UnionDeclaration
from .rust_types import RustType

# lists, of which one without members is readable
_LISTS = frozenset(("Vec", "Asn1SequenceOf", "Asn1SetOf"))
# the largest size of a value that is made
_MOST_ITEMS = 1024
# the first byte of an element that is made
_NULL_FIRSTS = (b"\x05",)
# the contents that are made of types without parts, and of strings
_SAMPLES = {
    "ObjectIdentifier": (b"\x2a",),
    "BitString": (b"\x00", b"\x07\x00"),
    "NamedBits": (b"\x00",),
    "ByteBuf": (b"", b"\x00"),
    "TaggedBytes": (b"", b"\x00"),
    "String": (b"", b"a"),
    "BmpString": (b"", b"\x000"),
    "UniversalString": (b"", b"\x00\x00\x000"),
    "Encoded": (),
}
_STRINGS = (b"", b"0")
# what stands for the constants of Rust for the greatest number
_MAX = 2**64 - 1


def has_example(declared: Declaration, types: Mapping[str, Declaration]) -> bool:
    """Whether a readable value of this type is found. Types that aren't in `types` have one."""
    if isinstance(declared, StructDeclaration):
        return all(of_type(it.type, types) for it in declared.fields if it.presence is Presence.REQUIRED)
    if isinstance(declared, ChoiceDeclaration):
        return any(of_type(it.type, types) for it in declared.variants)
    if isinstance(declared, EnumDeclaration):
        return bool(declared.items)
    if isinstance(declared, UnionDeclaration):
        return False
    if isinstance(declared, ListedDeclaration):
        return _has_content(declared)
    return not isinstance(declared, AliasDeclaration) or of_type(declared.type, types)


def of_type(type_: RustType, types: Mapping[str, Declaration]) -> bool:
    """Whether a readable value of this type of Rust is found."""
    if type_.name in types:
        return has_example(types[type_.name], types)
    if type_.name in _LISTS:
        return True
    parts = [it for it in type_.arguments if isinstance(it, RustType)]
    if type_.name == "WithSize":
        least, most = (_bound(str(it)) for it in type_.arguments[1:])
        items = parts[0].arguments if least and parts[0].name in _LISTS else ()
        return least <= min(most, _MOST_ITEMS) and all(of_type(it, types) for it in (*items, parts[0]) if isinstance(it, RustType))
    return all(of_type(it, types) for it in parts)


def _has_content(declared: ListedDeclaration) -> bool:
    """Whether a value of listed contents is found: one with the first of them, or one of the type that isn't listed."""
    name = declared.type.name
    if declared.most is not None or name == "bool":
        return True
    if name == "Asn1RawDer":
        return not any(it in declared.contents.listed for it in _NULL_FIRSTS)
    found = _SAMPLES.get(name, _STRINGS)
    return any(map(declared.contents.has, found)) or not declared.contents.is_other and name not in ("Encoded", "String")


def _bound(text: str) -> int:
    """A bound as a number."""
    return _MAX if "MAX" in text else int(text, 0)
