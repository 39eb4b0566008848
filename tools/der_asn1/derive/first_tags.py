"""With which tags the encodings of a Rust type begin, as far as the types of the library and of one file say."""
import re
from typing import Iterator, Optional

from ..meaning.library_table import TYPES
from ..meaning.rust_types import ARRAY, RustType
from .rust_items import Item, Part, RustFile

Tags = frozenset[int]
ANY_TAG: Tags = frozenset(range(0x100))
_SEQUENCE, _SET, _NULL, _INTEGER, _ENUMERATED, _OCTET_STRING = 0x30, 0x31, 0x05, 0x02, 0x0A, 0x04
_CRATES = ("picky_asn1_der", "der_types", "der_elements", "smallvec")
_NUMBER = re.compile(r"[ui](8|16|32|64|128|size)$")
# a type with its tag's number in its name, and the first byte of that of number 0
_NUMBERED = re.compile(r"(ExplicitContextTag|ImplicitContextTag|ImplicitList)(\d+)$")
_BASES = {"ExplicitContextTag": 0xA0, "ImplicitContextTag": 0x80, "ImplicitList": 0xA0, "ApplicationTag": 0x60}
# those of which an argument is the whole tag
_WHOLE = {"ImplicitList": 1, "ImplicitPrimitive": 1, "ImplicitSet": 1, "TaggedBytes": 0}
# a type whose encodings are some of those of its first argument
_INSIDE = ("WithSize", "InRange", "AtLeast", "AtMost", "Outside", "OtherThan", "Encoded")
_LISTS = {"Vec": _SEQUENCE, "Asn1SequenceOf": _SEQUENCE, "Asn1SetOf": _SET, "Asn1Set": _SET, "SetOfAsGiven": _SET, ARRAY: _SEQUENCE}
_PLAIN = {
    **{it.rust: it.tag for it in TYPES if it.rust},
    **{"String": 0x0C, "bool": 0x01, "ByteBuf": _OCTET_STRING, "Enumerated": _ENUMERATED},
}


class FirstTags:
    """The first bytes of the types that a file names."""

    def __init__(self, file: RustFile) -> None:
        self.file, self.own = file, {it.name: it for it in file.items}

    def of(self, type_: RustType) -> Optional[Tags]:
        """With which bytes encodings of the type begin, or None if that isn't known."""
        name, arguments = type_.name, type_.arguments
        if not name:
            return frozenset({_SEQUENCE if arguments else _NULL})
        if name in self.own:
            return self._of_item(self.own[name])
        if not self._is_of_the_library(name):
            return None
        if name in ("AnyElement", "Asn1RawDer"):
            return ANY_TAG
        if _NUMBER.match(name):
            return frozenset({_INTEGER})
        if name in _INSIDE and isinstance(arguments[0], RustType):
            return self.of(arguments[0])
        tag = _LISTS.get(name, _PLAIN.get(name)) if name in _LISTS or not arguments else _tag_of(type_)
        if tag is None and not arguments:
            return None
        return None if tag is None else frozenset({tag})

    def _of_item(self, item: Item) -> Optional[Tags]:
        """Those of a type of the file."""
        notes = {it.partition(" ")[0] for it in item.notes}
        if notes & {"skip", "set", "added"}:
            return None
        if not item.is_enum:
            return self.of(item.parts[0].type) if item.is_tuple or "test" in notes else frozenset({_SEQUENCE})
        if not any(part.type for part in item.parts):
            return frozenset({_INTEGER if "integer" in notes else _ENUMERATED})
        parts = [self.of(part.type) for part in item.parts if part.type]
        return None if None in parts else frozenset().union(*parts)

    def _is_of_the_library(self, name: str) -> bool:
        """Whether a name is one of the language or of the library, and not of the file or of another crate."""
        if name in self.file.names:
            return False
        path = self.file.imports.get(name)
        return name == ARRAY or path is None or path.split("::")[0] in _CRATES


def _tag_of(type_: RustType) -> Optional[int]:
    """The first byte of a type under a tag that its name or an argument says."""
    numbered = _NUMBERED.match(type_.name)
    if numbered:
        return _BASES[numbered[1]] + int(numbered[2])
    place = _WHOLE.get(type_.name, 1)
    number = _number(type_.arguments[place]) if place < len(type_.arguments) else None
    if number is None:
        return None
    if type_.name in _WHOLE:
        return number
    return _BASES[type_.name] + number if type_.name in _BASES else None


def _number(argument: object) -> Optional[int]:
    """The number that an argument is."""
    try:
        return int(str(argument).strip("{ }").replace("_", ""), 0)
    except ValueError:
        return None


def clashes(firsts: FirstTags, parts: list[tuple[Part, RustType, bool]]) -> Iterator[tuple[Part, Part, int]]:
    """Each two members that can't be told apart, with a tag of both. Of each part its type is given, and whether it may be absent."""
    for index, (part, type_, may_be_absent) in enumerate(parts):
        tags = firsts.of(type_) if may_be_absent else None
        if not tags:
            continue
        for later, other, is_optional in parts[index + 1:]:
            both = tags & (firsts.of(other) or frozenset())
            if both:
                yield part, later, min(both)
            if not is_optional:
                break
