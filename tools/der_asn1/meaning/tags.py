"""The types of the library for tags (X.680, 31.2; X.690, 8.14)."""
from dataclasses import replace
from typing import Optional

from ..parse import tree
from ..parse.tree import TagClass, TagMode
from .features import Feature, Level, Note
from .library import MAX_TAG, Core, Rust, context_tag, are_bounds, numbers_of, range_types, retagged, tagged_bytes, without_values, written
from .library_table import UNIVERSAL_TAGS
from .meaning import Meaning
from .rust_types import RustType, of, tuple_of
from .terms import Term, content_under

_CONSTRUCTED = 0x20
_BIT_STRING = frozenset((UNIVERSAL_TAGS["BIT STRING"],))


def wrapped(meaning: Meaning, tag_class: tree.TagClass, number: int, mode: tree.TagMode) -> Meaning:
    """The meaning of a type under a tag. It has a term only where it isn't what the text says."""
    if number > MAX_TAG:
        return replace(meaning.lacking(Feature.LONG_TAG), rust=None)
    if meaning.rust is None:
        return meaning
    inner = meaning.rust
    if mode is TagMode.EXPLICIT or inner.is_open:
        return meaning.as_(explicit(inner, tag_class, number))
    if inner.core in (Core.IMPLICIT, Core.RETAGGED) and not (inner.around and tag_class is TagClass.CONTEXT):
        inner = inner.inner
    if inner.core in (Core.EXPLICIT, Core.APPLICATION):
        return meaning.as_(explicit(inner.inner, tag_class, number))
    tag = tag_class.value | number
    if inner.core is Core.BYTES and inner.around:
        return meaning.as_(without_values(tag | (_CONSTRUCTED if inner.is_constructed() else 0)))
    if inner.core is Core.BYTES:
        return meaning.as_(tagged_bytes(tag | (_CONSTRUCTED if inner.is_constructed() else 0))).called(None)
    if inner.core is Core.SET:
        members = inner.inner
        while members.core is Core.SET:  # a constraint is around the set
            members = members.inner
        around = of("ImplicitSet", members.type, f"0x{tag | _CONSTRUCTED:02X}")
        return meaning.as_(Rust(around, Core.RETAGGED, frozenset((tag | _CONSTRUCTED,)), inner))
    if inner.core is Core.LIST:
        tag |= _CONSTRUCTED
        return meaning.as_(Rust(retagged(inner.type, tag), Core.RETAGGED, frozenset((tag,)), inner))
    if inner.core is Core.CONTAINER and inner.firsts == _BIT_STRING:
        return kept(meaning, tag, Feature.CONTAINER_TAG)
    if tag_class is TagClass.CONTEXT:
        return meaning.as_(Rust(context_tag("Implicit", content_of(inner), number), Core.IMPLICIT, frozenset((tag,)), inner))
    return primitive(meaning, inner, tag)


def content_of(inner: Rust) -> RustType:
    """What the library has under an IMPLICIT tag. The content of an octet string that holds an encoding is that of a list of one."""
    if inner.core is not Core.CONTAINER:
        return inner.type
    while inner.bounded:  # a constraint is around the string
        inner = inner.inner
    return tuple_of(inner.inner.type)


def explicit(inner: Rust, tag_class: tree.TagClass, number: int) -> Rust:
    """An EXPLICIT tag. One that is private or universal is a list of one member under that tag."""
    tag = tag_class.value | _CONSTRUCTED | number
    firsts = frozenset((tag,))
    if tag_class is TagClass.CONTEXT:
        return Rust(context_tag("Explicit", inner.type, number), Core.EXPLICIT, firsts, inner)
    if tag_class is TagClass.APPLICATION:
        return Rust(of("ApplicationTag", inner.type, str(number)), Core.APPLICATION, firsts, inner)
    return Rust(of("ImplicitList", tuple_of(inner.type), f"0x{tag:02X}"), Core.EXPLICIT, firsts, inner)


def primitive(meaning: Meaning, inner: Rust, tag: int) -> Meaning:
    """An IMPLICIT tag of another class than context over a primitive type. The types of constraints are around it."""
    if inner.core is Core.BOOL:
        return meaning.as_(replace(tagged_bytes(tag), bounded=True)).noting(Note.CONSTRAINT)
    content = _under(inner, tag)
    if content is None:
        return kept(meaning, tag, Feature.FOREIGN_TAG)
    around = _around(inner)
    if around is None:
        return meaning.as_(replace(content, bounded=True, term=content_under(tag, Term("INTEGER")))).noting(Note.CONSTRAINT)
    for name, bounds in around:
        content = content.constrained(name, *bounds)
    return meaning.as_(replace(content, inner=inner, is_foreign=True)).called(None)


def _under(inner: Rust, tag: int) -> Optional[Rust]:
    """The type of any content of a primitive type under a tag, or None if the library has none."""
    if inner.core in (Core.OCTETS, Core.NULL):
        return replace(tagged_bytes(tag), core=Core.IMPLICIT)
    while inner.bounded and inner.inner:
        inner = inner.inner
    if inner.core in (Core.UNSIGNED, Core.SIGNED, Core.NUMBER):
        inner = replace(inner, type=of("Integer"))
    if inner.core not in (Core.UNSIGNED, Core.SIGNED, Core.NUMBER, Core.CONTENTS):
        return None
    return Rust(of("ImplicitPrimitive", inner.type, f"0x{tag:02X}"), Core.IMPLICIT, frozenset((tag,)), inner, is_foreign=True, term=inner.term)


def _around(inner: Rust) -> Optional[tuple]:
    """The constraints around a content: those of the type, one for its width if it is that of a number, or that a NULL has no content.

    None if the type of a constraint can't have the bounds of the width.
    """
    if inner.core is Core.NULL:
        return (("WithSize", ("0", "0")),)
    if inner.core not in (Core.UNSIGNED, Core.SIGNED) or inner.around and inner.around[0][0] != "Outside":
        return inner.around
    width = inner
    while width.inner:
        width = width.inner
    around = range_types(*numbers_of(str(width.type)))
    return (*map(written, around), *inner.around) if all(map(are_bounds, around)) else None


def kept(meaning: Meaning, tag: int, feature: Feature) -> Meaning:
    """The content under a tag as bytes, for what the library lacks."""
    return replace(meaning.as_(tagged_bytes(tag)).lacking(feature), level=max(Level.RAW, meaning.level))
