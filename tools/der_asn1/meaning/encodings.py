"""The encodings of values of modules in DER (X.690): what a default is by its bytes."""
from dataclasses import replace
from typing import Optional

from ..parse import tree
from ..parse.cursor import split
from ..parse.source import NotationError
from ..parse.tokens import Kind, Token
from ..parse.types import TypeParser
from .contents import content_of, integer_content
from .library_table import BY_NAME, UNIVERSAL_TAGS
from .members import ResolvedMember, members_of, selected
from .scopes import Program, Scope, target_of
from .tagging import effective_mode, fixed_field_type
from .values import integer_of, value_of

_DEPTH = 40
_CONSTRUCTED = 0x20
_SHORT = 0x80
_OPEN = (tree.AnyType, tree.ObjectFieldType, tree.FieldType)


def element(tag: int, content: bytes) -> bytes:
    """An element with this identifier byte (X.690, 8.1)."""
    size = len(content)
    octets = size.to_bytes((size.bit_length() + 7) // 8, "big")
    return bytes((tag, size) if size < _SHORT else (tag, _SHORT | len(octets), *octets)) + content


def header_size(encoding: bytes) -> int:
    """How many bytes of an element are its identifier and its length."""
    return 2 if encoding[1] < _SHORT else 2 + (encoding[1] & 0x7F)


def encoding_of(program: Program, value: tree.Value, scope: Scope, type_: tree.Type, home: Scope, depth: int = 0) -> Optional[bytes]:
    """The encoding of a value of a type whose names are of `home`. None if it isn't worked out."""
    if depth > _DEPTH or value is None:
        return None
    if type_.tags:
        return _tagged(program, value, scope, type_, home, depth)
    if isinstance(type_, tree.ReferenceType):
        target = target_of(program, type_, home)
        return target and target.type and encoding_of(program, value, scope, target.type, target.scope, depth + 1)
    if isinstance(type_, tree.SelectionType):
        found = selected(program, type_, home)
        return found and encoding_of(program, value, scope, found.member.type, found.scope, depth + 1)
    fixed = fixed_field_type(program, type_, home) if isinstance(type_, tree.FieldType) else None
    if fixed:
        return encoding_of(program, value, scope, *fixed, depth + 1)
    try:
        return _untagged(program, value, scope, type_, home, depth + 1)
    except NotationError:
        return None


def _tagged(program: Program, value: tree.Value, scope: Scope, type_: tree.Type, home: Scope, depth: int) -> Optional[bytes]:
    """The encoding under the outermost tag (X.690, 8.14)."""
    outer, rest = type_.tags[0], replace(type_, tags=type_.tags[1:])
    inner = encoding_of(program, value, scope, rest, home, depth + 1)
    number = integer_of(program, outer.number, home)
    if inner is None or number is None or number > 30:
        return None
    tag = outer.tag_class.value | number
    if effective_mode(program, outer, None if rest.tags else rest, home) is tree.TagMode.EXPLICIT:
        return element(tag | _CONSTRUCTED, inner)
    return bytes((tag | inner[0] & _CONSTRUCTED,)) + inner[1:]


def _untagged(program: Program, value: tree.Value, scope: Scope, type_: tree.Type, home: Scope, depth: int) -> Optional[bytes]:
    """The encoding of a type that is no name and has no tag."""
    if isinstance(type_, tree.IntegerType):
        number = integer_of(program, value, scope, type_.named)
        number = number if number is not None else integer_of(program, *value_of(program, value, scope), type_.named)
        return None if number is None else element(UNIVERSAL_TAGS["INTEGER"], integer_content(number))
    name = _name(type_)
    if name:
        content = content_of(program, value, scope, type_, home)
        return None if content is None else element(UNIVERSAL_TAGS[name], content)
    value, scope = value_of(program, value, scope)
    if isinstance(type_, tree.ChoiceType):
        return _chosen(program, value, scope, type_, home, depth)
    if isinstance(type_, _OPEN):
        return _open(program, value, scope, home, depth)
    if isinstance(value, tree.BraceValue) and isinstance(type_, tree.ListType):
        return _list(program, value, scope, type_, home, depth)
    if isinstance(value, tree.BraceValue) and isinstance(type_, tree.StructureType):
        return _structure(program, value, scope, type_, home, depth)
    return None


def _name(type_: tree.Type) -> Optional[str]:
    """The name of a type without parts."""
    if isinstance(type_, tree.SimpleType):
        return type_.name
    return {tree.BitStringType: "BIT STRING", tree.EnumeratedType: "ENUMERATED"}.get(type(type_))


def _chosen(program: Program, value: tree.Value, scope: Scope, type_: tree.ChoiceType, home: Scope, depth: int) -> Optional[bytes]:
    """The encoding of an alternative."""
    found = next((it for it in members_of(program, type_, home) if isinstance(value, tree.ChosenValue) and it.member.name == value.name), None)
    return found and encoding_of(program, value.value, scope, found.member.type, found.scope, depth)


def _open(program: Program, value: tree.Value, scope: Scope, home: Scope, depth: int) -> Optional[bytes]:
    """The encoding of `Type : value` (X.681, 14.6), or of a NULL alone."""
    if isinstance(value, tree.NullValue):
        return element(UNIVERSAL_TAGS["NULL"], b"")
    if not isinstance(value, tree.ChosenValue):
        return None
    if value.name == "INTEGER":
        type_ = tree.IntegerType(value.place)
    else:
        type_ = tree.SimpleType(value.place, value.name) if value.name in BY_NAME else tree.ReferenceType(value.place, value.name)
    return encoding_of(program, value.value, scope, type_, scope, depth)


def _parser(program: Program, tokens: list[Token], value: tree.Value) -> TypeParser:
    return TypeParser([*tokens, Token(Kind.END, "the end of the value", value.place)], program.problems)


def _list(program: Program, value: tree.BraceValue, scope: Scope, type_: tree.ListType, home: Scope, depth: int) -> Optional[bytes]:
    """The encoding of a list of values, in ascending order if it is a SET OF (X.690, 11.6)."""
    values = [_parser(program, it, value).value() for it in split(value.tokens, ",")]
    found = [encoding_of(program, it, scope, type_.element, home, depth) for it in values]
    if None in found:
        return None
    return element(UNIVERSAL_TAGS[type_.form.value], b"".join(found if type_.form is tree.Form.SEQUENCE else sorted(found)))


def _structure(program: Program, value: tree.BraceValue, scope: Scope, type_: tree.StructureType, home: Scope, depth: int) -> Optional[bytes]:
    """The encoding of members, without those that are their defaults (X.690, 11.5), in the order of tags if it is a SET (10.3)."""
    given = {it[0].text: _parser(program, it[1:], value).value() for it in split(value.tokens, ",") if it}
    members = members_of(program, type_, home)
    if not set(given) <= {it.member.name for it in members}:
        return None
    parts = []
    for it in members:
        found = _member(program, given.get(it.member.name), scope, it, depth)
        if found is None:
            return None
        parts.append(found)
    if type_.form is tree.Form.SET:
        parts.sort(key=lambda it: (it[0] & 0xC0, it[0] & 0x1F) if it else (0, 0))
    return element(UNIVERSAL_TAGS[type_.form.value], b"".join(parts))


def _member(program: Program, value: Optional[tree.Value], scope: Scope, it: ResolvedMember, depth: int) -> Optional[bytes]:
    """The encoding of a member: no bytes if it isn't there or is its default. None if it isn't worked out."""
    member = it.member
    if value is None:
        return None if member.presence is tree.Presence.REQUIRED and member.group is None else b""
    found = encoding_of(program, value, scope, member.type, it.scope, depth)
    if member.presence is not tree.Presence.DEFAULT or found is None:
        return found
    default = encoding_of(program, member.default, it.scope, member.type, it.scope, depth)
    return None if default is None else b"" if default == found else found
