"""The tags of a type as they are encoded (X.680, 31.2; X.690, 8.14), without looking inside of it."""
from dataclasses import replace
from typing import Optional

from ..parse import tree
from ..parse.source import NotationError
from .library import ANY_FIRST, MAX_TAG
from .library_table import UNIVERSAL_TAGS
from .members import members_of, selected
from .objects import class_named
from .scopes import FIXED_FIELD, Program, Scope, resolve, target_of
from .values import integer_of

_DEPTH = 40


def default_mode(scope: Scope) -> tree.TagMode:
    """The mode of a tag that says none, in this module (X.680, 31.2.7)."""
    return tree.TagMode.EXPLICIT if scope.module.tag_default is tree.TagMode.EXPLICIT else tree.TagMode.IMPLICIT


def fixed_field_type(program: Program, type_: tree.Type, scope: Scope) -> Optional[tuple[tree.Type, Scope]]:
    """The type of a field of values with its scope, or None if the field is one of types (X.681, 14.2)."""
    found = class_named(program, type_.class_name, scope)
    known = found.definition.field_named(type_.fields[0]) if found and len(type_.fields) == 1 else None
    return (known.type, found.scope) if known and known.type and type_.fields[0][1].islower() else None


def is_untagged(program: Program, type_: tree.Type, scope: Scope, depth: int = 0) -> bool:
    """Whether it is a CHOICE, an open type or a parameter without a tag, over which IMPLICIT is EXPLICIT (X.680, 31.2.7 c)."""
    if type_ is None or type_.tags or depth > _DEPTH:
        return type_ is None or depth > _DEPTH
    if isinstance(type_, tree.SelectionType):
        found = selected(program, type_, scope)
        return found is None or is_untagged(program, found.member.type, found.scope, depth + 1)
    if isinstance(type_, tree.ReferenceType):
        if scope.binding(type_.name) and not type_.name.startswith(FIXED_FIELD):
            return True
        target = target_of(program, type_, scope)
        return is_untagged(program, target.type if target else None, target.scope if target else scope, depth + 1)
    if isinstance(type_, tree.FieldType):
        return fixed_field_type(program, type_, scope) is None
    return isinstance(type_, (tree.ChoiceType, tree.AnyType, tree.ObjectFieldType))


def effective_mode(program: Program, tag: tree.Tag, inner: Optional[tree.Type], scope: Scope) -> tree.TagMode:
    """The mode of a tag around a type, by the rule of X.680, 31.2.7. `inner` is None where another tag is inside."""
    mode = tag.mode or default_mode(scope)
    if mode is tree.TagMode.EXPLICIT or inner is None or not is_untagged(program, inner, scope):
        return mode
    is_known = scope.binding(getattr(inner, "name", "")) is not None or resolve(program, inner, scope).type is not None
    if tag.mode is tree.TagMode.IMPLICIT and not tag.is_automatic and is_known:
        program.problems.deviation(tag.place, "IMPLICIT isn't for a CHOICE, an open type or a parameter without a tag", "X.680, 31.2.9")
    return tree.TagMode.EXPLICIT


def first_bytes(program: Program, type_: tree.Type, scope: Scope, depth: int = 0) -> Optional[frozenset[int]]:
    """The bytes that an encoding may begin with. All of them for an open type, and None for a tag that has no single byte."""
    if type_ is None or depth > _DEPTH:
        return ANY_FIRST
    if type_.tags:
        return _tagged(program, type_, scope, depth)
    if isinstance(type_, tree.ReferenceType):
        target = target_of(program, type_, scope)
        return first_bytes(program, target.type, target.scope, depth + 1) if target else ANY_FIRST
    if isinstance(type_, tree.SelectionType):
        found = selected(program, type_, scope)
        return first_bytes(program, found.member.type, found.scope, depth + 1) if found else ANY_FIRST
    if isinstance(type_, tree.ChoiceType):
        return _choice(program, type_, scope, depth)
    if isinstance(type_, tree.FieldType):
        fixed = fixed_field_type(program, type_, scope)
        return first_bytes(program, *fixed, depth + 1) if fixed else ANY_FIRST
    name = _universal_name(type_)
    return frozenset((UNIVERSAL_TAGS[name],)) if name else ANY_FIRST


def _universal_name(type_: tree.Type) -> Optional[str]:
    if isinstance(type_, tree.SimpleType):
        return type_.name
    if isinstance(type_, (tree.StructureType, tree.ListType)):
        return type_.form.value
    names = {tree.IntegerType: "INTEGER", tree.BitStringType: "BIT STRING", tree.EnumeratedType: "ENUMERATED", tree.InstanceOfType: "EXTERNAL"}
    return names.get(type(type_))


def _choice(program: Program, type_: tree.Type, scope: Scope, depth: int) -> frozenset[int]:
    found = set()
    try:
        for it in members_of(program, type_, scope):
            found |= first_bytes(program, it.member.type, it.scope, depth + 1) or set()
    except NotationError:
        return ANY_FIRST
    return frozenset(found)


def _tagged(program: Program, type_: tree.Type, scope: Scope, depth: int) -> Optional[frozenset[int]]:
    """The byte of the outermost tag. It is constructed if any tag inside is EXPLICIT, or else as the type is."""
    outer, rest = type_.tags[0], replace(type_, tags=type_.tags[1:])
    number = integer_of(program, outer.number, scope)
    if number is None or number > MAX_TAG:
        return None
    mode = effective_mode(program, outer, None if rest.tags else rest, scope)
    constructed = 0x20
    if mode is tree.TagMode.IMPLICIT:
        inner = first_bytes(program, rest, scope, depth + 1)
        constructed = 0x20 if inner and all(it & 0x20 for it in inner) else 0
    return frozenset((outer.tag_class.value | constructed | number,))
