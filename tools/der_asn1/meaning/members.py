"""The members of a constructed type, with COMPONENTS OF and automatic tags (X.680, 25.4 to 25.8 and 29.2 to 29.5)."""
from dataclasses import dataclass, replace
from typing import Optional

from ..parse import tree
from ..parse.source import NotationError, NotGiven
from .scopes import Program, Scope, resolve

_DEPTH = 20


@dataclass(frozen=True)
class ResolvedMember:
    """A member and the scope of its names."""

    member: tree.Member
    scope: Scope

    def may_be_absent(self) -> bool:
        """Whether it is OPTIONAL, has a default, or is an extension addition."""
        return self.member.presence is not tree.Presence.REQUIRED or self.member.group is not None


def is_extensible(type_: tree.Type, scope: Scope) -> bool:
    """Whether a constructed type has an extension marker, or its module implies one (X.680, 13.4)."""
    return type_.extensible or scope.module.extensibility_implied


def selected(program: Program, type_: tree.Type, scope: Scope) -> Optional[ResolvedMember]:
    """The alternative that a selection type selects (X.680, 30), or None."""
    choice = resolve(program, type_.choice, scope)
    found = members_of(program, choice.type, choice.scope) if isinstance(choice.type, tree.ChoiceType) else []
    return next((it for it in found if it.member.name == type_.name), None)


def members_of(program: Program, type_: tree.Type, scope: Scope, depth: int = 0) -> list[ResolvedMember]:
    """The members of a SEQUENCE, a SET or a CHOICE, in their order, with those that COMPONENTS OF names."""
    written = type_.members if isinstance(type_, tree.StructureType) else type_.alternatives
    found = []
    for it in written:
        found += [ResolvedMember(it, scope)] if isinstance(it, tree.Member) else _components(program, it, type_, scope, depth)
    return _automatically_tagged(found) if is_automatic(type_, scope) else found


def is_automatic(type_: tree.Type, scope: Scope) -> bool:
    """Whether the tags of its members are automatic: its module says so, and no member has one in the text (X.680, 25.7)."""
    written = type_.members if isinstance(type_, tree.StructureType) else type_.alternatives
    return scope.module.tag_default is tree.TagMode.AUTOMATIC and not any(it.type.tags for it in written if isinstance(it, tree.Member))


def _components(program: Program, included: tree.ComponentsOf, type_: tree.Type, scope: Scope, depth: int) -> list[ResolvedMember]:
    """The members of the root of another type (X.680, 25.5), without its extension additions."""
    found = resolve(program, included.type, scope)
    if found.type is None:
        raise NotGiven(included.place, "COMPONENTS OF a type that isn't given", "X.680, 25.5")
    if not isinstance(found.type, tree.StructureType) or depth > _DEPTH:
        raise NotationError(included.place, "COMPONENTS OF a type that isn't a SEQUENCE or SET", "X.680, 25.5")
    if found.type.form is not type_.form:
        raise NotationError(included.place, f"COMPONENTS OF a {found.type.form.value} in a {type_.form.value}", "X.680, 25.5")
    inner = members_of(program, found.type, found.scope, depth + 1)
    return [replace(it, member=replace(it.member, group=included.group)) for it in inner if it.member.group is None]


def _automatically_tagged(members: list[ResolvedMember]) -> list[ResolvedMember]:
    """Members with context tags counted from 0, those of the root first (X.680, 25.7)."""
    order = [it for it in members if it.member.group is None] + [it for it in members if it.member.group is not None]
    numbers = {id(it): number for number, it in enumerate(order)}
    return [_with_tag(it, numbers[id(it)]) for it in members]


def _with_tag(resolved: ResolvedMember, number: int) -> ResolvedMember:
    member = resolved.member
    tag = tree.Tag(member.place, tree.TagClass.CONTEXT, tree.IntegerValue(member.place, number), tree.TagMode.IMPLICIT, True)
    return replace(resolved, member=replace(member, type=replace(member.type, tags=[tag, *member.type.tags])))
