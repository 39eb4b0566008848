"""WITH COMPONENT and WITH COMPONENTS (X.680, 51.8): a type with other members, or several such types."""
from collections.abc import Sequence
from dataclasses import dataclass, replace
from typing import Optional

from ..parse import tree
from ..parse.cursor import shown, split
from ..parse.source import NotationError
from ..parse.tokens import Kind, Token
from ..parse.types import TypeParser
from .members import ResolvedMember, is_automatic, is_extensible, members_of
from .scopes import Program, Scope
from .subtypes import ScopedConstraint

_CLAUSE = "X.680, 51.8.5"


@dataclass(frozen=True)
class Specification:
    """What WITH COMPONENTS says of one member: its constraint, and whether it is there."""

    constraints: tuple = ()
    presence: str = ""
    text: str = ""


@dataclass(frozen=True)
class Inner:
    """What is left of a type: one type or several, which may have values in common, and the constraints that say something else."""

    types: tuple
    others: tuple


def inner_types(program: Program, type_: tree.Type, scope: Scope, constraints: Sequence[ScopedConstraint]) -> Optional[Inner]:
    """The types that inner subtyping leaves of a type. None if there is none, or if it is more than members that are there or not."""
    own = [it for it in constraints if isinstance(it.constraint, tree.ElementSet) and _is_inner(it.constraint.root)]
    if not own:
        return None
    found: list[tree.Type] = [replace(type_, constraints=[])]
    for it in own:
        if it.scope.module is not scope.module or it.constraint.extensible:
            return None
        found = [left for one in found for left in _of(program, it.constraint.root, one, scope)]
        if not found or None in found:
            return None
    return Inner(tuple(found), tuple(it for it in constraints if it not in own))


def _is_inner(element: tree.Element) -> bool:
    """Whether an element is made of inner subtyping alone."""
    if isinstance(element, (tree.Union_, tree.Intersection)):
        return all(map(_is_inner, element.parts))
    return isinstance(element, tree.InnerSubtyping)


def _of(program: Program, element: tree.Element, type_: tree.Type, scope: Scope) -> list[Optional[tree.Type]]:
    """The types that an element leaves of a type, or None among them."""
    if isinstance(element, tree.Union_):
        return [left for it in element.parts for left in _of(program, it, type_, scope)]
    if isinstance(element, tree.Intersection):
        found: list[Optional[tree.Type]] = [type_]
        for it in element.parts:
            found = [left for one in found for left in (_of(program, it, one, scope) if one else [None])]
        return found
    try:
        return [_left(program, element, type_, scope)]
    except NotationError as error:
        program.problems.add(error.problem)
        return [None]


def _left(program: Program, element: tree.InnerSubtyping, type_: tree.Type, scope: Scope) -> Optional[tree.Type]:
    """What one element leaves."""
    if isinstance(type_, tree.ListType):
        is_component = bool(element.tokens) and element.tokens[0].is_symbol("(")
        added = _constraints(program, element.tokens, element) if is_component else ()
        return replace(type_, element=_constrained(type_.element, added)) if is_component else None
    parts = split(element.tokens, ",")
    is_partial = bool(parts) and len(parts[0]) == 1 and parts[0][0].is_symbol("...")
    said = {it[0].text: _specification(program, it[1:], element) for it in (parts[1:] if is_partial else parts) if it}
    members = members_of(program, type_, scope)
    if not set(said) <= {it.member.name for it in members} or any(it.scope is not scope for it in members):
        return None
    if isinstance(type_, tree.ChoiceType):
        return _choice(type_, scope, members, said, is_partial)
    return _structure(type_, scope, members, said, is_partial)


def _specification(program: Program, tokens: list[Token], element: tree.InnerSubtyping) -> Specification:
    """`(constraint) PRESENT`, of which both may be left out."""
    last = tokens[-1].text if tokens and tokens[-1].kind is not Kind.SYMBOL else ""
    presence = last if last in ("PRESENT", "ABSENT", "OPTIONAL") else ""
    return Specification(_constraints(program, tokens[: len(tokens) - bool(presence)], element), presence, shown(tokens))


def _constraints(program: Program, tokens: list[Token], element: tree.InnerSubtyping) -> tuple:
    """The constraints that are written so."""
    parser = TypeParser([*tokens, Token(Kind.END, "the end of the constraint", element.place)], program.problems)
    found = tuple(parser.constraints())
    if parser.now.kind is not Kind.END:
        parser.refuse("a constraint, `PRESENT`, `ABSENT` or `OPTIONAL`", _CLAUSE)
    return found


def _constrained(type_: tree.Type, added: tuple) -> tree.Type:
    """The same type with more constraints."""
    return replace(type_, constraints=[*type_.constraints, *added]) if added else type_


def _choice(
    type_: tree.ChoiceType,
    scope: Scope,
    members: list[ResolvedMember],
    said: dict[str, Specification],
    is_partial: bool,
) -> Optional[tree.Type]:
    """What is left of a CHOICE: the alternative that is there, or those that may be."""
    present = [name for name, it in said.items() if it.presence == "PRESENT"]
    names = set(present) or {it.member.name for it in members if is_partial or it.member.name in said}
    names -= {name for name, it in said.items() if it.presence == "ABSENT"}
    if len(present) > 1 or not names or is_extensible(type_, scope) and not present:
        return None
    left = [_part(it, said) for it in members if it.member.name in names]
    return replace(type_, alternatives=left, extensible=False)


def _structure(
    type_: tree.StructureType,
    scope: Scope,
    members: list[ResolvedMember],
    said: dict[str, Specification],
    is_partial: bool,
) -> Optional[tree.Type]:
    """What is left of a SEQUENCE or SET. Without `...` what isn't named is absent, and what is named without a word is there (51.8.7)."""
    left = []
    for it in members:
        name, presence = it.member.name, said.get(it.member.name, Specification()).presence
        if not is_partial and not presence and it.member.presence is tree.Presence.OPTIONAL:
            presence = "PRESENT" if name in said else "ABSENT"
        if presence in ("PRESENT", "ABSENT") and it.member.presence is not tree.Presence.OPTIONAL and it.member.group is None:
            return None
        if presence == "ABSENT":
            continue
        part = _part(it, said)
        left.append(replace(part, presence=tree.Presence.REQUIRED, group=None) if presence == "PRESENT" else part)
    if is_extensible(type_, scope) and not (is_partial and _keeps_additions(type_, scope, said)):
        return None
    return replace(type_, members=left)


def _keeps_additions(type_: tree.StructureType, scope: Scope, said: dict[str, Specification]) -> bool:
    """Whether what is said of members leaves their tags, and so those of the members of later versions, as they are."""
    of_root = {it.name for it in type_.members if isinstance(it, tree.Member) and it.group is None}
    kept = [it.presence in ("", "OPTIONAL") or it.presence == "PRESENT" and name in of_root for name, it in said.items()]
    return all(kept) and not is_automatic(type_, scope)


def _part(it: ResolvedMember, said: dict[str, Specification]) -> tree.Member:
    """A member with its constraint."""
    found = said.get(it.member.name, Specification())
    text = f"{it.member.text}, here {found.text}" if found.text else it.member.text
    return replace(it.member, type=_constrained(it.member.type, found.constraints), text=text)
