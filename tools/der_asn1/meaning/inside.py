"""What is inside a type of Rust: under its tags, and in the types of its constraints."""
import re
from dataclasses import dataclass
from typing import Mapping, Optional

from .declarations import AliasDeclaration, Declaration
from .rust_types import RustType

# the constructors of tags, by the names of their types without a number at the end
_TAGS = {it: it for it in "ExplicitContextTag ImplicitContextTag ImplicitList ApplicationTag ImplicitPrimitive ImplicitSet".split()}
_TAGS["Asn1Set"] = "ImplicitSet"
# a number of a type of Rust
NUMBER = re.compile(r"[iu](?:8|16|32|64|128)")
# the types of constraints, and those by which `None` is the default
_CONSTRAINTS = frozenset("InRange AtLeast AtMost Outside OtherThan".split())

Types = Mapping[str, Declaration]


@dataclass(frozen=True)
class Tagged:
    """A type under tags: the type without them, and the constructors of the tags, the outermost first."""

    inner: RustType
    tags: tuple[str, ...] = ()

    def value(self, text: str) -> str:
        """A value of the whole type, by one of the type without tags."""
        for it in reversed(self.tags):
            text = f"{it}({text})"
        return text

    def term(self, text: str) -> str:
        """The same as a term."""
        for _ in self.tags:
            text = f"record {{ 0 = {text} }}"
        return text


def without_names(type_: RustType, types: Types) -> RustType:
    """The type that a name of another type leads to."""
    while type(types.get(type_.name)) is AliasDeclaration:
        type_ = types[type_.name].type
    return type_


def without_tags(type_: RustType, types: Optional[Types] = None) -> Tagged:
    """A type without its tags, through the names in `types`."""
    tags: list[str] = []
    while True:
        type_ = without_names(type_, types or {})
        tag = _TAGS.get(re.sub(r"\d+$", "", type_.name))
        if tag is None:
            return Tagged(type_, tuple(tags))
        tags.append(tag)
        type_ = type_.arguments[0]


def constraints(type_: RustType, types: Types) -> tuple[list[RustType], RustType]:
    """The types of constraints around a type, the outermost first, without names of other types, and the type inside."""
    plain = expanded(type_, types)
    around = []
    while plain.name in _CONSTRAINTS:
        around.append(plain)
        plain = plain.arguments[0]
    return around, plain


def expanded(type_: RustType, types: Types) -> RustType:
    """A type without any names of other types in it."""
    plain = without_names(type_, types)
    return RustType(plain.name, tuple(expanded(it, types) if isinstance(it, RustType) else it for it in plain.arguments))


def excluded(type_: RustType) -> int:
    """The number that a value of this type is not, which is the default."""
    bound = type_.arguments[1]
    if isinstance(bound, RustType):
        return int(str(bound.arguments[0])) * (-1 if bound.name == "Minus" else 1)
    return int(str(bound))
