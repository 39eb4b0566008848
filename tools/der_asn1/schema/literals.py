"""Nodes as literals of Rust, in the layout of `rt fmt`."""
from dataclasses import dataclass
from typing import Union

from ..emit.layout import STEP
from .nodes import FIELDS, Alternative, Item, Kind, Member, Node, Wrapper

# how wide an array of short items, and the fields of a struct, are at most on one line
_ARRAY_WIDTH, _FIELDS_WIDTH = 60, 18


@dataclass(frozen=True)
class Struct:
    """A struct, or a variant with named fields, each with its value."""

    name: str
    fields: tuple[tuple[str, "Literal"], ...]


@dataclass(frozen=True)
class Applied:
    """A variant with one field."""

    name: str
    argument: "Literal"


@dataclass(frozen=True)
class Array:
    """A reference to an array."""

    items: tuple["Literal", ...]


Literal = Union[Struct, Applied, Array, str]


def node_literal(node: Node) -> Literal:
    """A node."""
    name = "None" if node.name is None else Applied("Some", f'"{node.name}"')
    return Struct("Node", (("name", name), ("kind", kind_literal(node.kind))))


def kind_literal(kind: Kind) -> Literal:
    """What a node is. Identifier bytes are hexadecimal."""
    name = f"Kind::{kind.variant}"
    if kind.variant in FIELDS:
        named = zip(FIELDS[kind.variant], kind.fields)
        return Struct(name, tuple((it, _byte(value) if it == "tag" else _field(value)) for it, value in named))
    if kind.variant in ("RestrictedString", "AnyContent"):
        return Applied(name, _byte(kind.fields[0]))
    return Applied(name, _field(kind.fields[0])) if kind.fields else name


def _field(value: object) -> Literal:
    """A field of a kind."""
    if isinstance(value, tuple):
        return Array(tuple(map(_part, value)))
    return _wrapper(value) if isinstance(value, Wrapper) else str(value)


def _part(value: object) -> Literal:
    """An item, an alternative, a member or a range of characters."""
    if isinstance(value, Item):
        return Struct("Item", (("name", f'"{value.name}"'), ("number", str(value.number))))
    if isinstance(value, Alternative):
        return Struct("Alternative", (("name", f'"{value.name}"'), ("node", str(value.node))))
    if isinstance(value, Member):
        return Struct("Member", (("name", f'"{value.name}"'), ("presence", _presence(value)), ("node", str(value.node))))
    return str(value)


def _presence(member: Member) -> Literal:
    """Whether a member may be absent."""
    name = f"Presence::{member.presence}"
    if member.default is None:
        return name
    truth = f"DefaultValue::{member.default}"
    return Applied(name, truth if isinstance(member.default, bool) else Applied("DefaultValue::Number", str(member.default)))


def _wrapper(wrapper: Wrapper) -> Literal:
    """A wrapper."""
    name = f"Wrapper::{wrapper.variant}"
    if wrapper.number is None:
        return name
    return Applied(name, _byte(wrapper.number) if wrapper.variant == "ImplicitList" else str(wrapper.number))


def _byte(number: int) -> str:
    """An identifier byte."""
    return f"0x{number:02X}"


def lines_of(indent: str, before: str, literal: Literal, after: str) -> list[str]:
    """A literal between these texts, over as many lines as it needs: each field of a struct has its own, if they aren't short."""
    if isinstance(literal, Applied):
        return lines_of(indent, f"{before}{literal.name}(", literal.argument, f"){after}")
    if isinstance(literal, Struct):
        line = ", ".join(f"{name}: {value}" for name, value in literal.fields if isinstance(value, str))
        if all(isinstance(value, str) for _, value in literal.fields) and len(line) <= _FIELDS_WIDTH:
            return [f"{indent}{before}{literal.name} {{ {line} }}{after}"]
        fields = [line for name, value in literal.fields for line in lines_of(indent + STEP, f"{name}: ", value, ",")]
        return [f"{indent}{before}{literal.name} {{", *fields, f"{indent}}}{after}"]
    if isinstance(literal, Array):
        return _array_lines(indent, f"{before}&[", literal.items, f"]{after}")
    return [f"{indent}{before}{literal}{after}"]


def _array_lines(indent: str, before: str, items: tuple[Literal, ...], after: str) -> list[str]:
    """Items between brackets: short ones on one line, and one alone without a line for each bracket."""
    if len(items) == 1:
        return lines_of(indent, before, items[0], after)
    line = ", ".join(it for it in items if isinstance(it, str))
    if all(isinstance(it, str) for it in items) and len(line) <= _ARRAY_WIDTH:
        return [f"{indent}{before}{line}{after}"]
    return [f"{indent}{before}", *(line for it in items for line in lines_of(indent + STEP, "", it, ",")), f"{indent}{after}"]
